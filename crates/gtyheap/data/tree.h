/* Trees, in the manner of a compiler's.  A scope_ptr is declared in scope.h.  */
#define MAX_PARTS 2

struct GTY(()) tree {
  struct tree *left, *right;
  scope_ptr scope;
};

static GTY(()) struct tree *body;

inline int has_parts (struct tree *t) { return t->left || t->right; }
