/* Expressions and their types, as a compiler may declare them.  */
enum code { INTEGER, PLUS };

/* The word `expr` is the pointer, as in many compilers.  For a script, which makes structures, another word means the structure.  */
typedef struct expr *expr;
typedef struct expr expr_node;

struct GTY(()) type {
  struct type *pointed;
};

struct GTY(()) expr {
  expr left, right;
  struct type *type;
};

static GTY(()) expr body;
static GTY(()) struct type *int_type;

int fold (expr e) { return e->left && e->right; }
