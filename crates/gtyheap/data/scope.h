/* Scopes, each in another, with the tree to which they belong.  */
typedef struct GTY(()) scope {
  struct scope *outer;
  struct tree *owner;
} *scope_ptr;

extern GTY(()) scope_ptr globals;
