/* The statements of a function, in a chain of both directions.  Their values are declared in expr.h.  */
struct GTY(()) stmt {
  struct stmt *next, *prev;
  struct expr *value;
};

static GTY(()) struct stmt *first_stmt;
static GTY(()) struct stmt *last_stmt;
