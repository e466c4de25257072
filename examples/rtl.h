/* Expressions of a low-level language.  The code of one says what its leaf is, and how many operands it has.  */
enum code { CONSTANT, VARIABLE, PLUS, CALL };

union GTY(()) leaf {
  long GTY((tag ("CONSTANT"))) value;
  char *GTY((tag ("VARIABLE"))) name;
};

struct GTY(()) rtx {
  enum code code;
  int arguments;
  union leaf GTY((desc ("%1.code"))) leaf;
  struct rtx *GTY((length ("%h.code < PLUS ? 0 : (%h.code == PLUS ? 2 : 1 + %h.arguments)"))) operand[1];
};

static GTY(()) struct rtx *body;

/* Expressions that may be used again.  A collection empties this list.  */
static GTY((deletable)) struct rtx *spare;
