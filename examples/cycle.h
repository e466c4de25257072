/* Basic blocks, each with the two to which it may go, and functions.  */
struct GTY(()) block {
  struct block *next, *jump;
  struct function *fn;
};

struct GTY(()) function {
  struct block *entry;
  struct function *next;
};

static GTY(()) struct function *current;
