/* Values of every type: numbers, an enum, a union with a text, an array at a structure's end, and bytes that are never scanned.  */
enum kind { NUMBER, TEXT };

union GTY(()) value {
  long GTY((tag ("NUMBER"))) number;
  char *GTY((tag ("TEXT"))) text;
};

struct GTY(()) node {
  struct node *next;
  enum kind kind;
  union value GTY((desc ("%1.kind"))) value;
};

struct GTY(()) vec {
  int len;
  struct node *GTY((length ("%h.len"))) elem[1];
};

static GTY(()) struct node *head;
static GTY(()) struct vec *all;
static GTY((atomic)) void *bytes;
static GTY((cache)) hash_map<struct node *, struct node *> *known;
