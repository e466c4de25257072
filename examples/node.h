/* Nodes of two pointers, and one root.  */
struct GTY(()) node {
  struct node *next;
  struct node *other;
};

static GTY(()) struct node *head;
