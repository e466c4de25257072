struct GTY(()) node { struct node *next; };
static GTY(()) struct node *head;
