/* Reads a script as plain C would: each line is cut into at most four words, the names in them are interned in a table by a hash, and a
   command of 24 bytes and its steps are kept. With RUN defined it is an interpreter of `new` and `set` over a header of structs of pointers alone:
   reader SCRIPT HEADER; it checks what the answers need and no more. */
#include <stdint.h>
#include <stdio.h>
#include <stdlib.h>
#include <string.h>

typedef struct { const char *text; uint32_t len, hash; } name;
typedef struct { uint32_t name, at; } hop;
typedef struct { uint8_t verb, quiet, variable, given; uint32_t a, b, hop, hops; } command;

static name *names; static uint32_t named, room, *table, mask;
static hop *hops; static uint32_t hopped, hop_room;
static command *commands; static uint32_t commanded, command_room;

static void grow (void)
{
  mask = mask * 2 + 1; free (table); table = calloc (mask + 1, 4);
  for (uint32_t i = 0; i < named; i++) {
    uint32_t k = names[i].hash & mask;
    while (table[k]) k = (k + 1) & mask;
    table[k] = i + 1;
  }
}
static uint32_t intern (const char *text, uint32_t len)
{
  uint32_t hash = 2166136261u;
  for (uint32_t i = 0; i < len; i++) hash = (hash ^ (unsigned char) text[i]) * 16777619u;
  hash ^= hash >> 15;
  uint32_t k = hash & mask;
  for (; table[k]; k = (k + 1) & mask) {
    name *n = &names[table[k] - 1];
    if (n->hash == hash && n->len == len && !memcmp (n->text, text, len)) return table[k] - 1;
  }
  if (named == room) names = realloc (names, (room = room * 2 + 64) * sizeof *names);
  names[named] = (name) { text, len, hash };
  table[k] = ++named;
  if (named * 2 > mask) grow ();
  return named - 1;
}
static int is_letter (int c) { return c == '_' || ((c | 32) >= 'a' && (c | 32) <= 'z') || c >= 128; }
static int is_part (int c) { return is_letter (c) || (c >= '0' && c <= '9'); }
static int is (const char *text, uint32_t len, const char *word) { return len == strlen (word) && !memcmp (text, word, len); }
static int is_name (const char *text, const char *end)
{
  if (text == end || !is_letter ((unsigned char) *text)) return 0;
  for (; text < end; text++) if (!is_part ((unsigned char) *text)) return 0;
  return 1;
}
static int variable (const char *text, const char *end, uint32_t *to)
{
  if (*text != '$' || !is_name (text + 1, end)) return 0;
  *to = intern (text + 1, end - text - 1);
  return 1;
}
static int path (command *c, const char *p, const char *end)
{
  c->variable = *p == '$'; p += c->variable;
  const char *b = p;
  while (p < end && *p != '.' && *p != '[') p++;
  if (!is_name (b, p)) return 0;
  c->a = intern (b, p - b); c->hop = hopped;
  while (p < end) {
    hop h = { ~0u, 0 };
    if (*p == '.') {
      b = ++p;
      while (p < end && *p != '.' && *p != '[') p++;
      if (!is_name (b, p)) return 0;
      h.name = intern (b, p - b);
    } else {
      b = ++p;
      while (p < end && *p >= '0' && *p <= '9') h.at = h.at * 10 + (*p++ - '0');
      if (p == b || p == end || *p++ != ']') return 0;
    }
    if (hopped == hop_room) hops = realloc (hops, (hop_room = hop_room * 2 + 64) * sizeof *hops);
    hops[hopped++] = h; c->hops++;
  }
  return 1;
}
static int line (const char *p, const char *e)
{
  const char *w[4], *we[4]; int n = 0;
  for (;;) {
    while (p < e && (*p == ' ' || *p == '\t')) p++;
    if (p == e) break;
    if (n == 4) return 0;
    w[n] = p;
    while (p < e && *p != ' ' && *p != '\t') p++;
    we[n++] = p;
  }
  if (!n || *w[0] == '#') return 1;
  if (commanded == command_room) commands = realloc (commands, (command_room = command_room * 2 + 64) * sizeof *commands);
  command *c = &commands[commanded++];
  memset (c, 0, sizeof *c);
  const char *v = w[0];
  if (*v == '@') c->quiet = 1, v++;
  uint32_t len = we[0] - v;
  if (is (v, len, "new") && n == 3 && is_name (w[2], we[2])) { c->verb = 'n'; c->b = intern (w[2], we[2] - w[2]); return variable (w[1], we[1], &c->a); }
  if (is (v, len, "set") && n == 3) {
    c->verb = 's';
    if (!path (c, w[1], we[1])) return 0;
    if (is (w[2], we[2] - w[2], "null")) return 1;
    c->given = 1;
    return variable (w[2], we[2], &c->b);
  }
  if (is (v, len, "get") && n == 3) { c->verb = 'g'; return variable (w[1], we[1], &c->b) && path (c, w[2], we[2]); }
  if (is (v, len, "drop") && n == 2) { c->verb = 'd'; return variable (w[1], we[1], &c->a); }
  if (is (v, len, "print") && n == 2) { c->verb = 'p'; return path (c, w[1], we[1]); }
  return 0;
}
static char *slurp (FILE *in, size_t *size)
{
  size_t room = 1 << 16, len = 0, got; char *text = malloc (room + 1);
  while ((got = fread (text + len, 1, room - len, in))) if ((len += got) == room) text = realloc (text, (room *= 2) + 1);
  *size = len;
  return text;
}
static void read_script (const char *p, const char *end)
{
  if (!table) { mask = 1023; table = calloc (mask + 1, 4); }
  for (long at = 1; p < end; at++) {
    const char *e = memchr (p, '\n', end - p);
    if (!e) e = end;
    if (!line (p, e)) { printf ("line %ld refused\n", at); exit (0); }
    p = e + 1;
  }
}
#ifndef RUN
int main (void)
{
  size_t len; char *text = slurp (stdin, &len);
  read_script (text, text + len);
  printf ("%u commands\n", commanded);
  return 0;
}
#else
typedef struct { uint32_t name, fields, first; } type;
typedef struct object { uint32_t type; struct object *at[]; } object;

static type types[4096]; static uint32_t typed;
static uint32_t fields[1 << 16], fielded;
static object **vars, **roots; static uint8_t *is_root;

static const char *token (const char *p, const char **begin)
{
  while (*p == ' ' || *p == '\n' || *p == '\t') p++;
  *begin = p;
  if (is_part ((unsigned char) *p)) { while (is_part ((unsigned char) *p)) p++; return p; }
  return *p ? p + 1 : p;
}
/* The name of the declaration that a `;` ends is the last one before it. */
static void read_header (const char *p)
{
  const char *b; uint32_t last = 0; int inside = 0, global = 0;
  while (p = token (p, &b), p != b) {
    uint32_t len = p - b;
    if (is (b, len, "static")) global = 1;
    else if (is (b, len, "struct") || is (b, len, "GTY")) ;
    else if (is_letter ((unsigned char) *b)) last = intern (b, len);
    else if (*b == '{') { types[typed++] = (type) { last, 0, fielded }; inside = 1; }
    else if (*b == '}') inside = 0;
    else if (*b == ';' && inside) { fields[fielded++] = last; types[typed - 1].fields++; }
    else if (*b == ';' && global) { is_root[last] = 1; global = 0; }
  }
}
static int run (command *c)
{
  if (c->verb == 'n') {
    uint32_t t = 0;
    while (t < typed && types[t].name != c->b) t++;
    if (t == typed) return 0;
    object *o = calloc (1, sizeof *o + types[t].fields * sizeof *o->at);
    o->type = t; vars[c->a] = o;
    return 1;
  }
  object *value = c->given ? vars[c->b] : NULL;
  if (c->given && !value) return 0;
  object **at = c->variable ? &vars[c->a] : &roots[c->a];
  if (!c->variable && !is_root[c->a]) return 0;
  for (uint32_t h = c->hop; h < c->hop + c->hops; h++) {
    object *o = *at;
    if (!o) return 0;
    type *t = &types[o->type]; uint32_t f = 0;
    while (f < t->fields && fields[t->first + f] != hops[h].name) f++;
    if (f == t->fields) return 0;
    at = &o->at[f];
  }
  *at = value;
  return 1;
}
int main (int argc, char **argv)
{
  size_t len, length; char *text = slurp (fopen (argv[1], "rb"), &len), *header = slurp (fopen (argv[2], "rb"), &length);
  header[length] = 0;
  is_root = calloc (1 << 16, 1);
  mask = 1023; table = calloc (mask + 1, 4);
  read_header (header);
  read_script (text, text + len);
  vars = calloc (named, sizeof *vars); roots = calloc (named, sizeof *roots);
  for (uint32_t i = 0; i < commanded; i++) if (!run (&commands[i])) { printf ("command %u refused\n", i); return 1; }
  return 0;
}
#endif
