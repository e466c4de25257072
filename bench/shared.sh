# What the benches share, each of which reads this file first: `root` is the folder of the repository, `work` a folder for this run, which
# is gone at its end. Each bench prints rows of one table (`row`, `amount`), whose head all.sh prints.
set -eu
root=$(cd "$(dirname "${BASH_SOURCE[0]}")/.." && pwd)
work=$(mktemp -d)
trap 'rm -rf "$work"' EXIT

# Runs a command, and shows what it prints only where it fails.
quiet() { "$@" >"$work/log" 2>&1 || { cat "$work/log" >&2; exit 2; }; }

# Takes as `program` the one that GTYHEAP names, or the one that ./gtyheap has built; where there is none the bench ends. `idle` is the time
# of a run that does nothing: it is a part of the time of every run.
take_program() {
  program=${GTYHEAP:-$root/crates/gtyheap/out/gtyheap}
  [ -x "$program" ] || { echo "$(basename "$0"): no program: run ./gtyheap first" >&2; exit 2; }
  cp "$root/examples/node.h" "$work/node.h"
  : >"$work/empty.gty"
  idle=$(seconds 9 "$program" "$work/empty.gty" "$work/node.h")
}

# Runs the program under the arguments after the first two, and ends the bench where its status or the number of its lines is not as these say.
wants() {
  local status=$1 lines=$2 ended=0
  shift 2
  "$program" "$@" >"$work/out" || ended=$?
  if [ "$ended" != "$status" ] || [ "$(wc -l <"$work/out")" != "$lines" ]; then
    echo "$(basename "$0"): status $ended, and $(head -n 1 "$work/out")" >&2
    exit 2
  fi
}

# The fewest seconds of the processor that a command takes in so many runs, over the file `input` of `work` as its input. What it prints is in `out`.
seconds() {
  local runs=$1 run
  shift
  for ((run = 0; run < runs; run++)); do "$work/spent" "$work/input" "$@" 2>&1 >"$work/out"; done | sort -n | head -n 1 | awk '{ print $1 }'
}
# The middle one of the numbers that a command prints in so many runs.
middle() {
  local runs=$1 run
  shift
  for ((run = 0; run < runs; run++)); do "$@"; done | sort -n | sed -n "$((runs / 2 + 1))p"
}
# The KiB that a command has at the most.
most_memory() { "$work/spent" "$work/input" "$@" 2>&1 >"$work/out" | awk '{ print $2 }'; }
# The instructions of a command, which are the same each time, counted by valgrind.
instructions() { valgrind --tool=callgrind --callgrind-out-file=/dev/null "$@" 2>&1 >/dev/null | awk '/Collected/ { print $4 }'; }
# A number minus another one.
minus() { awk -v a="$1" -v b="$2" 'BEGIN { printf "%.6f\n", a - b }'; }

# Prints one row: what was measured, its size, the amount and its unit; what stands beside it, and its amount; the ratio of the two, and the
# most that it should be. The last three may be missing.
amount() {
  awk -v what="$1" -v size="$2" -v a="$3" -v unit="$4" -v beside="${5--}" -v b="${6-}" -v most="${7-}" 'BEGIN {
    other = b == "" ? "-" : sprintf("%.3f", b)
    ratio = b + 0 > 0 ? sprintf("%.2f", a / b) : "-"
    mark = (most != "" && ratio != "-" && ratio + 0 > most + 0) ? "  above" : ""
    printf("%-40s %10s %12.3f %-5s %-26s %12s %7s %5s%s\n", what, size, a, unit, beside, other, ratio, most == "" ? "-" : most, mark) }'
}
# The same for times in seconds, which are shown in milliseconds.
row() { amount "$1" "$2" "$(awk -v s="$3" 'BEGIN { print s * 1000 }')" ms "${4--}" "${5+$(awk -v s="$5" 'BEGIN { print s * 1000 }')}" "${6-}"; }

# Builds `spent`, which runs a program over a file as its input, and says on the standard error how many seconds of the processor it took, and how
# many KiB it had at the most.
cat >"$work/spent.c" <<'C'
#include <stdio.h>
#include <stdlib.h>
#include <sys/resource.h>
#include <sys/wait.h>
#include <unistd.h>

int main (int argc, char **argv)
{
  if (argc < 3 || !freopen (argv[1], "r", stdin)) return 2;
  pid_t child = fork ();
  if (!child) { execv (argv[2], argv + 2); _exit (127); }
  int status; struct rusage used;
  if (wait4 (child, &status, 0, &used) < 0 || !WIFEXITED (status) || WEXITSTATUS (status) == 127) return 3;
  fprintf (stderr, "%.6f %ld\n", used.ru_utime.tv_sec + used.ru_stime.tv_sec + (used.ru_utime.tv_usec + used.ru_stime.tv_usec) / 1e6, used.ru_maxrss);
  return 0;
}
C
cc -O2 -o "$work/spent" "$work/spent.c"
: >"$work/input"

# Builds `between`, which runs a program, and says how many seconds went by from one of its lines to the next, as they came through a pipe: the
# middle of these times, but for the first `skipped` ones. Two lines can come at once, so a time is told by many or by many runs.
build_between() {
  cat >"$work/between.c" <<'C'
#include <stdio.h>
#include <stdlib.h>
#include <sys/wait.h>
#include <time.h>
#include <unistd.h>

static double now (void) { struct timespec t; clock_gettime (CLOCK_MONOTONIC, &t); return t.tv_sec + t.tv_nsec / 1e9; }
static int order (const void *a, const void *b) { double x = *(const double *) a, y = *(const double *) b; return (x > y) - (x < y); }

int main (int argc, char **argv)
{
  enum { MOST = 1000 };
  int ends[2], status, lines = 0, skipped; double came[MOST]; char text[4096]; ssize_t got;
  if (argc < 3 || pipe (ends)) return 2;
  skipped = atoi (argv[1]);
  pid_t child = fork ();
  if (!child) { dup2 (ends[1], 1); close (ends[0]); execv (argv[2], argv + 2); _exit (127); }
  close (ends[1]);
  while ((got = read (ends[0], text, sizeof text)) > 0)
    for (ssize_t i = 0; i < got; i++)
      if (text[i] == '\n' && lines < MOST) came[lines++] = now ();
  if (waitpid (child, &status, 0) < 0 || !WIFEXITED (status) || WEXITSTATUS (status) || lines < skipped + 2) return 3;
  for (int i = 0; i + 1 < lines; i++) came[i] = came[i + 1] - came[i];
  int times = lines - 1 - skipped;
  qsort (came + skipped, times, sizeof *came, order);
  printf ("%.9f\n", came[skipped + times / 2]);
  return 0;
}
C
  cc -O2 -o "$work/between" "$work/between.c"
}

# Copies these crates into `work`, each with its line of crates.txt, and with its library where that is built.
copy_crates() {
  local name built
  mkdir -p "$work/crates"
  for name; do
    (cd "$root/crates" && tar -c --exclude=out --exclude=incremental --exclude=must-fail "$name") | tar -x -C "$work/crates"
    built=$root/crates/$name/out/rlib
    [ ! -d "$built" ] || { mkdir "$work/crates/$name/out" && cp -r "$built" "$work/crates/$name/out"; }
    grep "^$name:" "$root/crates.txt" >>"$work/crates.txt"
  done
}

# Proves and builds these copied crates, so that a program can use them. Those that came with a library of the same sources are not proved again.
build_copied() {
  local name
  for name; do (cd "$work/crates/$name" && quiet rt lib); done
}

# Starts `program`, of this name, around the pages in a copy of the crates that it needs. Its function `make_block` makes a block for so many bytes.
start_pages() {
  copy_crates gt_space gt_links gt_bits gt_entries gt_pages
  echo "$1: gt_space gt_pages" >>"$work/crates.txt"
  program=$work/crates/$1
  mkdir -p "$program/src" "$program/proofs/make_block"
  : >"$program/stdin"
  cp "$root/crates/pages_table/proofs/Found.antt" "$program/proofs"
  echo 'mod Found' >"$program/proofs/Lib.antt"
  cat >"$program/proofs/make_block/Answers.antt" <<END
use Rattle.std.proofs.Common.{sym, ◌∙◌}
use Rattle.$1.proofs.Found.{rounded_listed}
use Rattle.$1.proofs.make_block.Goals as goal

pub alloc_slot-requires : goal.alloc_slot-requires
alloc_slot-requires c = record { listed = rounded_listed c.args.bytes c.in-Some.size (sym c.rounded_size.ensures.least ∙ c.in-Some.is) }
END
}

# Proves and builds this program over the copied crates, and runs it once under these arguments.
build_pages() {
  build_copied gt_space gt_links gt_bits gt_entries gt_pages
  (cd "$program" && quiet rt run -- "$@")
}

# Builds `small`, a list of nodes in a small allocator in C, which is made (`make N`), or made and collected so many times (`collect N TIMES`), or which tells
# the seconds of its first collection (`first N`).
build_small() {
  cat >"$work/small.c" <<'C'
/* A small allocator and its collection: pages of 4096 bytes, each of one size, with a bit for each place, a list of pages with a free place for each size,
   and an explicit stack. */
#include <stdint.h>
#include <stdio.h>
#include <stdlib.h>
#include <string.h>
#include <sys/mman.h>
#include <time.h>
enum { PAGE = 4096, PAGES = 16384 };
typedef struct page { uint64_t bits[8]; uint16_t count, free, hint, shift; uint32_t next; } page;
typedef struct node { struct node *next, *other; uint64_t key, pad; } node;
static page *table; static char *base; static uint32_t top, first[32], empty = ~0u;
static void *take (unsigned shift)
{
  uint32_t p = first[shift];
  if (p == ~0u) {
    if (empty != ~0u) { p = empty; empty = table[p].next; } else p = top++;
    if (p >= PAGES) abort ();
    page *e = &table[p]; memset (e, 0, sizeof *e);
    e->shift = shift; e->count = e->free = PAGE >> shift; e->next = first[shift]; first[shift] = p;
  }
  page *e = &table[p]; unsigned i = e->hint;
  if (i >= e->count || (e->bits[i >> 6] >> (i & 63) & 1)) { unsigned w = 0; while (~e->bits[w] == 0) w++; i = w * 64 + __builtin_ctzll (~e->bits[w]); }
  e->bits[i >> 6] |= 1ull << (i & 63); e->hint = i + 1;
  if (--e->free == 0) first[shift] = e->next;
  void *r = base + (size_t) p * PAGE + ((size_t) i << shift); memset (r, 0, 1u << shift); return r;
}
static int mark (void *block)
{
  size_t off = (char *) block - base; page *e = &table[off >> 12]; unsigned i = (off & (PAGE - 1)) >> e->shift;
  uint64_t bit = 1ull << (i & 63);
  if (e->bits[i >> 6] & bit) return 0;
  e->bits[i >> 6] |= bit; e->free--; return 1;
}
static double now (void) { struct timespec t; clock_gettime (CLOCK_MONOTONIC, &t); return t.tv_sec + t.tv_nsec / 1e9; }
static int order (const void *a, const void *b) { double x = *(const double *) a, y = *(const double *) b; return (x > y) - (x < y); }
int main (int argc, char **argv)
{
  long n = argc > 2 ? atol (argv[2]) : 0, times = argc > 3 ? atol (argv[3]) : 1, kept = 0; node *head = 0, **stack = malloc ((2 * n + 16) * sizeof *stack); size_t depth = 0;
  base = mmap (0, (size_t) PAGES * PAGE, PROT_READ | PROT_WRITE, MAP_PRIVATE | MAP_ANONYMOUS, -1, 0);
  table = calloc (PAGES, sizeof *table);
  for (int i = 0; i < 32; i++) first[i] = ~0u;
  for (long i = 0; i < n; i++) {
    node *x = take (5); x->key = i; x->next = head; head = x;
    if (i % 3 == 2) { node *y = take (5); y->other = x; }
  }
  if (!strcmp (argv[1], "make")) { printf ("%ld\n", n); return 0; }
  double *each = calloc (times, sizeof *each);
  for (long t = 0; t < times; t++) {
    double begin = now ();
    kept = 0;
    for (uint32_t p = 0; p < top; p++) { page *e = &table[p]; memset (e->bits, 0, sizeof e->bits); e->free = e->count; }
    if (head && mark (head)) stack[depth++] = head;
    while (depth) {
      node *x = stack[--depth]; kept++;
      if (x->next && mark (x->next)) stack[depth++] = x->next;
      if (x->other && mark (x->other)) stack[depth++] = x->other;
    }
    for (int i = 0; i < 32; i++) first[i] = ~0u;
    empty = ~0u;
    for (uint32_t p = top; p-- > 0;) {
      page *e = &table[p]; e->hint = 0;
      if (e->free == e->count) { e->next = empty; empty = p; }
      else if (e->free) { e->next = first[e->shift]; first[e->shift] = p; }
    }
    each[t] = now () - begin;
  }
  if (!strcmp (argv[1], "first")) printf ("%.9f\n", each[0]);
  else if (!strcmp (argv[1], "later")) { qsort (each + 1, times - 1, sizeof *each, order); printf ("%.9f\n", each[1 + (times - 1) / 2]); }
  else printf ("%ld\n", kept);
  return 0;
}
C
  cc -O2 -o "$work/small" "$work/small.c"
}
