#!/usr/bin/env bash
# Times zero, a write, showing, storing, reading back and showing again of 50 values by the program value_table, which is built first: structures that
# end in so many pointers, with ten times as many from row to row; then showing, storing and reading alone, so many times; and, by the program gtyheap,
# `print` of a structure with so many unions, where reading finds the number that chooses each member by its name, and of unions of so many members; `set` of
# that number, and in a union of so many members, one or all of which end in an array; and the header of so many unions that begin with a large struct. Run by hand,
# from any folder, after ./gtyheap. The values of the last row of the first table no longer fit the caches: it took 12.4 to 13.2 times as long as the one
# before, on a busy machine, on 27 November 2026.
. "$(dirname "$0")/shared.sh"
take_program
(cd "$root/crates/value_table" && quiet rt run </dev/null)
cp "$root/crates/value_table/out/value_table" "$work/value_table"

# So many rows, each of a structure with N pointers at its end.
rows() { awk -v rows="$1" -v n="$2" 'BEGIN {
  text = "null"; for (i = 1; i < n; i++) text = text ", null"
  for (i = 0; i < rows; i++) printf "vec %d 0=%d -> {num=%d, elem=[%s]}\n", n, n, n, text }'; }
: >"$work/input"
idle_table=$(seconds 9 "$work/value_table")
small=
for n in 32 320 3200 32000; do
  rows 50 $n >"$work/input"
  large=$(minus "$(seconds 5 "$work/value_table")" "$idle_table")
  grep -q ', 0 differ' "$work/out" || { head -c 300 "$work/out" >&2; exit 2; }
  if [ -n "$small" ]; then row 'values, pointers of each' $n "$large" 'a tenth' "$small" 14; fi
  small=$large
done

# The seconds that one part takes, 200 times, of a structure with so many pointers at its end.
part() {
  local all none
  printf 'times 0 %s vec %d 0=%d -> done\n' "$1" "$2" "$2" >"$work/input"
  none=$(seconds 5 "$work/value_table")
  printf 'times 200 %s vec %d 0=%d -> done\n' "$1" "$2" "$2" >"$work/input"
  all=$(seconds 5 "$work/value_table")
  grep -q ', 0 differ' "$work/out" || { head -c 300 "$work/out" >&2; exit 2; }
  minus "$all" "$none"
}
for what in show store read; do
  large=$(part $what 32000)
  small=$(part $what 3200)
  row "$what, pointers of each" 32000 "$large" 'a tenth' "$small" 14
done

# The seconds of 2,000 lines `print` of a structure `many` of the header `many.h`, of which the number `kind` is this.
prints() {
  printf '@new $m many\n@set $m.kind %d\n' "$1" >"$work/none.gty"
  { cat "$work/none.gty"; awk 'BEGIN { for (i = 0; i < 2000; i++) print "@print $m" }'; } >"$work/prints.gty"
  wants 0 0 "$work/prints.gty" "$work/many.h"
  minus "$(seconds 5 "$program" "$work/prints.gty" "$work/many.h")" "$(seconds 5 "$program" "$work/none.gty" "$work/many.h")"
}

# Makes the header `many.h` of a structure with so many unions before the number that chooses their members.
many_unions() {
  awk -v n="$1" 'BEGIN {
    print "union GTY(()) arm { int GTY((tag (\"0\"))) number; char *GTY((tag (\"1\"))) text; };\nstruct GTY(()) many {"
    for (i = 0; i < n; i++) printf "  union arm GTY((desc (\"%%1.kind\"))) u%d;\n", i
    print "  int kind;\n};" }' >"$work/many.h"
}

# The seconds of these lines, with such a header.
unions() { many_unions "$1"; prints 0; }
large=$(unions 1000)
small=$(unions 100)
row 'print, unions chosen by name' 1000 "$large" 'a tenth' "$small" 12

# The same, with an array of 200 unions of so many members, the last of which is active in each.
members() {
  awk -v n="$1" 'BEGIN {
    print "union GTY(()) arm {"
    for (i = 0; i < n; i++) printf "  int GTY((tag (\"%d\"))) m%d;\n", i, i
    print "};\nstruct GTY(()) many { int kind; union arm GTY((desc (\"%1.kind\"))) u[200]; };" }' >"$work/many.h"
  prints $(($1 - 1))
}
large=$(members 1000)
small=$(members 100)
row 'print of 200 unions, members of each' 1000 "$large" 'a tenth' "$small" 2

# The seconds that the lines of sets.gty take under many.h, without those of none.gty, with which they begin.
lines_alone() {
  wants 0 0 "$work/sets.gty" "$work/many.h"
  minus "$(seconds 5 "$program" "$work/sets.gty" "$work/many.h")" "$(seconds 5 "$program" "$work/none.gty" "$work/many.h")"
}

# The seconds of 500 lines `set` of that number, each of which makes the other member of each union active.
sets() {
  many_unions "$1"
  echo '@new $m many' >"$work/none.gty"
  { cat "$work/none.gty"; awk 'BEGIN { for (i = 1; i <= 500; i++) print "@set $m.kind", i % 2 }'; } >"$work/sets.gty"
  lines_alone
}
large=$(sets 1000)
small=$(sets 100)
row 'set, unions that change by name' 1000 "$large" 'a tenth' "$small" 12

# The seconds in which a header of so many unions is read, each of which may begin with one large struct that holds small ones very often.
begin() {
  awk -v n="$1" 'BEGIN {
    print "struct GTY(()) s0 { char c; };"
    for (i = 1; i < 12; i++) printf "struct GTY(()) s%d { struct s%d a; };\n", i, i - 1
    for (; i < 32; i++) printf "struct GTY(()) s%d { struct s%d a; struct s%d b; };\n", i, i - 1, i - 1
    for (i = 0; i < n; i++) printf "union GTY((desc (\"0\"))) u%d { struct s31 GTY((tag (\"0\"))) a; };\n", i }' >"$work/begin.h"
  : >"$work/none.gty"
  wants 0 0 "$work/none.gty" "$work/begin.h"
  seconds 5 "$program" "$work/none.gty" "$work/begin.h"
}
large=$(begin 4000)
small=$(begin 400)
row 'unions that begin with a large struct' 4000 "$large" 'a tenth' "$small" 12

# The seconds of 2,000 lines `set` of a length in a union of so many members: the first ends in an array of that length, and the others are of
# this type. Each line stores the whole value.
length_sets() {
  awk -v n="$1" -v type="$2" 'BEGIN {
    print "struct GTY(()) vec { int n; struct vec *GTY((length (\"%h.n\"))) elt[1]; };"
    print "union GTY((desc (\"0\"))) many {\n  struct vec GTY((tag (\"0\"))) v;"
    for (i = 1; i < n; i++) printf "  %s GTY((tag (\"%d\"))) m%d;\n", type, i, i
    print "};" }' >"$work/many.h"
  printf '@new $m many 4\n' >"$work/none.gty"
  { cat "$work/none.gty"; awk 'BEGIN { for (i = 0; i < 2000; i++) print "@set $m.v.n " i % 5 }'; } >"$work/sets.gty"
  lines_alone
}
large=$(length_sets 1000 int)
small=$(length_sets 100 int)
row 'set in a union, members' 1000 "$large" 'a tenth' "$small" 2
large=$(length_sets 1000 'struct vec')
small=$(length_sets 100 'struct vec')
row 'set in a union, members that grow' 1000 "$large" 'a tenth' "$small" 2
