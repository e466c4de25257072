#!/usr/bin/env bash
# Times the walker tables of programs with many walks, by an empty script: parts that lie in many structures, of which the rows depend on the structure around them,
# on the outermost one, or on the `desc` of their field; and structures one in another. Each beside a tenth of the structures. The time of the script under an empty
# header is taken off. Last the programs in which most rows are made: a part whose 500 fields each read the outermost structure lies in each of the structures, once where all
# read the same offset, so that it has one walk, and once where each reads another, so that it has as many as there are structures; with the most memory that the program has.
# Run by hand, from any folder, after ./gtyheap.
. "$(dirname "$0")/shared.sh"
take_program
: >"$work/empty.h"

# Writes the header that a program in awk prints, which is given the number of structures.
write_header() { awk -v n="$1" "BEGIN { $2 }" >"$work/t.h"; }

# The time of an empty script under such a header.
times() {
  write_header "$1" "$2"
  minus "$(seconds "${3-5}" "$program" "$work/empty.gty" "$work/t.h")" "$(seconds "${3-5}" "$program" "$work/empty.gty" "$work/empty.h")"
}

# The KiB that the program has at the most under it.
memory() {
  write_header "$1" "$2"
  most_memory "$program" "$work/empty.gty" "$work/t.h"
}

# A row: what the parts are, how many structures hold one, and the times for all and for a tenth of them.
measure() { row "walks of $1" "$2" "$(times "$2" "$3" "${4-5}")" "a tenth" "$(times $(($2 / 10)) "$3" "${4-5}")" 12; }

# The same for the most memory.
measure_memory() { amount "memory: walks of $1" "$2" "$(memory "$2" "$3")" KiB "a tenth" "$(memory $(($2 / 10)) "$3")" 12; }

measure "structures alone" 4000 'for (i = 0; i < n; i++) print "struct GTY(()) o" i " { struct o" i " *next; struct o0 *first; };"'
measure "parts that name the one around" 4000 'print "struct GTY(()) t { int v; }; struct GTY(()) x { struct t * GTY((length(\"%1.n\"))) a; };"
  for (i = 0; i < n; i++) print "struct GTY(()) o" i " { int n; struct x x; };"'
measure "parts that name the outermost" 4000 'print "struct GTY(()) t { int v; }; struct GTY(()) x { struct t * GTY((length(\"%0.n\"))) a; struct t * GTY((length(\"%1.n\"))) b; };"
  for (i = 0; i < n; i++) print "struct GTY(()) o" i " { int n; struct x x; };"'
measure "unions by the desc of a field" 4000 'print "union GTY(()) u { struct o0 * GTY((tag(\"1\"))) a; int GTY((default)) b; };"
  for (i = 0; i < n; i++) print "struct GTY(()) o" i " { int n; union u GTY((desc(\"%1.n\"))) u; };"'
measure "parts that hold parts" 4000 'print "struct GTY(()) o0 { struct o0 *p; };"
  for (i = 1; i < n; i++) print "struct GTY(()) o" i " { struct o" (i % 30 ? i - 1 : 0) " x; struct o0 *p; };"'

wide='print "struct GTY(()) t { int v; }; struct GTY(()) x { struct t * GTY((length(\"%1.n\"))) b;"
  for (i = 0; i < 500; i++) print "struct t * GTY((length(\"%0.n\"))) a" i ";"; print "};"'
same="$wide"'; for (i = 0; i < n; i++) print "struct GTY(()) o" i " { int n; struct x x; };"'
other="$wide"'; for (i = 0; i < n; i++) print "struct GTY(()) o" i " { int pad[" i + 1 "]; int n; struct x x; };"'
measure "wide parts, one offset" 2000 "$same" 1
measure "wide parts, many offsets" 2000 "$other" 1
measure_memory "wide parts, one offset" 2000 "$same"
measure_memory "wide parts, many offsets" 2000 "$other"
