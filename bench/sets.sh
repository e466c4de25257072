#!/usr/bin/env bash
# Runs 1,000,000 quiet lines `set $a.f $b`, and a tenth, in the program and in a small interpreter in C (reader.c), from the start to the end of
# each; and counts the instructions of a line in both. Run by hand, from any folder, after ./gtyheap.
. "$(dirname "$0")/shared.sh"
take_program
cc -O2 -DRUN -o "$work/interpreter" "$root/bench/reader.c"
printf 'struct GTY(()) s { struct s *f; struct s *g; };\nstatic GTY(()) struct s *r;\n' >"$work/s.h"
for n in 100000 200000 1000000; do
  { printf '@new $a s\n@new $b s\n@set r $a\n'; yes '@set $a.f $b' | head -n $((n - 3)) || true; } >"$work/$n.gty"
  wants 0 0 "$work/$n.gty" "$work/s.h"
done
ours=$(seconds 9 "$program" "$work/1000000.gty" "$work/s.h")
row 'quiet lines: set of a pointer' 1000000 "$ours" 'a tenth' "$(seconds 9 "$program" "$work/100000.gty" "$work/s.h")" 12
row 'quiet lines: set of a pointer' 1000000 "$ours" 'in C' "$(seconds 9 "$work/interpreter" "$work/1000000.gty" "$work/s.h")" 4
# The instructions of a line, without those of the start.
line_of() { awk -v a="$(instructions "$@" "$work/100000.gty" "$work/s.h")" -v b="$(instructions "$@" "$work/200000.gty" "$work/s.h")" 'BEGIN { print (b - a) / 100000 }'; }
amount 'instructions of such a line' 1 "$(line_of "$program")" '' 'in C' "$(line_of "$work/interpreter")" 4
