#!/usr/bin/env bash
# Times a collection of a list along its chain and off it, and of an array that names all nodes; each beside a tenth of the nodes. It is the middle of forty
# collections in one process, after a first one. A list with one more node for each third one, which nothing names, is timed beside a small allocator in
# C too, and so is one of 490,000 nodes, of which a script can make no more. Then come levels of 67 objects, of which each leads to the next by its last pointer;
# a hundred collections of one list; collections that are skipped, beside a tenth of them and beside a small heap; and collections of nothing under the greatest
# space, beside the least one. Last the collection of the generated script of 100,000 nodes, beside the C program, and the whole of this script.
# Run by hand, from any folder, after ./gtyheap.
. "$(dirname "$0")/shared.sh"
take_program
build_small
build_between
cat >"$work/heap.h" <<'H'
struct GTY((chain_next("%h.next"))) node { struct node *next; struct node *other; int key; };
static GTY(()) struct node *head;
static GTY(()) int n;
static GTY((length("n"))) struct node **all;
H

# The seconds of a collection of so many nodes, which a script by a program in awk makes that is given their number.
collects() {
  awk -v n="$1" "BEGIN { $2 }" >"$work/s.gty"
  for ((i = 0; i < 41; i++)); do echo 'collect force'; done >>"$work/s.gty"
  middle 5 "$work/between" 0 "$program" --space 16384 "$work/s.gty" "$work/heap.h"
}

# A row: what the heap is, its nodes, and the times for all and for a tenth of them.
measure() { row "a collection: $1" "$2" "$(collects "$2" "$3")" "a tenth" "$(collects $(($2 / 10)) "$3")" 12; }

measure "a list" 200000 'print "@new $k node"; print "@set head $k"; for (i = 1; i < n; i++) { print "@new $n node"; print "@set $n.next $k"; print "@set head $n"; print "@get $k head" }'
measure "a list off its chain" 200000 'print "@new $k node"; print "@set head $k"; for (i = 1; i < n; i++) { print "@new $n node"; print "@set $n.other $k"; print "@set head $n"; print "@get $k head" }'
measure "an array of nodes" 100000 'print "@set n " n; print "@array $a node* " n; print "@set all $a"; for (i = 0; i < n; i++) { print "@new $n node"; print "@set $a[" i "] $n" }'
with_others='print "@new $k node"; print "@set head $k"; for (i = 1; i < n; i++) { print "@new $n node"; print "@set $n.next $k"; print "@set head $n"; print "@get $k head"; if (i % 3 == 2) { print "@new $o node"; print "@set $o.other $k" } }'
in_c=$(middle 5 "$work/small" later 100000 41)
row 'a collection: a list, a third more freed' 100000 "$(collects 100000 "$with_others")" 'in C' "$in_c" 3

# Two commands for each node: as many as a script can have.
short='print "@new $a node"; for (i = 1; i < n; i++) { x = i % 2 ? "$b" : "$a"; y = i % 2 ? "$a" : "$b"; print "@new " x " node"; print "@set " x ".next " y }; print "@set head " (n % 2 ? "$a" : "$b")'
in_c=$(middle 5 "$work/small" later 490000 41)
row 'a collection: a list' 490000 "$(collects 490000 "$short")" 'in C' "$in_c" 4
row 'a hundred collections of a list' 10000 "$(awk -v s="$(collects 10000 "$short")" 'BEGIN { print 100 * s }')" 'a tenth' "$(awk -v s="$(collects 1000 "$short")" 'BEGIN { print 100 * s }')" 12

# The seconds of a script by a program in awk, under a header, with so many pages.
runs() {
  awk -v n="$1" "BEGIN { $2 }" >"$work/s.gty"
  minus "$(seconds 5 "$program" --space "$3" "$work/s.gty" "$work/heap.h")" "$idle"
}
made='for (i = 0; i < 100000; i++) { print "@new $n node"; print "@set $n.next $k"; print "@set head $n"; print "@get $k head" }'
skips='for (i = 0; i < n; i++) print "@collect"'
small_heap=$(runs 0 'print "@new $k node"' 16384)
large_heap=$(runs 0 "print \"@new \$k node\"; $made" 16384)
many=$(runs 500000 "print \"@new \$k node\"; $skips" 16384)
row 'collections skipped' 500000 "$(minus "$many" "$small_heap")" 'a tenth' "$(minus "$(runs 50000 "print \"@new \$k node\"; $skips" 16384)" "$small_heap")" 12
row 'collections skipped, 100,000 objects' 500000 "$(minus "$(runs 500000 "print \"@new \$k node\"; $made; $skips" 16384)" "$large_heap")" 'one object' "$(minus "$many" "$small_heap")" 2
forced='for (i = 0; i < n; i++) print "@collect force"'
row 'collections of nothing, 64 MiB' 100000 "$(runs 100000 "$forced" 16384)" '64 KiB' "$(runs 100000 "$forced" 16)" 2

# Levels: a collection of so many.
{
  printf 'struct GTY(()) leaf { struct leaf *p; };\nstruct GTY(()) wide { struct leaf *f0'
  for i in {1..64}; do printf ', *f%d' "$i"; done
  printf '; struct wide *down; };\nstatic GTY(()) struct wide *head;\n'
} >"$work/heap.h"
levels='for (l = 0; l < n; l++) { print "@new $w wide"; for (i = 0; i < 65; i++) { print "@new $l leaf"; print "@set $w.f" i " $l" }; if (l) { print "@get $d head"; print "@set $w.down $d" }; print "@set head $w" }'
measure "levels of 67" 7000 "$levels"

# The generated script, beside the C program, which has no commands: they are counted apart. The lines of the script are written out, and one before the
# collection is answered. The time goes from this answer to that of the collection, which is the first of its run, as the C program's is.
cat >"$work/heap.h" <<'H'
struct GTY((chain_next("%h.next"))) node { struct node *next; struct node *other; int key; };
static GTY(()) struct node *head;
static GTY(()) struct node *tail;
static GTY((deletable)) struct node *memo;
static GTY((cache)) hash_map<struct node *, struct node *> *map;
H
awk -v n=100000 'BEGIN {
  for (i = 0; i < n; i++) {
    print "@new $n node"; print "@set $n.key " i
    if (i) print "@set $n.next $p"
    print "@set head $n"; print "@get $p head"
    if (i % 3 == 2) { print "@new $w node"; print "@set $w.other $n" } }
  print "print head.key"; print "collect force" }' >"$work/s.gty"
row 'the collection of :100000' 100000 "$(middle 21 "$work/between" 0 "$program" "$work/s.gty" "$work/heap.h")" 'in C' "$(middle 21 "$work/small" first 100000)" 3
: >"$work/input"
row 'the argument :100000, with its commands' 100000 "$(minus "$(seconds 5 "$program" :100000)" "$idle")"
