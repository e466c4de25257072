#!/usr/bin/env bash
# Answers 990,000 quiet lines of each form over a header with a value of each kind, and a tenth of them; and `heap` over many objects and over a tenth of
# them. The time of the lines that come before is taken off. Run by hand, from any folder, after ./gtyheap.
. "$(dirname "$0")/shared.sh"
take_program

cat >"$work/all.h" <<'C'
enum kind { NUMBER, TEXT };
union GTY(()) value { long GTY((tag ("NUMBER"))) number; char *GTY((tag ("TEXT"))) text; };
struct GTY(()) node { struct node *next; enum kind kind; union value GTY((desc ("%1.kind"))) value; int plain; unsigned bits : 7; };
struct GTY(()) vec { int len; struct node *GTY((length ("%h.len"))) elem[1]; };
struct GTY(()) wide { int many[65536]; };
struct GTY(()) inner { int n; };
struct GTY(()) outer { struct inner i[16]; };
struct GTY(()) deep { struct outer o; };
static GTY(()) struct node *head;
static GTY(()) struct vec *all;
static GTY((atomic)) void *bytes;
static GTY((deletable)) struct node *spare;
C
# What each script begins with.
cat >"$work/before" <<'GTY'
@new $n node
@new $m node
@new $v vec 100
@new $w wide
@new $d deep
@block $x 4096
@string $t "some text"
@set head $n
@set head.next $m
@set all $v
@set all.len 100
@set bytes $x
GTY
# So many lines: these, one after another.
lines() {
  local n=$1
  shift
  printf '%s\n' "$@" | awk -v n="$n" '{ line[NR] = $0 } END { for (i = 0; i < n; i++) print line[i % NR + 1] }'
}
none=
compare() {
  local what=$1 n
  shift
  for n in 99000 990000; do
    { cat "$work/before"; lines $n "$@"; } >"$work/$n.gty"
    wants 0 0 --space 16384 "$work/$n.gty" "$work/all.h"
  done
  : "${none:=$(cp "$work/before" "$work/0.gty"; seconds 5 "$program" --space 16384 "$work/0.gty" "$work/all.h")}"
  row "$what" 990000 "$(minus "$(seconds 3 "$program" --space 16384 "$work/990000.gty" "$work/all.h")" "$none")" \
    'a tenth' "$(minus "$(seconds 3 "$program" --space 16384 "$work/99000.gty" "$work/all.h")" "$none")" 12
}
compare 'new' '@new $a node'
compare 'new with N' '@new $a vec 5'
compare 'array' '@array $a node* 6'
compare 'string' '@string $a "a text"'
compare 'block' '@block $a 48'
compare 'set of a number' '@set head.plain -5' '@set $n.bits 99'
compare 'set of a pointer' '@set $n.next $m' '@set head.next $n'
compare 'set of a number that is read' '@set $n.kind 1' '@set $n.kind 0'
compare 'set of a length' '@set $v.len 3' '@set $v.len 100'
compare 'set in 65,536 elements' '@set $w.many[65535] 7' '@set $w.many[0] 8'
compare 'set of a byte' '@set bytes[4095] 255' '@set $x[0] 1'
compare 'set by a long path' '@set $d.o.i[15].n 3' '@set head.next.plain 3'
compare 'get of a number' '@get $a head.plain' '@get $a $w.many[65535]'
compare 'get of a pointer' '@get $a head.next' '@get $a all.elem[99]'
compare 'get of a character' '@get $a $t[0]'
compare 'print' '@print $n' '@print head.value'
compare 'drop and get' '@get $a head' '@drop $a'
compare 'collect, skipped' '@collect'
compare 'stats' '@stats'
compare 'heap' '@heap'

# 500,000 times `heap`, over so many objects and over a tenth of them: it takes as long.
for n in 24500 245000; do
  awk -v n=$n 'BEGIN { for (i = 0; i < n; i++) print "@new $b node" }' >"$work/made.$n"
  { cat "$work/made.$n"; lines 500000 '@heap'; } >"$work/heap.$n.gty"
  wants 0 0 --space 16384 "$work/heap.$n.gty" "$work/all.h"
done
of() { minus "$(seconds 3 "$program" --space 16384 "$work/heap.$1.gty" "$work/all.h")" "$(seconds 3 "$program" --space 16384 "$work/made.$1" "$work/all.h")"; }
row '500,000 times heap over so many objects' 245000 "$(of 245000)" 'a tenth' "$(of 24500)" 2
