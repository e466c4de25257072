#!/usr/bin/env bash
# Makes a list of 300,000 objects, along which a collection goes, and one of 30,000. Run by hand, from any folder, after ./gtyheap.
. "$(dirname "$0")/shared.sh"
take_program

# A list of so many objects, each made and put before the others, and a collection.
list() {
  awk -v n="$1" 'BEGIN {
    print "@new $b node"
    for (i = 2; i <= n; i++) {
      new = i % 2 ? "$b" : "$a"; old = i % 2 ? "$a" : "$b"
      print "@new " new " node\n@set " new ".next " old
    }
    print "@set head " (n % 2 ? "$b" : "$a") "\ncollect force"
  }'
}
for n in 30000 300000; do
  list $n >"$work/$n.gty"
  wants 0 1 "$work/$n.gty" "$work/node.h"
done
small=$(minus "$(seconds 5 "$program" "$work/30000.gty" "$work/node.h")" "$idle")
large=$(minus "$(seconds 5 "$program" "$work/300000.gty" "$work/node.h")" "$idle")
row 'a list made and collected, objects' 300000 "$large" 'a tenth' "$small" 12
