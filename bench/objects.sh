#!/usr/bin/env bash
# Makes 65,000 objects, each bound to a variable of its own, and 6,500. Run by hand, from any folder, after ./gtyheap.
. "$(dirname "$0")/shared.sh"
take_program
for n in 6500 65000; do
  awk -v n=$n 'BEGIN { for (i = 0; i < n; i++) print "new $v" i " node" }' >"$work/$n.gty"
  wants 0 $n "$work/$n.gty" "$work/node.h"
done
small=$(minus "$(seconds 9 "$program" "$work/6500.gty" "$work/node.h")" "$idle")
large=$(minus "$(seconds 9 "$program" "$work/65000.gty" "$work/node.h")" "$idle")
row 'objects and variables' 65000 "$large" 'a tenth' "$small" 12
