#!/usr/bin/env bash
# Binds 50,000 variables, and then answers 950,000 lines `set` and `get` over them, and a tenth of these. The time of the bindings alone is taken off.
# All together are as many commands as a script may have. Run by hand, from any folder, after ./gtyheap.
. "$(dirname "$0")/shared.sh"
take_program

# 50,000 new variables, and so many lines, `set` and `get` by turns, over variables that are far apart.
lines() {
  awk -v n="$1" 'BEGIN {
    count = 50000
    for (i = 0; i < count; i++) printf "@new $v%d node\n", i
    for (i = 0; i < n; i++) {
      turn = int(i / 2); a = (turn * 7919) % count
      if (i % 2 == 0) printf "@set $v%d.next $v%d\n", a, (turn * 104729 + 1) % count
      else printf "@get $v%d $v%d.next\n", (turn * 31337 + 2) % count, a
    }
  }'
}
for n in 0 95000 950000; do
  lines $n >"$work/$n.gty"
  wants 0 0 "$work/$n.gty" "$work/node.h"
done
none=$(seconds 5 "$program" "$work/0.gty" "$work/node.h")
small=$(minus "$(seconds 5 "$program" "$work/95000.gty" "$work/node.h")" "$none")
large=$(minus "$(seconds 5 "$program" "$work/950000.gty" "$work/node.h")" "$none")
row 'lines `set` and `get` over variables' 950000 "$large" 'a tenth' "$small" 12
