#!/usr/bin/env bash
# Reads scripts of 1,000,000 lines and 32 MB, and of 100,000 lines. In `padded` and `comments` the commands run too; `refused` ends with a line
# that is no command, so that all is read and nothing runs. Run by hand, from any folder, after ./gtyheap.
. "$(dirname "$0")/shared.sh"
take_program

# So many lines, of 32 bytes each or on average.
padded() { awk -v n="$1" 'BEGIN { for (i = 0; i < n; i++) printf "%-31s\n", "@print head" }'; }
comments() { awk -v n="$1" 'BEGIN { for (i = 0; i < n; i += 2) printf "@print head\n# %-49d\n", i }'; }
refused() { padded "$(($1 - 1))"; printf '%-31s\n' 'print'; }

for kind in padded comments refused; do
  for n in 100000 1000000; do
    $kind $n >"$work/$n.gty"
    if [ "$kind" = refused ]; then
      wants 2 1 "$work/$n.gty" "$work/node.h"
      grep -q -x -F "$work/$n.gty:$n: fault 25 ScriptSyntax" "$work/out" || { cat "$work/out" >&2; exit 2; }
    else
      wants 0 0 "$work/$n.gty" "$work/node.h"
    fi
  done
  small=$(minus "$(seconds 5 "$program" "$work/100000.gty" "$work/node.h")" "$idle")
  large=$(minus "$(seconds 5 "$program" "$work/1000000.gty" "$work/node.h")" "$idle")
  row "lines of a script: $kind" 1000000 "$large" 'a tenth' "$small" 12
done
