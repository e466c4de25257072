#!/usr/bin/env bash
# Runs each example under its headers, and compares what it prints with NAME.out beside it, and its status; and compares the picture of
# the first one with tree.dot. Then it looks whether the table of whole runs, by which the gate runs each example, has them as they stand here. The status of
# this script is 0 where all are as they should be. Run by hand, from any folder. GTYHEAP may name another program, by a whole path, than ./gtyheap, which
# proves and builds what it needs first.
set -u
cd "$(dirname "$0")" || exit 2
export GTYHEAP=${GTYHEAP:-$PWD/../gtyheap}
answers=$(mktemp)
trap 'rm -f "$answers"' EXIT
failed=0

# Runs NAME.gty under headers, and wants this status.
example() {
  local name=$1 wanted=$2 status
  shift 2
  "$GTYHEAP" "$name.gty" "$@" >"$answers"
  status=$?
  if diff "$name.out" "$answers" && [ "$status" = "$wanted" ]; then
    echo "$name: as it should be"
  else
    echo "$name: differs, status $status where $wanted was wanted"
    failed=1
  fi
}

# The file list has a line for each example: its name, its status, and its headers.
while read -ra words; do example "${words[@]}"; done <list
./picture.sh tree.gty tree.h scope.h | diff tree.dot - && echo 'the picture of tree: as it should be' || failed=1
rows=$(./rows.sh)
[ "$(tail -n "$(wc -l <<<"$rows")" ../crates/run_table/stdin)" = "$rows" ] && echo 'the rows of the examples: as they should be' || failed=1
exit "$failed"
