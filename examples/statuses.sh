#!/usr/bin/env bash
# Runs the program so that it ends with each of its statuses, and says which it ended with: some of these runs no stored run can make, as
# an argument that is not UTF-8, a full disk, which /dev/full stands for, a pipe that nobody reads, with its signal ignored, and too little
# memory. The status of this script is 0 where all are as they should be. Run by hand, from any folder; GTYHEAP may name another program than
# ./gtyheap.
set -u
root=$(cd "$(dirname "$0")/.." && pwd)
work=$(mktemp -d)
trap 'rm -rf "$work"' EXIT
cd "$work" || exit 2
cp "$root/examples/node.h" node.h
yes 'print head' | head -n 100000 >many.gty
echo 'print head' >one.gty
echo 'print nothing' >refused.gty
echo 'print' >wrong.gty
echo 'struct GTY(()) node { struct nope *next; };' >fault.h
yes '' | head -c 33554433 >long.gty
# It is built here, where it is not yet; its answers are more than a pipe holds.
[ "$("${GTYHEAP:-$root/gtyheap}" many.gty node.h | wc -l)" = 100000 ] || { echo 'the program does not run' >&2; exit 1; }
program=${GTYHEAP:-$root/crates/gtyheap/out/gtyheap}
failed=0

# Says with which status a run ended, and which was wanted.
compare() {
  echo "$1: status $3"
  [ "$3" = "$2" ] || { echo "$1: status $2 was wanted" >&2; failed=1; }
}

# Runs the program under these arguments.
ends() {
  local name=$1 wanted=$2
  shift 2
  "$program" "$@" >answers
  compare "$name" "$wanted" $?
}

ends 'all answered' 0 one.gty node.h
ends 'a command refused' 1 refused.gty node.h
ends 'an unknown option' 2 --nothing one.gty node.h
ends 'an argument that is not UTF-8' 2 one.gty $'node\xff.h'
ends 'a fault of a header' 2 one.gty fault.h
ends 'a fault of the script' 2 wrong.gty node.h
ends 'a missing file' 3 one.gty missing.h
ends 'a folder' 3 one.gty .
ends 'a script that is too long' 3 long.gty node.h

"$program" many.gty node.h >/dev/full
compare 'a full disk' 4 $?
(
  trap '' PIPE
  "$program" many.gty node.h
  echo $? >status
) | true
compare 'a closed pipe' 4 "$(cat status)"
(
  ulimit -v 40000
  "$program" --space 16384 many.gty node.h >answers
  echo $? >status
)
compare 'too little memory' 9 "$(cat status)"
exit "$failed"
