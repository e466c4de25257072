#!/usr/bin/env bash
# Times writes of one leaf in place, by the program leaf_table, which is built first: elements of the array at the end of a structure, once of 64
# elements and once of 65,536, each write at another one, spread over the array; and a number of which expressions read the field from another structure,
# so that the ways to it are looked up, beside one that no expression reads. The time of a run without a write is taken off. A write takes O(path), whatever
# the size of the block. Run by hand, from any folder.
. "$(dirname "$0")/shared.sh"
(cd "$root/crates/leaf_table" && quiet rt run </dev/null)
cp "$root/crates/leaf_table/out/leaf_table" "$work/leaf_table"

# The seconds that so many writes take in an array of so many elements.
writes() {
  local all none
  printf 'spread 0 %d vecb %d 1=%d at 2.0=5 -> written\n' "$2" "$2" "$2" >"$work/input"
  none=$(seconds 5 "$work/leaf_table")
  printf 'spread %d %d vecb %d 1=%d at 2.0=5 -> written\n' "$1" "$2" "$2" "$2" >"$work/input"
  all=$(seconds 5 "$work/leaf_table")
  grep -q ', 0 differ' "$work/out" || { head -c 300 "$work/out" >&2; exit 2; }
  minus "$all" "$none"
}
small=$(writes 100000 65536)
large=$(writes 1000000 65536)
row 'writes in an array of 65,536' 1000000 "$large" 'a tenth' "$small" 12
row 'writes in an array of 65,536' 1000000 "$large" 'in an array of 64' "$(writes 1000000 64)" 2

# The seconds that so many writes take of the leaf that the rest of a row names.
leaf_writes() {
  local all none
  echo "times 0 $2 -> written" >"$work/input"
  none=$(seconds 5 "$work/leaf_table")
  echo "times $1 $2 -> written" >"$work/input"
  all=$(seconds 5 "$work/leaf_table")
  grep -q ', 0 differ' "$work/out" || { head -c 300 "$work/out" >&2; exit 2; }
  minus "$all" "$none"
}
elsewhere='twin 0 0.0=3 2=@768 at 1.0=7'
small=$(leaf_writes 100000 "$elsewhere")
large=$(leaf_writes 1000000 "$elsewhere")
row 'writes of what is read elsewhere' 1000000 "$large" 'a tenth' "$small" 12
row 'writes of what is read elsewhere' 1000000 "$large" 'of what is never read' "$(leaf_writes 1000000 'item 0 at 0=-2')"
