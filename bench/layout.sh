#!/usr/bin/env bash
# Lays out 4,090 structures of 1,024 fields, and a tenth of them; and a chain of 32 structures one inside another beside 32 of which none contains
# another. Reading the program is a part of each time. Run by hand, from any folder; the program is crates/layout_table, which is built first.
. "$(dirname "$0")/shared.sh"
(cd "$root/crates/layout_table" && quiet rt run </dev/null)
table=$root/crates/layout_table/out/layout_table

rows() { # structures fields
  awk -v structures="$1" -v fields="$2" 'BEGIN {
    print "# many fields"
    for (s = 0; s < structures; s++) {
      print "struct s" s " -"
      for (f = 0; f < fields; f++) print "field f" f (f % 3 ? " bits u4 5 always" : " u2 always")
    }
    print "layout 0 0"
    print ""
  }' >"$work/input"
}

chain() { # depth fields
  awk -v depth="$1" -v fields="$2" 'BEGIN {
    print "# a chain"
    for (s = 0; s < depth; s++) {
      print "struct s" s " -"
      for (f = 0; f < fields; f++) print "field f" f (s ? " node s" (s - 1) " - always" : " u1 always")
    }
    print "layout 0 0"
    print ""
  }' >"$work/input"
}

rows 409 1024
small=$(seconds 5 "$table")
rows 4090 1024
large=$(seconds 5 "$table")
row 'structures of 1,024 fields' 4090 "$large" 'a tenth' "$small" 12
rows 32 1024
apart=$(seconds 9 "$table")
chain 32 1024
row 'structures of 1,024 fields in a chain' 32 "$(seconds 9 "$table")" 'apart' "$apart"
