#!/usr/bin/env bash
# Runs an empty script under headers that declare much, and under a tenth of that. Run by hand, from any folder, after ./gtyheap.
. "$(dirname "$0")/shared.sh"
take_program

# So many structures of 30 pointers to the next ones, 1,024 of them in a header.
structures() {
  awk -v n="$1" -v folder="$2" 'BEGIN {
    for (i = 0; i < n; i++) {
      header = folder "/" int(i / 1024) ".h"
      print "struct GTY(()) s" i " {" >header
      for (k = 1; k <= 30; k++) print "  struct s" (i + k) % n " *f" k ";" >header
      print "};" >header
    }
  }'
}
# A structure that points to what the last of so many typedefs means, each of which names the one before; 25,000 in a header.
chain() {
  awk -v n="$1" -v folder="$2" 'BEGIN {
    header = folder "/0.h"
    print "struct GTY(()) s { t" n " *next; };" >header
    print "typedef struct s t1;" >header
    for (i = 2; i <= n; i++) {
      header = folder "/" int((i - 1) / 25000) ".h"
      print "typedef t" i - 1 " t" i ";" >header
    }
  }'
}
# So many headers of 1 MB: 64 structures, and then functions with a typedef here and there.
headers() {
  awk -v n="$1" -v folder="$2" 'BEGIN {
    for (k = 1; k <= n; k++) {
      header = folder "/" k ".h"
      room = 1048576
      for (i = 1; room > 100; i++) {
        name = k "_" i
        line = "int f" name " (int x) { return x + " i "; }"
        if (i % 16 == 0) line = "typedef unsigned int t" name ";"
        if (i <= 64) line = "struct GTY(()) s" name " { struct s" name " *next; };"
        print line >header
        room -= length(line) + 1
      }
      close(header)
    }
  }'
}

# So many structures, each with the next by value, 20,000 in a header: they are refused, as 15 TooMany at the first tag.
deep() {
  awk -v n="$1" -v folder="$2" 'BEGIN {
    for (i = 0; i < n; i++) {
      header = folder "/" 100 + int(i / 20000) ".h"
      print i + 1 < n ? "struct GTY(()) s" i " { struct s" i + 1 " f; };" : "struct GTY(()) s" i " { int f; };" >header
    }
  }'
}

# The seconds under so many of a kind, which end with this status and so many lines.
took() {
  local folder=$work/$1$2
  mkdir "$folder"
  "$1" "$2" "$folder"
  wants "$3" "$4" "$work/empty.gty" "$folder"/*.h
  minus "$(seconds 5 "$program" "$work/empty.gty" "$folder"/*.h)" "$idle"
  rm -r "$folder"
}
compare() {
  local small large
  small=$(took "$1" $(($2 / 10)) "$4" "$5")
  large=$(took "$1" "$2" "$4" "$5")
  row "$3" "$2" "$large" 'a tenth' "$small" 12
}
compare structures 4090 'structures of 30 pointers' 0 0
compare chain 100000 'typedefs in a chain' 0 0
compare deep 100000 'structures one inside another, refused' 2 1
compare headers 60 'headers of 1 MB' 0 0
