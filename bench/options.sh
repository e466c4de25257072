#!/usr/bin/env bash
# Runs an empty script under headers with many options, and under a tenth of them: the program reads all of them and settles what they
# declare; `failing` and `again` alone have a fault. Run by hand, from any folder, after ./gtyheap. The tenth of the first row fits into the caches: on an
# idle machine 409, 1,024, 2,048 and 4,096 structures took 0.09, 0.28, 0.56 and 1.14 s, and 9.5 times as many instructions for ten times as many, on
# 1 December 2026.
. "$(dirname "$0")/shared.sh"
take_program

# So many structures with 30 pointers, each with a path to a length, which is a field more; 256 in a header.
paths() {
  awk -v n="$1" -v folder="$2" 'BEGIN {
    for (i = 0; i < n; i++) {
      header = folder "/" int(i / 256) ".h"
      print "struct GTY(()) s" i " {\n  int n;" >header
      for (k = 1; k <= 30; k++) print "  struct s" i " *GTY((length (\"%h.n\"))) f" k ";" >header
      print "};" >header
    }
  }'
}

# So many pointers, each with a length of 256 parts; 30 in a structure, 2,400 in a header.
parts() {
  awk -v n="$1" -v folder="$2" 'BEGIN {
    text = "-%h.n"
    for (k = 1; k < 64; k++) text = text "+%h.n"
    for (i = 0; i < n; i++) {
      header = folder "/" int(i / 2400) ".h"
      if (i % 30 == 0) print "struct GTY(()) s" int(i / 30) " {\n  int n;" >header
      print "  struct s" int(i / 30) " *GTY((length (\"" text "\"))) f" i % 30 ";" >header
      if (i % 30 == 29 || i == n - 1) print "};" >header
    }
  }'
}

# So many structures that contain one whose length begins at its container, or at the outermost structure.
contain() {
  awk -v n="$1" -v header="$2/0.h" -v base="$3" 'BEGIN {
    print "struct GTY(()) leaf { int k; };" >header
    print "struct GTY(()) in { int n; struct leaf *GTY((length (\"" base ".n\"))) b; };" >header
    for (i = 1; i <= n; i++) print "struct GTY(()) c" i " { int n; struct in f; };" >header
  }'
}
containers() { contain "$1" "$2" "%1"; }
outermost() { contain "$1" "$2" "%0"; }

# So many fields whose length begins at the container of their structure, in 1,000 containers, of which the last has a field of this name.
contained() {
  awk -v n="$1" -v header="$2/0.h" -v last="$3" 'BEGIN {
    print "struct GTY(()) leaf { int k; };" >header
    print "struct GTY(()) in {" >header
    for (k = 1; k <= n; k++) print "  struct leaf *GTY((length (\"%1.n\"))) f" k ";" >header
    print "};" >header
    for (i = 1; i <= 1000; i++) print "struct GTY(()) c" i " { int " (i < 1000 ? "n" : last) "; struct in f; };" >header
  }'
}
fields() { contained "$1" "$2" n; }
# The same where the path leads from each container but the last, which is 20 at each field.
failing() { contained "$1" "$2" m; }

# A structure with so many lengths, each at the end of another path from the outermost structure, in 3,900 containers.
products() {
  awk -v n="$1" -v header="$2/0.h" 'BEGIN {
    print "struct GTY(()) leaf { int k; };" >header
    print "struct GTY(()) counts {" >header
    for (k = 1; k <= n; k++) print "  int f" k ";" >header
    print "};\nstruct GTY(()) in {\n  struct counts s;" >header
    for (k = 1; k <= n; k++) print "  struct leaf *GTY((length (\"%0.s.f" k "\"))) b" k ";" >header
    print "};" >header
    for (i = 1; i <= 3900; i++) print "struct GTY(()) c" i " { struct counts s; struct in f; };" >header
  }'
}

# A structure with so many lengths, each at another path from the outermost structure, in 2,000 containers: each path goes through a structure
# of another type in each of them, which all hold the same one.
prefixes() {
  awk -v n="$1" -v header="$2/0.h" 'BEGIN {
    print "struct GTY(()) leaf { int k; };\nstruct GTY(()) h {" >header
    for (k = 1; k <= n; k++) print "  int b" k ";" >header
    print "};\nstruct GTY(()) x0 { struct h h; };\nstruct GTY(()) in {\n  struct x0 x;" >header
    for (k = 1; k <= n; k++) print "  struct leaf *GTY((length (\"%0.x.h.b" k "\"))) p" k ";" >header
    print "};" >header
    for (i = 1; i <= 2000; i++) {
      print "struct GTY(()) x" i " { struct h h; };" >header
      print "struct GTY(()) c" i " { struct x" i " x; struct in f; };" >header
    }
  }'
}

# So many structures in 30 layers, of which each holds one of the layer below, or two in the lower 15: half of them have a length from the
# outermost structure.
dense() {
  awk -v n="$1" -v header="$2/0.h" 'BEGIN {
    print "struct GTY(()) leaf { int k; };" >header
    wide = int(n / 30)
    for (i = 0; i < 30; i++) {
      for (j = 0; j < wide; j++) {
        text = "struct GTY(()) d" i "_" j " { int n;"
        if (j % 2 == 0) text = text " struct leaf *GTY((length (\"%0.n\"))) b;"
        if (i > 0) text = text " struct d" (i - 1) "_" j " f;"
        if (i > 0 && i < 15) text = text " struct d" (i - 1) "_" ((j + 1) % wide) " g;"
        print text " };" >header
      }
    }
  }'
}

# One field with so many options. The last of them is `skip`, which passes over those before it.
one_field() {
  awk -v n="$1" -v header="$2/0.h" -v last="$3" 'BEGIN {
    printf "struct GTY(()) s { struct s *GTY((" >header
    for (i = 1; i < n; i++) printf "maybe_undef, " >header
    print last ")) p; };" >header
  }'
}
skipped() { one_field "$1" "$2" skip; }
# The same without `skip`: each but the first stands there again, which is 17.
again() { one_field "$1" "$2" maybe_undef; }

# The seconds under so many of a kind, where the program ends with this fault, or without a word.
took() {
  local folder=$work/$1$2
  mkdir "$folder"
  "$1" "$2" "$folder"
  if [ -z "$3" ]; then
    wants 0 0 "$work/empty.gty" "$folder"/*.h
  else
    wants 2 1 "$work/empty.gty" "$folder"/*.h
    grep -q ": $3\$" "$work/out" || { cat "$work/out" >&2; exit 2; }
  fi
  minus "$(seconds 5 "$program" "$work/empty.gty" "$folder"/*.h)" "$idle"
  rm -r "$folder"
}
compare() {
  local small large words=${4-}
  small=$(took "$1" $(($2 / 10)) "$words")
  large=$(took "$1" "$2" "$words")
  row "$3" "$2" "$large" 'a tenth' "$small" 12
}
compare paths 4096 'structures of 30 paths'
compare parts 10000 'options of 256 parts'
compare containers 1000 'containers, a path from %1'
compare containers 4000 'containers, a path from %1'
compare outermost 4000 'containers, a path from %0'
compare products 1000 'paths from %0 in 3,900 containers'
compare prefixes 1000 'paths from %0 through 2,000 types'
compare dense 3900 'nested structures, paths from %0'
compare fields 1000 'fields in 1,000 containers'
compare failing 1000 'such fields with a bad path' 'fault 20 BadPath'
compare skipped 80000 'options of one field, passed over'
compare again 80000 'options of one field, each again' 'fault 17 WrongPlace'
