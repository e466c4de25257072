#!/usr/bin/env bash
# Prints the examples, and those of docs/HEADERS.md, as rows of the table of whole runs, crates/run_table/stdin, which ends with what this script
# prints: so the gate runs each example.
# examples/check.sh says whether the table still has them as they stand here.
cd "$(dirname "$0")" || exit 2

file() {
  printf 'file %s\n' "$1"
  sed 's/^$/|/; t; s/^/| /' "$1"
}

# The row of NAME.gty under headers, with its status.
row() {
  local name=$1 status=$2 header
  shift 2
  printf '\n# The example %s.\nwords --space 64 %s.gty %s\n' "$name" "$name" "$*"
  file "$name.gty"
  for header in "$@"; do file "$header"; done
  printf 'status %s\noutput\n' "$status"
  sed 's/^$/|/; t; s/^/| /' "$name.out"
}

printf '# The examples, as examples/rows.sh prints them.\n'
# The file list has a line for each example: its name, its status, and its headers.
while read -ra words; do row "${words[@]}"; done <list

# The table of options in docs/HEADERS.md: each header without a fault, and each with one and what is printed for it.
printf '\n# An example of each option, and of a fault, as docs/HEADERS.md has them.\n'
awk -F ' [|] ' -v quote='`' '
  function text(cell) { gsub(quote, "", cell); return cell }
  function print_row(shows, header, status, printed) {
    printf "\n# The option %s, %s.\nwords s h.h\nfile s\nfile h.h\n| %s\nstatus %s\noutput\n", name, shows, text(header), status
    if (printed != "") printf "| %s\n", printed
  }
  /^[|] `[a-z_]+` [|] `/ && $4 ~ /^`h\.h:/ {
    printed = $4
    sub(/ [|]$/, "", printed)
    name = substr(text($1), 3)
    print_row("without a fault", $2, 0, "")
    print_row("with one", $3, 2, text(printed))
  }' ../docs/HEADERS.md
