#!/usr/bin/env bash
# Draws the heap as a script leaves it: runs SCRIPT under HEADERs and writes a picture for Graphviz, a digraph with
# - a box for each object to which a variable of the script or a root leads: its type, its address, and the variables that name it;
# - an arrow for each pointer in one, with the name of its field, and for each root;
# - a dashed border around what no root reaches, which `collect force` would free; and below, what `heap` answers.
# It needs bash, awk and the program: ./gtyheap, or the one that GTYHEAP names. SCRIPT is left as it is: the lines that ask are added to
# a copy of it, and bind variables of their own, `$_picture1` and so on. The copy is run twice for each step by which objects are away
# from the variables and roots of SCRIPT, so this is for small heaps.
#
#     examples/picture.sh examples/tree.gty examples/tree.h examples/scope.h >tree.dot
#     dot -Tsvg tree.dot >tree.svg
set -eu
[ $# -ge 2 ] || { echo 'picture.sh SCRIPT HEADER..' >&2; exit 2; }
program=${GTYHEAP:-$(cd "$(dirname "$0")/.." && pwd)/gtyheap}
script=$1
shift
headers=("$@")
work=$(mktemp -d)
trap 'rm -rf "$work"' EXIT

# Runs a script. A refusal of a command, status 1, is an answer too; where no command runs, the reason is shown.
answers() {
  local status=0
  "$program" "$1" "${headers[@]}" >"$2" || status=$?
  [ "$status" -le 1 ] || { cat "$2" >&2; exit 2; }
}
answers "$script" "$work/own"
own=$(wc -l <"$work/own")

# What is asked first: the block of each variable of the script, and what each name that may be a root points to.
awk '
  { verb = $1; sub(/^@/, "", verb); path = verb == "get" ? $3 : $2 }
  (verb == "new" || verb == "get") && !asked[$2]++ { print "get " $2 " " $2 }
  (verb == "set" || verb == "get" || verb == "print") && path !~ /^\$/ {
    sub(/[.[].*/, "", path)
    if (!asked[path]++) { print "get $_picture_" path " " path; print "print " path }
  }' "$script" >"$work/asked"

# Reads the lines that ask beside their answers. It writes what is still to be asked, or, with draw=1, the picture.
cat >"$work/picture.awk" <<'AWK'
function quoted(text) { gsub(/["\\]/, "\\\\&", text); return "\"" text "\"" }
# An object that a variable names.
function found(address, variable) { if (!(address in handle)) { at[++objects] = address; handle[address] = variable } block[variable] = address }
BEGIN {
  while ((getline line < asked) > 0) question[++questions] = line
  # The types as the script spells them, of variables that `get` never binds.
  while ((getline line < script) > 0) {
    split(line, word, " "); sub(/^@/, "", word[1])
    if (word[1] == "new") spelled[word[2]] = word[3]
    if (word[1] == "get") rebound[word[2]] = 1
  }
}
NR > questions { heap = heap $0 "\\l"; next }
{
  split(question[NR], word, " ")
  from = path = word[1] == "get" ? word[3] : word[2]
  sub(/\..*/, "", from)
  if (word[2] ~ /^\$_picture[1-9]/ && word[1] == "get") made++
}
/^error/ { next }
word[1] == "print" && path ~ /^\$/ { text = $0; gsub(/[{}]/, "", text); fields[block[path]] = text; next }
word[1] == "print" { if (/^&/) type[root[path]] = substr($0, 2); next }
path !~ /^\$/ { names[++roots] = path; if ($1 == "ref") { root[path] = $2; found($2, word[2]) } next }
path == from { found($2, path); called[$2] = called[$2] "\\n" path; if (!(path in rebound)) type_of_new[$2] = spelled[path]; next }
{ found($2, word[2]); target[block[from], substr(path, length(from) + 2)] = $2 }
END {
  for (i = 1; i <= objects; i++) {
    if (!(at[i] in fields)) { print "print " handle[at[i]]; continue }
    parts = split(fields[at[i]], part, ", ")
    for (k = 1; k <= parts; k++) {
      if (!(split(part[k], pair, "=&") == 2)) continue
      if (!((at[i], pair[1]) in target)) { print "get $_picture" ++made " " handle[at[i]] "." pair[1]; continue }
      to = target[at[i], pair[1]]
      type[to] = pair[2]
      leads[at[i], ++out[at[i]]] = to
      arrows = arrows "  " quoted(at[i]) " -> " quoted(to) " [label=" quoted(pair[1]) "]\n"
    }
  }
  if (!draw) exit
  for (r = 1; r <= roots; r++) if (names[r] in root) todo[++left] = root[names[r]]
  while (left) {
    address = todo[left--]
    if (reached[address]++) continue
    for (k = 1; k <= out[address]; k++) todo[++left] = leads[address, k]
  }
  print "digraph heap {\n  node [shape=box]\n  label=\"" heap "\""
  for (i = 1; i <= objects; i++) {
    name = at[i] in type ? type[at[i]] : type_of_new[at[i]]
    print "  " quoted(at[i]) " [label=\"" name "\\n" at[i] called[at[i]] "\"" (reached[at[i]] ? "" : " style=dashed") "]"
  }
  for (r = 1; r <= roots; r++) {
    print "  " quoted(names[r]) " [shape=plaintext]"
    if (names[r] in root) print "  " quoted(names[r]) " -> " quoted(root[names[r]])
  }
  printf "%s}\n", arrows
}
AWK
read_answers() { awk -v asked="$work/asked" -v script="$script" -v draw="$1" -f "$work/picture.awk" "$work/new"; }

# Asks until nothing new is found.
while true; do
  { cat "$script"; echo; cat "$work/asked"; echo heap; } >"$work/all"
  answers "$work/all" "$work/answered"
  tail -n "+$((own + 1))" "$work/answered" >"$work/new"
  read_answers 0 >"$work/more"
  [ -s "$work/more" ] || break
  cat "$work/more" >>"$work/asked"
done
read_answers 1
