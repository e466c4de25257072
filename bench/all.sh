#!/usr/bin/env bash
# Runs all benches one after another, and prints one table: a row for each time or amount that was measured, with the one that stands beside it, their
# ratio and the most that it should be; `above` marks what is more. At the end it says how many benches failed. Run by hand, on a machine that does
# nothing else, after ./gtyheap; it takes long where the crates are not proved yet, since some benches build a program over them.
set -u
folder=$(cd "$(dirname "$0")" && pwd)
failed=0
printf '%-14s%-40s %10s %12s %-5s %-26s %12s %7s %5s\n' bench what size amount unit beside amount ratio most
for path in "$folder"/*.sh; do
  name=$(basename "$path" .sh)
  case $name in all | shared) continue ;; esac
  bash "$path" 2>&1 | sed "s/^/$(printf '%-14s' "$name")/"
  [ "${PIPESTATUS[0]}" = 0 ] || failed=$((failed + 1))
done
echo "$failed failed"
