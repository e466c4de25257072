#!/usr/bin/env bash
# Compares the table of refusals in docs/SCRIPT.md with what refusals_table prints from the definition, and shows where they differ; the
# status is 0 where they are the same. Run by hand, from any folder.
set -eu
root=$(cd "$(dirname "$0")/.." && pwd)
stored=$root/crates/refusals_table/stdout
first=$(head -n 1 "$stored")
awk -v first="    $first" '$0 == first { on = 1 } on && !/^    / { exit } on' "$root/docs/SCRIPT.md" | sed 's/^    //' | diff - "$stored"
