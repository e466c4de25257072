#!/usr/bin/env bash
# Reads headers of about 1 MB and of a tenth of that up to their items. Run by hand, from any folder. The program that reads them is written and
# built in a copy of the crates that it needs.
. "$(dirname "$0")/shared.sh"
mkdir -p "$work/crates/read_items/src"
copy_crates gt_types gt_text gt_io gt_lex gt_expr gt_items gt_search gt_marked gt_parse
echo 'read_items: gt_types gt_io gt_lex gt_parse' >>"$work/crates.txt"
cat >"$work/crates/read_items/src/main.rt" <<'END'
//! Reads the header `header.h` up to its items.
#![tactic(auto)]
ghost use Rattle.std.specs.Prelude.{◌<◌, ◌^◌, length};

use gt_io::{Files, HostFiles};
use gt_lex::lex;
use gt_parse::parse;
use gt_types::Word;
use std::alloc::Global;
use std::process::ExitCode;

fn items(alloc: Global, text: &[u8]) -> ExitCode
    requires { length text.now < 2 ^ 32 }
{
    let Ok(lexed) = lex(alloc, 1, text) else {
        return ExitCode::from(2);
    };
    match parse(alloc, 1, text, &lexed) {
        Ok(_) => ExitCode::from(0),
        Err(_) => ExitCode::from(2),
    }
}

fn main(rt: HostRuntime) -> ExitCode {
    let alloc = rt.alloc();
    let Ok(name) = Word::of(alloc, "header.h") else {
        return ExitCode::from(9);
    };
    let mut files = HostFiles::new(rt);
    let Ok(Some(bytes)) = files.read(alloc, &name, 4000000) else {
        return ExitCode::from(3);
    };
    items(alloc, bytes.as_slice())
}
END
build_copied gt_types gt_text gt_io gt_lex gt_expr gt_items gt_search gt_marked gt_parse
echo >"$work/crates/read_items/header.h"
(cd "$work/crates/read_items" && quiet rt run)
program=$work/crates/read_items/out/read_items

# So many times the text, in which N is the number of the turn.
turns() { awk -v n="$1" -v text="$2" 'BEGIN { for (i = 1; i <= n; i++) { line = text; gsub(/N/, i, line); print line } }'; }
functions() { turns "$(($1 * 2500))" 'int fN (int x) { return x; }'; }
skipped() { turns "$(($1 * 6250))" 'x = y + z;'; }
deep() { awk -v n="$(($1 * 50000))" 'BEGIN { for (i = 0; i < n; i++) printf "("; for (i = 0; i < n; i++) printf ")"; print ";" }'; }
one_item() { turns "$(($1 * 6250))" 'x = (y + z),'; echo 'x;'; }
structure() { echo 'struct GTY(()) s {'; turns "$(($1 * 3200))" '  struct s *a, *bN[3];'; echo '};'; }
few_fields() { echo 'struct GTY(()) s {'; turns "$(($1 * 102))" '  struct s *GTY((length ("%h.n + %h.m"), skip)) fN;'; echo '};'; }
options() { echo 'struct GTY(()) s { int GTY((a'; turns "$(($1 * 6250))" ', b ("x" "y")'; echo ')) f; };'; }
structures() { turns "$(($1 * 2000))" 'struct GTY(()) sN { struct sN *next; };'; }
roots() { turns "$(($1 * 2000))" 'static GTY(()) struct s *rN[4] = { 0 };'; }
typedefs() { turns "$(($1 * 10000))" 'typedef int tN;'; }
opaque() { turns "$(($1 * 5000))" 'typedef int tN (int x);'; }
enumeration() { echo 'enum e {'; turns "$(($1 * 6250))" 'eN = 1 + 2,'; echo '};'; }
wrappers() { turns "$(($1 * 5000))" 'namespace n {'; turns "$(($1 * 5000))" '}'; }

cd "$work"
: >header.h
idle=$(seconds 9 "$program")
for kind in functions skipped deep one_item structure few_fields options structures roots typedefs opaque enumeration wrappers; do
  $kind 1 >header.h
  small=$(minus "$(seconds 9 "$program")" "$idle")
  $kind 10 >header.h
  "$program"
  large=$(minus "$(seconds 9 "$program")" "$idle")
  row "bytes of $kind" "$(wc -c <header.h)" "$large" 'a tenth' "$small" 12
done
