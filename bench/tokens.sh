#!/usr/bin/env bash
# Cuts headers of 1 MB and of a tenth of that into tokens. Run by hand, from any folder. The program that reads them is written and built in a
# copy of the crates that it needs.
. "$(dirname "$0")/shared.sh"
mkdir -p "$work/crates/read_tokens/src"
copy_crates gt_types gt_text gt_io gt_lex
echo 'read_tokens: gt_types gt_io gt_lex' >>"$work/crates.txt"
cat >"$work/crates/read_tokens/src/main.rt" <<'END'
//! Says how many tokens the header `header.h` has.
#![tactic(auto)]

use gt_io::{Files, HostFiles};
use gt_lex::lex;
use gt_types::Word;
use std::process::ExitCode;

fn main(rt: HostRuntime) -> ExitCode {
    let alloc = rt.alloc();
    let Ok(name) = Word::of(alloc, "header.h") else {
        return ExitCode::from(9);
    };
    let mut files = HostFiles::new(rt);
    let Ok(Some(bytes)) = files.read(alloc, &name, 4000000) else {
        return ExitCode::from(3);
    };
    match lex(alloc, 0, bytes.as_slice()) {
        Ok(_) => ExitCode::from(0),
        Err(_) => ExitCode::from(2),
    }
}
END
build_copied gt_types gt_text gt_io gt_lex
echo >"$work/crates/read_tokens/header.h"
(cd "$work/crates/read_tokens" && quiet rt run)
program=$work/crates/read_tokens/out/read_tokens

# A header of so many bytes, the word again and again.
header() { yes "$2" | tr -d '\n' | head -c "$1"; }
tokens() { header "$1" 'int x; a->b += 0x1f * c.d [3]; '; }
comment() { printf '/*'; header "$1" 'a * b / c '; printf '*/'; }
line_comment() { printf '//'; header "$1" 'a * b / c '; }
literal() { printf '"'; header "$1" 'one long text '; printf '"'; }
identifier() { header "$1" 'name'; }
hashes() { header "$1" '#'; }
lines_of_hashes() { yes '#' | head -c "$1"; }
defines() { yes '#define N -5' | head -c "$1"; }

cd "$work"
: >header.h
idle=$(seconds 20 "$program")
for kind in tokens comment line_comment literal identifier hashes lines_of_hashes defines; do
  $kind 100000 >header.h
  small=$(minus "$(seconds 20 "$program")" "$idle")
  $kind 1000000 >header.h
  "$program"
  large=$(minus "$(seconds 20 "$program")" "$idle")
  row "bytes of $kind" 1000000 "$large" 'a tenth' "$small" 12
done
