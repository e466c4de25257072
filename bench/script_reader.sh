#!/usr/bin/env bash
# Reads scripts of 1,000,000 lines `set $a.f $b` and of a tenth, and of lines with 30,000 names in turn, with the reader of gt_script and with a small
# one in C, which cuts lines into words and interns the names. Neither program frees the commands that it has read. Then it reads scripts that are made
# to take memory, beside what is allowed: eight times the bytes of the script and 64 MiB. Run by hand, from any folder. The program around gt_script is
# written and built in a copy of the crates that it needs.
. "$(dirname "$0")/shared.sh"
mkdir -p "$work/crates/read_script/src"
copy_crates gt_types gt_text gt_split gt_script
echo 'read_script: gt_types gt_script' >>"$work/crates.txt"
cat >"$work/crates/read_script/src/main.rt" <<'RT'
//! Reads a script and says how many commands it has.
#![tactic(auto)]
use gt_script::{ScriptStop, parse_script};
use gt_types::Bytes;
use std::io;
use std::io::Read;
use std::mem;

fn main(rt: HostRuntime) -> io::Result<()> {
    let alloc = rt.alloc();
    let mut text = Vec::new(alloc);
    rt.stdin().read_to_end(&mut text)?;
    if text.len() >= 1 << 32 {
        return Ok(());
    }
    match parse_script(alloc, Bytes::from_vec(text)) {
        Ok(lines) => {
            let count = lines.len();
            mem::forget(lines);
            println!(rt; "{count} commands")
        }
        Err(ScriptStop::Memory) => println!(rt; "out of memory"),
        Err(ScriptStop::ScriptSyntax { line }) => println!(rt; "line {line} refused"),
        Err(ScriptStop::ScriptTooLong) => println!(rt; "too long"),
    }
}
RT
cc -O2 -o "$work/reader" "$root/bench/reader.c"
build_copied gt_types gt_text gt_split gt_script
printf 'heap\n' >"$work/crates/read_script/stdin"
(cd "$work/crates/read_script" && quiet rt run)
program=$work/crates/read_script/out/read_script

# So many lines.
sets() { yes 'set $a.f $b' | head -n "$1" || true; }
# A form so many times, with the next name for each `N`, and after so many names the first again. The names have three letters, or as many as the
# fourth argument says; all names of three letters are 210,357.
named() {
  awk -v form="$1" -v times="$2" -v names="$3" -v letters="${4-3}" '
    function name(n, text, i) {
      n = at++ % names
      for (i = 1; i < letters; i++) { text = substr(all, n % 63 + 1, 1) text; n = int(n / 63) }
      return substr(all, n + 1, 1) text
    }
    BEGIN {
      all = "abcdefghijklmnopqrstuvwxyzABCDEFGHIJKLMNOPQRSTUVWXYZ_0123456789"
      count = split(form, part, "N")
      for (; times > 0; times--) { printf "%s", part[1]; for (i = 2; i <= count; i++) printf "%s%s", name(), part[i] }
    }'
}
# The seconds that a reader takes for the file `script`, from its start to its end.
read_script() {
  cp "$work/script" "$work/input"
  seconds 5 "$1"
}
# The same for so many lines.
read_lines() {
  sets "$2" >"$work/script"
  read_script "$1"
}
ours=$(read_lines "$program" 1000000)
row 'lines of a script read' 1000000 "$ours" 'a tenth' "$(read_lines "$program" 100000)" 12
row 'lines of a script read' 1000000 "$ours" 'in C' "$(read_lines "$work/reader" 1000000)" 2
named 'set $N.N $N\n' 1000000 30000 >"$work/script"
row 'lines of 30,000 names in turn read' 1000000 "$(read_script "$program")" 'in C' "$(read_script "$work/reader")" 2

# The KiB that the script in `input` takes, beside what is allowed.
memory() { amount "memory: $1" "$(wc -c <"$work/input")" "$(most_memory "$program")" KiB allowed "$(awk -v n="$(wc -c <"$work/input")" 'BEGIN { print 8 * n / 1024 + 65536 }')" 1; }
sets 1000000 >"$work/input"
memory 'set lines'
{ printf '@print $a'; yes .f | head -n 16777190 | tr -d '\n'; echo; } >"$work/input" || true
memory 'one long path'
yes '@print $a.f.f.f.f.f.f.f.f.f.f.f' | head -n 1000000 >"$work/input" || true
memory 'paths of eleven steps'
{ yes 'a ' | head -n 16777200 | tr -d '\n'; echo; } >"$work/input" || true
memory 'one line of many words'
{ printf '@print $a'; named .N 8388600 210357; echo; } >"$work/input"
memory 'one path over all names of three letters'
named '@print $N.N.N.N.N.N\n' 1000000 210357 >"$work/input"
memory 'paths over all names of three letters'
named 'set $N.N $N\n' 1000000 210357 >"$work/input"
memory 'set lines over all of them'
named 'load "N"\n' 1000000 210357 >"$work/input"
memory 'load lines over all of them'
named 'load "\\\\N"\n' 1000000 210357 >"$work/input"
memory 'load lines with an escape'
named 'string $a "N"\n' 1000000 210357 >"$work/input"
memory 'string lines over all of them'
{ printf '@print $a'; named .N 3355440 3355440 4; echo; } >"$work/input"
memory 'one path over names of four letters'
{ printf '@print $a'; named .N 3355440 300000 4; echo; } >"$work/input"
memory 'one path over 300,000 names in turn'
{ printf '@print $a'; named .N 2796200 2796200 5; echo; } >"$work/input"
memory 'one path over names of five letters'
{ printf '@print $a'; named .N 1677720 1677720 9; echo; } >"$work/input"
memory 'one path over names of nine letters'
named 'drop $N\n' 1000000 1000000 4 >"$work/input"
memory 'drop lines of names of four letters'
named 'drop $N\n' 1000000 1000000 9 >"$work/input"
memory 'drop lines of names of nine letters'
