#!/usr/bin/env bash
# Writes the canonical text of a program of 4,090 structures of 1,024 fields, and of a tenth of them. Run by hand, from any folder. The program that does
# it is written and built in a copy of the crates that it needs.
. "$(dirname "$0")/shared.sh"
mkdir -p "$work/crates/write_canon/src"
copy_crates gt_types gt_digits gt_canon
echo 'write_canon: gt_types gt_canon' >>"$work/crates.txt"
cat >"$work/crates/write_canon/src/main.rt" <<'RT'
//! Makes a program of as many structures as the first line says, each of 1,024 fields, and as many canonical texts of it as the
//! second line says, which it keeps; then it prints how many bytes they have together.
#![tactic(auto)]

use gt_canon::canon;
use gt_types::{
    Active, Field, List, Program, Scalar, Structure, Ty, Width, Word,
};
use std::alloc::{AllocError, Global};
use std::io;

fn field(alloc: Global, i: u64) -> Result<Field, AllocError> {
    let name = format!(in alloc; "field{i}")?;
    Ok(Field {
        name: Word::of(alloc, name.as_str())?,
        ty: Ty::Num(Scalar::Int {
            width: Width::W4,
            signed: true,
        }),
        active: Active::Always,
    })
}

fn structure(alloc: Global, i: u64) -> Result<Structure, AllocError> {
    let name = format!(in alloc; "structure{i}")?;
    let mut fields = List::new(alloc);
    for k in 0..1024u64 {
        fields.push(field(alloc, k)?)?;
    }
    Ok(Structure {
        name: Word::of(alloc, name.as_str())?,
        is_union: false,
        desc: None,
        fields,
        chains: List::new(alloc),
    })
}

fn program(alloc: Global, count: u64) -> Result<Program, AllocError> {
    let mut structures = List::new(alloc);
    for i in 0..count {
        structures.push(structure(alloc, i)?)?;
    }
    Ok(Program {
        structures,
        roots: List::new(alloc),
        caches: List::new(alloc),
        words: List::new(alloc),
    })
}

fn texts(alloc: Global, count: u64, times: u64) -> Result<u64, AllocError> {
    let program = program(alloc, count)?;
    let mut texts = Vec::new(alloc);
    for _ in 0..times {
        texts.push(canon(alloc, &program)?)?;
    }
    let mut bytes = 0u64;
    for text in &texts {
        bytes = bytes.saturating_add(text.len() as u64);
    }
    Ok(bytes)
}

fn main(rt: HostRuntime) -> io::Result<()> {
    let mut count = 0u64;
    let mut times = 1u64;
    let mut words = 0u64;
    for line in rt.lines(rt.alloc()) {
        if let Ok(n) = line?.as_str().parse::<u64>() {
            if words == 0 {
                count = n;
            } else {
                times = n;
            }
            words = words.saturating_add(1);
        }
    }
    let bytes = texts(rt.alloc(), count, times)?;
    println!(rt; "{bytes}")
}
RT
build_copied gt_types gt_digits gt_canon
printf '1\n1\n' >"$work/crates/write_canon/stdin"
(cd "$work/crates/write_canon" && quiet rt run)
program=$work/crates/write_canon/out/write_canon

# The seconds of so many texts of so many structures, each, without those that the program of structures takes. All texts are kept, so that both sizes
# take as much new memory.
text() {
  local all none
  printf '%s\n0\n' "$1" >"$work/input"
  none=$(seconds 5 "$program")
  printf '%s\n%s\n' "$1" "$2" >"$work/input"
  all=$(seconds 5 "$program")
  awk -v a="$all" -v b="$none" -v n="$2" 'BEGIN { printf "%.6f\n", (a - b) / n }'
}
row 'canonical text, structures' 4090 "$(text 4090 2)" 'a tenth' "$(text 409 20)" 12
