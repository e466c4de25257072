#!/usr/bin/env bash
# Times single calls of the pages in a space of 16,384 pages: Full where all pages are full, and where every second one is free and the block wants two;
# a pass of `next_marked` over all marks; `owner`, `mark` and `marked` in an image of 29 runs, one for each size, beside the same calls in pages, where
# `mark` and `marked` are each asked after `owner`; `sweep` and `clear_marks` with 16 pages in use, beside the same with all pages in use. Run by hand,
# from any folder; the program around gt_pages is written and built in a copy of the crates that it needs.
. "$(dirname "$0")/shared.sh"
start_pages time_calls
mkdir -p "$program/proofs/mark_at" "$program/proofs/marked_at"
cp -R "$root/crates/pages_table/proofs/"{Runs.antt,images,sizes} "$program/proofs"
cp "$root/crates/pages_table/src/"{images.rt,sizes.rt} "$program/src"
find "$program/proofs" -name '*.antt' -exec sed -i 's/Rattle\.pages_table\./Rattle.time_calls./' {} +
echo 'mod Runs' >>"$program/proofs/Lib.antt"
cat >"$program/proofs/mark_at/Answers.antt" <<'END'
use Rattle.std.proofs.Common.{sym, ◌∙◌}
use Rattle.time_calls.proofs.Found.{owner_starts}
use Rattle.time_calls.proofs.mark_at.Goals as goal

pub mark-requires : goal.mark-requires
mark-requires c = record { start = owner_starts c.args.pages.now.slots c.args.byte c.in-Some.start c.in-Some._size (sym c.owner.ensures.owner ∙ c.in-Some.is) }
END
cat >"$program/proofs/marked_at/Answers.antt" <<'END'
use Rattle.std.proofs.Common.{sym, ◌∙◌}
use Rattle.time_calls.proofs.Found.{owner_starts}
use Rattle.time_calls.proofs.marked_at.Goals as goal

pub marked-requires : goal.marked-requires
marked-requires c = record { start = owner_starts c.args.pages.now.slots c.args.byte c.in-Some.start c.in-Some._size (sym c.owner.ensures.owner ∙ c.in-Some.is) }
END
cat >"$program/src/main.rt" <<'RT'
//! Calls of the pages. The arguments are what is called, how many times, and how many blocks or pages there are; what is printed is how many of the calls
//! gave what was asked for.
#![tactic(auto)]

mod images;
mod sizes;

use gt_pages::{Pages, Run, SIZES, SlotFail, rounded_size};
use gt_space::{HEAP_START, PAGE_BYTES};
use images::{are_runs, pages_for};
use std::alloc::{AllocError, Global};
use std::env;
use std::io;

/// How many pages the space has.
const PAGES: u32 = 16384;

/// How many bytes the image has at the least.
const IMAGE_BYTES: u64 = 0x100_0000;

// Makes a block for so many bytes.
fn make_block(pages: &mut Pages, bytes: u32) -> Result<u64, SlotFail> {
    match rounded_size(bytes) {
        Some(size) => pages.alloc_slot(size),
        None => Err(SlotFail::Full),
    }
}

// So many blocks of a size, or as many as there is room for.
fn fill(pages: &mut Pages, bytes: u32, count: u64) {
    for _ in 0..count {
        if make_block(pages, bytes).is_err() {
            break;
        }
    }
}

// How many of so many blocks of a size get no place.
fn refused(pages: &mut Pages, bytes: u32, calls: u64) -> u64 {
    let mut refused = 0u64;
    for _ in 0..calls {
        if make_block(pages, bytes).is_err() {
            refused = refused.wrapping_add(1);
        }
    }
    refused
}

// Marks the block that has a byte.
fn mark_at(pages: &mut Pages, byte: u64) -> bool {
    match pages.owner(byte) {
        Some((start, _size)) => pages.mark(start, 0, 1),
        None => false,
    }
}

// Whether the block that has a byte is marked.
fn marked_at(pages: &Pages, byte: u64) -> bool {
    match pages.owner(byte) {
        Some((start, _size)) => pages.marked(start),
        None => false,
    }
}

// Byte number i of those that are asked for, somewhere in the first bytes of the heap.
fn byte(i: u64) -> u64 {
    HEAP_START.wrapping_add(i.wrapping_mul(4099) % IMAGE_BYTES)
}

// How many of so many bytes are of a block.
fn owners(pages: &Pages, calls: u64) -> u64 {
    let mut found = 0u64;
    for i in 0..calls {
        if pages.owner(byte(i)).is_some() {
            found = found.wrapping_add(1);
        }
    }
    found
}

// Marks the blocks of so many bytes, and says how many were not marked.
fn marks(pages: &mut Pages, calls: u64) -> u64 {
    let mut fresh = 0u64;
    for i in 0..calls {
        if mark_at(pages, byte(i)) {
            fresh = fresh.wrapping_add(1);
        }
    }
    fresh
}

// How many of so many bytes are of a marked block.
fn marked(pages: &Pages, calls: u64) -> u64 {
    let mut found = 0u64;
    for i in 0..calls {
        if marked_at(pages, byte(i)) {
            found = found.wrapping_add(1);
        }
    }
    found
}

// Marks the blocks with each byte so many bytes after the one before, from the start of the heap up to so many bytes.
fn mark_each(pages: &mut Pages, step: u64, bytes: u64) {
    let mut at = 0u64;
    for _ in 0..bytes {
        if at >= bytes {
            break;
        }
        mark_at(pages, HEAP_START.wrapping_add(at));
        at = at.wrapping_add(step);
    }
}

// How many marks a pass over all of them tells.
fn pass(pages: &Pages) -> u64 {
    let mut after = 0u64;
    let mut told = 0u64;
    for _ in 0..u64::MAX {
        let Some((addr, _walk, _count)) = pages.next_marked(after) else {
            break;
        };
        after = addr;
        told = told.wrapping_add(1);
    }
    told
}

// So many passes over all marks.
fn passes(pages: &Pages, times: u64) -> u64 {
    let mut told = 0u64;
    for _ in 0..times {
        told = told.wrapping_add(pass(pages));
    }
    told
}

// So many sweeps, and how many blocks these free.
fn sweeps(pages: &mut Pages, times: u64) -> u64 {
    let mut freed = 0u64;
    for _ in 0..times {
        freed = freed.wrapping_add(pages.sweep() as u64);
    }
    freed
}

// Takes all marks away so many times.
fn clears(pages: &mut Pages, times: u64) -> u64 {
    for _ in 0..times {
        pages.clear_marks();
    }
    times
}

// Eight blocks of each size, one run after another.
fn eight_of_each(alloc: Global) -> Result<Vec<Run>, AllocError> {
    let mut runs = Vec::new(alloc);
    for size in SIZES {
        runs.push(Run { size, count: 8 })?;
    }
    Ok(runs)
}

// Takes an image, where it has runs that an image may have, and says whether it did.
fn take_image(pages: &mut Pages, runs: &[Run]) -> Result<bool, AllocError> {
    if !are_runs(runs) {
        return Ok(false);
    }
    let Some(need) = pages_for(runs) else {
        return Ok(false);
    };
    match pages.fit(need, 0) {
        Ok(page) => {
            pages.take_image(page, runs)?;
            Ok(true)
        }
        Err(_) => Ok(false),
    }
}

// The calls of one word, in a space that is made for them.
fn run(pages: &mut Pages, what: &str, times: u64, count: u64) -> u64 {
    let page = PAGE_BYTES as u32;
    match what {
        "full" => {
            fill(pages, page, PAGES as u64);
            refused(pages, page, times)
        }
        "fragmented" => {
            fill(pages, page, PAGES as u64);
            mark_each(pages, 8192, 0x400_0000);
            pages.sweep();
            refused(pages, 8192, times)
        }
        "next" => {
            fill(pages, 32, count);
            mark_each(pages, 32, count.wrapping_mul(32));
            passes(pages, times)
        }
        "sweep" => {
            fill(pages, page, count);
            mark_each(pages, PAGE_BYTES, count.wrapping_mul(PAGE_BYTES));
            sweeps(pages, times)
        }
        "clear" => {
            fill(pages, page, count);
            clears(pages, times)
        }
        "owner" => owners(pages, times),
        "mark" => marks(pages, times),
        "marked" => marked(pages, times),
        _ => 0,
    }
}

// A number, or 0 where the argument is missing or is no number.
fn number(word: Option<String>) -> u64 {
    match word {
        Some(word) => word.as_str().parse::<u64>().unwrap_or(0),
        None => 0,
    }
}

fn main(rt: HostRuntime) -> io::Result<()> {
    let alloc = rt.alloc();
    let mut words = env::args(&rt)?;
    let _ = words.next();
    let Some(what) = words.next() else {
        return Ok(());
    };
    let times = number(words.next());
    let count = number(words.next());
    let mut pages = Pages::new(alloc, PAGES)?;
    match what.as_str() {
        "owner" | "mark" | "marked" => {
            if count == 0 {
                let runs = eight_of_each(alloc)?;
                take_image(&mut pages, &runs)?;
            } else {
                fill(&mut pages, 32, count);
            }
        }
        _ => {}
    }
    println!(rt; "{}", run(&mut pages, what.as_str(), times, count))
}
RT
build_pages none
ours=$program/out/time_calls

# The seconds of so many calls over so many blocks.
calls() { minus "$(seconds 5 "$ours" "$1" "$2" "${3:-0}")" "$(seconds 5 "$ours" "$1" 0 "${3:-0}")"; }
# Ends the bench where a run of these calls does not print what is wanted.
prints() {
  local wanted=$1
  shift
  [ "$("$ours" "$@")" = "$wanted" ] || { echo "$*: not $wanted" >&2; exit 2; }
}
prints 1000 full 1000
prints 1000 fragmented 1000
prints 200000 next 2 100000
prints 0 sweep 2 16
row 'Full, every second page free' 100000 "$(calls fragmented 100000)" 'all pages in use' "$(calls full 100000)" 3
row 'ten passes over all marks' 100000 "$(calls next 10 100000)" 'a tenth' "$(calls next 10 10000)" 12
# Half a million blocks of 32 bytes take as many bytes as the calls ask for.
for call in owner mark marked; do
  row "calls of $call in an image" 1000000 "$(calls $call 1000000)" 'in pages' "$(calls $call 1000000 524288)" 3
done
for call in sweep clear; do
  row "calls of $call, 16 pages in use" 10000 "$(calls $call 10000 16)" 'all pages in use' "$(calls $call 10000 16384)" 0.05
done
