#!/usr/bin/env bash
# Makes blocks in pages and collects them, beside a small allocator in C with the same sizes, which keeps a bit for each place: a list of
# so many nodes of 24 bytes, and for each third node one more that names it and that nothing names. A collection is the mean of a hundred, after a first
# one, and the first one, which frees a quarter of the nodes, is timed by itself. The program does not know that a block starts at an address that it
# reads, so it marks the block that has the byte there. Then it says how many bytes the pages take, beyond those of the space, with a block of a page
# in each, with blocks of 8 bytes, and with blocks of 16 bytes after blocks of 8 bytes, which are freed.
# Run by hand, from any folder; the program around gt_pages is written and built in a copy of the crates that it needs.
. "$(dirname "$0")/shared.sh"
start_pages time_pages
cat >"$program/src/main.rt" <<'RT'
//! Makes nodes in pages and collects them. The arguments are `make`, `collect`, `pages`, `bytes`, `again` or `none`, and how many there are;
//! what is printed is how many blocks a collection keeps, or how many were made.
#![tactic(auto)]

use gt_pages::{Pages, SlotFail, rounded_size};
use gt_space::Space;
use std::alloc::{AllocError, Global};
use std::env;
use std::io;

/// How many pages the space has.
const PAGES: u32 = 16384;

fn put(space: &mut Space, addr: u64, value: u64) {
    if addr >= space.start() && addr < 4294967296 && addr + 8 <= space.start() + space.len() {
        space.write_u64(addr, value);
    }
}

// The two pointers of the node at an address.
#[inline(always)]
fn pointers(space: &Space, addr: u64) -> (u64, u64) {
    let addr = addr % 4294967296;
    if addr >= space.start() && addr + 16 <= space.start() + space.len() {
        return (space.read_u64(addr), space.read_u64(addr + 8));
    }
    (0, 0)
}

// Makes a block for so many bytes.
fn make_block(pages: &mut Pages, bytes: u32) -> Result<u64, SlotFail> {
    match rounded_size(bytes) {
        Some(size) => pages.alloc_slot(size),
        None => Err(SlotFail::Full),
    }
}

// A block of 32 bytes, which are zero, for a node of 24.
fn node(pages: &mut Pages, space: &mut Space, key: u64) -> u64 {
    let Ok(addr) = make_block(pages, 24) else {
        return 0;
    };
    let addr = addr % 4294967296;
    put(space, addr, 0);
    put(space, addr.wrapping_add(8), 0);
    put(space, addr.wrapping_add(16), key);
    put(space, addr.wrapping_add(24), 0);
    addr
}

fn make(pages: &mut Pages, space: &mut Space, n: u64) -> u64 {
    let mut last = 0;
    for i in 0..n {
        let next = node(pages, space, i);
        put(space, next, last);
        last = next;
        if i % 3 == 2 {
            let other = node(pages, space, 0);
            put(space, other.wrapping_add(8) % 4294967296, next);
        }
    }
    last
}

// Puts an address on the stack, unless it is null.
#[inline(always)]
fn push(stack: &mut Vec<u64>, addr: u64) -> Result<(), AllocError> {
    if addr != 0 {
        stack.push(addr)?;
    }
    Ok(())
}

// Marks what the list reaches, and frees the rest. A block is marked when it comes from the stack, to which then go its two pointers.
fn collect(
    alloc: Global,
    pages: &mut Pages,
    space: &Space,
    head: u64,
    most: u64,
) -> Result<u64, AllocError> {
    let mut stack = Vec::with_capacity(alloc, 64)?;
    let mut kept = 0u64;
    pages.clear_marks();
    push(&mut stack, head)?;
    for _ in 0..most.wrapping_mul(2) {
        let Some(addr) = stack.pop() else {
            break;
        };
        if pages.mark_owner(addr, 0, 1) == Some(true) {
            kept = kept.wrapping_add(1);
            let (next, other) = pointers(space, addr);
            push(&mut stack, next)?;
            push(&mut stack, other)?;
        }
    }
    pages.sweep();
    Ok(kept)
}

// So many collections, one after another.
fn collect_often(
    alloc: Global,
    pages: &mut Pages,
    space: &Space,
    head: u64,
    most: u64,
    times: u64,
) -> Result<u64, AllocError> {
    let mut kept = 0;
    for _ in 0..times {
        kept = collect(alloc, pages, space, head, most)?;
    }
    Ok(kept)
}

// As many blocks of a size as there is room for, but no more than so many.
fn fill(pages: &mut Pages, size: u32, most: u64) -> u64 {
    let mut made = 0u64;
    for _ in 0..most {
        match make_block(pages, size) {
            Ok(_) => made = made.wrapping_add(1),
            Err(SlotFail::Full) => return made,
            Err(SlotFail::Memory) => return 0,
        }
    }
    made
}

// Fills so many pages with blocks of 8 bytes, frees these, and fills as many pages with blocks of 16 bytes, which are marked.
fn refill(pages: &mut Pages, count: u64) -> u64 {
    let _ = fill(pages, 8, count.wrapping_mul(512));
    pages.sweep();
    let mut made = 0u64;
    for _ in 0..count.wrapping_mul(256) {
        let Ok(addr) = make_block(pages, 16) else {
            break;
        };
        pages.mark_owner(addr, 0, 1);
        made = made.wrapping_add(1);
    }
    made
}

// The same for so many pages, of which 64 at a time have the smaller blocks.
fn refill_all(pages: &mut Pages, count: u64) -> u64 {
    let mut made = 0u64;
    for _ in 0..count / 64 {
        made = made.wrapping_add(refill(pages, 64));
    }
    made
}

fn main(rt: HostRuntime) -> io::Result<()> {
    let alloc = rt.alloc();
    let mut words = env::args(&rt)?;
    let _ = words.next();
    let Some(what) = words.next() else {
        return Ok(());
    };
    let n = match words.next() {
        Some(word) => word.as_str().parse::<u64>().unwrap_or(0),
        None => 0,
    };
    let times = match words.next() {
        Some(word) => word.as_str().parse::<u64>().unwrap_or(1),
        None => 1,
    };
    if what.as_str() == "none" {
        return println!(rt; "0");
    }
    let mut pages = Pages::new(alloc, PAGES)?;
    let mut space = Space::empty(alloc);
    match what.as_str() {
        "pages" => return println!(rt; "{}", fill(&mut pages, 4096, n)),
        "bytes" => return println!(rt; "{}", fill(&mut pages, 8, n)),
        "again" => return println!(rt; "{}", refill_all(&mut pages, n)),
        _ => {}
    }
    space.resize_fresh(PAGES, 1)?;
    let head = make(&mut pages, &mut space, n);
    if what.as_str() != "collect" {
        return println!(rt; "{n}");
    }
    println!(rt; "{}", collect_often(alloc, &mut pages, &space, head, n, times)?)
}
RT
build_small
build_pages make 1
ours=$program/out/time_pages

# The seconds of making so many nodes, of the first collection of them, and of one more, which frees nothing.
makes() { minus "$(seconds 40 "$1" make "$2")" "$(seconds 40 "$1" make 0)"; }
frees() { minus "$(seconds 40 "$1" collect "$2" 1)" "$(seconds 40 "$1" make "$2")"; }
collects() { awk -v a="$(seconds 40 "$1" collect "$2" 101)" -v b="$(seconds 40 "$1" collect "$2" 1)" 'BEGIN { printf "%.9f\n", (a - b) / 100 }'; }
for n in 100000 1000000; do
  for what in make collect; do
    [ "$("$ours" $what $n)" = "$("$work/small" $what $n)" ] || { echo "$what $n: other answers" >&2; exit 2; }
  done
  row 'nodes made' $n "$(makes "$ours" $n)" 'in C' "$(makes "$work/small" $n)" 3
  row 'nodes kept, and a third as many freed' $n "$(frees "$ours" $n)" 'in C' "$(frees "$work/small" $n)" 3
  row 'nodes in pages that are collected' $n "$(collects "$ours" $n)" 'in C' "$(collects "$work/small" $n)" 3
done
# The bytes that each of 16,384 pages takes, beyond what a run has that does nothing: at most 256 a page, and 16 for each of its places.
none=$(most_memory "$ours" none 0)
a_page() { awk -v a="$(most_memory "$ours" "$@")" -v b="$none" 'BEGIN { print (a - b) / 16 }'; }
amount 'a page with one block' 16384 "$(a_page pages 16384)" bytes 'at most' 272 1
amount 'a page with 512 blocks' 16384 "$(a_page bytes 8388608)" bytes 'at most' 8448 1
[ "$("$ours" again 16384)" = 4194304 ] || { echo 'again 16384: other answers' >&2; exit 2; }
amount 'a page with 256 blocks that had 512' 16384 "$(a_page again 16384)" bytes 'at most' 4352 1
