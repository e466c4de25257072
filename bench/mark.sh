#!/usr/bin/env bash
# Marks and sweeps a list, a tree, eight arrays that name 1,000,000 blocks, levels of 67 blocks of which each leads to the next by its
# last pointer, and 2,000,000 links off the chain field; each beside a tenth of it. A collection is the mean of so many in one process, after a first
# one. Each tests before that blocks can be marked; a second process makes these tests alone, and their time is taken off. The list is timed beside a
# small allocator in C too, which walks by an explicit stack and keeps a bit for each place. A tenth of a heap may fit into the fast memory of a processor
# where all of it does not, so what is held to a ratio of 12 is the instructions, which are the same each time and are counted where valgrind is there.
# All runs have a stack of 16 MiB. Run by hand, from any folder; the program around gt_mark is written and built in a copy of the crates that it needs.
. "$(dirname "$0")/shared.sh"
crates="gt_types gt_unions gt_names gt_fields gt_layout gt_space gt_tree gt_value gt_walk gt_links gt_bits gt_entries gt_pages gt_mark sample_heap"
copy_crates $crates
program=$work/crates/time_mark
mkdir -p "$program/src"
echo 'time_mark: gt_types gt_walk sample_heap' >>"$work/crates.txt"
cat >"$program/src/main.rt" <<'RT'
//! Makes a heap, and marks and sweeps it. The arguments are `check` or `collect`, the shape of the heap, how many blocks it has, and how
//! many times this is done; what is printed is whether blocks can be marked, or how many blocks the last collection freed and how many rounds
//! the marker needed.
#![tactic(auto)]

use gt_types::{Boxed, List};
use gt_walk::{Count, Tables, WalkRow};
use sample_heap::SampleHeap;
use std::alloc::{AllocError, Global};
use std::env;
use std::io;

const NODE: u32 = 0;
const POINTER: u32 = 1;
const LEAF: u32 = 2;
const LEVEL: u32 = 3;

fn pointer(offset: u32, walk: u32, count: u32) -> WalkRow {
    WalkRow::Ptr {
        offset,
        walk,
        count: Count::Fixed(count),
        reorder: false,
    }
}

fn walk(alloc: Global, size: u32, chain: Option<u32>) -> Result<List<WalkRow>, AllocError> {
    let mut rows = List::new(alloc);
    rows.push(WalkRow::Note { size, chain })?;
    Ok(rows)
}

// The walks: a node with a chain pointer and another one, a pointer to a node, a leaf, and a level of 65 leaves and the next level.
fn tables(alloc: Global, node_bytes: u32) -> Result<Tables, AllocError> {
    let mut walks = List::new(alloc);
    let mut node = walk(alloc, node_bytes, Some(0))?;
    node.push(pointer(0, NODE, 1))?;
    node.push(pointer(8, NODE, 1))?;
    walks.push(node)?;
    let mut array = walk(alloc, 8, None)?;
    array.push(pointer(0, NODE, 1))?;
    walks.push(array)?;
    let mut leaf = walk(alloc, 8, None)?;
    leaf.push(pointer(0, LEAF, 1))?;
    walks.push(leaf)?;
    let mut level = walk(alloc, 528, None)?;
    level.push(WalkRow::Rep {
        offset: 0,
        n: 65,
        size: 8,
        elem: Boxed::new(alloc, pointer(0, LEAF, 1))?,
    })?;
    level.push(pointer(520, LEVEL, 1))?;
    walks.push(level)?;
    Ok(Tables {
        walks,
        roots: List::new(alloc),
        deletable: List::new(alloc),
        caches: List::new(alloc),
    })
}

// A block; 0 where there is no room for it.
fn make(heap: &mut SampleHeap, walk: u32, count: u32) -> Result<u64, AllocError> {
    Ok(heap.make(walk, count)?.unwrap_or(0))
}

// A list by the pointer at an offset, and for each third node, where this is asked for, one more that names it and that nothing names.
fn list(heap: &mut SampleHeap, n: u64, offset: u64, others: bool) -> Result<u64, AllocError> {
    let mut last = 0;
    for i in 0..n {
        let node = make(heap, NODE, 1)?;
        heap.put(node.saturating_add(offset), last);
        last = node;
        if others && i % 3 == 2 {
            let other = make(heap, NODE, 1)?;
            heap.put(other.saturating_add(8), node);
        }
    }
    Ok(last)
}

// A complete tree, node i of which has the nodes 2i + 1 and 2i + 2 below it.
fn tree(alloc: Global, heap: &mut SampleHeap, n: u64) -> Result<u64, AllocError> {
    let mut nodes = Vec::new(alloc);
    for _ in 0..n {
        nodes.push(make(heap, NODE, 1)?)?;
    }
    for (i, node) in nodes.iter().enumerate() {
        let below = i.saturating_mul(2);
        let left = nodes.get(below.saturating_add(1)).copied().unwrap_or(0);
        let right = nodes.get(below.saturating_add(2)).copied().unwrap_or(0);
        heap.put(*node, left);
        heap.put(node.saturating_add(8), right);
    }
    Ok(nodes.first().copied().unwrap_or(0))
}

// Eight arrays of pointers, since one block has at most 1 MiB. They are marked one after another.
fn arrays(alloc: Global, heap: &mut SampleHeap, n: u64) -> Result<Vec<u64>, AllocError> {
    let mut arrays = Vec::new(alloc);
    for _ in 0..8 {
        let array = make(heap, POINTER, (n / 8 % 4294967296) as u32)?;
        for i in 0..n / 8 {
            let node = make(heap, NODE, 1)?;
            heap.put(array.saturating_add(i.saturating_mul(8)), node);
        }
        arrays.push(array)?;
    }
    Ok(arrays)
}

// Levels, each with 65 leaves and the next level, which lies below it.
fn levels(heap: &mut SampleHeap, n: u64) -> Result<u64, AllocError> {
    let mut last = 0;
    for _ in 0..n / 67 {
        let level = make(heap, LEVEL, 1)?;
        for i in 0..65u64 {
            let leaf = make(heap, LEAF, 1)?;
            heap.put(level.saturating_add(i.saturating_mul(8)), leaf);
        }
        heap.put(level.saturating_add(520), last);
        last = level;
    }
    Ok(last)
}

// The blocks from which a heap of a shape is marked.
fn shape(alloc: Global, heap: &mut SampleHeap, what: &str, n: u64) -> Result<Vec<u64>, AllocError> {
    let mut starts = Vec::new(alloc);
    match what {
        "list" => starts.push(list(heap, n, 0, true)?)?,
        "links" => starts.push(list(heap, n, 8, false)?)?,
        "tree" => starts.push(tree(alloc, heap, n)?)?,
        "levels" => starts.push(levels(heap, n)?)?,
        "arrays" => return arrays(alloc, heap, n),
        _ => {}
    }
    Ok(starts)
}

// Tests so many times whether blocks can be marked from these.
fn check(heap: &SampleHeap, starts: &[u64], times: u64) -> bool {
    let mut can = true;
    for _ in 0..times {
        can = heap.can_mark(starts);
    }
    can
}

// So many collections, one after another: how many blocks the last one freed, and its rounds.
fn collect(heap: &mut SampleHeap, starts: &[u64], times: u64) -> Option<(u32, u32)> {
    let mut last = (0, 0);
    for _ in 0..times {
        heap.clear_marks();
        let rounds = heap.mark_each(starts)?;
        last = (heap.sweep(), rounds);
    }
    Some(last)
}

fn main(rt: HostRuntime) -> io::Result<()> {
    let alloc = rt.alloc();
    let mut words = env::args(&rt)?;
    let _ = words.next();
    let (Some(mode), Some(what), Some(count), Some(times)) =
        (words.next(), words.next(), words.next(), words.next())
    else {
        return Ok(());
    };
    let n = count.as_str().parse::<u64>().unwrap_or(0);
    let times = times.as_str().parse::<u64>().unwrap_or(1);
    let node_bytes = if what.as_str() == "list" { 24 } else { 16 };
    let mut heap = SampleHeap::new(alloc, tables(alloc, node_bytes)?, 16384)?;
    let starts = shape(alloc, &mut heap, what.as_str(), n)?;
    if mode.as_str() != "collect" {
        return println!(rt; "{}", check(&heap, &starts, times));
    }
    match collect(&mut heap, &starts, times) {
        Some((freed, rounds)) => println!(rt; "freed {freed} rounds {rounds}"),
        None => println!(rt; "cannot be marked"),
    }
}
RT
build_small
: >"$program/stdin"
build_copied $crates
(cd "$program" && quiet rt run -- check list 1 1)
ours=$program/out/time_mark
ulimit -s 16384

# The seconds of one time more of what a command does so many times: the mean of ten, after a first one.
each() { awk -v a="$(seconds 7 "$@" 11)" -v b="$(seconds 7 "$@" 1)" 'BEGIN { printf "%.9f\n", (a - b) / 10 }'; }
# The seconds of a collection of a shape.
collects() { minus "$(each "$ours" collect "$@")" "$(each "$ours" check "$@")"; }
# The instructions of one time more, and those of a collection of a shape.
more_instructions() { awk -v a="$(instructions "$ours" "$@" 2)" -v b="$(instructions "$ours" "$@" 1)" 'BEGIN { printf "%d\n", a - b }'; }
counted() { minus "$(more_instructions collect "$@")" "$(more_instructions check "$@")"; }
for shape in list tree arrays levels links; do
  most=1000000
  [ $shape != links ] || most=2000000
  "$ours" collect $shape $most 1 | grep -q '^freed' || { echo "$shape: cannot be marked" >&2; exit 2; }
  row "marked and swept: $shape" $most "$(collects $shape $most)" 'a tenth' "$(collects $shape $((most / 10)))"
  if command -v valgrind >/dev/null; then
    amount "marked and swept: $shape" $most "$(counted $shape $most)" instr 'a tenth' "$(counted $shape $((most / 10)))" 12
  fi
done
for n in 100000 1000000; do
  row 'marked and swept: list' $n "$(collects list $n)" 'in C' "$(each "$work/small" collect $n)" 3
done
