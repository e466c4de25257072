#!/usr/bin/env bash
# Times visits of 1,000,000 nodes of two pointers beside two C loops over the same bytes: one calls a function through a
# pointer for each edge, as a sink is called, and the other adds each edge up in place, so that the compiler keeps the sum in a register. And
# visits of tails of 65,536 pointers, and of a tenth. Run by hand, from any folder. On 28 November 2026, before the walker's last change, the nodes
# took 1.1 to 1.4 times the loop that calls, and 5 to 7 times the other. The program that visits is proved and built in a copy of the crates that it needs.
. "$(dirname "$0")/shared.sh"
program=$work/crates/time_walks
mkdir -p "$program/src" "$program/proofs/visit_times"
crates="gt_types gt_unions gt_names gt_fields gt_layout gt_space gt_tree gt_value gt_walk"
copy_crates $crates
echo 'time_walks: gt_types gt_space gt_walk' >>"$work/crates.txt"
cat >"$program/proofs/visit_times/Answers.antt" <<'END'
use Rattle.gt_space.specs.declared.TheConstants.{HEAP_START}
use Rattle.gt_walk.specs.Rows.{Edge, edges_of}
use Rattle.gt_walk.proofs.Taking.{can-all}
use Rattle.time_walks.specs.declared.Sum.{Sum}
use Rattle.time_walks.proofs.visit_times.Goals as goal

pub visit-requires : goal.visit-requires
visit-requires c =
    record { can = can-all (λ (s : Sum) (e : Edge). Unit {0}) (λ (s : Sum) (e : Edge) (t : Sum). Unit {0}) (λ s e. tt) c.loop.sum (edges_of c.args.tables.now 0 c.args.count c.args.space.now HEAP_START); }
END
cat >"$program/src/main.rt" <<'END'
//! Visits nodes of two pointers, or a tail of pointers, so many times. The arguments are `nodes` or `tail`, how many there are, and how
//! many times; what is printed is the sum of the edges.
#![tactic(auto)]

use gt_space::{HEAP_START, Space};
use gt_types::{Base, Boxed, Expr, List};
use gt_walk::{Count, EdgeSink, Origin, RowExpr, RowLeaf, Tables, WalkRow, visit};
use std::alloc::{AllocError, Global};
use std::env;
use std::io;

// Adds edges up.
#[derive(Drop)]
struct Sum {
    sum: u64,
}

impl EdgeSink for Sum {
    ghost takes = { λ s e. Unit {0} };

    ghost leaves = { λ s e t. Unit {0} };

    fn edge(&mut self, place: u64, target: u64, walk: u32, count: u32) {
        self.sum = self
            .sum
            .wrapping_add(place ^ target)
            .wrapping_add(walk as u64 + count as u64);
    }
}

fn visit_times(tables: &Tables, space: &Space, count: u32, times: u64, sum: &mut Sum) {
    for _ in 0..times {
        visit(tables, 0, count, space, HEAP_START, sum);
    }
}

// Writes a pointer where there is room for it.
fn put(space: &mut Space, addr: u64, target: u64) {
    if addr >= space.start() && addr < 4294967296 && addr + 8 <= space.start() + space.len() {
        space.write_u64(addr, target);
    }
}

// A pointer of an object of 16 bytes, or null for each eighth.
fn target_of(i: u64, n: u64) -> u64 {
    if i % 8 == 7 || n == 0 {
        0
    } else {
        HEAP_START.wrapping_add((i.wrapping_mul(7919) % n).wrapping_mul(16))
    }
}

fn fill(space: &mut Space, n: u32) {
    for i in 0..n as u64 {
        put(space, HEAP_START + 16 + i * 8, target_of(i, n as u64));
    }
    put(space, HEAP_START, target_of(n as u64, n as u64));
}

fn pointer(offset: u32) -> WalkRow {
    WalkRow::Ptr {
        offset,
        walk: 0,
        count: Count::Fixed(1),
        reorder: false,
    }
}

fn length(alloc: Global) -> Result<RowExpr, AllocError> {
    let mut leaves = List::new(alloc);
    leaves.push(RowLeaf {
        origin: Origin::Inside(Base::Outermost),
        offset: 0,
        bit: 0,
        signed: false,
        width: 32,
    })?;
    Ok(RowExpr {
        expr: Expr::Root(0),
        leaves,
    })
}

fn tables(alloc: Global, tail: bool) -> Result<Tables, AllocError> {
    let mut rows = List::new(alloc);
    rows.push(WalkRow::Note {
        size: 16,
        chain: None,
    })?;
    if tail {
        rows.push(WalkRow::Tail {
            offset: 16,
            len: length(alloc)?,
            size: 8,
            elem: Boxed::new(alloc, pointer(0))?,
        })?;
    } else {
        rows.push(pointer(0))?;
        rows.push(pointer(8))?;
    }
    let mut walks = List::new(alloc);
    walks.push(rows)?;
    Ok(Tables {
        walks,
        roots: List::new(alloc),
        deletable: List::new(alloc),
        caches: List::new(alloc),
    })
}

fn number_of(word: Option<String>) -> u64 {
    match word {
        Some(word) => word.as_str().parse::<u64>().unwrap_or(0),
        None => 0,
    }
}

fn main(rt: HostRuntime) -> io::Result<()> {
    let mut words = env::args(&rt)?;
    let _ = words.next();
    let Some(kind) = words.next() else {
        return Ok(());
    };
    let tail = kind.as_str() == "tail";
    let n = number_of(words.next()).min(4000000) as u32;
    let times = number_of(words.next());
    let mut space = Space::empty(rt.alloc());
    space.resize_fresh(16384, 0)?;
    let pointers = if tail { n } else { n * 2 };
    fill(&mut space, pointers);
    if tail {
        put(&mut space, HEAP_START, n as u64);
    }
    let tables = tables(rt.alloc(), tail)?;
    let mut sum = Sum { sum: 0 };
    let count = if tail { 1 } else { n };
    visit_times(&tables, &space, count, times, &mut sum);
    println!(rt; "{}", sum.sum)
}
END
cat >"$work/walks.c" <<'END'
#include <stdint.h>
#include <stdio.h>
#include <stdlib.h>
#include <string.h>

#define START 0x10000000ull

static uint8_t *bytes;

static uint64_t load(uint64_t place) {
  uint64_t target;
  memcpy(&target, bytes + (place - START), 8);
  return target;
}

static uint64_t target_of(uint64_t i, uint64_t n) {
  return i % 8 == 7 || n == 0 ? 0 : START + (i * 7919 % n) * 16;
}

static void put(uint64_t place, uint64_t target) { memcpy(bytes + (place - START), &target, 8); }

typedef void sink(uint64_t place, uint64_t target, uint32_t walk, uint32_t count);

static uint64_t sum;

static void edge(uint64_t place, uint64_t target, uint32_t walk, uint32_t count) { sum += (place ^ target) + (walk + count); }

// The same through a pointer, as a walk calls back.
static sink *volatile chosen = edge;

static void each_inlined(uint64_t first, uint64_t pointers) {
  for (uint64_t i = 0; i < pointers; i++) {
    uint64_t place = first + i * 8, target = load(place);
    if (target) edge(place, target, 0, 1);
  }
}

static void each_called(uint64_t first, uint64_t pointers) {
  sink *edge = chosen;
  for (uint64_t i = 0; i < pointers; i++) {
    uint64_t place = first + i * 8, target = load(place);
    if (target) edge(place, target, 0, 1);
  }
}

int main(int argc, char **argv) {
  if (argc < 4) return 2;
  int tail = strcmp(argv[1], "tail") == 0;
  uint64_t n = strtoull(argv[2], 0, 10), times = strtoull(argv[3], 0, 10), pointers = tail ? n : 2 * n;
  bytes = calloc(16384, 4096);
  if (!bytes) return 2;
  for (uint64_t i = 0; i < pointers; i++) put(START + 16 + i * 8, target_of(i, pointers));
  put(START, target_of(pointers, pointers));
  if (tail) put(START, n);
  for (uint64_t t = 0; t < times; t++) {
    uint64_t first = tail ? START + 16 : START;
    if (argc > 4) each_called(first, pointers); else each_inlined(first, pointers);
    __asm__ volatile("" : : "r"(bytes) : "memory");
  }
  printf("%llu\n", (unsigned long long)sum);
  return 0;
}
END
cc -O2 -o "$work/walks" "$work/walks.c"
: >"$program/stdin"
build_copied $crates
(cd "$program" && quiet rt run -- nodes 1 1)
visit=$program/out/time_walks
for words in 'nodes 1000000 3' 'tail 65536 3'; do
  # shellcheck disable=SC2086
  [ "$("$visit" $words)" = "$("$work/walks" $words)" ] || { echo "$words: the sums differ" >&2; exit 2; }
done

# The seconds of one of so many visits, without those of a run that visits nothing.
one() {
  local visits=$1
  shift
  awk -v a="$(seconds 9 "$@" "$visits" ${called-})" -v b="$(seconds 9 "$@" 0 ${called-})" -v n="$visits" 'BEGIN { printf "%.9f\n", (a - b) / n }'
}
nodes=$(one 100 "$visit" nodes 1000000)
row 'nodes visited' 1000000 "$nodes" 'in C, a call for each edge' "$(called=call one 100 "$work/walks" nodes 1000000)" 4
row 'nodes visited' 1000000 "$nodes" 'in C' "$(one 100 "$work/walks" nodes 1000000)"
row 'pointers of a tail visited' 65536 "$(one 5000 "$visit" tail 65536)" 'a tenth' "$(one 5000 "$visit" tail 6554)" 12
