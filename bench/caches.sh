#!/usr/bin/env bash
# Times caches: so many pairs put and found, old keys put again, and a collection that keeps all pairs or drops all of them; each beside a tenth of the
# pairs. The time of a script that makes the nodes alone is taken off. A script has at most 1,000,000 commands, of which each pair takes two or more; so
# 1,000,000 pairs are put, found, kept and dropped by a program around gt_caches, which is written and built in a copy of the crates that it needs.
# Their times are not held to a ratio, since a tenth of them may fit into the fast memory of a processor where all of them do not; the instructions,
# which are the same each time and are counted where valgrind is there, are.
# Run by hand, from any folder, after ./gtyheap.
. "$(dirname "$0")/shared.sh"
take_program
cat >"$work/cache.h" <<'H'
struct GTY(()) node { struct node *next; struct node *other; };
static GTY(()) struct node *head;
static GTY((cache)) hash_map<struct node *, struct node *> *map;
H

# A list of so many nodes from `head`, and then so many lines by a command in awk that is given the number of the line.
script() { awk -v n="$1" 'BEGIN {
  print "@new $k node"; print "@set head $k"
  for (i = 1; i < n; i++) { print "@new $n node"; print "@set $n.next $k"; print "@set head $n"; print "@get $k head"; '"$2"' }
  '"$3"' }' >"$work/s.gty"; }

# The time of a script with so many nodes.
times() { script "$1" "$2" "$3"; seconds 3 "$program" --space 16384 "$work/s.gty" "$work/cache.h"; }

# A row: what the lines are, and the times for a tenth of the nodes and for all, without that of a script that makes the nodes alone.
measure() {
  local few=$((most / 10)) small large
  small=$(minus "$(times "$few" "$2" "$3")" "$(times "$few" "" "")")
  large=$(minus "$(times "$most" "$2" "$3")" "$(times "$most" "" "")")
  row "$1" "$most" "$large" "a tenth" "$small" 12
}

most=150000
measure "put, of new keys" 'print "@put map $n $n"' ''
measure "put and find" 'print "@put map $n $k"; print "@find map $n"' ''
measure "put of old keys" 'print "@put map $n $n"; print "@put map $n $k"' ''
measure "put, and collect what stays" 'print "@put map $n $n"' 'print "@collect force"'
measure "put, and collect what goes" 'print "@put map $n $n"' 'print "@set head null"; print "@collect force"'

crates="gt_types gt_unions gt_names gt_fields gt_layout gt_space gt_tree gt_value gt_links gt_bits gt_entries gt_pages gt_graph gt_store gt_directory gt_walk gt_mark gt_objects"
crates="$crates gt_digits gt_show gt_canon gt_listing gt_text gt_split gt_script gt_io gt_next gt_caches"
copy_crates $crates
ours=$work/crates/time_caches
mkdir -p "$ours/src" "$ours/proofs/put" "$ours/proofs/put_all" "$ours/proofs/collect" "$ours/proofs/keep_often"
echo 'time_caches: gt_next gt_caches' >>"$work/crates.txt"
cat >"$ours/src/main.rt" <<'RT'
//! Puts pairs into one cache, finds them, and lets a collection keep or drop them. The arguments are `put`, `find`, `keep` or `drop`, how many pairs,
//! and how many times; what is printed is how many pairs were put, found, kept or dropped, the last time.
#![tactic(auto)]

ghost use Rattle.std.specs.Prelude.{◌≡◌, IfOk, OnOk, length};

use gt_caches::Caches;
use std::alloc::{AllocError, Global};
use std::{env, io};

/// The most pairs that caches may have.
const MAX_PAIRS: usize = 1048576;

/// The address of the first node, and how many bytes lie from one to the next.
const FIRST: u64 = 268435456;

const STRIDE: u64 = 16;

// The address of a node.
fn address(i: u64) -> u64 {
    FIRST.wrapping_add(i.wrapping_mul(STRIDE))
}

// Gives a key a value in the one cache.
fn put(caches: &mut Caches, key: u64, value: u64) -> Result<(), AllocError>
    requires one { length caches.old ≡ 1 }
    ensures one { OnOk result (length caches.new ≡ 1) }
{
    if caches.len() <= MAX_PAIRS {
        caches.put(0, key, value)?;
    }
    Ok(())
}

// So many pairs of a node and itself.
fn put_all(caches: &mut Caches, n: u64) -> Result<(), AllocError>
    requires one { length caches.old ≡ 1 }
    ensures one { OnOk result (length caches.new ≡ 1) }
{
    for i in 0..n {
        put(caches, address(i), address(i))?;
    }
    Ok(())
}

// How many of so many nodes are keys.
fn find_all(caches: &Caches, n: u64) -> u64
    requires one { length caches.now ≡ 1 }
{
    let mut found = 0u64;
    for i in 0..n {
        if caches.value(0, address(i)).is_some() {
            found = found.wrapping_add(1);
        }
    }
    found
}

// Says whether the pair at a place stays, if there is one.
fn decide(caches: &mut Caches, i: usize, stays: bool)
    requires one { length caches.old ≡ 1 }
    ensures one { length caches.new ≡ 1 }
{
    if caches.get(0, i).is_some() {
        caches.decide(0, i, stays);
    }
}

// A collection that keeps all of the pairs or none: how many it dropped.
fn collect(caches: &mut Caches, n: usize, stay: bool) -> u32
    requires one { length caches.old ≡ 1 }
    ensures one { length caches.new ≡ 1 }
{
    for i in 0..n {
        decide(caches, i, stay);
    }
    if caches.len() > MAX_PAIRS {
        return 0;
    }
    caches.keep_staying()
}

// One cache with so many pairs.
fn filled(alloc: Global, n: u32) -> Result<Caches, AllocError>
    ensures one { IfOk result (λ caches. length caches ≡ 1) }
{
    let mut caches = Caches::new(alloc, 1)?;
    put_all(&mut caches, n as u64)?;
    Ok(caches)
}

// So many caches, one after another: how many pairs the last one has.
fn fill_often(alloc: Global, n: u32, times: u32) -> Result<usize, AllocError> {
    let mut pairs = 0;
    for _ in 0..times {
        pairs = filled(alloc, n)?.len();
    }
    Ok(pairs)
}

// The same, where a collection drops all pairs of each: how many it dropped of the last one.
fn drop_often(alloc: Global, n: u32, times: u32) -> Result<u32, AllocError> {
    let mut dropped = 0;
    for _ in 0..times {
        dropped = collect(&mut filled(alloc, n)?, n as usize, false);
    }
    Ok(dropped)
}

// How many of the keys of one cache are found, all of them so many times.
fn find_often(alloc: Global, n: u32, times: u32) -> Result<u64, AllocError> {
    let caches = filled(alloc, n)?;
    let mut found = 0;
    for _ in 0..times {
        found = find_all(&caches, n as u64);
    }
    Ok(found)
}

// How many pairs one cache has after so many collections that keep all of them.
fn keep_often(alloc: Global, n: u32, times: u32) -> Result<usize, AllocError> {
    let mut caches = filled(alloc, n)?;
    for _ in 0..times {
        collect(&mut caches, n as usize, true);
    }
    Ok(caches.len())
}

fn main(rt: HostRuntime) -> io::Result<()> {
    let alloc = rt.alloc();
    let mut words = env::args(&rt)?;
    let _ = words.next();
    let (Some(what), Some(count), Some(times)) = (words.next(), words.next(), words.next()) else {
        return Ok(());
    };
    let n = count.as_str().parse::<u32>().unwrap_or(0);
    let times = times.as_str().parse::<u32>().unwrap_or(1);
    match what.as_str() {
        "put" => println!(rt; "{}", fill_often(alloc, n, times)?),
        "find" => println!(rt; "{}", find_often(alloc, n, times)?),
        "keep" => println!(rt; "{}", keep_often(alloc, n, times)?),
        "drop" => println!(rt; "{}", drop_often(alloc, n, times)?),
        _ => Ok(()),
    }
}
RT
echo 'mod One' >"$ours/proofs/Lib.antt"
cat >"$ours/proofs/One.antt" <<'END'
-- One cache is one after a pair was put.
use Rattle.std.proofs.Common.{◌≡◌, ℕ, suc, List, [], ◌∷◌, length, map, refl, ap, arith, Some}
use Rattle.std.specs.Prelude.{slice_get, slice_set}
use Rattle.std.proofs.lemmas.List.{length-map}
use Rattle.gt_next.specs.Caching.{with_pair}
use Rattle.gt_caches.specs.Pairs.{Entries, pair_of, pairs_of}

pub one_after : (xs ys : Entries) (key value : ℕ) → length xs ≡ 1 → ((pairs : List (ℕ × ℕ)) → slice_get (pairs_of xs) 0 ≡ Some pairs → pairs_of ys ≡ slice_set (pairs_of xs) 0 (with_pair key value pairs)) → length ys ≡ 1
one_after [] ys key value one put = absurd (omega (arith, one))
one_after (x ∷ xs) ys key value one put =
    let is = put (map pair_of x) refl in
    let a = length-map ys (λ entries. map pair_of entries) in
    let b = length-map xs (λ entries. map pair_of entries) in
    let c : length (pairs_of ys) ≡ suc (length (pairs_of xs)) = ap (λ l. length l) is in
    omega (arith, a, b, c, one)
END
cat >"$ours/proofs/put/Answers.antt" <<'END'
use Rattle.time_caches.proofs.One.{one_after}
use Rattle.time_caches.proofs.put.Goals as goal

pub returns-in_ok-put : goal.returns-in_ok-put
returns-in_ok-put c = record { one = one_after c.args.caches.now c.put.new.self c.args.key c.args.value c.requires.one c.in_ok-put.ensures.put }
END
for name in put_all collect; do
  cat >"$ours/proofs/$name/Invariants.antt" <<END
use Rattle.std.proofs.Common.{◌≡◌, length}
use Rattle.time_caches.proofs.$name.Given as goal

abbrev pub invariant-loop-i : goal.invariant-loop-i
invariant-loop-i l = record { one : length l.caches ≡ 1 }
END
done
cat >"$ours/proofs/keep_often/Invariants.antt" <<'END'
use Rattle.std.proofs.Common.{◌≡◌, length}
use Rattle.time_caches.proofs.keep_often.Given as goal

abbrev pub invariant-loop : goal.invariant-loop
invariant-loop l = record { one : length l.caches ≡ 1 }
END
: >"$ours/stdin"
build_copied $crates
(cd "$ours" && quiet rt run -- put 1 1)
ours=$ours/out/time_caches
for what in put find keep drop; do
  [ "$("$ours" $what 1000000 1)" = 1000000 ] || { echo "$what 1000000: other answers" >&2; exit 2; }
done

# The seconds of one time more of what is done to so many pairs: the mean of ten, after a first one.
each() { awk -v a="$(seconds 5 "$ours" "$@" 11)" -v b="$(seconds 5 "$ours" "$@" 1)" 'BEGIN { printf "%.9f\n", (a - b) / 10 }'; }
# The instructions of one time more.
more_instructions() { awk -v a="$(instructions "$ours" "$@" 2)" -v b="$(instructions "$ours" "$@" 1)" 'BEGIN { printf "%d\n", a - b }'; }
# A row: what is done to 1,000,000 pairs, and its name.
done_to() {
  row "$1" 1000000 "$(each "$2" 1000000)" 'a tenth' "$(each "$2" 100000)"
  if command -v valgrind >/dev/null; then
    amount "$1" 1000000 "$(more_instructions "$2" 1000000)" instr 'a tenth' "$(more_instructions "$2" 100000)" 12
  fi
}
done_to 'pairs put in a cache' put
done_to 'pairs found in a cache' find
done_to 'pairs kept by a collection' keep
done_to 'pairs put, and dropped by a collection' drop
