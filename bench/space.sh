#!/usr/bin/env bash
# Times the calls of a space on its block of raw memory beside the vector that stood in its place before, and moves of 64 MiB beside the vector and
# beside the memmove of the C library. Run by hand, from any folder. Both bodies, with the one program that times them, are proved and built in a
# temporary folder. Where valgrind is there, the instructions of a million calls are counted too, which are the same each time.
. "$(dirname "$0")/shared.sh"
for body in block vector; do
  mkdir -p "$work/$body/crates/time_space/src"
  (cd "$root/crates" && tar -c --exclude=out --exclude=must-fail gt_space) | tar -x -C "$work/$body/crates"
  printf 'gt_space:\ntime_space: gt_space\n' >"$work/$body/crates.txt"
done
vector=$work/vector/crates/gt_space
rm -r "$vector/proofs/memory" "$vector/proofs/MemorySteps.antt" "$vector"/specs/Memory*.antt "$vector/src/memory.rt" "$vector/src/tests.rt"
sed -i '/Memory/d' "$vector/proofs/Lib.antt" "$vector/specs/Lib.antt"
sed -i '/^mod memory/d; /cfg(test)/d; /^mod tests/d' "$vector/src/lib.rt"
cat >"$vector/src/space.rt" <<'END'
//! A space, and the calls that read and write it.

ghost use Rattle.std.specs.Prelude.{◌≡◌, ◌≤◌, length, replicate, OnOk, OnErr};
ghost use Rattle.gt_space.specs.Range.{IsInside, IsSpace, IsSized, KeepsAddresses, bytes_at, with_bytes, empty_range, fresh_range};
ghost use Rattle.gt_space.specs.Numbers.{u64_at, with_u64};

use crate::{HEAP_START, MAX_PAGES, MAX_STATICS, MIN_PAGES, PAGE_BYTES};
use std::alloc::{AllocError, Global};
use std::marker::Model;

/// Bytes at addresses: the one at `start` is the first of `bytes`.
#[derive(Drop)]
pub struct Space {
    start: u64,
    bytes: Vec<u8>,
    alloc: Global,
}

impl Model for Space {
    ghost use Rattle.gt_space.specs.Range.{Range, range_code, IsSpace};

    ghost Value = { Range };

    ghost coded = { range_code };

    ghost view = { λ s. record { start = s.start; bytes = s.bytes.items } };

    ghost invariant = { λ s. IsSpace (record { start = s.start; bytes = s.bytes.items }) };
}

impl Space {
    /// A space with no bytes. It takes no memory, and keeps the allocator for later.
    pub fn empty(alloc: Global) -> Space
        ensures { result ≡ empty_range }
    {
        Space {
            start: HEAP_START,
            bytes: Vec::new(alloc),
            alloc,
        }
    }

    /// Makes it `pages` pages from `HEAP_START` and the whole pages below that hold `statics` bytes,
    /// all zero. Where memory is wanted, the space is as before.
    pub fn resize_fresh(&mut self, pages: u32, statics: u32) -> Result<(), AllocError>
        requires enough_pages { MIN_PAGES ≤ pages }
        requires not_too_many_pages { pages ≤ MAX_PAGES }
        requires statics_fit { statics ≤ MAX_STATICS }
        ensures ok { OnOk result (self.new ≡ fresh_range pages statics) }
        ensures sized { OnOk result (IsSized self.new pages statics) }
        ensures err { OnErr result (self.new ≡ self.old) }
    {
        let below = (statics as u64).div_ceil(PAGE_BYTES) * PAGE_BYTES;
        let len = below + pages as u64 * PAGE_BYTES;
        let fresh = vec![in self.alloc; 0u8; len as usize]?;
        self.start = HEAP_START - below;
        self.bytes = fresh;
        Ok(())
    }

    /// The number in the eight bytes at the address, the low byte first.
    #[tactic(auto, unfolding(crate::specs::Numbers::u64_at))]
    pub fn read_u64(&self, addr: u64) -> u64
        requires { IsInside self.now addr 8 }
        ensures { result ≡ u64_at self.now addr }
    {
        let mut bytes = [0; 8];
        self.copy_out(addr, &mut bytes);
        u64::from_le_bytes(bytes)
    }

    /// Writes the number into the eight bytes at the address, the low byte first.
    pub fn write_u64(&mut self, addr: u64, v: u64)
        requires { IsInside self.old addr 8 }
        ensures bytes { self.new ≡ with_u64 self.old addr v }
        ensures addresses { KeepsAddresses self.old self.new }
    {
        self.copy_in(addr, &v.to_le_bytes());
    }

    /// Writes `v` into each of the `len` bytes at the address.
    pub fn fill(&mut self, addr: u64, len: u64, v: u8)
        requires { IsInside self.old addr len }
        ensures bytes { self.new ≡ with_bytes self.old addr (replicate len v) }
        ensures addresses { KeepsAddresses self.old self.new }
    {
        let at = (addr - self.start) as usize;
        self.bytes[at..at + len as usize].fill(v);
    }

    /// Writes the bytes at the address.
    pub fn copy_in(&mut self, addr: u64, bytes: &[u8])
        requires { IsInside self.old addr (length bytes.now) }
        ensures bytes { self.new ≡ with_bytes self.old addr bytes.now }
        ensures addresses { KeepsAddresses self.old self.new }
    {
        let at = (addr - self.start) as usize;
        self.bytes[at..at + bytes.len()].copy_from_slice(bytes);
    }

    /// Reads as many bytes at the address as `bytes` has.
    pub fn copy_out(&self, addr: u64, bytes: &mut [u8])
        requires { IsInside self.now addr (length bytes.old) }
        ensures { bytes.new ≡ bytes_at self.now addr (length bytes.old) }
    {
        let at = (addr - self.start) as usize;
        bytes.copy_from_slice(&self.bytes[at..at + bytes.len()]);
    }

    /// Writes the `len` bytes at `from`, as they are before the call, at `to`. The two ranges may
    /// overlap.
    pub fn move_within(&mut self, from: u64, to: u64, len: u64)
        requires source { IsInside self.old from len }
        requires target { IsInside self.old to len }
        ensures bytes { self.new ≡ with_bytes self.old to (bytes_at self.old from len) }
        ensures addresses { KeepsAddresses self.old self.new }
    {
        let at = (from - self.start) as usize;
        let dest = (to - self.start) as usize;
        self.bytes.copy_within(at..at + len as usize, dest);
    }
}
END
cat >"$work/main.rt" <<'END'
//! Calls one call of a space so many times: the arguments are its name and the number.
#![tactic(auto)]

ghost use Rattle.std.specs.Prelude.{ℕ, ◌≡◌, ◌≤◌, length};
ghost use Rattle.gt_space.specs.Range.{IsInside};

use gt_space::{HEAP_START, Space};
use std::env;
use std::io;

fn read_u64(space: &Space, count: u64) -> u64
    requires { IsInside space.now HEAP_START 131072 }
{
    let mut x = 0u64;
    for i in 0..count {
        x = space.read_u64(HEAP_START + x.wrapping_add(i) % 65536);
    }
    x
}

fn write_u64(space: &mut Space, count: u64)
    requires { IsInside space.old HEAP_START 131072 }
{
    for i in 0..count {
        space.write_u64(HEAP_START + i % 65536, i);
    }
}

fn fill(space: &mut Space, count: u64)
    requires { IsInside space.old HEAP_START 131072 }
{
    for i in 0..count {
        space.fill(HEAP_START + i % 65536, 64 + i % 64, (i % 256) as u8);
    }
}

fn copy_in(space: &mut Space, count: u64)
    requires { IsInside space.old HEAP_START 131072 }
{
    let bytes = [7u8; 128];
    for i in 0..count {
        space.copy_in(HEAP_START + i % 65536, &bytes[..(64 + i % 64) as usize]);
    }
}

fn copy_out(space: &Space, count: u64) -> u8
    requires { IsInside space.now HEAP_START 131072 }
{
    let mut bytes = [7u8; 128];
    for i in 0..count {
        space.copy_out(HEAP_START + i % 65536, &mut bytes[..(64 + i % 64) as usize]);
    }
    bytes[5]
}

fn move_within(space: &mut Space, count: u64)
    requires { IsInside space.old HEAP_START 131072 }
{
    for i in 0..count {
        space.move_within(HEAP_START + i % 65536, HEAP_START + i % 65536 + 9, 64 + i % 64);
    }
}

// 64 MiB, up by so many bytes and down again.
fn move_all(space: &mut Space, count: u64, by: u64)
    requires inside { IsInside space.old 0xffff000 0x4001000 }
    requires by_a_page { by ≤ 4096 }
{
    for _ in 0..count {
        space.move_within(0xffff000, 0xffff000 + by, 0x4000000);
        space.move_within(0xffff000 + by, 0xffff000, 0x4000000);
    }
}

fn run(space: &mut Space, name: &str, count: u64, by: u64) -> u64
    requires inside { IsInside space.old 0xffff000 0x4001000 }
    requires by_a_page { by ≤ 4096 }
{
    match name {
        "read_u64" => return read_u64(space, count),
        "write_u64" => write_u64(space, count),
        "fill" => fill(space, count),
        "copy_in" => copy_in(space, count),
        "copy_out" => return copy_out(space, count) as u64,
        "move_within" => move_within(space, count),
        "move_all" => move_all(space, count, by),
        _ => {}
    }
    0
}

fn number_of(word: Option<String>) -> u64 {
    match word {
        Some(word) => word.as_str().parse::<u64>().unwrap_or(0),
        None => 0,
    }
}

fn main(rt: HostRuntime) -> io::Result<()> {
    let mut words = env::args(&rt)?;
    let _ = words.next();
    let Some(name) = words.next() else {
        return Ok(());
    };
    let mut numbers = [0u64; 2];
    for number in &mut numbers {
        *number = number_of(words.next());
    }
    let [count, by] = numbers;
    let mut space = Space::empty(rt.alloc());
    space.resize_fresh(16384, 1)?;
    println!(rt; "{}", run(&mut space, name.as_str(), count, by.min(4096)))
}
END
# What stays true in the loops that write.
invariant() { printf 'use Rattle.gt_space.specs.Range.{IsInside}\nuse Rattle.time_space.proofs.%s.Given as goal\n\nabbrev pub %s : goal.%s\n%s l = IsInside l.space %s\n' "$1" "$2" "$2" "$2" "$3"; }
for body in block vector; do
  program=$work/$body/crates/time_space
  cp "$work/main.rt" "$program/src/main.rt"
  for call in write_u64 fill copy_in move_within move_all; do mkdir -p "$program/proofs/$call"; done
  for call in write_u64 fill copy_in move_within; do invariant $call invariant-loop-i '268435456 131072' >"$program/proofs/$call/Invariants.antt"; done
  invariant move_all invariant-loop '268431360 67112960' >"$program/proofs/move_all/Invariants.antt"
  (cd "$work/$body/crates/gt_space" && quiet rt lib)
  (cd "$program" && quiet rt run -- none)
  cp "$program/out/time_space" "$work/time_$body"
done
cat >"$work/memmove.c" <<'END'
#include <stdlib.h>
#include <string.h>
int main(int words, char **word) {
  size_t len = 0x4000000, by = atol(word[3]);
  char *bytes = malloc(len + 4096);
  memset(bytes, 0, len + 4096);
  for (long i = atol(word[2]); i > 0; i--) {
    memmove(bytes + by, bytes, len);
    memmove(bytes, bytes + by, len);
  }
  return bytes[by];
}
END
cc -O2 -fno-builtin -o "$work/memmove" "$work/memmove.c"

# The seconds of so many calls of each body in twenty runs by turns, so that both meet the same machine, without those of a run that makes none:
# first the block, then the vector.
both() {
  for _ in {1..20}; do
    echo "$(seconds 1 "$work/time_block" "$@") $(seconds 1 "$work/time_block" none 0 0) $(seconds 1 "$work/time_vector" "$@") $(seconds 1 "$work/time_vector" none 0 0)"
  done | awk '{ for (i = 1; i <= 4; i++) if (NR == 1 || $i < least[i]) least[i] = $i } END { printf "%.6f %.6f\n", least[1] - least[2], least[3] - least[4] }'
}
for call in read_u64 write_u64 fill copy_in copy_out move_within; do
  read -r block vector < <(both $call 100000000 0)
  row "calls of $call" 100000000 "$block" 'on the vector' "$vector" 1.1
  if command -v valgrind >/dev/null; then
    amount "calls of $call" 1000000 "$(instructions "$work/time_block" $call 1000000 0)" instr 'on the vector' "$(instructions "$work/time_vector" $call 1000000 0)"
  fi
done
# Up by so many bytes and down again, 64 MiB each time.
for by in 1 8 4096; do
  read -r block vector < <(both move_all 10 $by)
  row "20 moves of 64 MiB by $by" 67108864 "$block" 'on the vector' "$vector"
  row "20 moves of 64 MiB by $by" 67108864 "$block" memmove "$(minus "$(seconds 5 "$work/memmove" move_all 10 $by)" "$(seconds 5 "$work/memmove" move_all 0 $by)")" 1.5
done
