#!/usr/bin/env bash
# Shows that what a call of a cell costs does not grow with the cell's list: on top of lists of 10^3, 10^4, 10^5 and 10^6 entries, the
# nanoseconds of an access with the room for it, the same with `value` or with `clean` after it, of `chain`, and of one entry that a roll
# takes away. Each is that of the quickest of 100 rounds, of 1,000 accesses and a roll of them (one round, and no roll, with `clean`), or of
# 1,000 chains. Before each access its stamp is tested by `last`, which is in its time.
# The program is written into a copy of the crates, proved there and run. Usage: bench/cells.sh
set -eu
. "$(dirname "$0")/lib.sh"
make_folder
copy_crates cw_base cw_code cw_tree cw_stack
new_program cell_times cw_base cw_tree cw_stack
cat > src/main.rt <<'PROGRAM'
// Times the calls of a cell on lists of entries of four lengths.
#![tactic(auto)]

ghost use Rattle.std.specs.Prelude.{◌≡◌};

use cw_base::OutOfMemory;
use cw_stack::Cell;
use cw_tree::{Entry, Mark};
use std::hint::black_box;
use std::io;
use std::rt::Clock;
use std::time::Instant;

const CHAINS: u64 = 1_000;
const ROUNDS: u64 = 100;
const ADDED: u64 = 1_000;

// Makes this many accesses, from a stamp on, each a write.
fn fill(cell: &mut Cell, first: u64, count: u64) -> Result<i64, OutOfMemory>
    ensures { cell.new.cleaned ≡ cell.old.cleaned }
{
    let mut sum = 0i64;
    for place in 0..count {
        let stamp = first.saturating_add(place);
        if let Some(last) = cell.last() && last.stamp >= stamp {
            return Ok(sum);
        }
        cell.reserve()?;
        sum ^= cell.access(Mark { strand: 0, stamp }, Some((stamp % 1024) as i64));
    }
    Ok(sum)
}

// The same, with the value of the cell after each.
fn fill_valued(cell: &mut Cell, first: u64, count: u64) -> Result<i64, OutOfMemory>
    ensures { cell.new.cleaned ≡ cell.old.cleaned }
{
    let mut sum = 0i64;
    for place in 0..count {
        let stamp = first.saturating_add(place);
        if let Some(last) = cell.last() && last.stamp >= stamp {
            return Ok(sum);
        }
        cell.reserve()?;
        sum ^= cell.access(Mark { strand: 0, stamp }, Some((stamp % 1024) as i64));
        sum ^= black_box(&*cell).value().wrapping_mul(3);
    }
    Ok(sum)
}

// The same, with a clean after each.
fn fill_cleaned(cell: &mut Cell, first: u64, count: u64) -> Result<i64, OutOfMemory> {
    let mut sum = 0i64;
    for place in 0..count {
        let stamp = first.saturating_add(place);
        if let Some(last) = cell.last() && last.stamp >= stamp {
            return Ok(sum);
        }
        cell.reserve()?;
        sum ^= cell.access(Mark { strand: 0, stamp }, Some((stamp % 1024) as i64));
        cell.clean();
    }
    Ok(sum)
}

// The tenths of a nanosecond of one of these calls.
fn each(nanos: u128, calls: u64) -> u64 {
    let whole = u64::try_from(nanos).unwrap_or(u64::MAX);
    whole.saturating_mul(10).checked_div(calls).unwrap_or(0)
}

fn chains(cell: &Cell) -> Result<u64, OutOfMemory> {
    let mut sum = 0u64;
    for _ in 0..CHAINS {
        let chain = cell.chain()?;
        if let Some(last) = chain.last() {
            sum ^= *last;
        }
    }
    Ok(sum)
}

// The least time of CHAINS chains.
fn chained<R: Clock>(rt: &R, cell: &Cell) -> io::Result<u128> {
    let mut least = u128::MAX;
    for _ in 0..ROUNDS {
        let start = Instant::now(rt)?;
        let _ = black_box(chains(cell));
        least = least.min(start.elapsed(rt)?.as_nanos());
    }
    Ok(least)
}

// The time of a roll of what was added on top.
fn roll<R: Clock>(rt: &R, cell: &mut Cell, cleaned: usize, first: u64) -> io::Result<u128>
    requires { cell.old.cleaned ≡ cleaned }
    ensures { cell.new.cleaned ≡ cell.old.cleaned }
{
    let there = cell.journal()[cleaned..]
        .iter()
        .any(|entry| entry.mark.stamp == first);
    if !there {
        return Ok(0);
    }
    let start = Instant::now(rt)?;
    cell.roll(first);
    Ok(start.elapsed(rt)?.as_nanos())
}

// The least time of a round of accesses, and of the roll after it.
fn rounds<R: Clock>(rt: &R, cell: &mut Cell, cleaned: usize, first: u64, valued: bool) -> io::Result<(u128, u128)>
    requires { cell.old.cleaned ≡ cleaned }
{
    let mut filling = u128::MAX;
    let mut rolling = u128::MAX;
    for _ in 0..ROUNDS {
        let start = Instant::now(rt)?;
        let filled = if valued {
            fill_valued(cell, first, ADDED)
        } else {
            fill(cell, first, ADDED)
        };
        let _ = black_box(filled);
        filling = filling.min(start.elapsed(rt)?.as_nanos());
        rolling = rolling.min(roll(rt, cell, cleaned, first)?);
    }
    Ok((filling, rolling))
}

// The same without rolls, with a clean after each access.
fn cleans<R: Clock>(rt: &R, cell: &mut Cell, first: u64) -> io::Result<u128> {
    let start = Instant::now(rt)?;
    let _ = black_box(fill_cleaned(cell, first, ADDED));
    Ok(start.elapsed(rt)?.as_nanos())
}

fn main(rt: HostRuntime) -> io::Result<()> {
    println!(rt; "tenths of a nanosecond each; an entry has {} bytes", size_of::<Entry>())?;
    for count in [1_000, 10_000, 100_000, 1_000_000] {
        let mut cell = Cell::new(rt.alloc(), 0);
        let _ = black_box(fill(&mut cell, 1, count));
        let chain = each(chained(&rt, &cell)?, CHAINS);
        cell.clean();
        let cleaned = cell.journal().len();
        // the room for what is added was made once
        let _ = rounds(&rt, &mut cell, cleaned, 2_000_000, false)?;
        cell.clean();
        let cleaned = cell.journal().len();
        let plain = rounds(&rt, &mut cell, cleaned, 3_000_000, false)?;
        cell.clean();
        let cleaned = cell.journal().len();
        let valued = rounds(&rt, &mut cell, cleaned, 4_000_000, true)?;
        let clean = cleans(&rt, &mut cell, 5_000_000)?;
        println!(rt; "{count} entries: access {}, with value {}, with clean {}, chain {chain}, roll {} an entry", each(plain.0, ADDED), each(valued.0, ADDED), each(clean, ADDED), each(plain.1, ADDED))?;
    }
    Ok(())
}
PROGRAM
for name in fill fill_valued; do
  mkdir -p "proofs/$name"
  cat > "proofs/$name/Invariants.antt" <<PROOF
use Rattle.std.proofs.Common.{◌≡◌}
use Rattle.cell_times.proofs.$name.Given as goal

abbrev pub invariant-loop-place : goal.invariant-loop-place
invariant-loop-place l = l.cell.cleaned ≡ l.initial.cell.cleaned
PROOF
done
mkdir -p proofs/rounds
cat > proofs/rounds/Invariants.antt <<'PROOF'
use Rattle.std.proofs.Common.{◌≡◌}
use Rattle.cell_times.proofs.rounds.Given as goal

abbrev pub invariant-loop : goal.invariant-loop
invariant-loop g l = l.cell.cleaned ≡ l.cleaned
PROOF
build
"$program"
