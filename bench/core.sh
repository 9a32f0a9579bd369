#!/usr/bin/env bash
# Measures a core, by a program in a copy of the crates that drives 100,000 and 1,000,000 events of each kind, each of which is made where
# it fits: accesses of a few cells; outputs; blocks that begin and commit; blocks of seven accesses of one cell, each with an output (shown) or
# given up by a cancel (cancelled); forks that are split and joined, one after another; refusals of an
# access in 2,000 blocks, which then roll back one by one; and 10,000 and 100,000 refusals of one in 2,000 forks, where no block has to fall,
# so that each is a walk over 4,000 nodes. Prints ns an event (the median of seven runs, without the time of a run
# of no events) and the time of all; the machine is named last.
# Usage: bench/core.sh, at the repository's top. The crates beneath the program are proved first, where no check kept them.
set -eu
. "$(dirname "$0")/lib.sh"
make_folder
copy_crates cw_base cw_code cw_order cw_tree cw_open cw_stack cw_trace cw_xconf cw_core
new_program core_bench cw_base cw_code cw_order cw_tree cw_trace cw_xconf cw_stack cw_open cw_core
cat > src/main.rt <<'PROGRAM'
//! Drives a core: the words are what is done, and how many events.
#![tactic(auto)]

use cw_code::Limits;
use cw_core::{Core, Event, Reply};
use std::{env, io};

/// Makes an event where it fits, and tells how many were made so far.
fn drive(core: &mut Core, event: Event, count: u64) -> u64 {
    if core.fits(&event) && core.step(event).is_ok() {
        count.wrapping_add(1)
    } else {
        count
    }
}

fn access(strand: u32, cell: u32, write: Option<i64>) -> Event {
    Event::Access { strand, cell, write }
}

fn accesses(core: &mut Core, events: u32) -> u64 {
    let mut count = 0;
    for k in 0..events {
        let write = if k % 3 == 0 { Some(i64::from(k)) } else { None };
        count = drive(core, access(0, k % 8, write), count);
    }
    count
}

fn blocks(core: &mut Core, events: u32) -> u64 {
    let mut count = 0;
    for k in 0..events {
        let event = if k % 2 == 0 { Event::Begin { strand: 0 } } else { Event::Commit { strand: 0 } };
        count = drive(core, event, count);
    }
    count
}

/// Blocks of ten events: a begin, seven accesses of one cell, an output or a cancel, and a commit.
fn tenths(core: &mut Core, events: u32, cancelled: bool) -> u64 {
    let mut count = 0;
    for k in 0..events {
        let event = match k % 10 {
            0 => Event::Begin { strand: 0 },
            8 if cancelled => Event::Cancel { strand: 0 },
            8 => Event::Out { strand: 0, value: 1 },
            9 => Event::Commit { strand: 0 },
            at => access(0, 0, if at == 1 { Some(i64::from(k)) } else { None }),
        };
        count = drive(core, event, count);
    }
    count
}

fn outputs(core: &mut Core, events: u32) -> u64 {
    let mut count = 0;
    for k in 0..events {
        count = drive(core, Event::Out { strand: 0, value: i64::from(k) }, count);
    }
    count
}

/// Forks, one after another, each split, with a write in either strand, and joined: seven events a fork.
fn turns(core: &mut Core, events: u32) -> u64 {
    let mut count = 0;
    for _ in 0..events / 7 {
        if core.fits(&Event::Fork { strand: 0 }) && let Ok(Reply::Forked { left, right, fork }) = core.step(Event::Fork { strand: 0 }) {
            count = drive(core, Event::Split { fork }, count);
            count = drive(core, access(left, 0, Some(1)), count);
            count = drive(core, access(right, 1, Some(2)), count);
            count = drive(core, Event::Finish { strand: left, dead: false }, count);
            count = drive(core, Event::Finish { strand: right, dead: false }, count);
            count = drive(core, Event::Join { fork }, count).wrapping_add(1);
        }
    }
    count
}

/// One strand holds cell 0 in a block.
fn held(core: &mut Core) -> u64 {
    let mut count = 0;
    for event in [Event::Fork { strand: 0 }, Event::Split { fork: 1 }, Event::Begin { strand: 2 }, access(2, 0, Some(1))] {
        count = drive(core, event, count);
    }
    count
}

/// The other strand begins 2,000 blocks, is refused, and rolls them back.
fn refusals(core: &mut Core, events: u32) -> u64 {
    let mut count = held(core);
    for k in 0..events {
        let at = k % 4_001;
        let event = if at < 2_000 {
            Event::Begin { strand: 3 }
        } else if at == 2_000 {
            access(3, 0, None)
        } else {
            Event::Roll { strand: 3 }
        };
        count = drive(core, event, count);
    }
    count
}

/// The innermost strand of 2,000 forks is refused, and no block has to fall.
fn forks(core: &mut Core, events: u32) -> u64 {
    let mut count = held(core);
    let mut strand = 3;
    for _ in 0..2_000 {
        let event = Event::Fork { strand };
        if core.fits(&event) && let Ok(reply) = core.step(event) {
            count = count.wrapping_add(1);
            strand = match reply {
                Reply::Forked { left, .. } => left,
                Reply::Inline { left, .. } => left,
                _ => strand,
            };
        }
    }
    for _ in 0..events {
        count = drive(core, access(strand, 0, None), count);
    }
    count
}

fn main(rt: HostRuntime) -> io::Result<()> {
    let alloc = rt.alloc();
    let mut kind = String::new(alloc);
    let mut events = 0;
    for (at, word) in env::args(&rt)?.enumerate() {
        if at == 1 {
            kind = word;
        } else if let Ok(number) = word.as_str().parse::<u32>() {
            events = number;
        }
    }
    let limits = Limits { fuel: 0, size: 0, aborts: 4_000_000_000, strands: 400_000, moves: 0 };
    let mut count = 0;
    if let Ok(core) = Core::new(alloc, &[0, 0, 0, 0, 0, 0, 0, 0], limits) {
        let mut core = core;
        count = match kind.as_str() {
            "accesses" => accesses(&mut core, events),
            "outputs" => outputs(&mut core, events),
            "blocks" => blocks(&mut core, events),
            "shown" => tenths(&mut core, events, false),
            "cancelled" => tenths(&mut core, events, true),
            "turns" => turns(&mut core, events),
            "refusals" => refusals(&mut core, events),
            _ => forks(&mut core, events),
        };
    }
    println!(&rt; "{count}")
}
PROGRAM
build accesses 1

# the median of seven runs, in ns
took() {
  median_of 7 run_quietly "$@"
}

for kind in accesses outputs blocks shown cancelled turns refusals; do
  for events in 100000 1000000; do
    all=$(took "$kind" "$events")
    echo "$kind: $("$program" "$kind" "$events") events, $(((all - $(took "$kind" 0)) / events)) ns an event, $((all / 1000000)) ms in all"
  done
done
for events in 10000 100000; do
  all=$(took forks "$events")
  echo "refusals in 2,000 forks: $("$program" forks "$events") events, $(((all - $(took forks 0)) / events)) ns an event, $((all / 1000000)) ms in all"
done
show_machine
