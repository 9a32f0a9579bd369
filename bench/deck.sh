#!/usr/bin/env bash
# What the ends of a deque and a pair cost: nanoseconds of a push with its pop, of a steal from an empty deque, of a push with a steal of
# the one task, of a steal from a deque of many, and of a pair with its meeting. Once on one thread, and once on four, each with a deque
# and a source of its own and one table of pairs for all: there the time is that of each thread. The least of five rounds.
# The program is written into a copy of the crates, proved there and run. Usage: bench/deck.sh
set -eu
. "$(dirname "$0")/lib.sh"
make_folder
copy_crates cw_base cw_deck cw_pair
new_program deck_times anyhow cw_base cw_deck cw_pair
mkdir -p proofs/opened
cat > proofs/opened/Invariants.antt <<'PROOF'
use Rattle.deck_times.proofs.opened.Given as goal

abbrev pub ghosts-run : goal.ghosts-run
ghosts-run g a = record { table = a.opened }
PROOF
cat > src/main.rt <<'PROGRAM'
// Times the calls of deques and pairs, on one thread and on four.
#![tactic(auto)]

ghost use Rattle.std.specs.Prelude.{◌≡◌};

use cw_base::OutOfMemory;
use cw_deck::{Deck, Thief};
use cw_pair::{TableName, Opened, Pairs, Source};
use std::alloc::Global;
use std::hint::black_box;
use std::io;
use std::marker::Brand;
use std::rt::Clock;
use std::sync::Wait;
use std::thread;
use std::thread::Threads;
use std::time::Instant;

const CALLS: u32 = 200_000;
const ROUNDS: u32 = 5;

#[derive(Drop)]
struct Hand<N: TableName> {
    deck: Deck<u32>,
    thief: Thief<u32>,
    source: Source<u32, N>,
}

fn push_and_pop(deck: &mut Deck<u32>) -> u64 {
    let mut sum = 0u64;
    for task in 0..CALLS {
        let _ = deck.push(task);
        sum ^= u64::from(deck.pop().unwrap_or(0));
    }
    sum
}

fn steal_nothing<R: Wait>(rt: &R, thief: &mut Thief<u32>) -> u64 {
    let mut sum = 0u64;
    for _ in 0..CALLS {
        sum ^= u64::from(thief.steal(rt).unwrap_or(1));
    }
    sum
}

fn push_and_steal<R: Wait>(rt: &R, deck: &mut Deck<u32>, thief: &mut Thief<u32>) -> u64 {
    let mut sum = 0u64;
    for task in 0..CALLS {
        let _ = deck.push(task);
        sum ^= u64::from(thief.steal(rt).unwrap_or(0));
    }
    sum
}

fn fill(deck: &mut Deck<u32>) {
    for task in 0..CALLS {
        let _ = deck.push(task);
    }
}

fn pair_and_meet<N: TableName>(pairs: &Pairs<u32, N>, source: &mut Source<u32, N>) -> u64 {
    let mut sum = 0u64;
    for task in 0..CALLS {
        if source.has_more() {
            let (left, right) = source.pair(pairs, &task);
            sum ^= left.number();
            if left.number() == right.number() {
                pairs.meet(left, right);
            }
        }
    }
    sum
}

// The nanoseconds of each of the five, in tenths.
#[derive(Clone, Copy, Drop)]
struct Times {
    pop: u64,
    none: u64,
    one: u64,
    many: u64,
    pair: u64,
}

const NO_TIMES: Times = Times {
    pop: u64::MAX,
    none: u64::MAX,
    one: u64::MAX,
    many: u64::MAX,
    pair: u64::MAX,
};

fn tenths(nanos: u128) -> u64 {
    let whole = u64::try_from(nanos).unwrap_or(u64::MAX);
    whole.saturating_mul(10).checked_div(u64::from(CALLS)).unwrap_or(0)
}

fn timed<R: Wait + Clock, N: TableName>(
    rt: &R,
    hand: &mut Hand<N>,
    pairs: &Pairs<u32, N>,
) -> io::Result<Times> {
    let Hand {
        deck,
        thief,
        source,
    } = hand;
    let start = Instant::now(rt)?;
    let _ = black_box(push_and_pop(deck));
    let pop = tenths(start.elapsed(rt)?.as_nanos());
    let start = Instant::now(rt)?;
    let _ = black_box(steal_nothing(rt, thief));
    let none = tenths(start.elapsed(rt)?.as_nanos());
    let start = Instant::now(rt)?;
    let _ = black_box(push_and_steal(rt, deck, thief));
    let one = tenths(start.elapsed(rt)?.as_nanos());
    fill(deck);
    let start = Instant::now(rt)?;
    let _ = black_box(steal_nothing(rt, thief));
    let many = tenths(start.elapsed(rt)?.as_nanos());
    let start = Instant::now(rt)?;
    let _ = black_box(pair_and_meet(pairs, source));
    let pair = tenths(start.elapsed(rt)?.as_nanos());
    Ok(Times {
        pop,
        none,
        one,
        many,
        pair,
    })
}

fn least(a: Times, b: Times) -> Times {
    Times {
        pop: a.pop.min(b.pop),
        none: a.none.min(b.none),
        one: a.one.min(b.one),
        many: a.many.min(b.many),
        pair: a.pair.min(b.pair),
    }
}

fn rounds<R: Wait + Clock, N: TableName>(rt: &R, hand: Hand<N>, pairs: &Pairs<u32, N>) -> Times {
    let mut hand = hand;
    let mut best = NO_TIMES;
    for _ in 0..ROUNDS {
        if let Ok(times) = timed(rt, &mut hand, pairs) {
            best = least(best, times);
        }
    }
    best
}

fn hands<N: TableName>(
    alloc: Global,
    pairs: &Pairs<u32, N>,
    source: &mut Source<u32, N>,
    count: u32,
) -> Result<Vec<Hand<N>>, OutOfMemory> {
    let mut hands = Vec::new(alloc);
    for _ in 0..count {
        let mut deck = Deck::new(alloc)?;
        let thief = deck.thief()?;
        let rest = source.share(pairs);
        let source = std::mem::replace(source, rest);
        hands.push(Hand {
            deck,
            thief,
            source,
        })?;
    }
    Ok(hands)
}

fn run<N: TableName, R: Threads + Wait + Clock + Sync>(
    rt: &R,
    alloc: Global,
    opened: Opened<u32>,
    threads: u32,
) -> Result<Vec<Times>, OutOfMemory>
    requires { opened ≡ N.table }
{
    let (pairs, mut source) = opened.named::<N>();
    let hands = hands(alloc, &pairs, &mut source, threads)?;
    let shared = &pairs;
    let times = thread::map_vec(rt, hands, &|hand| rounds(rt, hand, shared))?;
    Ok(times)
}

fn opened<R: Threads + Wait + Clock + Sync>(
    rt: &R,
    alloc: Global,
    threads: u32,
) -> Result<Vec<Times>, OutOfMemory> {
    let opened = Opened::new(alloc)?;
    run::<Brand, R>(rt, alloc, opened, threads)
}

fn main(rt: HostRuntime) -> anyhow::Result<()> {
    let alloc: Global = rt.alloc();
    for threads in [1u32, 4] {
        let Ok(all) = opened(&rt, alloc, threads) else {
            println!(rt; "want of memory")?;
            continue;
        };
        let mut best = NO_TIMES;
        for times in all.iter() {
            best = least(best, *times);
        }
        println!(rt;
            "{} threads, tenths of a nanosecond: push with pop {}, steal of none {}, push with steal {}, steal of many {}, pair with meeting {}",
            threads, best.pop, best.none, best.one, best.many, best.pair
        )?;
    }
    Ok(())
}
PROGRAM
build
"$program"
