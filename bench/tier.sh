#!/usr/bin/env bash
# Measures the calls of an order list and of a tier, by a program in a copy of the crates: prints ns for a call at 10,000, 100,000 and
# 1,000,000 columns where each split finds few columns behind it; ns for a column looked at where n nested forks are split from the
# outermost in and merged from the innermost out; ns for a call that is Early behind 100,000 strands that were taken back; and the memory
# of a tier for 1,000,000 strands with its gap words.
# Usage: bench/tier.sh, at the repository's top. The crates beneath the program are proved first, where no check kept them.
set -eu
. "$(dirname "$0")/lib.sh"
make_folder
copy_crates cw_base cw_code cw_order cw_tree cw_trace
new_program tier_bench cw_base cw_order cw_tree cw_trace
cat > src/main.rt <<'PROGRAM'
//! Makes many calls of an order list or a tier: the words are what is called, and how often.
#![tactic(auto)]

use cw_order::OrderList;
use cw_trace::{Gaps, Tier};
use std::alloc::Global;
use std::{env, io};

fn split(tier: &mut Tier, fork: u32) {
    if fork < tier.used() && fork % 2 == 1 && !tier.is_trace(fork) {
        let _answer = tier.split(fork);
    }
}

fn merge(tier: &mut Tier, fork: u32) {
    if fork < tier.used() && fork % 2 == 1 && tier.is_trace(fork) {
        tier.merge(fork);
    }
}

/// The left column of a fork, or 0.
fn fork(tier: &mut Tier, parent: u32) -> u32 {
    if parent < tier.used() {
        match tier.fork(0, parent) {
            Ok((left, _right)) => left,
            Err(_inline) => 0,
        }
    } else {
        0
    }
}

fn insertions(alloc: Global, n: u32) {
    if let Ok(list) = OrderList::with_room(alloc, n) {
        let mut list = list;
        for _ in 0..n {
            let _answer = list.insert_after(None);
        }
    }
}

/// Makes `n` forks of the root, and splits and merges each at once if that is asked for.
fn flat(tier: &mut Tier, n: u32, splits: bool, merges: bool) {
    for _ in 0..n {
        let left = fork(tier, 0);
        if splits {
            split(tier, left);
        }
        if merges {
            merge(tier, left);
        }
    }
}

/// Makes `n` forks in each other. If that is asked for, splits them from the outermost in and merges them from the innermost out.
fn nested(tier: &mut Tier, n: u32, splits: bool) {
    let mut last = 0;
    for _ in 0..n {
        last = fork(tier, last);
    }
    if splits {
        for k in 0..n {
            split(tier, k.saturating_mul(2).saturating_add(1));
        }
        for k in (0..n).rev() {
            merge(tier, k.saturating_mul(2).saturating_add(1));
        }
    }
}

/// Makes `calls` calls for a fork behind `n` strands that were taken back, in the left strand of a fork that is not split.
fn early(tier: &mut Tier, n: u32, calls: u32) {
    let mut last = fork(tier, 0);
    for _ in 0..n {
        last = fork(tier, last).saturating_add(1);
    }
    let inner = last.saturating_sub(1);
    for k in 0..calls {
        split(tier, inner.saturating_sub(k % 1000 * 2));
    }
}

/// One tier, and what is to be done with it.
fn round(alloc: Global, kind: &str, n: u32) {
    if n < 1_000_000_000 {
        if let Ok(tier) = Tier::with_strands(alloc, 2 * n + 3) {
            let mut tier = tier;
            let gaps = Gaps::with_strands(alloc, 2 * n + 3);
            if kind == "fork" {
                flat(&mut tier, n, false, false);
            } else if kind == "split" {
                flat(&mut tier, n, true, false);
            } else if kind == "both" {
                flat(&mut tier, n, true, true);
            } else if kind == "nested" {
                nested(&mut tier, n, false);
            } else if kind == "long" {
                nested(&mut tier, n, true);
            } else if kind == "behind" {
                early(&mut tier, n, 0);
            } else if kind == "early" {
                early(&mut tier, n, 1_000_000);
            }
            drop(gaps);
        }
    }
}

fn main(rt: HostRuntime) -> io::Result<()> {
    let alloc = rt.alloc();
    let mut kind = String::new(alloc);
    let mut n = 1;
    let mut rounds = 1;
    for (at, word) in env::args(&rt)?.enumerate() {
        if at == 1 {
            kind = word;
        } else if let Ok(number) = word.as_str().parse::<u32>() {
            if at == 2 {
                n = number;
            } else {
                rounds = number;
            }
        }
    }
    for _ in 0..rounds {
        if kind.as_str() == "insert" {
            insertions(alloc, n);
        } else {
            round(alloc, kind.as_str(), n);
        }
    }
    Ok(())
}
PROGRAM
build fork 1

# the least time of five runs, in ns
took() {
  least_of 5 run_quietly "$@"
}

# each size has as many rounds as make a million calls
for n in 10000 100000 1000000; do
  rounds=$((1000000 / n))
  empty=$(took none $((n / 2)) "$rounds")
  forks=$(took fork $((n / 2)) "$rounds")
  splits=$(took split $((n / 2)) "$rounds")
  both=$(took both $((n / 2)) "$rounds")
  echo "$n columns: insertion $(($(took insert "$n" "$rounds") / 1000000)) ns, fork $(((forks - empty) / 500000)) ns, split $(((splits - forks) / 500000)) ns, split and merge at once $(((both - forks) / 500000)) ns"
done
for n in 1000 10000 30000; do
  # each split and merge of the k-th fork from within looks at 2k columns
  looked=$((2 * n * (n + 1)))
  echo "$n nested forks: $((($(took long "$n") - $(took nested "$n")) * 100 / looked)) / 100 ns a column looked at"
done
echo "Early behind 100000 strands: $((($(took early 100000) - $(took behind 100000)) / 1000000)) ns"
echo "a tier for 1000000 strands with its words: $(most_memory "$program" fork 500000)"
