#!/usr/bin/env bash
# Measures the conflict query, by a program in a copy of the crates: prints ns for an `ask` with 1, 10, 100, 1,000 and 5,000 traces inside
# one another, of a few marks again and again and of marks at random, and with 1,000,000 columns; and beside it ns for a `conflict_plain`
# on a tree of the same depth, which walks up. Blocks in one another change neither a tier nor its words (a gap's word is that of the
# outermost block begun in it), so their number is no size of an `ask`. Each is the median of seven runs, without the time of a run that
# asks nothing; the machine is named last.
# Usage: bench/queries.sh, at the repository's top. The crates beneath the program are proved first, where no check kept them.
set -eu
. "$(dirname "$0")/lib.sh"
make_folder
crates='cw_base cw_code cw_order cw_tree cw_trace cw_xconf'
copy_crates $crates
new_program query_bench $crates
mkdir -p proofs/main
cat > proofs/main/Invariants.antt <<'PROOF'
use Rattle.query_bench.proofs.main.Given as goal

abbrev pub ghosts-asks-K-Ledger : goal.ghosts-asks-K-Ledger
ghosts-asks-K-Ledger a = record { name = a.blanks.0.name; parts = a.blanks.0.parts }

abbrev pub ghosts-asks-L-Ledger : goal.ghosts-asks-L-Ledger
ghosts-asks-L-Ledger a = record { name = a.blanks.1.name; parts = a.blanks.1.parts }
PROOF
cat > src/main.rt <<'PROGRAM'
//! Asks many times of one tier: the words are what is asked, how deep or wide the tier is, and how often.
#![tactic(auto)]

ghost use Rattle.std.specs.Prelude.{◌≡◌, ◌<◌};

use cw_order::Steps;
use cw_trace::{Gaps, Tier};
use cw_tree::{Kind, Mark, Tree};
use cw_xconf::{ask, Verdict};
use std::alloc::Global;
use std::marker::Brand;
use std::sync::ledger::{Blank, Ledger};
use std::{env, io};

/// The left column of a split fork, or 0.
fn stolen(tier: &mut Tier, parent: u32) -> u32 {
    if parent >= tier.used() {
        return 0;
    }
    let Ok((left, _right)) = tier.fork(1, parent) else {
        return 0;
    };
    if left < tier.used() && left % 2 == 1 && !tier.is_trace(left) {
        let _answer = tier.split(left);
    }
    left
}

/// The next of a row of numbers that look as if they were drawn.
fn next(state: u64) -> u64 {
    state
        .wrapping_mul(6_364_136_223_846_793_005)
        .wrapping_add(1_442_695_040_888_963_407)
}

/// How many of `rounds` questions were answered Within or Against: marks and askers are drawn, or are a few again and again.
fn asks<K: Ledger, L: Ledger>(
    blanks: (Blank, Blank),
    tier: &Tier,
    gaps: &Gaps,
    few: bool,
    rounds: u32,
) -> u64
    requires looks { (blanks.0.name ≡ K.name) × (blanks.0.parts ≡ K.parts) × (0 < K.parts) }
    requires compares { (blanks.1.name ≡ L.name) × (blanks.1.parts ≡ L.parts) × (0 < L.parts) }
{
    let mut looks = Steps::<K>::new(blanks.0);
    let mut compares = Steps::<L>::new(blanks.1);
    let used = u64::from(tier.used());
    let mut state: u64 = 1;
    let mut count: u64 = 0;
    for k in 0..rounds {
        state = next(state);
        let drawn = if few { u64::from(k % 8) * 7 } else { state >> 33 };
        let strand = if used > 0 { (drawn % used) as u32 } else { 0 };
        let asker = if used > 0 { ((drawn / 3) % used) as u32 } else { 0 };
        let last = Mark { strand, stamp: 3 + drawn % 2 };
        match ask(tier, gaps, last, asker, &mut looks, &mut compares) {
            Verdict::Free => {}
            _ => count = count.wrapping_add(1),
        }
    }
    count
}

/// How many of `rounds` walks up a tree found a conflict: from its deepest access, with an asker beside the root's block.
fn walks(tree: &Tree, deep: u32, rounds: u32) -> u64 {
    let mut count: u64 = 0;
    for k in 0..rounds {
        let asker = k % 4;
        if (deep as usize) < tree.nodes().len() && (asker as usize) < tree.nodes().len() && tree.conflict_plain(deep, asker) {
            count = count.wrapping_add(1);
        }
    }
    count
}

/// A block, with `depth` forks in one another in it, and an access in the innermost left strand; and the access.
fn tall(alloc: Global, depth: u32) -> (Option<Tree>, u32) {
    let Ok(tree) = Tree::new(alloc) else {
        return (None, 0);
    };
    let mut tree = tree;
    let mut at = 0;
    let mut stamp: u64 = 1;
    for k in 0..depth {
        let kind = if k == 0 { Kind::Block } else { Kind::Fork };
        if (at as usize) < tree.nodes().len() && let Ok(fork) = tree.add(at, kind, stamp) {
            at = fork;
            if k > 0 && let Ok(left) = tree.add(fork, Kind::Strand, 0) {
                at = left;
            }
        }
        stamp = stamp.wrapping_add(1);
    }
    if (at as usize) < tree.nodes().len() && let Ok(access) = tree.add(at, Kind::Read { cell: 0, value: 0 }, stamp) {
        at = access;
    }
    (Some(tree), at)
}

fn main(rt: HostRuntime) -> io::Result<()> {
    let alloc = rt.alloc();
    let mut kind = String::new(alloc);
    let mut size = 1;
    let mut rounds = 0;
    for (at, word) in env::args(&rt)?.enumerate() {
        if at == 1 {
            kind = word;
        } else if let Ok(number) = word.as_str().parse::<u32>() {
            if at == 2 {
                size = number;
            } else {
                rounds = number;
            }
        }
    }
    let mut count = 0;
    if kind.as_str() == "plain" {
        let (tree, deep) = tall(alloc, size);
        if let Some(tree) = tree {
            count = walks(&tree, deep, rounds);
        }
    } else if size < 100_000_000 {
        if let Ok(tier) = Tier::with_strands(alloc, 2 * size + 1) && let Ok(gaps) = Gaps::with_strands(alloc, 2 * size + 1) {
            let mut tier = tier;
            let mut gaps = gaps;
            let mut last = 0;
            let wide = kind.as_str() == "wide" || kind.as_str() == "wide-few";
            for _ in 0..size {
                last = stolen(&mut tier, if wide { 0 } else { last });
            }
            if gaps.words.len() > 0 {
                gaps.set(0, 2);
            }
            let few = kind.as_str() == "few" || kind.as_str() == "wide-few";
            count = asks::<Brand, Brand>((Blank::new(1), Blank::new(1)), &tier, &gaps, few, rounds);
        }
    }
    println!(&rt; "{count}")
}
PROGRAM
build few 1

# the median of seven runs, in ns
took() {
  median_of 7 run_quietly "$@"
}

# hundredths of a ns, without the time of a run that asks nothing
each() { echo $((($(took "$1" "$2" "$3") - $(took "$1" "$2" 0)) * 100 / $3)); }
shown() { printf '%d.%02d' $(($1 / 100)) $(($1 % 100)); }

for size in 1 10 100 1000 5000; do
  echo "$size traces inside one another: ask $(shown "$(each few "$size" 20000000)") ns of a few marks, $(shown "$(each random "$size" 20000000)") ns at random; conflict_plain $(shown "$(each plain "$size" $((20000000 / size)))") ns"
done
echo "1000001 columns: ask $(shown "$(each wide-few 500000 20000000)") ns of a few marks, $(shown "$(each wide 500000 20000000)") ns at random"
# instructions of one ask, if valgrind is there: these do not vary with what else the machine does
counted() { instructions_of "$folder/calls" "$program" "$@"; }
if command -v valgrind > /dev/null; then
  for size in 1 10 100 1000 5000; do
    echo "$size traces inside one another: $((($(counted few "$size" 100000) - $(counted few "$size" 0)) / 100000)) instructions an ask of a few marks, $((($(counted random "$size" 100000) - $(counted random "$size" 0)) / 100000)) at random"
  done
fi
show_machine
