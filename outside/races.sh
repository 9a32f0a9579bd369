#!/usr/bin/env bash
# Compares `races` of `cw_race` with its definition by all pairs of accesses, on random trees of up to 60 nodes: for each cell, the first access
# that races with an earlier one has to be the second of the cell's entry, and the first one has to be an access that it races with.
# It proves nothing. Prints how many trees were tried, how many cells had a race, and how many trees differ; ends with status 1 if one does.
# Usage: outside/races.sh [TREES] [SEED]
set -eu
. "$(dirname "$0")/../bench/lib.sh"
trees=${1:-2000}
seed=${2:-1}
make_folder
copy_crates cw_base cw_text cw_code cw_strand cw_compile cw_job cw_tree cw_open cw_serial cw_order cw_record cw_sp cw_race
new_program race_pairs cw_base cw_text cw_code cw_strand cw_compile cw_job cw_order cw_tree cw_record cw_sp cw_race
cat > src/main.rt <<'END'
#![tactic(auto)]

use cw_base::{OutOfMemory, Seq};
use cw_code::{Limits, Program};
use cw_compile::compile;
use cw_order::Steps;
use cw_race::{Race, races};
use cw_record::{Record, build};
use cw_text::read_program;
use cw_tree::{BlockState, Closed, Kind, Tree};
use std::alloc::Global;
use std::env;
use std::io;
use std::marker::Brand;
use std::sync::ledger::{Blank, Ledger};

const CELLS: u32 = 3;

#[derive(Drop)]
struct Draw {
    state: u64,
}

impl Draw {
    // A number below `bound`.
    fn below(&mut self, bound: u32) -> u32 {
        self.state = self.state.wrapping_add(0x9e37_79b9_7f4a_7c15);
        let mut mixed = self.state;
        mixed = (mixed ^ (mixed >> 30)).wrapping_mul(0xbf58_476d_1ce4_e5b9);
        mixed = (mixed ^ (mixed >> 27)).wrapping_mul(0x94d0_49bb_1331_11eb);
        ((mixed ^ (mixed >> 31)) % bound as u64) as u32
    }
}

// A node that is still open: a strand, a block, or a fork with as many strands.
#[derive(Clone, Copy)]
struct Open {
    node: u32,
    strands: Option<u32>,
}

fn add(tree: &mut Tree, parent: u32, kind: Kind) -> Result<u32, OutOfMemory> {
    let stamp = tree.nodes().len() as u64;
    Ok(tree.add(parent, kind, stamp)?)
}

// Adds a random node to a strand or block, or ends it. Returns what is open from then on, if that is a new node.
fn step(tree: &mut Tree, draw: &mut Draw, at: u32) -> Result<Option<Option<Open>>, OutOfMemory> {
    let cell = draw.below(CELLS);
    Ok(match draw.below(12) {
        0 | 1 if at > 0 => None,
        2 | 3 | 4 => Some(Some(Open {
            node: add(tree, at, Kind::Fork)?,
            strands: Some(0),
        })),
        5 => Some(Some(Open {
            node: add(tree, at, Kind::Block)?,
            strands: None,
        })),
        6 => {
            add(tree, at, Kind::Out { value: 1 })?;
            Some(None)
        }
        7 | 8 => {
            add(tree, at, Kind::Write { cell, value: 1 })?;
            Some(None)
        }
        _ => {
            add(tree, at, Kind::Read { cell, value: 1 })?;
            Some(None)
        }
    })
}

fn grown(alloc: Global, draw: &mut Draw) -> Result<Tree, OutOfMemory> {
    let mut tree = Tree::new(alloc)?;
    let most = 4 + draw.below(50) as usize;
    let mut stack = Vec::new(alloc);
    stack.push(Open { node: 0, strands: None })?;
    while let Some(open) = stack.pop() {
        let full = tree.nodes().len() >= most;
        match open.strands {
            Some(2) => {}
            Some(strands) => {
                stack.push(Open { node: open.node, strands: Some(strands + 1) })?;
                let strand = add(&mut tree, open.node, Kind::Strand)?;
                stack.push(Open { node: strand, strands: None })?;
            }
            None => {
                let next = if full { None } else { step(&mut tree, draw, open.node)? };
                match next {
                    Some(more) => {
                        stack.push(open)?;
                        if let Some(more) = more {
                            stack.push(more)?;
                        }
                    }
                    None => {
                        if tree.is_block(open.node) {
                            let end = 1000 + tree.nodes().len() as u64 * 100 + open.node as u64;
                            tree.close(open.node, BlockState::Committed, end);
                        }
                    }
                }
            }
        }
    }
    Ok(tree)
}

// The cell of an access, and whether it writes.
fn access(tree: &Tree, n: u32) -> Option<(u32, bool)> {
    match tree.node(n).kind {
        Kind::Read { cell, .. } => Some((cell, false)),
        Kind::Write { cell, .. } => Some((cell, true)),
        _ => None,
    }
}

fn is_race(tree: &Tree, cell: u32, u: u32, v: u32) -> bool {
    let (Some(first), Some(second)) = (access(tree, u), access(tree, v)) else {
        return false;
    };
    u < v
        && first.0 == cell
        && second.0 == cell
        && (first.1 || second.1)
        && !tree.ancestor(u, v)
        && !tree.ancestor(v, u)
        && tree.is_fork(tree.lca(u, v))
        && tree.xparent(u) == tree.xparent(v)
}

// The first access of a cell that races with an earlier one.
fn wanted(tree: &Tree, cell: u32) -> Option<u32> {
    let count = tree.nodes().len() as u32;
    for v in 0..count {
        for u in 0..v {
            if is_race(tree, cell, u, v) {
                return Some(v);
            }
        }
    }
    None
}

fn agree(tree: &Tree, found: &[Race]) -> bool {
    let mut at = 0usize;
    for cell in 0..CELLS {
        if let Some(v) = wanted(tree, cell) {
            if at >= found.len() {
                return false;
            }
            let race = found[at];
            if race.cell != cell || race.second != v || !is_race(tree, cell, race.first, v) {
                return false;
            }
            at += 1;
        }
    }
    at == found.len()
}

fn program(alloc: Global) -> Result<Program, OutOfMemory> {
    match read_program(alloc, "fn main() {}".as_bytes()) {
        Ok(read) => {
            let compiled = compile(alloc, &read);
            drop(read);
            compiled.or(Err(OutOfMemory))
        }
        Err(_) => Err(OutOfMemory),
    }
}

fn record(alloc: Global, tree: Tree) -> Result<Record, OutOfMemory> {
    let limits = Limits {
        fuel: 9,
        size: 9,
        aborts: 1,
        strands: 2,
        moves: 9,
    };
    let closed = Closed {
        tree,
        journals: Seq::new(alloc),
        conflicts: Seq::new(alloc),
        halt: None,
    };
    Ok(build(alloc, program(alloc)?, Seq::new(alloc), limits, closed, false)?)
}

// How many cells had a race, and how many trees differ.
fn tried<L: Ledger>(alloc: Global, blank: Blank, trees: u32, seed: u64) -> Result<(usize, u32), OutOfMemory>
    requires name { blank.name ≡ L.name }
    requires parts { blank.parts ≡ L.parts }
    requires some { 0 < L.parts }
{
    let mut steps = Steps::<L>::new(blank);
    let mut draw = Draw { state: seed };
    let mut total = 0usize;
    let mut differ = 0;
    for _ in 0..trees {
        let kept = record(alloc, grown(alloc, &mut draw)?)?;
        let found = races(alloc, &kept, &mut steps)?;
        total += found.len();
        if !agree(&kept.tree, found.as_slice()) {
            differ += 1;
        }
        drop(found);
        drop(kept);
    }
    drop(steps);
    Ok((total, differ))
}

fn main(rt: HostRuntime) -> io::Result<()> {
    let mut words = env::args(&rt)?.skip(1);
    let mut trees = 2000;
    let mut seed = 1;
    if let Some(word) = words.next() {
        trees = word.as_str().parse::<u32>().unwrap_or(0);
    }
    if let Some(word) = words.next() {
        seed = word.as_str().parse::<u64>().unwrap_or(0);
    }
    match tried::<Brand>(rt.alloc(), Blank::new(1), trees, seed) {
        Ok((total, differ)) => println!(rt; "{} trees, {} races, {} differ", trees, total, differ),
        Err(_) => println!(rt; "a call failed"),
    }
}
END
sed -i '1a ghost use Rattle.std.specs.Prelude.{◌≡◌, ◌<◌};' src/main.rt
rt try -- "$trees" "$seed" > "$folder/said" 2>&1 || { tail -40 "$folder/said"; exit 1; }
grep ' differ$' "$folder/said" || { tail -40 "$folder/said"; exit 1; }
grep -q ', 0 differ$' "$folder/said"
