#!/usr/bin/env bash
# What the calls of a board cost: nanoseconds of an output, which is one draw; of a look at an empty cell, which takes its turn and gives it
# back; of an access of a cell that no other strand reaches, which asks about the one before; of a begin with its commit; and of a question
# whose answer is Free, Within or Against. Once of one strand, and once of four in threads of their own, each with cells of its own: there it
# is the time of the slowest one. Each is the least of five rounds of 50,000 calls. Then the bytes of a board for 1,000,000 columns, and the
# instructions of the rounds of one strand, which do not depend on what else the machine does: where valgrind is there.
# The program is written into a copy of the crates, proved there and run; the crates beneath it are proved first, where no check kept them.
# Usage: bench/board.sh
set -eu
. "$(dirname "$0")/lib.sh"
make_folder
copy_crates cw_base cw_text cw_code cw_strand cw_job cw_tree cw_open cw_serial cw_order cw_trace cw_xconf cw_stack cw_record cw_log cw_course \
  cw_steps cw_board
new_program board_times anyhow cw_base cw_code cw_order cw_tree cw_trace cw_log cw_steps cw_board
mkdir specs proofs
cat > src/main.rt <<'PROGRAM'
// Times the calls of a board, on one thread and on four.
#![tactic(auto)]

ghost use Rattle.std.specs.Prelude.{◌≡◌, ◌<◌, IfOk, OnOk};
ghost use Rattle.std.specs.Thread.{IsSync};
ghost use Rattle.cw_board.specs.Boards.{cells_in};
ghost use Rattle.board_times.specs.Fit.{IsFit};

use cw_base::OutOfMemory;
use cw_board::{Board, Moved};
use cw_code::Limits;
use cw_log::{Access, Forked, strands_go_on};
use cw_order::Steps;
use cw_steps::StrandToken;
use cw_trace::Verdict;
use cw_tree::Mark;
use std::alloc::Global;
use std::hint::black_box;
use std::marker::Brand;
use std::rt::Clock;
use std::sync::Wait;
use std::sync::ledger::{Blank, Ledger};
use std::thread::{Threads, join};
use std::time::Instant;
use std::{env, io};

const CALLS: u32 = 50_000;

const ROUNDS: u32 = 5;

const LIMITS: Limits = Limits {
    fuel: 0,
    size: 0,
    aborts: 9,
    strands: 9,
    moves: 0,
};

/// The nanoseconds of each call.
#[derive(Clone, Copy, Drop)]
struct Times {
    draw: u64,
    look: u64,
    access: u64,
    block: u64,
    free: u64,
    within: u64,
    against: u64,
}

const NO_TIMES: Times = Times {
    draw: u64::MAX,
    look: u64::MAX,
    access: u64::MAX,
    block: u64::MAX,
    free: u64::MAX,
    within: u64::MAX,
    against: u64::MAX,
};

fn most(a: Times, b: Times) -> Times {
    Times {
        draw: a.draw.max(b.draw),
        look: a.look.max(b.look),
        access: a.access.max(b.access),
        block: a.block.max(b.block),
        free: a.free.max(b.free),
        within: a.within.max(b.within),
        against: a.against.max(b.against),
    }
}

fn least(a: Times, b: Times) -> Times {
    Times {
        draw: a.draw.min(b.draw),
        look: a.look.min(b.look),
        access: a.access.min(b.access),
        block: a.block.min(b.block),
        free: a.free.min(b.free),
        within: a.within.min(b.within),
        against: a.against.min(b.against),
    }
}

/// The nanoseconds of one call, given those of all CALLS.
fn of_one(nanos: u128) -> u64 {
    u64::try_from(nanos / u128::from(CALLS)).unwrap_or(u64::MAX)
}

fn outs(board: &Board, token: &mut StrandToken, strand: u32) -> Result<(), OutOfMemory>
    requires { IsFit board.now token.old strand }
    ensures { OnOk result (IsFit board.now token.new strand) }
{
    strands_go_on();
    board.out(token, 1)
}

fn begins(board: &Board, token: &mut StrandToken, strand: u32) -> Result<(), OutOfMemory>
    requires { IsFit board.now token.old strand }
    ensures { OnOk result (IsFit board.now token.new strand) }
{
    strands_go_on();
    board.begin(token)
}

fn commits(board: &Board, token: &mut StrandToken, strand: u32) -> Result<(), OutOfMemory>
    requires { IsFit board.now token.old strand }
    ensures { OnOk result (IsFit board.now token.new strand) }
{
    strands_go_on();
    if board.place(token) == strand {
        return Err(OutOfMemory);
    }
    board.commit(token);
    Ok(())
}

fn reads<R: Wait>(
    rt: &R,
    board: &Board,
    token: &mut StrandToken,
    strand: u32,
    cell: u32,
) -> Result<i64, OutOfMemory>
    requires fit { IsFit board.now token.old strand }
    requires cell { cell < cells_in board.now }
    ensures { OnOk result (IsFit board.now token.new strand) }
{
    strands_go_on();
    match board.access(rt, token, cell, None) {
        Ok(Access::Value(value)) => Ok(value),
        Ok(Access::Conflict(_)) => Err(OutOfMemory),
        Err(error) => Err(error),
    }
}

fn looks<R: Wait>(
    rt: &R,
    board: &Board,
    token: &mut StrandToken,
    strand: u32,
    cell: u32,
) -> Result<usize, OutOfMemory>
    requires fit { IsFit board.now token.old strand }
    requires cell { cell < cells_in board.now }
    ensures { OnOk result (IsFit board.now token.new strand) }
{
    let chain = board.chain(rt, token, cell)?;
    Ok(chain.len())
}

/// The strands of a fork that is split, with the left one's number.
fn parts<R: Wait>(
    rt: &R,
    board: &Board,
    token: StrandToken,
    strand: u32,
) -> Result<(StrandToken, u32, StrandToken), OutOfMemory>
    requires { IsFit board.now token strand }
    ensures { IfOk result (λ r. IsFit board.entry.now r.0 r.1 × IsFit board.entry.now r.2 0) }
{
    strands_go_on();
    match board.fork(rt, token) {
        Ok(Forked::Two { fork, left, right }) => {
            let mut right = right;
            let number = board.place(&left);
            match board.split(rt, &mut right, fork) {
                Ok(()) => Ok((left, number, right)),
                Err(_) => Err(OutOfMemory),
            }
        }
        Ok(Forked::Inline { .. }) => Err(OutOfMemory),
        Err((_, error)) => Err(error),
    }
}

fn many_outs(board: &Board, token: &mut StrandToken, strand: u32) -> Result<(), OutOfMemory>
    requires { IsFit board.now token.old strand }
    ensures { OnOk result (IsFit board.now token.new strand) }
{
    for _ in 0..CALLS {
        outs(board, token, strand)?;
    }
    Ok(())
}

fn many_blocks(board: &Board, token: &mut StrandToken, strand: u32) -> Result<(), OutOfMemory>
    requires { IsFit board.now token.old strand }
    ensures { OnOk result (IsFit board.now token.new strand) }
{
    for _ in 0..CALLS {
        begins(board, token, strand)?;
        commits(board, token, strand)?;
    }
    Ok(())
}

fn many_reads<R: Wait>(
    rt: &R,
    board: &Board,
    token: &mut StrandToken,
    strand: u32,
    cell: u32,
) -> Result<(), OutOfMemory>
    requires fit { IsFit board.now token.old strand }
    requires cell { cell < cells_in board.now }
    ensures { OnOk result (IsFit board.now token.new strand) }
{
    let mut sum = 0i64;
    for _ in 0..CALLS {
        sum ^= reads(rt, board, token, strand, cell)?;
    }
    let _ = black_box(sum);
    Ok(())
}

fn many_looks<R: Wait>(
    rt: &R,
    board: &Board,
    token: &mut StrandToken,
    strand: u32,
    cell: u32,
) -> Result<(), OutOfMemory>
    requires fit { IsFit board.now token.old strand }
    requires cell { cell < cells_in board.now }
    ensures { OnOk result (IsFit board.now token.new strand) }
{
    let mut sum = 0usize;
    for _ in 0..CALLS {
        sum ^= looks(rt, board, token, strand, cell)?;
    }
    let _ = black_box(sum);
    Ok(())
}

fn number_of(answer: Result<Verdict, Moved>) -> u64 {
    match answer {
        Ok(Verdict::Free) => 0,
        Ok(Verdict::Within) => 1,
        Ok(Verdict::Against(_)) => 2,
        Err(_) => 3,
    }
}

/// Asks CALLS times, and returns the sum of the answers: Free is 0, Within 1, Against 2 and Moved 3.
fn many_asks<K: Ledger, L: Ledger>(
    board: &Board,
    token: &mut StrandToken,
    strand: u32,
    last: Mark,
    blanks: (Blank, Blank),
) -> u64
    requires fit { IsFit board.now token.old strand }
    requires looks { (blanks.0.name ≡ K.name) × (blanks.0.parts ≡ K.parts) × (0 < K.parts) }
    requires compares { (blanks.1.name ≡ L.name) × (blanks.1.parts ≡ L.parts) × (0 < L.parts) }
    ensures { IsFit board.now token.new strand }
{
    let mut looks = Steps::<K>::new(blanks.0);
    let mut compares = Steps::<L>::new(blanks.1);
    let mut sum = 0u64;
    for _ in 0..CALLS {
        let answer = board.ask(token, last, &mut looks, &mut compares);
        sum = sum.wrapping_add(number_of(answer));
    }
    sum
}

/// The time of that, if each answer was this one.
fn asked<R: Wait + Clock>(
    rt: &R,
    board: &Board,
    token: &mut StrandToken,
    strand: u32,
    last: Mark,
    answer: u64,
) -> Result<u64, OutOfMemory>
    requires { IsFit board.now token.old strand }
    ensures { IsFit board.now token.new strand }
{
    let blanks = (Blank::new(1), Blank::new(1));
    let start = now(rt)?;
    let sum = many_asks::<Brand, Brand>(board, token, strand, last, blanks);
    let time = spent(rt, start)?;
    if sum == u64::from(CALLS).saturating_mul(answer) {
        Ok(time)
    } else {
        Ok(0)
    }
}

/// The token's column and the stamp of its newest node.
fn newest(token: &StrandToken) -> Mark {
    Mark {
        strand: token.column(),
        stamp: token.nodes().last().map_or(0, |node| node.stamp),
    }
}

fn now<R: Clock>(rt: &R) -> Result<Instant, OutOfMemory> {
    Instant::now(rt).map_err(|_| OutOfMemory)
}

fn spent<R: Clock>(rt: &R, start: Instant) -> Result<u64, OutOfMemory> {
    match start.elapsed(rt) {
        Ok(time) => Ok(of_one(time.as_nanos())),
        Err(_) => Err(OutOfMemory),
    }
}

fn time_outs<R: Clock>(
    rt: &R,
    board: &Board,
    token: &mut StrandToken,
    strand: u32,
) -> Result<u64, OutOfMemory>
    requires { IsFit board.now token.old strand }
    ensures { OnOk result (IsFit board.now token.new strand) }
{
    let start = now(rt)?;
    many_outs(board, token, strand)?;
    spent(rt, start)
}

fn time_looks<R: Wait + Clock>(
    rt: &R,
    board: &Board,
    token: &mut StrandToken,
    strand: u32,
    cell: u32,
) -> Result<u64, OutOfMemory>
    requires fit { IsFit board.now token.old strand }
    requires cell { cell < cells_in board.now }
    ensures { OnOk result (IsFit board.now token.new strand) }
{
    let start = now(rt)?;
    many_looks(rt, board, token, strand, cell)?;
    spent(rt, start)
}

fn time_reads<R: Wait + Clock>(
    rt: &R,
    board: &Board,
    token: &mut StrandToken,
    strand: u32,
    cell: u32,
) -> Result<u64, OutOfMemory>
    requires fit { IsFit board.now token.old strand }
    requires cell { cell < cells_in board.now }
    ensures { OnOk result (IsFit board.now token.new strand) }
{
    let start = now(rt)?;
    many_reads(rt, board, token, strand, cell)?;
    spent(rt, start)
}

fn time_blocks<R: Clock>(
    rt: &R,
    board: &Board,
    token: &mut StrandToken,
    strand: u32,
) -> Result<u64, OutOfMemory>
    requires { IsFit board.now token.old strand }
    ensures { OnOk result (IsFit board.now token.new strand) }
{
    let start = now(rt)?;
    many_blocks(board, token, strand)?;
    spent(rt, start)
}

/// The time of a question whose answer is Within: of an access in a block that is still pending.
fn time_within<R: Wait + Clock>(
    rt: &R,
    board: &Board,
    token: &mut StrandToken,
    strand: u32,
    cell: u32,
) -> Result<u64, OutOfMemory>
    requires fit { IsFit board.now token.old strand }
    requires cell { cell < cells_in board.now }
    ensures { OnOk result (IsFit board.now token.new strand) }
{
    begins(board, token, strand)?;
    reads(rt, board, token, strand, cell)?;
    let time = asked(rt, board, token, strand, newest(token), 1)?;
    commits(board, token, strand)?;
    Ok(time)
}

/// One round of a strand with no pending block. The cell four further on is left alone by all; the rival made its access in a block that is
/// still pending.
fn timed<R: Wait + Clock>(
    rt: &R,
    board: &Board,
    token: &mut StrandToken,
    strand: u32,
    cell: u32,
    rival: Mark,
) -> Result<Times, OutOfMemory>
    requires fit { IsFit board.now token.old strand }
    requires cell { cell < 4 }
    requires cells { 8 < cells_in board.now }
    ensures { OnOk result (IsFit board.now token.new strand) }
{
    let draw = time_outs(rt, board, token, strand)?;
    let look = time_looks(rt, board, token, strand, cell + 4)?;
    let access = time_reads(rt, board, token, strand, cell)?;
    let free = asked(rt, board, token, strand, newest(token), 0)?;
    let block = time_blocks(rt, board, token, strand)?;
    let within = time_within(rt, board, token, strand, cell)?;
    let against = asked(rt, board, token, strand, rival, 2)?;
    Ok(Times {
        draw,
        look,
        access,
        block,
        free,
        within,
        against,
    })
}

/// The least time of each, of all rounds.
fn rounds<R: Wait + Clock>(
    rt: &R,
    board: &Board,
    token: StrandToken,
    strand: u32,
    cell: u32,
    rival: Mark,
) -> Times
    requires fit { IsFit board.now token strand }
    requires cell { cell < 4 }
    requires cells { 8 < cells_in board.now }
{
    let mut token = token;
    let mut best = NO_TIMES;
    for _ in 0..ROUNDS {
        match timed(rt, board, &mut token, strand, cell, rival) {
            Ok(times) => best = least(best, times),
            Err(_) => return best,
        }
    }
    best
}

/// An access in a block that is pending from then on.
fn rival_of<R: Wait>(rt: &R, board: &Board, token: &mut StrandToken) -> Result<Mark, OutOfMemory>
    requires fit { IsFit board.now token.old 0 }
    requires cells { 8 < cells_in board.now }
{
    begins(board, token, 0)?;
    reads(rt, board, token, 0, 8)?;
    Ok(newest(token))
}

fn board_of(alloc: Global, strands: u32) -> Result<(Board, StrandToken), OutOfMemory>
    requires { 0 < strands }
    ensures fit { IfOk result (λ r. IsFit r.0 r.1 0) }
    ensures cells { IfOk result (λ r. 8 < cells_in r.0) }
{
    Board::new(
        alloc,
        &[0, 0, 0, 0, 0, 0, 0, 0, 0],
        Limits { strands, ..LIMITS },
    )
}

fn on_one<R: Wait + Clock>(rt: &R, alloc: Global) -> Result<Times, OutOfMemory> {
    let (board, root) = board_of(alloc, 9)?;
    let (token, strand, other) = parts(rt, &board, root, 0)?;
    let mut other = other;
    let rival = rival_of(rt, &board, &mut other)?;
    Ok(rounds(rt, &board, token, strand, 0, rival))
}

/// Two strands, each in a thread of its own: the time of the slower one.
fn pair<R: Threads + Wait + Clock + Sync>(
    rt: &R,
    board: &Board,
    one: (StrandToken, u32),
    other: (StrandToken, u32),
    cell: u32,
    rival: Mark,
) -> Times
    requires fit { IsFit board.now one.0 one.1 × IsFit board.now other.0 other.1 }
    requires cell { cell < 3 }
    requires cells { 8 < cells_in board.now }
{
    let (left, first) = one;
    let (right, second) = other;
    let (a, b) = join(
        rt,
        move || -> Times
            requires { IsSync R.row × IsFit board.now left first × (cell < 3) × (8 < cells_in board.now) }
        { rounds(rt, board, left, first, cell, rival) },
        move || -> Times
            requires { IsSync R.row × IsFit board.now right second × (cell < 3) × (8 < cells_in board.now) }
        { rounds(rt, board, right, second, cell + 1, rival) },
    );
    most(a, b)
}

fn on_four<R: Threads + Wait + Clock + Sync>(rt: &R, alloc: Global) -> Result<Times, OutOfMemory> {
    let (board, root) = board_of(alloc, 9)?;
    let (token, strand, other) = parts(rt, &board, root, 0)?;
    let mut other = other;
    let rival = rival_of(rt, &board, &mut other)?;
    let (token, strand, b) = parts(rt, &board, token, strand)?;
    let (token, strand, c) = parts(rt, &board, token, strand)?;
    let (a, strand, d) = parts(rt, &board, token, strand)?;
    Ok(pairs(rt, &board, (a, strand), b, c, d, rival))
}

/// Four strands, each in a thread of its own: the time of the slowest one.
fn pairs<R: Threads + Wait + Clock + Sync>(
    rt: &R,
    board: &Board,
    a: (StrandToken, u32),
    b: StrandToken,
    c: StrandToken,
    d: StrandToken,
    rival: Mark,
) -> Times
    requires fit { IsFit board.now a.0 a.1 × IsFit board.now b 0 × IsFit board.now c 0 × IsFit board.now d 0 }
    requires cells { 8 < cells_in board.now }
{
    let (one, other) = join(
        rt,
        move || -> Times
            requires { IsSync R.row × IsFit board.now a.0 a.1 × IsFit board.now b 0 × (8 < cells_in board.now) }
        { pair(rt, board, a, (b, 0), 0, rival) },
        move || -> Times
            requires { IsSync R.row × IsFit board.now c 0 × IsFit board.now d 0 × (8 < cells_in board.now) }
        { pair(rt, board, (c, 0), (d, 0), 2, rival) },
    );
    most(one, other)
}

fn shown(rt: &HostRuntime, threads: u32, times: Times) -> io::Result<()> {
    println!(rt;
        "{threads} threads, nanoseconds: output (one draw) {}, look at an empty cell (take with give) {}, access of one's own cell {}, begin with commit {}, ask Free {}, Within {}, Against {}",
        times.draw, times.look, times.access, times.block, times.free, times.within, times.against
    )
}

fn show_columns(rt: &HostRuntime) -> io::Result<()> {
    let made = board_of(rt.alloc(), 1_000_000);
    println!(rt; "a board of 1000000 columns was made: {}", made.is_ok())
}

/// The words are one, four or columns.
fn main(rt: HostRuntime) -> anyhow::Result<()> {
    let alloc = rt.alloc();
    for word in env::args(&rt)? {
        match word.as_str() {
            "one" => {
                if let Ok(times) = on_one(&rt, alloc) {
                    shown(&rt, 1, times)?;
                }
            }
            "four" => {
                if let Ok(times) = on_four(&rt, alloc) {
                    shown(&rt, 4, times)?;
                }
            }
            "columns" => show_columns(&rt)?,
            _ => {}
        }
    }
    Ok(())
}
PROGRAM

echo 'pub mod Fit' > specs/Lib.antt
cat > specs/Fit.antt <<'SPEC'
-- A token that may go on.
use Rattle.std.specs.Prelude.{◌≡◌, ℕ}
use Rattle.cw_log.specs.Tokens.{Goes}
use Rattle.cw_steps.specs.declared.table.StrandToken.{StrandToken}
use Rattle.cw_steps.specs.Stands.{token_of}
use Rattle.cw_board.specs.declared.board.Board.{Board}
use Rattle.cw_board.specs.Boards.{budget_of, IsOf}

-- it is one of this board, stands in the strand with this number, and that goes on
pub record IsFit (b : Board) (t : StrandToken) (number : ℕ) : Type 0 where
  pub of : IsOf b t
  pub goes : Goes (budget_of b) (token_of t)
  pub strand : (token_of t).strand ≡ number
SPEC

echo 'pub mod Fit' > proofs/Lib.antt
cat > proofs/Fit.antt <<'PROOF'
-- Serves `IsFit`: a token that goes on.
use Rattle.std.proofs.Common.{◌≡◌, ◌∙◌, ℕ, ap, refl, sym, subst}
use Rattle.std.specs.Prelude.{ℤ, Option, OnOk, Result, Ok, Err}
use Rattle.std.proofs.lemmas.List.Elements.{All-nil}
use Rattle.cw_tree.specs.declared.conflict.Conflict.{Conflict}
use Rattle.cw_tree.specs.declared.node.BlockState.TheVariants.{Committed}
use Rattle.cw_tree.specs.declared.node.Kind.{Kind}
use Rattle.cw_log.specs.Going.{GoesOnAfterNodes, GoesOnBehindBlocks, GoesOnInBlocks, BothGoOn}
use Rattle.cw_log.specs.Answers.{access_kind, Meets}
use Rattle.cw_log.specs.declared.board.Access.TheVariants.{Value}
use Rattle.cw_log.specs.Tokens.{began, ended, forked, made, once_split, right_of, root_token, Fells, Goes, IsLater}
use Rattle.cw_log.specs.declared.token.Token.{Token}
use Rattle.cw_steps.specs.declared.table.StrandToken.{StrandToken}
use Rattle.cw_steps.specs.Stands.{token_of}
use Rattle.cw_board.specs.declared.board.Board.{Board}
use Rattle.cw_board.specs.Boards.{budget_of, IsOf}
use Rattle.board_times.specs.Fit.{IsFit}

pub on_ok : {A E : Type 0} (P Q : Type 0) (r : Result A E) → (P → Q) → OnOk r P → OnOk r Q
on_ok P Q (Ok a) f h = f h
on_ok P Q (Err e) f h = h

module _ (b : Board) (t u : StrandToken) (strand : ℕ) (fit : IsFit b t strand) (of : IsOf b u) where
  pub fit_made : GoesOnAfterNodes → (kind : Kind) (stamp : ℕ) → token_of u ≡ made (token_of t) kind stamp → IsFit b u strand
  fit_made law kind stamp is = record {
    of = of;
    goes = subst (Goes (budget_of b)) (sym is) (law (budget_of b) stamp kind (token_of t) fit.goes);
    strand = ap (λ (x : Token). x.strand) is ∙ fit.strand;
  }

  pub fit_began : GoesOnInBlocks → (stamp : ℕ) → IsLater (token_of t) stamp → token_of u ≡ began (token_of t) stamp → IsFit b u strand
  fit_began law stamp later is = record {
    of = of;
    goes = subst (Goes (budget_of b)) (sym is) (law (budget_of b) stamp (token_of t) fit.goes later);
    strand = ap (λ (x : Token). x.strand) is ∙ fit.strand;
  }

  pub fit_ended : GoesOnBehindBlocks → (stamp : ℕ) → token_of u ≡ ended (token_of t) Committed stamp → IsFit b u strand
  fit_ended law stamp is = record {
    of = of;
    goes = subst (Goes (budget_of b)) (sym is) (law (budget_of b) stamp Committed (token_of t) fit.goes);
    strand = ap (λ (x : Token). x.strand) is ∙ fit.strand;
  }

  pub fit_value : GoesOnAfterNodes → (c : ℕ) (w : Option ℤ) (v : ℤ) → Meets (token_of t) (token_of u) c w (Value v) → IsFit b u strand
  fit_value law c w v (written, told) = let (stamp, is) = told in fit_made law (access_kind c w v) stamp is

-- both strands of a fork, the right one once it is split
module _ (b : Board) (t : StrandToken) (strand : ℕ) (fit : IsFit b t strand) (law : BothGoOn) where
  pub left_fit : (l : StrandToken) → IsOf b l → (stamp fork : ℕ) → token_of l ≡ forked (token_of t) stamp fork → (number : ℕ) → number ≡ (token_of l).place → IsFit b l number
  left_fit l of stamp fork is number place = record {
    of = of;
    goes = subst (Goes (budget_of b)) (sym is) (law (budget_of b) stamp fork 0 (token_of t) fit.goes).0;
    strand = ap (λ (x : Token). x.strand) is ∙ sym (ap (λ (x : Token). x.place) is) ∙ sym place;
  }

  pub right_fit : (r u : StrandToken) → IsOf b u → (fork column : ℕ) → token_of r ≡ right_of (token_of t) fork column → token_of u ≡ once_split (token_of r) → IsFit b u 0
  right_fit r u of fork column is then =
      let whole : token_of u ≡ once_split (right_of (token_of t) fork column) = then ∙ ap once_split is in record {
        of = of;
        goes = subst (Goes (budget_of b)) (sym whole) (law (budget_of b) 0 fork column (token_of t) fit.goes).1;
        strand = ap (λ (x : Token). x.strand) whole;
      }

-- the root's token may go on
pub root_fit : (b : Board) (t : StrandToken) → IsOf b t → token_of t ≡ root_token → IsFit b t 0
root_fit b t of is = record {
  of = of;
  goes = subst (Goes (budget_of b)) (sym is) (record {
    on = record { stop = refl; told = refl; unspent = All-nil (λ (c : Conflict). c.attempt ≡ budget_of b → ⊥) };
    phase = refl;
    free = All-nil (λ (c : Conflict). Fells root_token c → ⊥);
  });
  strand = ap (λ (x : Token). x.strand) is;
}
PROOF

# invariant FUNCTION NAMES: its loop keeps the token fit
invariant() {
  mkdir "proofs/$1"
  cat > "proofs/$1/Invariants.antt" <<PROOF
use Rattle.board_times.specs.Fit.{IsFit}
use Rattle.board_times.proofs.$1.Given as goal

abbrev pub invariant-loop : goal.invariant-loop
invariant-loop $2 = IsFit l.board l.token l.strand
PROOF
}

for name in many_outs many_blocks; do invariant "$name" l; done
for name in many_looks many_reads many_asks rounds; do invariant "$name" 'g l'; done
mkdir proofs/asked proofs/outs proofs/begins proofs/commits proofs/reads proofs/parts
cat > proofs/asked/Invariants.antt <<'PROOF'
use Rattle.board_times.proofs.asked.Given as goal

abbrev pub ghosts-many_asks-K-Ledger : goal.ghosts-many_asks-K-Ledger
ghosts-many_asks-K-Ledger g a = record { name = a.blanks.0.name; parts = a.blanks.0.parts }

abbrev pub ghosts-many_asks-L-Ledger : goal.ghosts-many_asks-L-Ledger
ghosts-many_asks-L-Ledger g a = record { name = a.blanks.1.name; parts = a.blanks.1.parts }
PROOF
cat > proofs/outs/Answers.antt <<'PROOF'
use Rattle.board_times.proofs.Fit.{on_ok, fit_made}
use Rattle.board_times.proofs.outs.Goals as goal

pub returns : goal.returns
returns c =
    let e = c.out.ensures in
    on_ok _ _ c.out.result (λ k. let (stamp, is) = k in fit_made c.args.board.now c.args.token.now c.out.new.token c.args.strand c.requires e.of c.strands_go_on.ensures.nodes _ stamp is) e.ok
PROOF
cat > proofs/begins/Answers.antt <<'PROOF'
use Rattle.board_times.proofs.Fit.{on_ok, fit_began}
use Rattle.board_times.proofs.begins.Goals as goal

pub returns : goal.returns
returns c =
    let e = c.begin.ensures in
    on_ok _ _ c.begin.result (λ k. let (stamp, later, is) = k in fit_began c.args.board.now c.args.token.now c.begin.new.token c.args.strand c.requires e.of c.strands_go_on.ensures.blocks stamp later is) e.ok
PROOF
cat > proofs/commits/Answers.antt <<'PROOF'
use Rattle.board_times.proofs.Fit.{fit_ended}
use Rattle.board_times.proofs.commits.Goals as goal

pub returns : goal.returns
returns c =
    let e = c.commit.ensures in
    let (stamp, is) = e.token in
    fit_ended c.args.board.now c.args.token.now c.commit.new.token c.args.strand c.requires e.of c.strands_go_on.ensures.behind stamp is
PROOF
cat > proofs/reads/Answers.antt <<'PROOF'
use Rattle.std.proofs.Common.{subst}
use Rattle.std.specs.Prelude.{None}
use Rattle.cw_log.specs.declared.board.Access.{Access}
use Rattle.cw_log.specs.Answers.{Meets}
use Rattle.cw_steps.specs.Stands.{token_of}
use Rattle.board_times.proofs.Fit.{fit_value}
use Rattle.board_times.proofs.reads.Goals as goal

pub returns-in-Ok-Value : goal.returns-in-Ok-Value
returns-in-Ok-Value g c =
    let e = c.in-Ok-Value.ensures in
    fit_value c.args.board.now c.args.token.now c.access.new.token c.args.strand c.requires.fit e.of c.strands_go_on.ensures.nodes c.args.cell None c.in-Ok-Value.value
    (subst (λ (a : Access). Meets (token_of c.args.token.now) (token_of c.access.new.token) c.args.cell None a) c.in-Ok-Value.field-0-is e.ok)
PROOF
cat > proofs/parts/Answers.antt <<'PROOF'
use Rattle.std.proofs.Common.{subst}
use Rattle.cw_log.specs.declared.board.Forked.{Forked}
use Rattle.cw_log.specs.Answers.{Forks}
use Rattle.cw_steps.specs.declared.table.StrandToken.{StrandToken}
use Rattle.cw_steps.specs.Stands.{token_of}
use Rattle.cw_board.specs.Turns.{AreOf}
use Rattle.board_times.proofs.Fit.{left_fit, right_fit}
use Rattle.board_times.proofs.parts.Goals as goal

pub returns-in-Ok : goal.returns-in-Ok
returns-in-Ok g c =
    let b = c.args.board.now in
    let t = c.args.token in
    let law = c.strands_go_on.ensures.both in
    let (some, left, right) = subst (λ (f : Forked StrandToken). Forks token_of (token_of t) f) c.in-Ok-Two.field-0-is c.in-Ok-Two.ensures.ok in
    let of = subst (λ (f : Forked StrandToken). AreOf b f) c.in-Ok-Two.field-0-is c.in-Ok-Two.ensures.of in
    let (stamp, left_is) = left in
    let (column, right_is) = right in (
      left_fit b t c.args.strand c.requires law c.in-Ok-Two.left of.0 stamp c.in-Ok-Two.fork left_is c.place-number.result c.place-number.ensures,
      right_fit b t c.args.strand c.requires law c.in-Ok-Two.right c.split.new.token c.in-Ok.ensures.of c.in-Ok-Two.fork column right_is c.in-Ok.ensures.ok,
    )
PROOF

build
"$program" one four
show_machine
if command -v valgrind > valgrind.path; then
  valgrind --tool=massif --massif-out-file=massif.out "$program" columns > columns.told 2> massif.log
  echo "$(cat columns.told), in $(sed -n 's/^mem_heap_B=//p' massif.out | sort -n | tail -1) bytes"
  instructions_of callgrind.out "$program" one > one.told
  dearest callgrind.out 14
fi
