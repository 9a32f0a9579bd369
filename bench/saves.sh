#!/usr/bin/env bash
# Measures what is kept of the begins of blocks, by a program in a copy of the crates, which is proved: a function that calls itself in a
# block. The begin of each block is kept, or is not; then the strand goes back from the innermost block to each in turn, and has to come
# from there to what came after that begin at first. The most functions that may stand are 10,000: after 9,999 begins comes the fault Depth.
# Prints the begins that were found again and what comes after the innermost, the most memory with and without what is kept (the median of
# 21 runs: the kernel counts it in batches, so that runs differ by 100 KiB), and the bytes a begin, by the pages that the program touched.
# Usage: bench/saves.sh, at the repository's top. The crates beneath the program are proved first, where no check kept them.
set -eu
. "$(dirname "$0")/lib.sh"
make_folder
crates='cw_base cw_code cw_text cw_strand cw_compile'
copy_crates $crates
new_program saves_bench $crates
mkdir -p specs proofs/{begin_kept,go_in,go_through,go_out}
cat > specs/Lib.antt <<'SPECS'
pub mod Nests
SPECS
cat > specs/Nests.antt <<'SPECS'
-- Begins of blocks inside each other, and what is kept of them.
use Rattle.std.specs.Prelude.{◌≡◌, ℕ, List, [], ◌∷◌}
use Rattle.cw_code.specs.declared.Limits.{Limits}
use Rattle.cw_code.specs.declared.instruction.Code.{Code}
use Rattle.cw_strand.specs.declared.want.Want.{Want}
use Rattle.cw_strand.specs.declared.want.Want.TheVariants.{Begin}
use Rattle.cw_strand.specs.declared.want.Given.TheVariants.{Nothing}
use Rattle.cw_strand.specs.Running.{Standing}
use Rattle.cw_strand.specs.Coded.{State, strands_of}
use Rattle.cw_strand.specs.Standing.{StandsIn, StandsWanting, NextFrom}
use Rattle.cw_strand.specs.Saving.{Inside, StaysIn, Kept, kept_of}

abbrev pub at_begin : State → Standing State
at_begin s = record { want = Begin; state = s }

-- The strand stands inside the innermost block of which this is kept, and each block begins inside the next one.
pub data Nests (code : Code) : List Kept → Standing State → Type 0 where
  none : {x : Standing State} → Nests code [] x
  within : {k : Kept} {ks : List Kept} {x : Standing State} (limits : Limits) (forks inner : ℕ) (b : State)
      → StandsWanting code Begin b → k ≡ kept_of b
      → Inside (strands_of code 0 [] limits) (at_begin b) forks inner x → StaysIn x.want inner
      → Nests code ks (at_begin b) → Nests code (k ∷ ks) x

-- No block has begun; or the strand stands at the begin of the innermost block of which this is kept.
abbrev pub Keeps : Code → List Kept → State → Type 0
Keeps code [] s = StandsIn code s
Keeps code (k ∷ ks) s = StandsWanting code Begin s × ((k ≡ kept_of s) × Nests code ks (at_begin s))

-- it wants something else than the end of a block next
pub record GoesOn (code : Code) (s t : State) : Type 0 where
  pub want : Want
  pub next : NextFrom code s Nothing want t
  pub stays : StaysIn want 0
  pub stands : StandsIn code t
SPECS
cat > src/main.rt <<'PROGRAM'
//! Begins blocks in each other, keeps the begin of each, and goes back from the innermost to each. The words are whether the begins are kept,
//! and how many blocks begin.
#![tactic(auto)]

ghost use Rattle.std.specs.Prelude.{OnSome};
ghost use Rattle.cw_strand.specs.declared.want.Want.TheVariants.{Begin};
ghost use Rattle.cw_strand.specs.declared.want.Given.TheVariants.{Nothing};
ghost use Rattle.cw_strand.specs.Standing.{StandsIn, StandsWanting, NextFrom};
ghost use Rattle.saves_bench.specs.Nests.{Keeps, GoesOn};

use cw_base::Stack;
use cw_code::{FaultKind, Limits, Program};
use cw_compile::compile;
use cw_strand::{Given, Saved, Strand, Want};
use cw_text::read_program;
use std::alloc::Global;
use std::{env, io};

const SOURCE: &str = "fn f() { atomic { f(); } } fn main() { f(); }";

/// Goes on to the begin of a block. None where another want, or want of memory, comes before.
fn begin(program: &Program, strand: &mut Strand) -> Option<()>
    requires { StandsIn program.now.code strand.old }
    ensures next { OnSome result (NextFrom program.now.code strand.old Nothing Begin strand.new) }
    ensures stands { OnSome result (StandsWanting program.now.code Begin strand.new) }
{
    match strand.next(program, Given::Nothing) {
        Ok(Want::Begin) => Some(()),
        _ => None,
    }
}

/// Goes on to the begin of a block, and keeps it.
fn begin_kept(program: &Program, strand: &mut Strand, saves: &mut Stack<Saved>) -> Option<()>
    requires { Keeps program.now.code saves.old strand.old }
    ensures { OnSome result (Keeps program.now.code saves.new strand.new) }
{
    begin(program, strand)?;
    let Ok(saved) = strand.save() else {
        return None;
    };
    match saves.push(saved) {
        Ok(()) => Some(()),
        Err(_) => None,
    }
}

/// The same `count` times.
fn go_in(program: &Program, strand: &mut Strand, saves: &mut Stack<Saved>, count: u32) -> Option<()>
    requires { Keeps program.now.code saves.old strand.old }
    ensures { OnSome result (Keeps program.now.code saves.new strand.new) }
{
    for _ in 0..count {
        begin_kept(program, strand, saves)?;
    }
    Some(())
}

/// The same with nothing kept. Answers what comes after the innermost begin.
fn go_through(program: &Program, strand: &mut Strand, count: u32) -> Option<Want>
    requires { StandsIn program.now.code strand.old }
{
    for _ in 0..count {
        begin(program, strand)?;
    }
    go_on(program, strand)
}

/// Goes on from a begin to the next one, or to where no more functions may stand.
fn go_on(program: &Program, strand: &mut Strand) -> Option<Want>
    requires { StandsIn program.now.code strand.old }
    ensures { OnSome result (GoesOn program.now.code strand.old strand.new) }
{
    match strand.next(program, Given::Nothing) {
        Ok(Want::Begin) => Some(Want::Begin),
        Ok(Want::Fault(FaultKind::Depth)) => Some(Want::Fault(FaultKind::Depth)),
        _ => None,
    }
}

/// Goes back to the begin of each block, the innermost first, and on from there, to what came after that begin at first. Answers how many
/// begins that were, and what comes after the innermost.
fn go_out(program: &Program, strand: &mut Strand, saves: &mut Stack<Saved>) -> Option<(u32, Want)>
    requires { Keeps program.now.code saves.old strand.old }
{
    let innermost = go_on(program, strand)?;
    let mut next = innermost;
    let mut count = 0u32;
    while let Some(saved) = saves.pop() {
        strand.back(&saved);
        let again = go_on(program, strand)?;
        if again != next {
            return None;
        }
        next = Want::Begin;
        count = count.saturating_add(1);
    }
    Some((count, innermost))
}

/// Begins `count` blocks in each other. Returns how many begins were found again, and what comes after the innermost.
fn round(alloc: Global, keeps: bool, count: u32) -> Option<(u32, Want)> {
    let Ok(ast) = read_program(alloc, SOURCE.as_bytes()) else {
        return None;
    };
    let Ok(program) = compile(alloc, &ast) else {
        return None;
    };
    let main = program.code.code().func(u64::from(program.main))?;
    if main.params != 0 {
        return None;
    }
    let limits = Limits {
        fuel: 100_000,
        size: 100_000,
        aborts: 1,
        strands: 1,
        moves: 1,
    };
    let Ok(strand) = Strand::main(alloc, &program, &[], limits) else {
        return None;
    };
    let mut strand = strand;
    if !keeps {
        let innermost = go_through(&program, &mut strand, count)?;
        return Some((0, innermost));
    }
    let mut saves = Stack::new(alloc);
    go_in(&program, &mut strand, &mut saves, count)?;
    go_out(&program, &mut strand, &mut saves)
}

fn main(rt: HostRuntime) -> io::Result<()> {
    let mut keeps = false;
    let mut count = 0;
    for (at, word) in env::args(&rt)?.enumerate() {
        if at == 1 {
            keeps = word.as_str() == "keep";
        } else if let Ok(number) = word.as_str().parse::<u32>() {
            count = number;
        }
    }
    let found = round(rt.alloc(), keeps, count);
    println!(rt; "{found:?}")
}
PROGRAM
cat > proofs/Lib.antt <<'PROOFS'
pub mod Nesting
PROOFS
cat > proofs/Nesting.antt <<'PROOFS'
-- How begins that are kept stay so.
use Rattle.std.proofs.Common.{◌≡◌, ℕ, suc, List, [], ◌∷◌, refl, sym, subst}
use Rattle.cw_code.specs.declared.instruction.Code.{Code}
use Rattle.cw_code.specs.Rules.{faults}
use Rattle.cw_strand.specs.declared.want.Want.{Want}
use Rattle.cw_strand.specs.declared.want.Want.TheVariants.{Begin, End}
use Rattle.cw_strand.specs.declared.want.Given.TheVariants.{Nothing}
use Rattle.cw_strand.specs.Running.{Standing}
use Rattle.cw_strand.specs.Coded.{State, strands_of}
use Rattle.cw_strand.specs.Standing.{StandsIn, StandsWanting, NextFrom}
use Rattle.cw_strand.specs.Saving.{Inside, begun, answered, StaysIn, Kept, kept_of, MayGoBack}
use Rattle.saves_bench.specs.Nests.{at_begin, Nests, none, within, Keeps, GoesOn}

module _ (code : Code) where
  pub keeps_next : (k : Kept) (ks : List Kept) (s t : State) → Keeps code ks s → NextFrom code s Nothing Begin t
      → StandsWanting code Begin t → k ≡ kept_of t → Keeps code (k ∷ ks) t
  keeps_next k [] s t h next stands is = (stands, (is, none))
  keeps_next k (j ∷ ks) s t h next stands is =
      let l = t.limits in
      (stands, (is, within l 0 0 s h.0 h.1.0 (subst (Inside (strands_of code 0 [] l) (at_begin s) 0 0) (sym (next 0 [] l)) begun) tt h.1.1))

  pub stands_so : (ks : List Kept) (s : State) → Keeps code ks s → StandsIn code s
  stands_so [] s h = h
  stands_so (k ∷ ks) s h = h.0.stands

  pub keeps_on : (ks : List Kept) (s t : State) → Keeps code ks s → (g : GoesOn code s t)
      → Nests code ks (record { want = g.want; state = t })
  keeps_on [] s t h g = none
  keeps_on (k ∷ ks) s t h g =
      let l = t.limits in
      within l 0 0 s h.0 h.1.0 (subst (Inside (strands_of code 0 [] l) (at_begin s) 0 0) (sym (g.next 0 [] l)) begun) g.stays h.1.1

  one_more : (w : Want) (n : ℕ) → StaysIn w 0 → StaysIn w (suc n)
  one_more End n stays = tt
  one_more w n stays = tt

  pub nests_on : (ks : List Kept) (s t : State) → Nests code ks (at_begin s) → (g : GoesOn code s t)
      → Nests code ks (record { want = g.want; state = t })
  nests_on [] s t none g = none
  nests_on (k ∷ ks) s t (within l forks inner b stands is inside stays nests) g =
      let answer = subst (Inside (strands_of code 0 [] l) (at_begin b) forks (suc inner)) (sym (g.next 0 [] l)) (answered inside Nothing tt tt) in
      within l forks (suc inner) b stands is answer (one_more g.want inner g.stays) nests

  pub back_from : faults code ≡ [] → (k : Kept) (ks : List Kept) (x : Standing State) → Nests code (k ∷ ks) x → MayGoBack k x.state
  back_from sound k ks x (within l forks inner b stands is inside stays nests) = record {
    code = code;
    sound = sound;
    main = 0;
    words = [];
    limits = l;
    begin = at_begin b;
    wants = refl;
    stands = stands;
    is_kept = is;
    there = x;
    forks = forks;
    inner = inner;
    inside = inside;
    stays = stays;
    like = refl;
  }

  -- where it has gone back
  pub record Returned (ks : List Kept) (s : State) : Type 0 where
    pub stands : StandsIn code s
    pub nests : Nests code ks (at_begin s)

  pub returned : (sound : faults code ≡ []) (k : Kept) (ks : List Kept) (x : Standing State) (new : State) → Nests code (k ∷ ks) x
      → ((m : MayGoBack k x.state) → new ≡ m.begin.state) → Returned ks new
  unfolding back_from
  returned sound k ks x new (within l forks inner b stands is inside stays nests) there =
      let h = within l forks inner b stands is inside stays nests in
      subst (Returned ks) (sym (there (back_from sound k ks x h))) (record { stands = stands.stands; nests = nests })
PROOFS
cat > proofs/begin_kept/Answers.antt <<'PROOFS'
use Rattle.std.proofs.Common.{sym, subst}
use Rattle.saves_bench.specs.Nests.{Keeps}
use Rattle.saves_bench.proofs.Nesting.{keeps_next, stands_so}
use Rattle.saves_bench.proofs.begin_kept.Goals as goal

pub begin-requires : goal.begin-requires
begin-requires c = stands_so c.args.program.now.code c.args.saves.now c.args.strand.now c.requires

pub returns-in-Ok-push : goal.returns-in-Ok-push
returns-in-Ok-push c =
    let code = c.args.program.now.code in
    let begun = c.in_ok-begin.ensures in
    subst (λ ks. Keeps code ks c.begin.new.strand) (sym c.in-Ok-push.ensures.ok)
    (keeps_next code c.in-Ok.saved c.args.saves.now c.args.strand.now c.begin.new.strand c.requires begun.next begun.stands c.in-Ok.ensures)
PROOFS
cat > proofs/go_in/Invariants.antt <<'PROOFS'
use Rattle.saves_bench.specs.Nests.{Keeps}
use Rattle.saves_bench.proofs.go_in.Given as goal

abbrev pub invariant-loop : goal.invariant-loop
invariant-loop l = Keeps l.program.code l.saves l.strand
PROOFS
cat > proofs/go_through/Invariants.antt <<'PROOFS'
use Rattle.cw_strand.specs.Standing.{StandsIn}
use Rattle.saves_bench.proofs.go_through.Given as goal

abbrev pub invariant-loop : goal.invariant-loop
invariant-loop l = StandsIn l.program.code l.strand
PROOFS
cat > proofs/go_out/Invariants.antt <<'PROOFS'
use Rattle.std.proofs.Common.{length}
use Rattle.cw_strand.specs.declared.want.Want.{Want}
use Rattle.saves_bench.specs.Nests.{Nests}
use Rattle.saves_bench.proofs.go_out.Given as goal

abbrev pub invariant-loop-saved : goal.invariant-loop-saved
invariant-loop-saved l = (w : Want) × Nests l.program.code l.saves (record { want = w; state = l.strand })

abbrev pub decreases-loop-saved : goal.decreases-loop-saved
decreases-loop-saved l = length l.saves
PROOFS
cat > proofs/go_out/Answers.antt <<'PROOFS'
use Rattle.std.proofs.Common.{◌∷◌, subst}
use Rattle.cw_strand.specs.Running.{Standing}
use Rattle.cw_strand.specs.Coded.{State}
use Rattle.saves_bench.specs.Nests.{Nests}
use Rattle.saves_bench.proofs.Nesting.{stands_so, keeps_on, nests_on, back_from, returned}
use Rattle.saves_bench.proofs.go_out.Goals as goal

pub go_on-requires : goal.go_on-requires
go_on-requires c = stands_so c.args.program.now.code c.args.saves.now c.args.strand.now c.requires

pub loop-saved-init : goal.loop-saved-init
loop-saved-init c =
    let on = c.in_ok-innermost.ensures in
    (on.want, keeps_on c.args.program.now.code c.args.saves.now c.args.strand.now c.go_on.new.strand c.requires on)

-- inside the innermost block, whose begin was taken off what is kept
pub back-requires : goal.back-requires
back-requires c =
    let code = c.args.program.now.code in
    let at : Standing State = record { want = c.loop-saved.invariant.0; state = c.loop-saved.strand } in
    let nests : Nests code (c.in-Some.saved ∷ c.pop.new.self) at =
        subst (λ ks. Nests code ks at) c.in-Some.ensures c.loop-saved.invariant.1 in
    back_from code c.args.program.now.sound c.in-Some.saved c.pop.new.self at nests

pub go_on-requires-in-Some : goal.go_on-requires-in-Some
go_on-requires-in-Some c =
    let code = c.args.program.now.code in
    let at : Standing State = record { want = c.loop-saved.invariant.0; state = c.loop-saved.strand } in
    let nests : Nests code (c.in-Some.saved ∷ c.pop.new.self) at =
        subst (λ ks. Nests code ks at) c.in-Some.ensures c.loop-saved.invariant.1 in
    (returned code c.args.program.now.sound c.in-Some.saved c.pop.new.self at c.back.new.self nests c.back.ensures).stands

pub loop-saved-preserved : goal.loop-saved-preserved
loop-saved-preserved c =
    let code = c.args.program.now.code in
    let at : Standing State = record { want = c.loop-saved.invariant.0; state = c.loop-saved.strand } in
    let nests : Nests code (c.in-Some.saved ∷ c.pop.new.self) at =
        subst (λ ks. Nests code ks at) c.in-Some.ensures c.loop-saved.invariant.1 in
    let on = c.in_ok-again.ensures in
    let there = returned code c.args.program.now.sound c.in-Some.saved c.pop.new.self at c.back.new.self nests c.back.ensures in
    (on.want, nests_on code c.pop.new.self c.back.new.self c.go_on-in-Some.new.strand there.nests on)
PROOFS
build keep 1

# of 21 runs the median of what is named: %M is the most memory in KiB, %R the pages that were touched
median() {
  local of=$1
  shift
  for _ in $(seq 21); do /usr/bin/time -f "$of" "$program" "$@" 2>&1 > /dev/null; done | sort -n | sed -n 11p
}

page=$(getconf PAGESIZE)
for count in 2500 5000 9999; do
  found=$("$program" keep "$count")
  bytes=$((($(median %R keep "$count") - $(median %R none "$count")) * page / count))
  memory="$(median %M keep "$count") KiB with each kept, $(median %M none "$count") KiB with none"
  echo "$count begins: found again, and what comes next: $found; $memory; $bytes bytes a begin"
done
show_machine
