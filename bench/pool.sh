#!/usr/bin/env bash
# What a run on several workers costs: 1,000, 5,000 and 20,000 spawned transfers between 64 cells, 16 in a function, by 1, 2 and 4 workers.
# Prints nanoseconds a transfer of `run` of `cw_pool` alone, and of the check of its record beside it: by the differences of two sizes, so
# that what a run costs however short it is has no part in it; and that too, by a run of an empty main, with room for 1,000 and for
# 262,144 strands. A transfer of 20,000 with room for 1,000 strands is shown beside. Reading and compiling are not timed. Each time is the
# least of ROUNDS runs (9 by default). If valgrind is there, the instructions of 5,000 transfers by 1 and 2 workers too, with reading, compiling and
# the check: in all, of the workers and of the run with what they call, and by function.
# The program is written into a copy of the crates, proved there and run; the crates beneath it are proved first, where no check kept them.
# Usage: bench/pool.sh [ROUNDS]
set -eu
. "$(dirname "$0")/lib.sh"
rounds=${1:-9}
make_folder
copy_crates $(cd "$root/crates" && printf '%s\n' * | grep -v '^tests_')
new_program pool_times anyhow cw_base cw_io cw_code cw_text cw_strand cw_compile cw_job cw_record cw_pool
cat > src/main.rt <<'PROGRAM'
//! Times runs of the program on standard input. The words: workers, strands, and how many runs. Prints the least nanoseconds of a run and of
//! the check of its record.
#![tactic(auto)]

ghost use Rattle.std.specs.Prelude.{◌≡◌, ◌<◌, false, IfSome, length};
ghost use Rattle.cw_code.specs.Programs.{cancels};
ghost use Rattle.cw_job.specs.Jobs.{TakesWords};
ghost use Rattle.cw_strand.specs.Programs.{IsCompiled};

use cw_base::Seq;
use cw_code::{Limits, Program};
use cw_compile::compile;
use cw_io::OpenGate;
use cw_job::takes_words;
use cw_pool::run;
use cw_record::{Checked, Record, check};
use cw_text::read_language;
use std::alloc::Global;
use std::env;
use std::io::Read;
use std::rt::Clock;
use std::sync::Wait;
use std::thread::Threads;
use std::time::Instant;

#[derive(Clone, Copy, Drop)]
struct Times {
    run: u128,
    check: u128,
}

const LIMITS: Limits = Limits {
    fuel: 1_000_000,
    size: 10_000_000,
    aborts: 1_000_000,
    strands: 0,
    moves: 1,
};

/// Reads and compiles a program of language 1, in which nothing is given up by `cancel`.
fn read(alloc: Global, text: &[u8]) -> Option<Program>
    ensures compiled { IfSome result (λ p. IsCompiled p) }
    ensures cancels { IfSome result (λ p. cancels p.code ≡ false) }
{
    let Ok(ast) = read_language(alloc, text, 1) else {
        return None;
    };
    match compile(alloc, &ast) {
        Ok(program) => Some(program),
        Err(_) => None,
    }
}

fn program(alloc: Global, text: &[u8]) -> Option<Program>
    ensures compiled { IfSome result (λ p. IsCompiled p) }
    ensures cancels { IfSome result (λ p. cancels p.code ≡ false) }
    ensures words { IfSome result (λ p. TakesWords p 0) }
{
    let program = read(alloc, text)?;
    if takes_words(&program, 0) {
        Some(program)
    } else {
        None
    }
}

fn recorded<R: Threads + Wait + Sync>(
    rt: &R,
    alloc: Global,
    program: Program,
    workers: u32,
    strands: u32,
) -> Option<Record>
    requires compiled { IsCompiled program }
    requires words { TakesWords program 0 }
    requires cancels { cancels program.code ≡ false }
    requires strands { 0 < strands }
    ensures { IfSome result (λ r. TakesWords r.program (length r.words)) }
{
    let limits = Limits { strands, ..LIMITS };
    let words = Seq::new(alloc);
    match run(rt, alloc, program, words, workers, limits, &OpenGate) {
        Ok(record) => Some(record),
        Err(_) => None,
    }
}

fn now<R: Clock>(rt: &R) -> Option<Instant> {
    Instant::now(rt).ok()
}

fn spent<R: Clock>(rt: &R, start: Instant) -> Option<u128> {
    match start.elapsed(rt) {
        Ok(time) => Some(time.as_nanos()),
        Err(_) => None,
    }
}

/// The nanoseconds of the check of a record that replays.
fn time_check<R: Clock>(rt: &R, alloc: Global, kept: &Record) -> Option<u128>
    requires { TakesWords kept.now.program (length kept.now.words) }
{
    let start = now(rt)?;
    match check(alloc, kept) {
        Ok(Checked::Agrees) => spent(rt, start),
        _ => None,
    }
}

/// The nanoseconds of a run, and those of the check of its record.
fn time_run<R: Threads + Wait + Sync + Clock>(
    rt: &R,
    alloc: Global,
    program: Program,
    workers: u32,
    strands: u32,
) -> Option<Times>
    requires compiled { IsCompiled program }
    requires words { TakesWords program 0 }
    requires cancels { cancels program.code ≡ false }
    requires strands { 0 < strands }
{
    let start = now(rt)?;
    let record = recorded(rt, alloc, program, workers, strands)?;
    let run = spent(rt, start)?;
    let check = time_check(rt, alloc, &record)?;
    Some(Times { run, check })
}

/// One run and its check.
fn once<R: Threads + Wait + Sync + Clock>(
    rt: &R,
    alloc: Global,
    text: &[u8],
    workers: u32,
    strands: u32,
) -> Option<Times> {
    let program = program(alloc, text)?;
    if strands == 0 {
        return None;
    }
    time_run(rt, alloc, program, workers, strands)
}

/// The least times of these runs.
fn least_of<R: Threads + Wait + Sync + Clock>(
    rt: &R,
    alloc: Global,
    text: &[u8],
    workers: u32,
    strands: u32,
    runs: u32,
) -> Option<Times> {
    let mut least = Times {
        run: u128::MAX,
        check: u128::MAX,
    };
    for _ in 0..runs {
        let times = once(rt, alloc, text, workers, strands)?;
        least.run = least.run.min(times.run);
        least.check = least.check.min(times.check);
    }
    Some(least)
}

/// The words: workers, strands, and how many runs.
fn numbers(rt: &HostRuntime) -> anyhow::Result<[u32; 3]> {
    let mut numbers = [1u32, 1000, 1];
    for (at, word) in env::args(rt)?.enumerate() {
        if let Ok(number) = word.as_str().parse::<u32>() {
            if 0 < at && at <= 3 {
                numbers[at - 1] = number;
            }
        }
    }
    Ok(numbers)
}

fn main(rt: HostRuntime) -> anyhow::Result<()> {
    let alloc = rt.alloc();
    let [workers, strands, runs] = numbers(&rt)?;
    let mut text = Vec::new(alloc);
    rt.stdin().read_to_end(&mut text)?;
    match least_of(&rt, alloc, text.as_slice(), workers, strands, runs) {
        Some(least) => println!(rt; "{} {}", least.run, least.check)?,
        None => println!(rt; "no program, or no record that replays")?,
    }
    Ok(())
}
PROGRAM
mkdir -p proofs/read
cat > proofs/read/Answers.antt <<'PROOF'
use Rattle.std.proofs.Common.{ap, ◌∙◌}
use Rattle.cw_text.specs.Syntax.{source_of}
use Rattle.cw_text.proofs.Cancels.{newest_one_has_none}
use Rattle.cw_code.specs.Programs.{cancels}
use Rattle.cw_code.specs.declared.instruction.Code.{Code}
use Rattle.cw_strand.proofs.CompiledCancels.{code_has_its_cancels}
use Rattle.pool_times.proofs.read.Goals as goal

pub returns-in-Ok-compile-clause-cancels : goal.returns-in-Ok-compile-clause-cancels
returns-in-Ok-compile-clause-cancels c =
    let source = source_of c.in-Ok.ast in
    ap (λ (x : Code). cancels x) c.in-Ok-compile.ensures.compiled.code ∙ (code_has_its_cancels source.items ∙ newest_one_has_none c.args.text.now source c.in-Ok.ensures.exact)
PROOF

source_of_transfers 0 > "$folder/0.cw"
build 1 1000 1 < "$folder/0.cw"
for transfers in 1000 5000 20000; do source_of_transfers "$transfers" > "$folder/$transfers.cw"; done

# times TRANSFERS WORKERS STRANDS: the nanoseconds of a run and of its check
times() {
  local said
  said=$("$program" "$2" "$3" "$rounds" < "$folder/$1.cw")
  case $said in
    *[!0-9\ ]*) echo "$1 transfers, $2 workers, $3 strands: $said" >&2; exit 1 ;;
  esac
  echo "$said"
}

for workers in 1 2 4; do
  for strands in 1000 262144; do
    read -r run check < <(times 0 "$workers" "$strands")
    echo "$workers workers, room for $strands strands, an empty main: run $((run / 1000)) us, check $((check / 1000)) us"
  done
  before=0
  for transfers in 1000 5000 20000; do
    read -r run check < <(times "$transfers" "$workers" 262144)
    if [ "$before" != 0 ]; then
      more=$((transfers - before))
      echo "$workers workers, from $before to $transfers transfers: run $(((run - run_before) / more)) ns a transfer, check $(((check - check_before) / more)) ns"
    fi
    before=$transfers
    run_before=$run
    check_before=$check
  done
  read -r run check < <(times 20000 "$workers" 1000)
  echo "$workers workers, 20000 transfers, room for 1000 strands: run $((run / 20000)) ns a transfer, check $((check / 20000)) ns"
done
show_machine
if command -v valgrind > valgrind.path; then
  for workers in 1 2; do
    instructions_of callgrind.out "$program" "$workers" 262144 1 < "$folder/5000.cw" > one.told
    echo "$workers workers, 5000 transfers, instructions:"
    callgrind_annotate --inclusive=yes callgrind.out 2> annotate.log | grep -E 'PROGRAM TOTALS|recording::run::|Worker::work|Play::pick' | short_names
    dearest callgrind.out 16
  done
fi
