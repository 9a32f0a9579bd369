#!/usr/bin/env bash
# Measures the depth-first run of blocks in each other, each of which is given up: a function that calls itself from within a block that it
# cancels, 1,000 and 5,000 deep. What an outer block puts back takes a look at all that the inner ones wrote, so the cost grows with the
# square of the depth. Prints ms (the median of seven runs) and what the cell and the outputs are; the machine is named last.
# Usage: bench/given-up.sh, at the repository's top. The crates beneath the program are proved first, where no check kept them.
set -eu
. "$(dirname "$0")/lib.sh"
make_folder
crates='cw_base cw_code cw_text cw_strand cw_compile cw_job cw_tree cw_open cw_serial cw_record'
copy_crates $crates
new_program deep_bench $crates
cat > src/main.rt <<'PROGRAM'
//! Runs blocks in each other, as many as the word says. Each of them is given up.
#![tactic(auto)]

use cw_base::Seq;
use cw_code::Limits;
use cw_compile::compile;
use cw_record::{RecordEnd, depth_first};
use cw_serial::takes_words;
use cw_text::read_program;
use std::{env, io};

fn main(rt: HostRuntime) -> io::Result<()> {
    let alloc = rt.alloc();
    let mut deep = 0;
    for word in env::args(&rt)? {
        if let Ok(number) = word.as_str().parse::<u32>() {
            deep = number;
        }
    }
    let text = format!(in alloc; "language 2; cell c; fn f(n) {{ atomic {{ c = n; if n {{ f(n - 1); }} cancel; }} }} fn main() {{ f({deep}); out c; }}")?;
    let limits = Limits { fuel: 1_000_000_000, size: 1_000_000, aborts: 1, strands: 1, moves: 0 };
    if let Ok(source) = read_program(alloc, text.as_bytes())
        && let Ok(program) = compile(alloc, &source)
        && takes_words(&program, 0)
        && let Ok(record) = depth_first(alloc, program, Seq::new(alloc), limits)
        && let RecordEnd::Finished { memory, outputs } = &record.end
    {
        let memory = memory.as_slice();
        let outputs = outputs.as_slice();
        println!(&rt; "memory {memory:?} outputs {outputs:?}")?;
    }
    Ok(())
}
PROGRAM
build 1

for deep in 1000 5000; do
  time=$(median_of 7 run_quietly "$deep")
  echo "$deep deep: $((time / 1000000)) ms, $("$program" "$deep")"
done
show_machine
