#!/usr/bin/env bash
# Shows how many instructions of compiled code a run does in a second: runs loops of 1,000,000 and 10,000,000 rounds, of 11 instructions
# each, and prints the time of one run (the mean of three), the most memory that one took, and the instructions in a second.
# Usage: bench/loops.sh PROGRAM, with the program as the gate builds it: crates/cwstm/out/cwstm, once `rt ci` has passed.
set -eu
. "$(dirname "$0")/lib.sh"
use_program "${1:-}"

for rounds in 1000000 10000000; do
  echo "fn main() { let i = 0; while i < $rounds { i = i + 1; } out i; }" > source.cw
  time=$(mean_of 3 run_file source.cw run --workers 1 --fuel 1000000000)
  memory=$(most_memory "$program" run --workers 1 --fuel 1000000000 < source.cw)
  echo "$rounds rounds: $((time / 1000000)) ms, $memory, $((rounds * 11000 / time)) million instructions a second, $(tr '\n' ' ' < text)"
done
