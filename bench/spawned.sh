#!/usr/bin/env bash
# Shows that the cost of a run is linear in its events: runs sources of 1,000, 10,000 and 30,000 atomic increments, each spawned,
# and one of 200 nested blocks, and prints the time of one run (the mean of three) and the most memory that one took.
# Usage: bench/spawned.sh PROGRAM, with the program as the gate builds it: crates/cwstm/out/cwstm, once `rt ci` has passed.
set -eu
. "$(dirname "$0")/lib.sh"
use_program "${1:-}"

# measure NAME: runs the file `source.cw`, which has this name
measure() {
  local time memory
  time=$(mean_of 3 run_file source.cw run --workers 1)
  memory=$(most_memory "$program" run --workers 1 < source.cw)
  echo "$1: $(wc -c < source.cw) bytes, $((time / 1000000)) ms, $memory, $(tr '\n' ' ' < text)"
}

for count in 1000 10000 30000; do
  {
    echo 'cell c; fn main() {'
    for _ in $(seq "$count"); do echo 'spawn{atomic{c=c+1;}}'; done
    echo '}'
  } > source.cw
  measure "$count spawned increments"
done

# the body of main and 199 blocks in each other: no more brackets may be open
{
  echo 'cell c; fn main() {'
  for _ in $(seq 199); do echo 'c = c + 1; atomic {'; done
  for _ in $(seq 199); do echo '}'; done
  echo '}'
} > source.cw
measure 'blocks in each other'
