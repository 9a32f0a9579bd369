#!/usr/bin/env bash
# Shows that a report costs in proportion to what it tells: a block is refused 12,500, 25,000, 50,000 and 100,000 times, and the simulation is
# written with a report and without. Prints the instructions of each line of the report, by callgrind where it is installed, else
# nanoseconds (the least of five runs). A line of the longest report costs at most 1.2 times one of the shortest.
# Usage: bench/report.sh PROGRAM, with the program as the gate builds it: crates/cwstm/out/cwstm, once `rt ci` has passed.
# Ends with status 1 if it is not so.
set -eu
. "$(dirname "$0")/lib.sh"
use_program "${1:-}"

# cost WORD..: what a simulation of the file `source` costs
cost() {
  if command -v valgrind > valgrind_is; then
    instructions_of /dev/null "$program" sim --workers 2 --aborts 1000000 "$@" < source
  else
    least_of 5 run_file source sim --workers 2 --aborts 1000000 "$@"
  fi
}

first=
for count in 12500 25000 50000 100000; do
  printf 'cell c; cell d; fn main() { spawn { atomic { c = 1; let i = 0; while i < %s { d = i; i = i + 1; } } } atomic { c = 2; } }' $((3 * count)) > source
  without=$(cost)
  with=$(cost --report 1)
  lines=$(grep -c '^conflict ' text)
  line=$(((with - without) / lines))
  echo "$lines refusals: $line a line"
  first=${first:-$line}
done
wrong=0
if [ $((line * 10)) -gt $((first * 12)) ]; then miss 'a line costs more in a long report'; fi
exit "$wrong"
