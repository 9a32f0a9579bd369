#!/usr/bin/env bash
# Shows what the moves of a simulation cost, on two workers:
# - a move takes as long in a run of 500, 1,000 and 2,000 spawned increments, whose workers move in turn: within 1.3 of each other;
# - 1,000,001 moves take under 5 seconds, in less than 1 GB;
# - a strand that is refused 80,000 times, and one that is refused 20,000 times inside 2,000 blocks, take under 2 seconds each.
# Prints the least time of several runs, without that of a simulation of an empty main with the same words, and says if a run is not as it
# has to be.
# Usage: bench/simulations.sh PROGRAM, with the program as the gate builds it: crates/cwstm/out/cwstm, once `rt ci` has passed.
# Ends with status 1 if one is not.
set -eu
. "$(dirname "$0")/lib.sh"
use_program "${1:-}"
wrong=0

# simulate SOURCE WORD..: a simulation of this source, whatever its status
simulate() {
  run_file "$1" sim --workers 2 "${@:2}" || true
}

# time_of RUNS WORD..: the least nanoseconds of a simulation of the file `source`, without that of an empty main; and `text` is that of the source
time_of() {
  local runs=$1 empty whole
  shift
  empty=$(least_of "$runs" simulate empty "$@")
  whole=$(least_of "$runs" simulate source "$@")
  echo "$((whole > empty ? whole - empty : 1))"
}

# wants STATUS TEXT WORD..: the simulation of the file `source` ends so, where it has 1 GB
wants() {
  local status=0 wanted=$1 text=$2
  shift 2
  (ulimit -v 1048576 && "$program" sim --workers 2 "$@" < source > text 2> note) || status=$?
  [ "$status" = "$wanted" ] || miss "status $status, wanted $wanted"
  [ "$(tr '\n' '/' < text)" = "$text" ] || miss "text $(head -c 100 text | tr '\n' '/'), wanted $text"
}

# turns COUNT WORKER..: these workers over and over, COUNT numbers in all, with commas between them
turns() {
  local count=$1
  shift
  yes "$(printf '%s\n' "$@")" | head -n "$count" | paste -sd,
}

# below WHAT TIME LIMIT: prints a time in nanoseconds, which has to be below LIMIT milliseconds
below() {
  echo "$1: $(($2 / 1000000)) ms"
  [ "$2" -lt "$(($3 * 1000000))" ] || miss "wanted under $3 ms"
}

echo 'fn main() {}' > empty

# ## Spawned increments

schedule=$(turns 20000 0 1)
fastest=0
slowest=0
for count in 500 1000 2000; do
  moves=$((9 * count + 6))
  echo "cell c; fn main() { let i = 0; while i < $count { spawn { atomic { c = c + 1; } } i = i + 1; } }" > source
  wants 9 'moves spent/' --schedule "$schedule" --moves "$((moves - 1))"
  wants 0 "c = $count/end/" --schedule "$schedule" --moves "$moves"
  each=$(($(time_of 100 --schedule "$schedule") / moves))
  echo "$count spawned increments: $moves moves, $each ns each"
  if [ "$fastest" = 0 ] || [ "$each" -lt "$fastest" ]; then fastest=$each; fi
  if [ "$each" -gt "$slowest" ]; then slowest=$each; fi
done
[ "$((slowest * 10))" -le "$((fastest * 13))" ] || miss "from $fastest to $slowest ns a move, wanted within 1.3 of each other"

# ## Many moves

echo 'cell c; fn main() { let i = 0; while i < 250000 { c = c + 1; i = i + 1; } }' > source
wants 9 'moves spent/' --moves 1000000
wants 0 'c = 250000/end/' --moves 1000001
below '1,000,001 moves' "$(time_of 3)" 5000

# ## Many refusals

echo 'cell c; cell d;
fn main() { spawn { atomic { c = 1; let i = 0; while i < 40000 { d = d + 1; i = i + 1; } } } c = 2; }' > source
wants 7 'budget spent in 0.1r/' --schedule 0,1,0,0 --aborts 80000
wants 0 'c = 2/d = 40000/end/' --schedule 0,1,0,0 --aborts 80001
below '80,000 refusals' "$(time_of 3 --schedule 0,1,0,0)" 2000

echo 'cell c; cell d;
fn f(n) {
  if n { atomic { f(n - 1); } }
  else { spawn { atomic { c = 1; let i = 0; while i < 10000 { d = d + 1; i = i + 1; } } } c = 2; }
}
fn main() { f(2000); }' > source
schedule=$(turns 2000 0),0,1,0,0
wants 7 'budget spent in 0.1r/' --schedule "$schedule" --aborts 20000
wants 0 'c = 2/d = 10000/end/' --schedule "$schedule" --aborts 20001
below '20,000 refusals inside 2,000 blocks' "$(time_of 3 --schedule "$schedule")" 2000

exit "$wrong"
