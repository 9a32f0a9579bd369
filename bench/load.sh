#!/usr/bin/env bash
# Shows what a transfer of `load` costs on threads: loads of 1,000, 5,000 and 20,000 transfers, by 1, 2 and 4 workers. The cost of a transfer
# is the difference of two loads, so that a start has no part in it; one of 20,000 may cost at most 1.2 times one of 5,000.
# Prints the least time of RUNS runs (5 by default), and says if a load does not end as it has to.
# Usage: bench/load.sh PROGRAM [RUNS], with the program as the gate builds it: crates/cwstm/out/cwstm, once `rt ci` has passed.
# Ends with status 1 if one does not, or if a transfer costs more.
set -eu
. "$(dirname "$0")/lib.sh"
use_program "${1:-}"
runs=${2:-5}
wrong=0

# load TRANSFERS WORKERS: one load, whose text goes behind those of the loads before
load() {
  "$program" load --workers "$2" "$1" >> texts || true
}

# measure TRANSFERS WORKERS: sets `time` to the least nanoseconds of a load, and looks at the texts of all
measure() {
  : > texts
  time=$(least_of "$runs" load "$1" "$2")
  for _ in $(seq "$runs"); do printf 'transfers %s\nsum 64000\nend\n' "$1"; done > wanted
  cmp -s texts wanted || miss "load --workers $2 $1 gave $(diff wanted texts | head -c 100 | tr '\n' '/')"
}

for workers in 1 2 4; do
  measure 1000 "$workers" && few=$time
  measure 5000 "$workers" && some=$time
  measure 20000 "$workers" && many=$time
  first=$(((some - few) / 4000))
  last=$(((many - some) / 15000))
  echo "$workers workers: $((few / 1000000)), $((some / 1000000)) and $((many / 1000000)) ms; $first ns a transfer from 1,000 on, $last from 5,000 on"
  # the mean of all 20,000 beside that of 5,000, both behind the first thousand
  if [ $(((many - few) / 19000 * 10)) -gt $((first * 12)) ]; then
    miss 'a transfer of 20,000 costs more than 1.2 times one of 5,000'
  fi
done
[ "$wrong" = 0 ]
