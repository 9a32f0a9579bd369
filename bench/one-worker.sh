#!/usr/bin/env bash
# Shows that a simulation of one worker does what the depth-first run does: of generated programs, each with its number as seed,
# `run --workers 1` and `sim --workers 1` write the same text and end with the same status, with few columns and many, and with one attempt alone.
# Usage: bench/one-worker.sh PROGRAM [COUNT], with the program as the gate builds it: crates/cwstm/out/cwstm, once `rt ci` has passed.
set -eu
. "$(dirname "$0")/lib.sh"
use_program "${1:-}"
count=${2:-300}

spawned=0
declare -A ends
for seed in $(seq "$count"); do
  source_of_seed "$seed" > source.cw
  words="$((seed % 5)) $((seed % 3 + 1))"
  run=0; "$program" run --workers 1 $words < source.cw > run 2> note || run=$?
  case $run in
    0 | 6) ;;
    *) echo "program $seed: status $run, $(cat note)"; exit 1 ;;
  esac
  for options in "" "--aborts 1" "--strands $((1 + seed % 6)) --aborts 1 --seed $seed"; do
    sim=0; "$program" sim --workers 1 --moves 1000000000 $options $words < source.cw > sim 2> /dev/null || sim=$?
    if [ "$run" != "$sim" ] || ! cmp -s run sim; then
      echo "program $seed, sim --workers 1 $options: status $sim, not $run"
      diff run sim | head -5
      exit 1
    fi
  done
  if grep -q spawn source.cw; then spawned=$((spawned + 1)); fi
  end=$([ "$run" = 0 ] && echo finished || sed 's/ in .*//' run)
  ends[$end]=$((${ends[$end]:-0} + 1))
done
echo "$count programs, $spawned with a spawn: run and sim, both with --workers 1, agree"
for end in "${!ends[@]}"; do echo "  $end: ${ends[$end]}"; done
