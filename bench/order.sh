#!/usr/bin/env bash
# What the order of a record costs beside its run: sources of 5,000 and 20,000 spawned transfers between 64 cells, 16 in a function, by `run`,
# and by `sim` with one worker and with four. Prints instructions a transfer of the whole command, reading among them, and what of these makes
# the order, a node of the tree (8 a transfer and 3 a function, and each refused access and each attempt that was rolled back, by the report;
# what else stands in such attempts is not counted).
# By callgrind where it is installed (`items` and `order_through` of `cw_record` are the calls that make an order); else nanoseconds a transfer of
# the whole command, the least of five runs. The program has to be built. Usage: bench/order.sh [PROGRAM]
set -eu
. "$(dirname "$0")/lib.sh"
use_program "${1:-$root/crates/cwstm/out/cwstm}"

# measure TRANSFERS WORD..: the command on the source of this many transfers
measure() {
  local n=$1 nodes whole order time
  shift
  if command -v valgrind > is && command -v callgrind_annotate > is; then
    whole=$(instructions_of costs "$program" "$@" --size 10000000 < "$n.cw")
    nodes=$("$program" "$@" --size 10000000 --report 1 < "$n.cw" | awk -v n="$n" '
      $1 == "blocks" { more += $3 } $1 == "conflicts" { more += $2 } END { print 8 * n + 3 * int((n + 15) / 16) + 1 + more }')
    order=$(callgrind_annotate --inclusive=yes --threshold=100 costs | sed -n 's/^ *\([0-9,]*\) .*cw_record::\(items::items\|order::order_through\) .*/\1/p' | tr -d , | paste -sd+ | bc)
    echo "$n transfers, $*: $((whole / n)) instructions a transfer; the order $((order / nodes)) a node"
    return
  fi
  time=$(least_of 5 run_file "$n.cw" "$@" --size 10000000)
  echo "$n transfers, $*: $((time / n)) ns a transfer"
}

for transfers in 5000 20000; do
  source_of_transfers "$transfers" > "$transfers.cw"
  measure "$transfers" run
  measure "$transfers" sim --workers 1 --moves 1000000000
  measure "$transfers" sim --workers 4 --moves 1000000000 --seed 7 --aborts 100000
done
