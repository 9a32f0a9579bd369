#!/usr/bin/env bash
# Shows that the cost of a block does not depend on how many elements a program has: two programs with spawned blocks that write one element
# each, one with 65,536 elements and one with 1,024, and the same two programs without the blocks. For the run of one worker with 10,000
# blocks, and for a simulation with 2,000, prints the instructions of the whole command, by callgrind; what the elements cost without the
# blocks and with them; and how many instructions that is more for each block. A look at all elements would be over 64,000.
# Usage: bench/elements.sh PROGRAM, with the program as the gate builds it: crates/cwstm/out/cwstm, once `rt ci` has passed.
# Ends with status 1 if a block takes over 2,000 instructions more. Needs valgrind.
set -eu
. "$(dirname "$0")/lib.sh"
use_program "${1:-}"
wrong=0

# source_of ELEMENTS ROUNDS WHAT: prints the program, with blocks or without
source_of() {
  local body=
  if [ "$3" = blocks ]; then body='spawn { atomic { a[i % 1000] = i; } } '; fi
  echo "cell a[$1]; fn main() { let i = 0; while i < $2 { ${body}i = i + 1; } }"
}

# spent_on ELEMENTS ROUNDS WHAT WORD..: prints the instructions of a run
spent_on() {
  source_of "$1" "$2" "$3" > source
  instructions_of costs "$program" "${@:4}" < source
}

# compare ROUNDS WORD..: compares the four runs
compare() {
  local rounds=$1 what few many none=0 more=0
  shift
  for what in none blocks; do
    few=$(spent_on 1024 "$rounds" "$what" "$@")
    many=$(spent_on 65536 "$rounds" "$what" "$@")
    more=$((many - few))
    if [ "$what" = none ]; then none=$more; fi
    echo "$*, $what: $few with 1,024 elements, $many with 65,536, $more more"
  done
  echo "$*: $(((more - none) / rounds)) more for each block"
  if [ $((more - none)) -gt $((rounds * 2000)) ]; then miss 'a block costs more with more elements'; fi
}

compare 10000 run --workers 1
compare 2000 sim --workers 2
exit "$wrong"
