#!/usr/bin/env bash
# Shows that looking for races costs in proportion to the accesses: 100,000 and 1,000,000 accesses in one strand, in a spawned strand
# each, in strands inside each other, and of one cell that all of them read. Each time is that of the whole command: reading, running,
# searching and writing. 1,000,000 accesses take at most 1.5 times as long each as 100,000, under 2 s and under 500 MB in all.
# Usage: bench/races.sh PROGRAM, with the program as the gate builds it: crates/cwstm/out/cwstm, once `rt ci` has passed.
# Ends with status 1 if it is not so.
set -eu
. "$(dirname "$0")/lib.sh"
use_program "${1:-}"
wrong=0

# source_of SHAPE COUNT: prints a program with this many accesses
source_of() {
  case $1 in
    'one strand') echo "cell c; fn main() { let i = 0; while i < $2 { c = i; i = i + 1; } }" ;;
    'spawned strands') echo "cell a[64]; fn main() { let i = 0; while i < $2 { spawn { a[i % 64] = i; } i = i + 1; } }" ;;
    'nested strands') echo "cell c; fn f(n) { if n { spawn { f(n - 1); } c = n; } } fn main() { f($2); }" ;;
    'one cell read') echo "cell c; fn main() { let i = 0; while i < $2 { spawn { let x = c; } i = i + 1; } }" ;;
  esac
}

limits=(--fuel 1000000000 --size 10000000)
for shape in 'one strand' 'spawned strands' 'nested strands' 'one cell read'; do
  small=
  for count in 100000 1000000; do
    source_of "$shape" "$count" > source
    took=$(least_of 3 run_file source races "${limits[@]}")
    memory=$(most_memory "$program" races "${limits[@]}" < source)
    each=$((took / count))
    echo "$shape, $count accesses: $((took / 1000000)) ms, $each ns an access, $memory, $(grep '^races ' text)"
    if [ -n "$small" ] && [ $((each * 10)) -gt $((small * 15)) ]; then miss 'an access costs more in a long run'; fi
    if [ "$took" -gt 2000000000 ]; then miss 'over 2 s'; fi
    if [ "${memory% KiB}" != unknown ] && [ "${memory% KiB}" -gt 488281 ]; then miss 'over 500 MB'; fi
    small=$each
  done
done
exit "$wrong"
