#!/usr/bin/env bash
# Shows that the cost of a run is linear in its source: runs texts of about 100 KiB and 1 MiB of assignments, and prints
# the time of one run (the mean of ten) and the most memory that one took.
# Usage: bench/assignments.sh PROGRAM, with the program as the gate builds it: crates/cwstm/out/cwstm, once `rt ci` has passed.
set -eu
. "$(dirname "$0")/lib.sh"
use_program "${1:-}"
for bytes in 102400 1048576; do
  awk -v most="$bytes" 'BEGIN {
    text = "cell c; cell d;\nfn main() {\n"; printf "%s", text; size = length(text) + 2
    for (;;) {
      line = "c = c + 1; d = d - c * 0;\n"
      if (size + length(line) > most) break
      printf "%s", line; size += length(line)
    }
    print "}"
  }' > source.cw
  time=$(mean_of 10 run_file source.cw run --workers 1)
  memory=$(most_memory "$program" run --workers 1 < source.cw)
  echo "$(wc -c < source.cw) bytes: $((time / 1000000)) ms, $memory, $(tr '\n' ' ' < text)"
done
