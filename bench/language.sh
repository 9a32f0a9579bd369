#!/usr/bin/env bash
# Shows that reading, naming, compiling and running are linear in a source that has each form of the language: runs generated sources of
# about 128, 256, 512 and 1,024 KiB, each a list of functions that main calls, and prints the time of one run (the mean of three) and the
# most memory that one took. Then, where valgrind is there, what the verifier spends on an instruction of code: in spawned calls, of ten
# instructions each, and in functions of eight blocks inside each other with a loop in the innermost, of 46.
# Usage: bench/language.sh PROGRAM, with the program as the gate builds it: crates/cwstm/out/cwstm, once `rt ci` has passed.
set -eu
. "$(dirname "$0")/lib.sh"
use_program "${1:-}"

# source_of COUNT: prints a source with this many functions, and their calls
source_of() {
  echo 'cell c = -7; cell d[16] = 3;'
  seq "$1" | sed 's/.*/fn part&(first, second) {\n  let sum = first * 2 + second % 5;\n  while sum < 10 { sum = sum + 1; }\n  if sum > second { d[sum % 16] = sum \/ 3; } else { return -sum; }\n  spawn { atomic { c = c + !(sum == 4); } }\n  sync;\n  return d[first % 16] - 1;\n}/'
  echo 'fn main() { let all = 0;'
  seq "$1" | sed 's/.*/all = all + part&(&, &);/'
  echo 'out all; }'
}

for count in 450 900 1800 3600; do
  source_of "$count" > source.cw
  time=$(mean_of 3 run_file source.cw run --workers 1)
  memory=$(most_memory "$program" run --workers 1 < source.cw)
  echo "$count functions: $(wc -c < source.cw) bytes, $((time / 1000000)) ms, $memory, $(head -1 text)"
done

# spawned_calls COUNT: prints a source with this many spawned calls, which are not made
spawned_calls() {
  echo 'cell c; fn put(first, second, third) { c = first; } fn never() {'
  seq "$1" | sed 's/.*/spawn { put(&, 7, 1); }/'
  echo '} fn main() {}'
}

# deep_blocks COUNT: prints a source with this many functions of blocks and a loop, which are not called
deep_blocks() {
  local blocks='atomic { atomic { atomic { atomic { ' ends='} } } }'
  seq "$1" | sed "s/.*/fn part&(turns) { $blocks $blocks while turns < 3 { turns = turns + 1; } $ends $ends }/"
  echo 'fn main() {}'
}

# verifying SOURCE: prints the machine instructions of the verifier, with all that it calls
verifying() {
  instructions_of costs "$program" run --workers 1 < "$1" > all
  callgrind_annotate --inclusive=yes --threshold=100 costs 2> annotate.log |
    sed -n 's/^ *\([0-9,]*\) .*cw_code::\(verified::verify\|finding::first_fault\|finding::judge_function\|finding::judge_body\) .*/\1/p' | tr -d , | sort -n | tail -n 1
}

# spent_on SOURCES COUNT MORE EACH: prints what the verifier spends on an instruction of a source of COUNT pieces, each of EACH instructions,
# and on one of those that MORE pieces have more
spent_on() {
  local few many
  "$1" "$2" > few.cw
  "$1" "$3" > many.cw
  few=$(verifying few.cw)
  many=$(verifying many.cw)
  echo "$1 $2: $((few / ($2 * $4))) instructions a verified instruction; from there to $3: $(((many - few) / (($3 - $2) * $4)))"
}

if command -v valgrind > valgrind.path && command -v callgrind_annotate > annotate.path; then
  spent_on spawned_calls 5000 20000 10
  spent_on deep_blocks 1000 4000 46
fi
