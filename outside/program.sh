#!/usr/bin/env bash
# Tries the program from outside, where no contract reaches: its words, standard input and output, notes and statuses, and large sources,
# since no clause forbids a false want of memory. A later command adds its lines to the table.
# The examples are run too, and each command that a page shows.
# Usage: outside/program.sh PROGRAM, with the program as the gate builds it: crates/cwstm/out/cwstm, once `rt ci` has passed.
# Ends with the line 'N passed, M failed', and with status 1 where one failed.
set -u
. "$(dirname "$0")/../bench/lib.sh" || exit 1
use_program "${1:-}"
passed=0
failed=0

# judge NAME STATUS WANTED_STATUS WANTED_TEXT WANTED_NOTE: compares with the files `text` and `note`
judge() {
  printf '%s' "$4" > wanted_text
  printf '%s' "$5" > wanted_note
  if [ "$2" = "$3" ] && cmp -s text wanted_text && cmp -s note wanted_note; then
    passed=$((passed + 1))
  else
    failed=$((failed + 1))
    printf 'FAILED %s: status %s, wanted %s; text %s; note %s\n' "$1" "$2" "$3" "$(head -c 200 text | tr '\n' '~')" "$(head -c 200 note | tr '\n' '~')"
  fi
}

# try NAME STATUS TEXT NOTE WORD..: runs the program on the file `source`
try() {
  local name=$1 status=$2 text=$3 note=$4 got
  shift 4
  timeout 60 "$program" "$@" < source > text 2> note
  got=$?
  judge "$name" "$got" "$status" "$text" "$note"
}

# within SECONDS MEGABYTES NAME STATUS TEXT NOTE WORD..: the same, with this time of a processor and this memory at most
within() {
  local seconds=$1 megabytes=$2 name=$3 status=$4 text=$5 note=$6 got
  shift 6
  (
    ulimit -t "$seconds" -v $((megabytes * 1024))
    exec "$program" "$@" < source > text 2> note
  )
  got=$?
  judge "$name" "$got" "$status" "$text" "$note"
}

usage=$'cwstm: usage\n'

# ## Examples

# Beside each lie its words (.args), the text that it gives (.out), and where there are such its note (.note) and status (.status).
# The name before the first dot is the program's: NAME.WHAT.args are the words of a further run of NAME.cw.

# whole FILE: what it holds, with a dot behind it, and nothing where there is no such file
whole() {
  if [ -e "$1" ]; then cat "$1"; fi
  printf .
}

for source in "$root"/examples/*.cw; do
  if [ ! -e "${source%.cw}.args" ]; then
    failed=$((failed + 1))
    echo "FAILED an example without words: $source"
  fi
done
for words in "$root"/examples/*.args; do
  run=$(basename "$words" .args)
  beside=${words%.args}
  cp "$root/examples/${run%%.*}.cw" source
  wanted=$(whole "$beside.out")
  note=$(whole "$beside.note")
  status=$(if [ -e "$beside.status" ]; then cat "$beside.status"; else echo 0; fi)
  # the words stand apart by blanks
  # shellcheck disable=SC2046
  try "example $run" "$status" "${wanted%.}" "${note%.}" $(cat "$words")
done

# ## Pages

# What stands in a block ```cw NAME.cw of a page is that example. Each command in a block ```console, behind '$ ', is run at the top of
# the repository, where `cwstm` is the program, and the lines beneath it are what it gives.
mkdir shown_program
ln -s "$program" shown_program/cwstm

# block_of PAGE FENCE: the lines of a page's blocks that begin with this line
block_of() {
  awk -v fence="$2" '/^```/ { on = !inside && $0 == fence; inside = !inside; next } on' "$1"
}

for page in "$root"/README.md "$root"/docs/*.md; do
  : > note
  while IFS= read -r name; do
    block_of "$page" "\`\`\`cw $name" > text
    wanted=$(whole "$root/examples/$name")
    judge "$name in $(basename "$page")" 0 0 "${wanted%.}" ''
  done < <(sed -n 's/^```cw //p' "$page")
  block_of "$page" '```console' > shown
  if [ -s shown ]; then
    grep '^\$ ' shown > commands
    while IFS= read -r line <&3; do
      printf '%s\n' "$line"
      (cd "$root" && PATH=$folder/shown_program:$PATH timeout 60 bash -c "${line#'$ '}" 2>&1)
    done 3< commands > text
    wanted=$(whole shown)
    judge "the commands in $(basename "$page")" 0 0 "${wanted%.}" ''
  fi
done

# ## Words, texts and statuses

printf 'cell c; fn main() { c = c + 1; out c; }' > source
try 'a run' 0 $'out 1\nc = 1\nend\n' '' run
try 'no words' 2 '' "$usage"
try 'a word that is no command' 2 '' "$usage" Run
try 'a word behind run' 2 '' "$usage" run run
try 'an empty word' 2 '' "$usage" ''
try 'a word that is no UTF-8' 2 '' "$usage" $'\xff'
try 'run and a word that is no UTF-8' 2 '' "$usage" run $'r\xffun'

printf 'cell c = 4;\nfn main() { spawn { atomic { c = c + 1; } } atomic { c = c * 2; } sync; out c; out -c; }' > source
try 'spawned and atomic blocks' 0 $'out 10\nout -10\nc = 10\nend\n' '' run --workers 1

printf '' > source
try 'no text' 5 '' $'cwstm: line 0: NoMain\n' run
printf 'cell c;\n@' > source
try 'a character that is none of the language' 5 '' $'cwstm: line 2: BadChar\n' run
printf 'fn main() {\n\n out x; }' > source
try 'a name that is not declared' 5 '' $'cwstm: line 3: Unknown\n' run
printf 'fn main() { out "a\xff"; }' > source
try 'a text that is no UTF-8' 5 '' $'cwstm: line 1: NotUtf8\n' run
printf 'fn main() {' > source
try 'a text that stops short' 5 '' $'cwstm: line 1: Unexpected\n' run

# each front of a program, from no byte to all but the last
counts='cell c; fn main() { c = c + 1; out c; }'
for length in $(seq 0 38); do
  printf '%s' "${counts:0:length}" > source
  case $length in 0 | 7 | 8) note='line 0: NoMain' ;; *) note='line 1: Unexpected' ;; esac
  try "the first $length bytes of a program" 5 '' "cwstm: $note"$'\n' run
done

# ## Languages

printf 'cell cancel; fn main() { cancel = 1; }' > source
try 'a cell of that name' 0 $'cancel = 1\nend\n' '' run
printf '// c\nlanguage 01\n; cell language; fn main() { language = 2; }' > source
try 'the first language' 0 $'language = 2\nend\n' '' run
try 'the first language, simulated' 0 $'language = 2\nend\n' '' sim
printf 'language\n2; cell c; fn main() { atomic { c = 1; cancel; } }' > source
try 'the second language' 0 $'c = 0\nend\n' '' run
try 'by one worker' 0 $'c = 0\nend\n' '' run --workers 1
try 'and simulated' 0 $'c = 0\nend\n' '' sim
printf 'language 1; fn main() { atomic { cancel; } }' > source
try 'a block is not given up in the first language' 5 '' $'cwstm: line 1: Unexpected\n' run
try 'nor where it is simulated' 5 '' $'cwstm: line 1: Unexpected\n' sim
printf 'language 3; fn main() {}' > source
try 'there is no third language' 5 '' $'cwstm: line 1: Unexpected\n' sim
printf 'language 2; fn main() { cancel; }' > source
try 'no block to give up' 5 '' $'cwstm: line 1: CancelOutside\n' sim
printf 'language 2; cell c = 5; fn main() { atomic { c = 9; out c; cancel; out 1; } out c; }' > source
try 'what was put out stays' 0 $'out 9\nout 5\nc = 5\nend\nreport 1\nstrands 1\nblocks 1 0\nconflicts 0\nend report\n' '' sim --workers 1 --report 1
printf 'language 2; cell a = 1; cell b = 2; fn main() { atomic { spawn { a = 7; } atomic { b = 8; } cancel; } }' > source
try 'what its strands wrote is put back' 0 $'a = 1\nb = 2\nend\n' '' sim --workers 2 --schedule 0,0,1,1,1,1,0,0,1
try 'where forks wait inline, too' 0 $'a = 1\nb = 2\nend\n' '' sim --strands 1
printf 'language 2; cell c; fn f(n) { atomic { c = n; if n { f(n - 1); } cancel; } } fn main() { f(5000); out c; }' > source
within 2 300 '5,000 blocks in each other, each given up' 0 $'out 0\nc = 0\nend\n' '' sim --workers 1

printf 'fn main() { out 9223372036854775807 + 1; }' > source
try 'a fault of main' 6 $'fault Overflow in 0\n' '' run
printf 'fn main() { spawn { out 9223372036854775807 * 2; } }' > source
try 'a fault of a spawned strand' 6 $'fault Overflow in 0.1l\n' '' run

# ## Arrays

printf 'cell a[2] = -3; fn main() { a[1] = 9; out a[0] / 2; out a[0] %% 2; }' > source
try 'an array' 0 $'out -1\nout -1\na[0] = -3\na[1] = 9\nend\n' '' run
printf 'cell a[2]; fn main() { a[2] = 1; }' > source
try 'an index out of range' 6 $'fault Range in 0\n' '' run --size 1
printf 'cell c; cell a[2]; fn main() { c = 1; a[2] = 1; }' > source
try 'a range is tested before an access counts' 6 $'fault Range in 0\n' '' run --size 1
printf 'cell a[2]; fn main() { a[2] = 1 / 0; }' > source
try 'the value of an element comes before its range' 6 $'fault Zero in 0\n' '' run

# ## Fuel and size

printf 'cell c; fn main() { c = c + 1; out c; }' > source
try 'one counted thing too many' 6 $'fault Size in 0\n' '' run --size 3
try 'as many counted things and units as it needs' 0 $'out 1\nc = 1\nend\n' '' run --size=4 --fuel 2
try 'one unit of fuel too few' 6 $'fault Fuel in 0\n' '' run --fuel 1
try 'leading zeros' 0 $'out 1\nc = 1\nend\n' '' run --size 007
for words in '--fuel 0' '--fuel 1000000001' '--size 10000001' '--size' '--size=' '--size=+4' '--fuel -1' '--fue 1' '--fuel 1 --fuel=1' '--workers 0' '--workers 65' '--workers 4 --workers=4' '--aborts 0' '--strands 1000001' '--moves 5' '--seed 1' \
  '7' '-5' '-' '+5' '5a' '9223372036854775808' '-- --' '-- 7 --' '-- -' '-- --size=4' '-- -9223372036854775809' '--size -- 4'; do
  # the words stand apart by blanks
  # shellcheck disable=SC2086
  try "run $words" 2 '' "$usage" run $words
done
try 'an option before the command' 2 '' "$usage" --fuel 1 run

# ## Words of main

printf 'fn main() {}' > source
try 'no words behind the end of the options' 0 $'end\n' '' run --
try 'an option before the end of the options' 0 $'end\n' '' run --size 4 --
try 'a word that main has no parameter for' 2 '' "$usage" run 7
try 'the lowest word' 2 '' "$usage" run -- -9223372036854775808 0
"$program" run 7 <&- > text 2> note
judge 'a read fault comes before the number of words' $? 3 '' $'cwstm: read fault\n'
"$program" run x <&- > text 2> note
judge 'a word that is no integer comes before a read fault' $? 2 '' "$usage"
printf 'fn main() {' > source
try 'a refused text comes before the number of words' 5 '' $'cwstm: line 1: Unexpected\n' run 7
try 'a word that is no integer comes before a refused text' 2 '' "$usage" run x
printf 'fn main() { out y; }' > source
try 'a naming fault comes before the number of words' 5 '' $'cwstm: line 1: Unknown\n' run 7

printf 'fn main() { spawn { out 1; out 2; } sync; out 3; }' > source
try 'fuel along the longest way' 0 $'out 1\nout 2\nout 3\nend\n' '' run --fuel 4
try 'fuel behind a join' 6 $'fault Fuel in 0\n' '' run --fuel 3
try 'fuel of a left strand' 6 $'fault Fuel in 0.1l\n' '' run --fuel 2
printf 'cell c; fn main() { spawn { c = 1; c = 2; } c = 3; }' > source
try 'the sizes of two strands' 0 $'c = 3\nend\n' '' run --workers 1 --size 4
try 'their sum over the limit' 6 $'fault Size in 0\n' '' run --size 3
try 'the size of a left strand' 6 $'fault Size in 0.1l\n' '' run --workers 1 --size 1

printf 'fn main() { while 1 {} }' > source
try 'a loop without an end' 6 $'fault Fuel in 0\n' '' run --fuel 100
printf 'fn main() { let i = 0; while i < 49 { i = i + 1; } }' > source
try 'each test of a loop costs a unit' 0 $'end\n' '' run --fuel 100
try 'one unit of fuel too few for a loop' 6 $'fault Fuel in 0\n' '' run --fuel 99

# ## Functions, and words of main

printf 'cell a[2] = -3; fn main(x) { a[x] = 9; }' > source
try 'a word of main' 0 $'a[0] = -3\na[1] = 9\nend\n' '' run 1
try 'a word that is no index' 6 $'fault Range in 0\n' '' run -- -1
try 'one word too few' 2 '' "$usage" run
try 'one word too many' 2 '' "$usage" run 1 2
printf 'fn main(a, b) { out a - b; }' > source
try 'words behind the end of the options' 0 $'out 12\nend\n' '' run -- 7 -5
try 'words on both sides of it' 0 $'out 12\nend\n' '' run 7 -- -5
try 'words among options' 0 $'out 2\nend\n' '' run 7 --fuel 1 5
for words in '7' '-5' '-- 7 --'; do
  # the words stand apart by blanks
  # shellcheck disable=SC2086
  try "run $words, of two" 2 '' "$usage" run $words
done
printf 'fn main(a, b) { out a; out b; }' > source
try 'the least number' 0 $'out -9223372036854775808\nout 0\nend\n' '' run -- -9223372036854775808 0
try 'the greatest number' 0 $'out 9223372036854775807\nout 7\nend\n' '' run 9223372036854775807 007
try 'one less than the least' 2 '' "$usage" run -- -9223372036854775809 0
try 'one more than the greatest' 2 '' "$usage" run 9223372036854775808 0
printf 'fn main(x) { out y; }' > source
try 'a naming fault of a main with parameters' 5 '' $'cwstm: line 1: Unknown\n' run
printf 'fn f() { atomic { f(); } } fn main() { f(); }' > source
try '10,000 functions and blocks in each other' 6 $'fault Depth in 0\n' '' run
printf 'fn f() { spawn { f(); } } fn main() { f(); }' > source
deepest="fault Fuel in 0$(printf '.1l%.0s' $(seq 333333))"$'\n'
try 'a strand of 333,333 forks' 6 "$deepest" '' run
# Whoever steals from it must leave it time: each steal looks at all columns behind its fork.
for workers in 2 8; do
  try "a strand of 333,333 forks, $workers workers" 6 "$deepest" '' run --workers "$workers"
done

# ## Threads

printf 'cell c; fn main() { atomic { spawn { atomic { c = c + 1; } } atomic { c = c + 1; } } }' > source
for workers in 1 2 3 4 5 6 7 8; do
  try "two blocks in one, $workers workers" 0 $'c = 2\nend\n' '' run --workers "$workers"
done
printf 'cell c; fn main() { let i = 0; while i < 1000 { spawn { atomic { c = c + 1; } } i = i + 1; } }' > source
for workers in 2 4 007 64; do
  try "1,000 spawned increments, $workers workers" 0 $'c = 1000\nend\n' '' run --workers "$workers"
done
printf 'cell c; fn main() { spawn { atomic { c = c + 1; } } spawn { atomic { c = c + 1; } } spawn { atomic { c = c + 1; } } }' > source
for strands in 1 2 3; do
  try "threads where $strands strands have columns" 0 $'c = 3\nend\n' '' run --strands "$strands"
done
printf 'cell c; fn main() { spawn { atomic { c = c + 1; out 1 / 0; } } atomic { c = c + 1; } }' > source
try 'a fault in a pending block' 6 $'fault Zero in 0.1l\n' '' run --workers 4
printf 'cell c; fn main() { c = c + 1; out c; }' > source
try 'threads that have nothing to do' 0 $'out 1\nc = 1\nend\n' '' run --workers 64

# ## Loads

printf '@' > source
for count in 1 17 10000; do
  try "a load of $count" 0 "transfers $count"$'\nsum 64000\nend\n' '' load "$count"
done
for workers in 1 4; do
  try "the largest load, $workers workers" 0 $'transfers 20000\nsum 64000\nend\n' '' load --workers "$workers" 20000
done
try 'a load behind the end of the options' 0 $'transfers 5\nsum 64000\nend\n' '' load -- 5
"$program" load 5 <&- > text 2> note
judge 'a load where nothing can be read' $? 0 $'transfers 5\nsum 64000\nend\n' ''
: > text
"$program" load 5 > /dev/full 2> note
judge 'a load to a full device' $? 4 '' $'cwstm: write fault\n'
for words in '' '0' '20001' '5 6' '--fuel 1 5' '-5' '+5' '5 --workers 65' '5 --report 1'; do
  # the words stand apart by blanks
  # shellcheck disable=SC2086
  try "load $words" 2 '' "$usage" load $words
done

# ## Simulations

printf 'cell c; fn main() { atomic { spawn { c = c + 1; } c = c + 1; } }' > source
try 'two strands of a block' 0 $'c = 1\nend\n' '' sim --workers 2 --schedule 0,0,1,0,1,0,1
printf 'cell c; fn main() { spawn { atomic { c = 1; } } atomic { atomic { c = 2; } } }' > source
try 'a block that is refused once' 0 $'c = 2\nend\n' '' sim --workers 2 --schedule 0,1,0,0,1,1,1
try 'a block that may be refused once' 7 $'budget spent in 0.1r\n' '' sim --workers 2 --schedule 0,1,0,0,1,1,1 --aborts 1
try 'a block that may be refused twice' 0 $'c = 2\nend\n' '' sim --workers 2 --schedule 0,1,0,0,1,1,1 --aborts 2
printf 'cell c; cell d; fn main() { spawn { spawn { d = 5; } c = 1; sync; atomic { d = 1; d = 2; } } c = 2; }' > source
try 'accesses that are in no block' 0 $'c = 2\nd = 2\nend\n' '' sim --workers 3 --schedule 0,1,0,2,2,0,2,0,0,0,1
printf 'cell c; cell d; fn main() { spawn { atomic { spawn { d = 5; } c = 1; sync; d = 1; } } c = 2; }' > source
try 'an access that is refused twice' 0 $'c = 2\nd = 1\nend\n' '' sim --workers 3 --schedule 0,1,0,0,2,2,0,2,0,1
try 'an access that may be refused twice' 7 $'budget spent in 0.1r\n' '' sim --workers 3 --schedule 0,1,0,0,2,2,0,2,0,1 --aborts 2
try 'an access that may be refused three times' 0 $'c = 2\nd = 1\nend\n' '' sim --workers 3 --schedule 0,1,0,0,2,2,0,2,0,1 --aborts 3
printf 'cell c; fn main() { atomic { spawn { atomic { c = 1; } } c = 2; } }' > source
try 'a block in a strand of a block' 0 $'c = 2\nend\n' '' sim --workers 2 --schedule 0,0,1,0,0,1
try 'the same where nothing may be refused twice' 7 $'budget spent in 0.1r\n' '' sim --workers 2 --schedule 0,0,1,0,0,1 --aborts 1
printf 'cell c; fn main() { spawn { atomic { c = 1; } } atomic { spawn { c = 2; } } }' > source
try 'a strand of a block that spends its budget' 7 $'budget spent in 0.1r\n' '' sim --workers 2 --schedule 0,1,0,0,1,1,1 --aborts 1
printf 'cell a = 7; cell b = 8; cell c; fn main() { spawn { atomic { c = 1; } } atomic { atomic { a = a + 1; } b = b + 1; c = 2; } }' > source
try 'a block that was done is undone' 0 $'a = 8\nb = 9\nc = 2\nend\n' '' sim --workers 2 --schedule 0,1,0,0,1,1,1,1,1,1,1,1,1
printf 'cell c; cell d; fn main() { spawn { atomic { c = 1; c = 2; } } atomic { spawn { c = 3; } d = 1 / d; } }' > source
try 'a fault beside a strand that waits' 6 $'fault Zero in 0.1r.1r\n' '' sim --workers 3 --schedule 0,1,0,0,1,1,2,1,2,2
printf 'cell c; fn main() { spawn { atomic { out 1; c = 1; } } out 2; }' > source
try 'outputs in the order of the run' 0 $'out 2\nout 1\nc = 1\nend\n' '' sim --workers 2 --schedule 0,1,0,0,1

printf 'cell c; fn main() { c = c + 1; out c; }' > source
try 'too few moves' 9 $'moves spent\n' '' sim --workers 1 --moves 2
try 'one move too few' 9 $'moves spent\n' '' sim --workers 1 --moves 4
try 'as many moves as it needs' 0 $'out 1\nc = 1\nend\n' '' sim --workers 1 --moves 5
printf 'fn f() { spawn { f(); } f(); } fn main() { f(); }' > source
try 'forks without an end' 9 $'moves spent\n' '' sim --moves 10
try 'the same depth first' 6 "$deepest" '' run --workers 1
printf 'cell c; fn main() { spawn { atomic { c = c + 1; } } spawn { atomic { c = c + 1; } } spawn { atomic { c = c + 1; } } }' > source
for strands in 1 2 3; do
  try "$strands strands have columns" 0 $'c = 3\nend\n' '' sim --strands "$strands"
done
try 'a seed' 0 $'c = 3\nend\n' '' sim --seed 1
printf 'fn main() { spawn { out 1; } spawn { out 2; } spawn { out 3; } out 4; }' > source
try 'all in turn' 0 $'out 1\nout 2\nout 3\nout 4\nend\n' '' sim
try 'turns of one seed' 0 $'out 3\nout 1\nout 2\nout 4\nend\n' '' sim --seed 4
try 'turns of another' 0 $'out 2\nout 1\nout 4\nout 3\nend\n' '' sim --seed 5
printf 'fn main() {}' > source
zeros=$(printf ',0%.0s' $(seq 20000))
for workers in 1 4; do
  try "as many listed as may be, $workers workers" 0 $'end\n' '' sim --workers "$workers" --schedule "${zeros:1}"
  try "one listed too many, $workers workers" 2 '' "$usage" sim --workers "$workers" --schedule "0$zeros"
done
for words in '--workers 0' '--workers 65' '--moves 0' '--strands 1000001' '--schedule 4' '--schedule 0,2 --workers 2' '--schedule=' '--schedule 0,' '--schedule +1' \
  '--seed 18446744073709551616' '--seed 1 --schedule 0' '--schedule 0 --schedule 0' '--report 3' 'x'; do
  # the words stand apart by blanks
  # shellcheck disable=SC2086
  try "sim $words" 2 '' "$usage" sim $words
done

# ## Reports

# report STRANDS BLOCKS LINE..: the lines of a report with these conflicts
report() {
  printf 'report 1\nstrands %s\nblocks %s\nconflicts %s\n' "$1" "$2" $(($# - 2))
  shift 2
  printf 'conflict %s\n' "$@" | sed '/^conflict $/d'
  echo 'end report'
}
seven='last 0.1l@3 asker 0.1r block 2 victim 4 attempt 1 chain 3'
turns='--workers 2 --schedule 0,1,0,0,1,1,1'

for cell in c 'a[1]'; do
  case $cell in c) declared=c values=$'c = 2\n' ;; *) declared='a[2]' values=$'a[0] = 0\na[1] = 2\n' ;; esac
  printf 'cell %s; fn main() { spawn { atomic { %s = 1; } } atomic { atomic { %s = 2; } } }' "$declared" "$cell" "$cell" > source
  # the words stand apart by blanks
  # shellcheck disable=SC2086
  try "the block of the asker falls, $cell" 0 "$values"$'end\n'"$(report 3 '3 2' "$cell $seven")"$'\n' '' sim $turns --report 1
  # shellcheck disable=SC2086
  try "a budget spent, $cell" 7 $'budget spent in 0.1r\n'"$(report 3 '0 0' "$cell $seven")"$'\n' '' sim --report=01 $turns --aborts 1
done
printf 'cell c; cell d; fn main() { spawn { spawn { d = 5; } c = 1; sync; atomic { d = 1; d = 2; } } c = 2; }' > source
try 'a stolen branch that is joined before a block' 0 $'c = 2\nd = 2\nend\n'"$(report 5 '1 0')"$'\n' '' \
  sim --workers 3 --schedule 0,1,0,2,2,0,2,0,0,0,1 --report 1
printf 'cell c; cell d; fn main() { spawn { atomic { spawn { d = 5; } c = 1; sync; d = 1; } } c = 2; }' > source
twice='c last 0.1l.1r@4 asker 0.1r block 2 victim none attempt'
turns='--workers 3 --schedule 0,1,0,0,2,2,0,2,0,1'
for aborts in '' '--aborts 3'; do
  # the words stand apart by blanks
  # shellcheck disable=SC2086
  try "the same inside the block $aborts" 0 $'c = 2\nd = 1\nend\n'"$(report 5 '1 0' "$twice 1 chain 4" "$twice 2 chain 4")"$'\n' '' \
    sim $turns --report 1 $aborts
done
# shellcheck disable=SC2086
try 'the same, and its budget is spent' 7 $'budget spent in 0.1r\n'"$(report 5 '0 0' "$twice 1 chain 4" "$twice 2 chain 4")"$'\n' '' \
  sim $turns --report 1 --aborts 2
printf 'cell c; fn main() { atomic { spawn { atomic { c = 1; } } c = 2; } }' > source
try 'no victim inside one block' 0 $'c = 2\nend\n'"$(report 3 '2 0' 'c last 0.1l@4 asker 0.1r block 3 victim none attempt 1 chain 4')"$'\n' '' \
  sim --workers 2 --schedule 0,0,1,0,0,1 --report 1
cp "$root/examples/undone.cw" source
try 'a rollback after an inner commit' 0 $'a = 8\nb = 9\nc = 2\nend\n'"$(report 3 '3 2' "c $seven")"$'\n' '' \
  sim --workers 2 --schedule 0,1,0,0,1,1,1,1,1,1,1,1,1 --report 1
printf 'cell c; fn main() { c = c + 1; out c; }' > source
try 'moves spent' 9 $'moves spent\n'"$(report 1 '0 0')"$'\n' '' sim --workers 1 --moves 2 --report 1
try 'a fault' 6 $'fault Size in 0\n'"$(report 1 '0 0')"$'\n' '' run --size 3 --report 1
printf 'cell c; fn main() { spawn { atomic { c = c + 1; } } spawn { atomic { c = c + 1; } } spawn { atomic { c = c + 1; } } }' > source
try 'one worker' 0 $'c = 3\nend\n'"$(report 7 '3 0')"$'\n' '' run --workers 1 --report 1
try 'threads that may not be parted' 0 $'c = 3\nend\n'"$(report 7 '3 0')"$'\n' '' run --strands 2 --report 1
# report 2: the blocks that were given up
printf 'language 2; cell a = 1; cell b = 2; fn main() { atomic { spawn { a = 7; } atomic { b = 8; } cancel; } }' > source
try 'report 2' 0 $'a = 1\nb = 2\nend\nreport 2\nstrands 3\nblocks 2 0 cancelled 1\nconflicts 0\nend report\n' '' sim --workers 1 --report 2
try 'report 1 of the same' 0 $'a = 1\nb = 2\nend\nreport 1\nstrands 3\nblocks 2 0\nconflicts 0\nend report\n' '' sim --workers 1 --report 1
try 'report 02' 0 $'a = 1\nb = 2\nend\nreport 2\nstrands 3\nblocks 2 0 cancelled 1\nconflicts 0\nend report\n' '' sim --workers 1 --report=02
# given_up SOURCE STATUS WANTED WORD..: with `/` for a newline, and what every report 2 of no conflicts ends in behind it
given_up() {
  local source=$1 status=$2 wanted=$3
  shift 3
  printf '%s' "$source" > source
  try "report 2 of $source" "$status" "$(printf '%s' "$wanted" | tr '/' '\n')"$'\nconflicts 0\nend report\n' '' "$@" --report 2
}
given_up 'language 2; cell c; fn main() { let i = 0; while i < 100 { spawn { atomic { c = c + 1; cancel; } } i = i + 1; } }' 0 \
  'c = 0/end/report 2/strands 201/blocks 100 0 cancelled 100' sim --workers 1
given_up 'language 2; cell a[4] = 100; fn t(i, j, x, k) { atomic { a[i] = a[i] - x; a[j] = a[j] + x; if k { cancel; } } } fn main() { let i = 0; while i < 200 { spawn { t(i % 4, (i + 1) % 4, i, i % 3 == 0); } i = i + 1; } sync; out a[0] + a[1] + a[2] + a[3]; }' 0 \
  'out 400/a[0] = 199/a[1] = 2/a[2] = 200/a[3] = -1/end/report 2/strands 401/blocks 200 0 cancelled 67' sim --workers 1
given_up 'language 2; cell c; fn main() { atomic { c = 1; atomic { c = 2; cancel; } cancel; } atomic { c = c + 5; } }' 0 'c = 5/end/report 2/strands 1/blocks 3 0 cancelled 2' sim --workers 1
given_up 'language 2; cell c; cell d; fn main() { atomic { atomic { cancel; } c = 1; d = 2; cancel; } }' 6 'fault Size in 0/report 2/strands 1/blocks 1 0 cancelled 1' sim --workers 1 --size 4
given_up 'cell c; fn main() { atomic { c = 1; } }' 0 'c = 1/end/report 2/strands 1/blocks 1 0 cancelled 0' run
# the same by running threads
printf 'language 2; cell a = 1; cell b = 2; fn main() { atomic { spawn { a = 7; } atomic { b = 8; } cancel; } }' > source
try 'report 2 of one worker' 0 $'a = 1\nb = 2\nend\nreport 2\nstrands 3\nblocks 2 0 cancelled 1\nconflicts 0\nend report\n' '' run --workers 1 --report 2
try 'report 1 of one worker' 0 $'a = 1\nb = 2\nend\nreport 1\nstrands 3\nblocks 2 0\nconflicts 0\nend report\n' '' run --workers 1 --report 1
# accesses beside each other inside one block never conflict, so the whole text is the same on each schedule
for workers in 2 3 4 8 16; do
  try "report 2 of $workers workers" 0 $'a = 1\nb = 2\nend\nreport 2\nstrands 3\nblocks 2 0 cancelled 1\nconflicts 0\nend report\n' '' run --workers $workers --report 2
done
given_up 'language 2; cell c; fn main() { let i = 0; while i < 100 { spawn { atomic { c = c + 1; cancel; } } i = i + 1; } }' 0 \
  'c = 0/end/report 2/strands 201/blocks 100 0 cancelled 100' run --workers 1
given_up 'language 2; cell a[4] = 100; fn t(i, j, x, k) { atomic { a[i] = a[i] - x; a[j] = a[j] + x; if k { cancel; } } } fn main() { let i = 0; while i < 200 { spawn { t(i % 4, (i + 1) % 4, i, i % 3 == 0); } i = i + 1; } sync; out a[0] + a[1] + a[2] + a[3]; }' 0 \
  'out 400/a[0] = 199/a[1] = 2/a[2] = 200/a[3] = -1/end/report 2/strands 401/blocks 200 0 cancelled 67' run --workers 1
# main alone, so the same with any number of workers
for workers in 1 4; do
  given_up 'language 2; cell c; fn main() { atomic { c = 1; atomic { c = 2; cancel; } cancel; } atomic { c = c + 5; } }' 0 'c = 5/end/report 2/strands 1/blocks 3 0 cancelled 2' run --workers $workers
  given_up 'language 2; cell c; cell d; fn main() { atomic { atomic { cancel; } c = 1; d = 2; cancel; } }' 6 'fault Size in 0/report 2/strands 1/blocks 1 0 cancelled 1' run --workers $workers --size 4
  given_up 'cell c; fn main() { atomic { c = 1; } }' 0 'c = 1/end/report 2/strands 1/blocks 1 0 cancelled 0' run --workers $workers
done
# on each schedule that finishes the transfers leave the same cells; how many attempts there were differs. (Tried by `sim` with 1 to 3 workers,
# and 4 by seeds 1 to 3. By turns of 4 workers in lockstep, `sim --workers 4`, it spends any budget; threads do not keep step.)
printf 'language 2; cell a[4] = 100; fn t(i, j, x, k) { atomic { a[i] = a[i] - x; a[j] = a[j] + x; if k { cancel; } } } fn main() { let i = 0; while i < 200 { spawn { t(i %% 4, (i + 1) %% 4, i, i %% 3 == 0); } i = i + 1; } sync; out a[0] + a[1] + a[2] + a[3]; }' > source
for workers in 2 4; do
  try "transfers of which every third is given up, $workers workers" 0 $'out 400\na[0] = 199\na[1] = 2\na[2] = 200\na[3] = -1\nend\n' '' run --workers $workers --aborts 100000
done
# a cancelled increment leaves nothing, whoever ran it
printf 'language 2; cell c; fn main() { let i = 0; while i < 100 { spawn { atomic { c = c + 1; cancel; } } i = i + 1; } }' > source
try '100 blocks that are given up, 4 workers' 0 $'c = 0\nend\n' '' run --workers 4
printf 'language 2; cell c; cell d; fn main() { spawn { atomic { c = 1; } } atomic { atomic { d = 2; cancel; } c = 3; } }' > source
"$program" sim --workers 2 --schedule 0,1,0,0,1,1,1,1,1,1,1,1,0,1 --report 2 < source > told 2> note
status=$?
grep -v '^conflict' told > text
judge 'a block that was given up in an attempt' "$status" 0 $'c = 3\nd = 0\nend\nreport 2\nstrands 3\nblocks 3 2 cancelled 1\nend report\n' ''

for words in '--report 3' '--report 0' '--report -1' '--report' '--report= ' '--report 1 --report=1' '--reports 1'; do
  # shellcheck disable=SC2086
  try "run $words" 2 '' "$usage" run $words
done

# ## Sheets

# kept SOURCE STATUS END WORD..: the sheet of this source ends in the lines END, with `~` for a newline
kept() {
  local source=$1 status=$2 end=$3 got
  shift 3
  printf '%s' "$source" > source
  timeout 60 "$program" keep "$@" < source > sheet 2> note
  got=$?
  head -n 1 sheet > text
  tail -n "$(printf '%s' "$end" | tr -cd '~' | wc -c)" sheet >> text
  judge "keep $* of $source" "$got" "$status" $'cwstm record 1\n'"$(printf '%s' "$end" | tr '~' '\n')"$'\n' ''
}

printf 'cell c; fn main() { c = c + 1; out c; }' > source
try 'the sheet of one worker' 0 "$(cat "$root/outside/sheets/P.sheet")"$'\n' '' keep --workers 1
printf '// a remark\ncell   c;fn main ( ) {c=c+1;out c;}' > source
try 'the source in a sheet is canonical' 0 "$(cat "$root/outside/sheets/P.sheet")"$'\n' '' keep --workers 1
kept 'fn main() {}' 0 'words~limits 1000000 1000000 100000 262144 10000000~nodes 1~strand 0~conflicts 0~finished~memory~outputs~end record~'
kept 'fn main(a, b) { out a - b; }' 0 'words 7 -5~limits 1000000 1000000 100000 262144 10000000~nodes 2~strand 0~out 0 1 12~conflicts 0~finished~memory~outputs 12~end record~' -- 7 -5
kept 'fn main() {}' 0 'words~limits 3 4 5 6 10000000~nodes 1~strand 0~conflicts 0~finished~memory~outputs~end record~' --fuel 3 --size 4 --aborts 5 --strands 6 --workers 64
kept 'cell c; fn main() { c = 1; c = 2; }' 6 'conflicts 0~fault 0 Fuel~end record~' --fuel 1
kept 'cell c; fn main() { spawn { atomic { c = c + 1; } } c = 1 / c; }' 0 'finished~memory 1~outputs~end record~' --workers 1
kept 'cell c; fn main() { let i = 0; while i < 1000 { spawn { atomic { c = c + 1; } } i = i + 1; } }' 0 'finished~memory 1000~outputs~end record~'
printf 'fn main( {}' > source
try 'the sheet of a source that is refused' 5 '' $'cwstm: line 1: Unexpected\n' keep
kept 'language 2; cell c; fn main() { atomic { c = 1; cancel; } }' 0 'cancel 1 3 1 0 0~write 1 4 0 0~conflicts 0~finished~memory 0~outputs~end record~' --workers 1
printf 'fn main(a, b) {}' > source
try 'a sheet with a word too few' 2 '' "$usage" keep 7
for words in '--report 1' '--moves 5' '--seed 1' '--schedule 0' 'x' '--workers 65' '--fuel 1 --fuel 1'; do
  # the words stand apart by blanks
  # shellcheck disable=SC2086
  try "keep $words" 2 '' "$usage" keep $words
done
printf 'fn main() {}' > source
: > text
"$program" keep < source > /dev/full 2> note
judge 'a sheet to a full device' $? 4 '' $'cwstm: write fault\n'
"$program" keep <&- > text 2> note
judge 'a sheet where nothing can be read' $? 3 '' $'cwstm: read fault\n'

# ## Checks of sheets

# checks NAME STATUS TEXT NOTE: `check` says this of the file `sheet`
checks() {
  local status=0
  timeout 60 "$program" check < sheet > text 2> note || status=$?
  judge "check of $1" "$status" "$2" "$3" "$4"
}

# finds NAME ANSWER: the same; ANSWER is `sound`, `broken PART`, or the line and the kind of the first fault
finds() {
  case $2 in
    sound) checks "$1" 0 $'sound\n' '' ;;
    broken*) checks "$1" 11 "$2"$'\n' '' ;;
    *) checks "$1" 10 '' "cwstm: line ${2/ /: }"$'\n' ;;
  esac
}

sheets=$root/outside/sheets
# beside each lies what `check` says
for sheet in "$sheets"/*.sheet; do
  cp "$sheet" sheet
  said=${sheet%.sheet}.says
  checks "$(basename "$sheet")" "$(sed -n 's/^status //p' "$said")" "$(sed -n 's/^text //p' "$said")"$'\n' "$(sed -n 's/^note //p' "$said")"
done
# and of sheets with something changed
while IFS= read -r line; do
  answer=${line%% | *}
  rest=${line#* | }
  commands=()
  while [ "$rest" != "${rest#* | }" ]; do
    rest=${rest#* | }
    commands+=(-e "${rest%% | *}")
  done
  changed=${line#* | }
  changed=${changed%% | *}
  sed "${commands[@]}" "$sheets/$changed.sheet" > sheet
  if cmp -s sheet "$sheets/$changed.sheet"; then
    failed=$((failed + 1))
    echo "FAILED $line: nothing is changed"
  fi
  finds "$line" "$answer"
done < <(grep -v '^#' "$sheets/changes" | grep ' | ')
head -c -1 "$sheets/P.sheet" > sheet
finds 'P without its last newline' '20 Unexpected'
{ cat "$sheets/P.sheet"; head -c $((67108864 - $(stat -c %s "$sheets/P.sheet"))) /dev/zero | tr '\0' '\n'; } > sheet
finds 'as many bytes as a sheet may have' '21 Unexpected'
echo >> sheet
finds 'one byte more' '0 TooLong'
for words in '--workers 1' '--workers 4'; do
  printf 'cell c; fn main() { let i = 0; while i < 100 { spawn { atomic { c = c + 1; } } i = i + 1; } out 7; }' > source
  # the words stand apart by blanks
  # shellcheck disable=SC2086
  "$program" keep $words < source > sheet 2> note
  finds "a sheet of $words" sound
done
printf 'cwstm record 1\n' > source
try 'a sheet of one line' 10 '' $'cwstm: line 2: Unexpected\n' check
try 'a check behind which nothing more may come' 10 '' $'cwstm: line 2: Unexpected\n' check --
for words in 'x' '7' '-- x' '--fuel 1' '--report 1' '--workers 1' '-- --' '-'; do
  # shellcheck disable=SC2086
  try "check $words" 2 '' "$usage" check $words
done
cp "$sheets/P.sheet" source
: > text
"$program" check < source > /dev/full 2> note
judge 'the answer to a full device' $? 4 '' $'cwstm: write fault\n'
"$program" check <&- > text 2> note
judge 'a check where nothing can be read' $? 3 '' $'cwstm: read fault\n'

# ## Races

# races_of WANTED SOURCE WORD..: the races of this source, with `/` for a newline
races_of() {
  local wanted=$1 source=$2
  shift 2
  printf '%s' "$source" > source
  try "the races of $source" 0 "$(printf '%s' "$wanted" | tr '/' '\n')"$'\n' '' races "$@"
}
races_of 'race c first 0.1l@4 second 0.1r@5/races 1/end' 'cell c; fn main() { atomic { spawn { c = c + 1; } c = c + 1; } }'
for source in 'cell c; fn main() { atomic { spawn { atomic { c = c + 1; } } atomic { c = c + 1; } } }' 'cell c; fn main() { spawn { atomic { c = 1; } } c = 2; }' \
  'cell c; fn main() { spawn { out c; } out c; }' 'cell c; fn main() { spawn { c = 1; } sync; c = 2; }' \
  'cell c; fn f() { atomic { c = c + 1; } } fn main() { spawn { f(); } f(); }' 'fn main() {}' \
  'cell c; fn main() { atomic { spawn { out c; } spawn { out c; } sync; c = 1; } }' \
  'language 2; cell c; fn main() { atomic { spawn { out c; } atomic { c = 5; } cancel; } }' 'language 2; cell c; fn main() { spawn { atomic { c = 1; cancel; } } c = 2; }'; do
  races_of 'races 0/end' "$source"
done
# each row: the two accesses, and what main does
while IFS='|' read -r accesses body; do
  races_of "race c $accesses/races 1/end" "cell c; fn main() { $body }"
done << 'END'
first 0.1l@2 second 0.1r@6|spawn { out c; } out c; c = 1;
first 0.1l@4 second 0.1r@6|out c; spawn { out c; } c = 1;
first 0.1l@5 second 0.1r@7|spawn { spawn { out c; } sync; out c; } c = 1;
first 0.2l@6 second 0.2r@8|spawn { out c; } sync; c = 1; spawn { out c; } c = 2;
first 0.1l@2 second 0.1r.1l@4|spawn { c = 1; sync; } spawn { c = 2; } spawn { c = 3; }
first 0.1l@3 second 0.1r@7|atomic { spawn { c = 1; } atomic { c = 2; } c = 3; }
END
races_of 'race d first 0.1l@3 second 0.1r@10/races 1/end' 'cell c; cell d; fn main() { atomic { spawn { d = 1; atomic { c = 1; } } atomic { c = 2; } d = 2; } }'
races_of 'race b first 0.1l@3 second 0.1r@4/race c first 0.1l@2 second 0.1r@5/races 2/end' 'cell b; cell c; fn main() { spawn { c = 1; b = 1; } b = 2; c = 2; c = 3; }'
races_of 'race a[1] first 0.1l@2 second 0.1r@4/races 1/end' 'cell a[2]; fn main() { spawn { a[1] = 1; } a[0] = 2; a[1] = 3; }'
races_of 'race c first 0.1l.1l.1r@4 second 0.1l.1r@5/races 1/end' 'cell c; fn f(n) { if n { spawn { f(n - 1); } c = n; } } fn main() { f(3); }'
races_of 'race c first 0.1l@2 second 0.1r@3/races 1/end' 'cell c; fn main(x) { spawn { c = x; } out c; }' -- -7
races_of 'race c first 0.1l@3 second 0.1r@4/races 1/end' 'language 2; cell c; fn main() { atomic { spawn { c = 1; } c = 2; cancel; } }'
races_of 'race c first 0.1l@3 second 0.1r@5/races 1/end' 'language 2; cell c; fn main() { atomic { spawn { out c; } let x = 1; c = 4; cancel; } out c; }'
printf 'cell c; fn main() { spawn { c = 1 / c; } c = 2; }' > source
try 'the races of a run that ends at a fault' 6 $'fault Zero in 0.1l\n' '' races
printf 'cell c; fn main() { c = 1; c = 2; }' > source
try 'races with too little fuel' 6 $'fault Fuel in 0\n' '' races --fuel 1
printf 'cell c; fn main() { c = c + 1; out c; }' > source
try 'races with too small a size' 6 $'fault Size in 0\n' '' races --size 3
for words in '--workers 1' '--aborts 3' '--report 1' '--strands 2' '--moves 2' '7' 'x'; do
  # the words stand apart by blanks
  # shellcheck disable=SC2086
  try "races $words" 2 '' "$usage" races $words
done
printf 'fn main( {}' > source
try 'the races of a source that is refused' 5 '' $'cwstm: line 1: Unexpected\n' races
printf 'language 3; fn main() {}' > source
try 'the races of a source in a third language' 5 '' $'cwstm: line 1: Unexpected\n' races
printf 'fn main() {}' > source
: > text
"$program" races < source > /dev/full 2> note
judge 'races to a full device' $? 4 '' $'cwstm: write fault\n'

# ## Reading and writing that fail

printf 'cell c; fn main() { c = c + 1; out c; }' > source
"$program" run <&- > text 2> note
judge 'closed standard input' $? 3 '' $'cwstm: read fault\n'
"$program" run < "$folder" > text 2> note
judge 'a folder as standard input' $? 3 '' $'cwstm: read fault\n'
: > text
"$program" run < source > /dev/full 2> note
judge 'a full device' $? 4 '' $'cwstm: write fault\n'
"$program" run < source >&- 2> note
judge 'closed standard output' $? 4 '' $'cwstm: write fault\n'
# the reader of the pipe has gone before anything is written
{ sleep 0.2; "$program" run < source 2> note; echo $? > status; } | true
judge 'a pipe that no one reads' "$(cat status)" 4 '' $'cwstm: write fault\n'
(trap '' PIPE; { sleep 0.2; "$program" run < source 2> note; echo $? > status; } | true)
judge 'the same where the signal is ignored' "$(cat status)" 4 '' $'cwstm: write fault\n'
{ printf 'cell c; fn '; sleep 0.2; printf 'main() { out c; }'; } | "$program" run > text 2> note
judge 'a source that comes in pieces' $? 0 $'out 0\nc = 0\nend\n' ''

# ## Large sources

{
  echo 'cell c; fn main() {'
  for _ in $(seq 30000); do echo 'spawn{atomic{c=c+1;}}'; done
  echo '}'
} > source
try '30,000 spawned blocks' 0 $'c = 30000\nend\n' '' run

{
  echo 'cell c; fn main() {'
  for _ in $(seq 199); do echo 'c = c + 1; atomic {'; done
  for _ in $(seq 199); do echo '}'; done
  echo '}'
} > source
try '200 blocks in each other' 0 $'c = 199\nend\n' '' run

{
  printf 'cell c; fn main() {'
  printf ' c = c + 1; atomic {%.0s' $(seq 200)
  printf ' }%.0s' $(seq 200)
  echo ' }'
} > source
try '201 blocks in each other' 5 '' $'cwstm: line 1: TooDeep\n' run

{
  printf 'fn main() { out 1'
  for _ in $(seq 199); do printf ' + 1'; done
  echo '; }'
} > source
try 'an expression of height 200' 0 $'out 200\nend\n' '' run

{
  printf 'fn main() { out 1'
  for _ in $(seq 200); do printf ' + 1'; done
  echo '; }'
} > source
try 'an expression of height 201' 5 '' $'cwstm: line 1: TooDeep\n' run

{
  for i in $(seq 65536); do echo "cell c$i;"; done
  echo 'fn main() { c1 = 2; c65536 = 3; out c1 + c65536; }'
} > source
try '65,536 cells' 0 "$(echo 'out 5'; echo 'c1 = 2'; seq -f 'c%g = 0' 2 65535; echo 'c65536 = 3'; echo end)"$'\n' '' run

{
  for i in $(seq 65537); do echo "cell c$i;"; done
  echo 'fn main() {}'
} > source
try '65,537 cells' 5 '' $'cwstm: line 65537: TooManyCells\n' run

printf 'cell a[65537]; fn main() {}' > source
try 'an array of 65,537 elements' 5 '' $'cwstm: line 1: TooManyCells\n' run
printf 'cell b; cell a[65536]; fn main() {}' > source
try '65,536 elements behind a cell' 5 '' $'cwstm: line 1: TooManyCells\n' run
printf 'cell a[65535]; cell b;\ncell c; fn main() {}' > source
try 'a cell behind 65,536 elements' 5 '' $'cwstm: line 2: TooManyCells\n' run
printf 'cell a[65536]; fn main() { a[65535] = 3; }' > source
for words in 'run --workers 1' 'run --workers 4' sim; do
  # shellcheck disable=SC2086
  try "65,536 elements, $words" 0 "$(seq -f 'a[%g] = 0' 0 65534; echo 'a[65535] = 3'; echo end)"$'\n' '' $words
done
printf 'cell a[65536]; fn main() { a[65536] = 3; }' > source
try 'an index behind 65,536 elements' 6 $'fault Range in 0\n' '' run

head -c 1048577 /dev/zero | tr '\0' ' ' > source
try 'one byte more than a text may have' 5 '' $'cwstm: line 0: TooLong\n' run
{ printf 'fn main() {}'; head -c 1048564 /dev/zero | tr '\0' ' '; } > source
try 'as many bytes as a text may have' 0 $'end\n' '' run

# ## Memory and time
# No clause forbids to waste either, or to want memory that is there. A bar on time is ten times what was needed, and a second at least.

printf 'cell c; fn main() { c = c + 1; out c; }' > source
(
  ulimit -v 8000
  exec "$program" sim --strands 1000000 < source > text 2> note
)
judge 'too little memory' $? 1 '' $'cwstm: want of memory\n'
within 1 150 'a run with the greatest limits' 0 $'out 1\nc = 1\nend\n' '' run --workers 1 --fuel 1000000000 --size 10000000
within 1 150 'a simulation with the greatest limits' 0 $'out 1\nc = 1\nend\n' '' \
  sim --workers 64 --strands 1000000 --moves 1000000000 --aborts 1000000000 --seed 18446744073709551615
within 1 150 'as many columns as there may be' 0 $'out 1\nc = 1\nend\n' '' sim --strands 1000000

printf 'fn main() { let i = 0; while i < 200000 { out 1000000000; i = i + 1; } }' > source
within 5 200 '200,000 outputs' 0 "$(yes 'out 1000000000' | head -n 200000; echo end)"$'\n' '' run --workers 1

{
  printf 'fn main(p1'
  printf ', p%s' $(seq 2 70)
  printf ') {'
  printf ' out p%s;' $(seq 70)
  echo ' }'
} > source
# the words stand apart by blanks
# shellcheck disable=SC2046
try '70 words' 0 "$(seq -f 'out %g' 101 170; echo end)"$'\n' '' run $(seq 101 170)

{
  echo 'cell c; fn f() { return 1;'
  for _ in $(seq 30000); do echo 'c = c + 1;'; done
  echo '} fn main() { out f(); }'
} > source
within 1 200 '30,000 statements behind a return' 0 $'out 1\nc = 0\nend\n' '' run --workers 1

{
  echo 'cell c; fn main() {'
  for i in $(seq 20000); do echo "let a$i = 1; spawn { c = 1; }"; done
  echo '}'
} > source
within 5 300 '20,000 strands that have ended beside 20,000 locals' 0 $'c = 1\nend\n' '' run --workers 1
within 5 300 'the same, simulated' 0 $'c = 1\nend\n' '' sim

printf 'cell c; cell d; fn main() { let i = 0; while i < 25000 { spawn { d = c + 1; } i = i + 1; } }' > source
within 5 500 '25,000 spawned increments, simulated' 0 $'c = 0\nd = 1\nend\n' '' sim

printf 'cell c; cell d; fn main() { spawn { atomic { c = 1; let i = 0; while i < 60000 { d = i; i = i + 1; } } } atomic { c = 2; } }' > source
within 5 500 '20,000 attempts of a block' 0 $'c = 2\nd = 59999\nend\n' '' sim --workers 2

# ## More of each than above
# No clause forbids to want memory that is there.

printf 'language 2; cell a[100]; fn main() { atomic { let i = 0; while i < 100 { a[i] = 1; i = i + 1; } cancel; } }' > source
try '100 cells that are put back' 0 "$(seq -f 'a[%g] = 0' 0 99; echo end)"$'\n' '' sim

try 'a load of 15,000' 0 $'transfers 15000\nsum 64000\nend\n' '' load 15000

{
  printf 'fn main(p1'
  printf ', p%s' $(seq 2 150)
  echo ') { out p1; out p150; }'
} > source
# the words stand apart by blanks
# shellcheck disable=SC2046
try '150 words' 0 $'out 1\nout 150\nend\n' '' run $(seq 150)

printf 'cell c; fn main() { let i = 0; while i < 60000 { spawn { c = 1; } i = i + 1; } }' > source
try '60,000 spawned writes' 0 $'c = 1\nend\n' '' run

printf 'cell c; cell d; fn main() { spawn { atomic { c = 1; let i = 0; while i < 6000 { d = i; i = i + 1; } } } atomic { c = 2; } }' > source
"$program" sim --workers 2 --report 1 < source > told 2> note
status=$?
awk '/^conflict / { n++ } END { print (n > 1000 ? "more than 1,000" : n + 0) }' told > text
judge 'a report of more than 1,000 conflicts' "$status" 0 $'more than 1,000\n' ''

echo "$passed passed, $failed failed"
[ "$failed" -eq 0 ]
