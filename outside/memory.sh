#!/usr/bin/env bash
# Refuses each growth of memory in turn, then threads, reads and writes, and looks at how each run ends. refuse.c goes between the program and
# the C library for that. Where there is no C compiler, or nothing can go between, the script says 'not tried' and passes.
# A run whose growth was refused has to end with status 1, nothing written, and the note that says so. It may come to its own end, with all of
# its text, if fewer threads were made than it asked for (to start one needs memory too), or if the growth was one of a deque that was full:
# its task then stays with its worker. If the left strand of a fork came to a fault as memory was refused to the right one, the fault is
# reported. A run to which only its note was missing keeps its status.
# Usage: outside/memory.sh PROGRAM [short], with the program as the gate builds it: crates/cwstm/out/cwstm, once `rt ci` has passed. The gate runs
# the short form: the growths of two programs, once. The whole is run by hand and takes minutes.
# It prints a line for each program, then 'N runs, M wrong', and ends with status 1 if one is wrong.
set -u
. "$(dirname "$0")/../bench/lib.sh" || exit 1
form=${2:-whole}
use_program "${1:-}"
export REFUSE_ERROR=5 REFUSE_SHORT=
rounds=5
runs=0
wrong=0
no_memory=$'cwstm: want of memory\n'

# not_tried WHY: ends the script
not_tried() {
  echo "not tried: $1"
  exit 0
}

# ## One run

# once CALL AT WORD..: runs the program on the file `source`, and refuses that call of its kind (0: each, none: no call). Sets `status`, `text`,
# `note`, `made` (how many threads were made), and `refused`: the bytes of a growth that was refused, 0 for another call, or nothing.
once() {
  local line
  : > notes
  REFUSE_CALL=$1 REFUSE_AT=$2 REFUSE_NOTES=$folder/notes timeout 20 env LD_PRELOAD="$folder/refuse.so" "$program" "${@:3}" < source > text 2> note
  status=$?
  runs=$((runs + 1))
  # a zero byte ends what is read
  if IFS= read -r -d '' text < text; then text+='and a zero byte'; fi
  if IFS= read -r -d '' note < note; then note+='and a zero byte'; fi
  made=0
  refused=
  while read -r line; do
    if [ "$line" = thread ]; then made=$((made + 1)); else refused=${line#refused }; fi
  done < notes
}

# tell WHAT: says what is wrong with the run, for the first ten of a program
tell() {
  wrong=$((wrong + 1))
  told=$((told + 1))
  if [ "$told" -le 10 ]; then
    printf 'WRONG %s: %s; status %s, %s of %s threads, text %s, note %s\n' "$name" "$1" "$status" "$made" "$threads" \
      "$(head -c 200 text | tr '\n' '~')" "$(head -c 200 note | tr '\n' '~')"
  fi
}

# is_whole: whether the run came to its own end, with all of its text
is_whole() {
  [ "$status" = "$own_status" ] && [[ $text =~ ^($own_text)$ ]] && [ "$note" = "$own_note" ]
}

# ## Growths

# judge_growth AT: judges a run whose growth AT was refused, and counts it under its end
judge_growth() {
  if [ "$status" = 1 ] && [ -z "$text" ] && [ "$note" = "$no_memory" ]; then
    ended=$((ended + 1))
  elif is_whole && [ "$made" -lt "$threads" ]; then
    fewer=$((fewer + 1))
  elif is_whole && [[ " $deque_growths " == *" $refused "* ]]; then
    kept=$((kept + 1))
  elif is_whole && [ -n "$faults_beside" ]; then
    faulted=$((faulted + 1))
  elif [ "$status" = "$own_status" ] && [[ $text =~ ^($own_text)$ ]] && [ -z "$note" ] && [ -n "$own_note" ]; then
    silent=$((silent + 1))
  else
    tell "growth $1, of $refused bytes"
  fi
}

# sweep NAME THREADS STATUS TEXT NOTE WORD..: refuses each growth of a run of the file `source` in turn, `rounds` times over. It asks for
# THREADS threads more than its own. Its own end is STATUS with NOTE and a text that matches TEXT. Of the growths only each `step`th is refused,
# and those of the sizes `deque_growths` are of deques. `faults_beside` is set if its end is a fault with other strands beside.
sweep() {
  local begin=$SECONDS before=$runs bad=$wrong ended=0 fewer=0 kept=0 faulted=0 silent=0 least='' most=0 at
  name=$1 threads=$2 own_status=$3 own_text=$4 own_note=$5 told=0
  shift 5
  once none 0 "$@"
  if ! is_whole || [ "$made" != "$threads" ]; then tell 'nothing was refused'; fi
  for _ in $(seq "$rounds"); do
    at=$step
    once growth "$at" "$@"
    while [ -n "$refused" ]; do
      judge_growth "$at"
      at=$((at + step))
      once growth "$at" "$@"
    done
    if ! is_whole || [ "$made" != "$threads" ]; then tell "fewer than $at growths, and nothing was refused"; fi
    at=$((at - step))
    if [ -z "$least" ] || [ "$at" -lt "$least" ]; then least=$at; fi
    if [ "$at" -gt "$most" ]; then most=$at; fi
  done
  if [ "$least" -lt 1 ]; then tell 'no growth was seen'; fi
  printf '%s: %s to %s growths, %s runs, %s s: %s out of memory, %s fewer threads, %s full deque, %s fault beside, %s no note, %s wrong\n' \
    "$name" "$least" "$most" "$((runs - before))" "$((SECONDS - begin))" "$ended" "$fewer" "$kept" "$faulted" "$silent" "$((wrong - bad))"
}
step=1
deque_growths=
faults_beside=

# ## What goes between

cc -shared -fPIC -O1 -o refuse.so "$root/outside/refuse.c" -ldl > cc.log 2>&1 || not_tried "no C compiler: $(head -n 1 cc.log)"
printf '#include <stdlib.h>\nint main(void) { char *volatile room = malloc(8); return room == NULL; }\n' > probe.c
cc -O0 -o probe probe.c > cc.log 2>&1 || not_tried "no C compiler: $(head -n 1 cc.log)"
: > notes
REFUSE_CALL=growth REFUSE_AT=1 REFUSE_NOTES=$folder/notes LD_PRELOAD=$folder/refuse.so ./probe
grep -q '^refused' notes || not_tried 'nothing can go between a program and the C library here'

printf 'fn main() {}' > source
name='an empty main, 2 workers' threads=1 own_status=0 own_text=$'end\n' own_note= told=0
once growth 1 run --workers 2
if [ -z "$refused" ]; then tell 'no growth was seen'; fi
once none 0 run --workers 2
if ! is_whole || [ "$made" != 1 ]; then tell 'nothing was refused'; fi

# ## Programs

thousand='cell c; fn main() { let i = 0; while i < 1000 { spawn { atomic { c = c + 1; } } i = i + 1; } }'
two='cell c; fn main() { atomic { spawn { atomic { c = c + 1; } } atomic { c = c + 1; } } }'

# sweep_short: what the gate runs
sweep_short() {
  printf '%s' "$two" > source
  sweep 'two blocks in one, 2 workers' 1 0 $'c = 2\nend\n' '' run --workers 2
  sweep 'two blocks in one, simulated' 0 0 $'c = 2\nend\n' '' sim --workers 2
}

# sweep_all: what is run by hand
sweep_all() {
  printf '%s' "$two" > source
  sweep 'two blocks in one, 2 workers' 1 0 $'c = 2\nend\n' '' run --workers 2
  sweep 'two blocks in one, 4 workers' 3 0 $'c = 2\nend\n' '' run --workers 4
  report=$'report 1\nstrands 3\nblocks 3 [0-9]+\nconflicts [0-9]+\n(conflict [^\n]*\n)*end report\n'
  sweep 'two blocks in one, with a report, 2 workers' 1 0 $'c = 2\nend\n'"$report" '' run --workers 2 --report 1
  sweep 'two blocks in one, simulated' 0 0 $'c = 2\nend\n'"$report" '' sim --workers 2 --report 1

  printf 'cell c; fn main() { spawn { atomic { c = 1; } } atomic { atomic { c = 2; } } }' > source
  sweep 'an outer victim, 2 workers' 1 0 $'c = [12]\nend\n' '' run --workers 2
  sweep 'an outer victim, simulated' 0 0 $'c = 2\nend\n' '' sim --workers 2 --schedule 0,1,0,0,1,1,1

  printf 'fn f(n) { if n { spawn { f(n - 1); } } } fn main() { f(200); }' > source
  # from 64 places to 128 and to 256, of 32 bytes each
  deque_growths='4096 8192'
  sweep 'deques that grow, 2 workers' 1 0 $'end\n' '' run --workers 2
  deque_growths=

  printf 'cell c; fn main() { spawn { atomic { c = c + 1; out 1 / 0; } } atomic { c = c + 1; } }' > source
  faults_beside=yes
  sweep 'a fault in a pending block, 4 workers' 3 6 $'fault Zero in 0.1l\n' '' run --workers 4
  faults_beside=

  printf 'language 2; cell c = 5; cell d; fn main() { atomic { spawn { d = 7; } c = 9; out c; cancel; out 1; } out c; }' > source
  sweep 'a block that is given up, simulated' 0 0 $'out 9\nout 5\nc = 5\nd = 0\nend\n' '' sim --workers 2
  sweep 'a block that is given up, 2 workers' 1 0 $'out 9\nout 5\nc = 5\nd = 0\nend\n' '' run --workers 2

  sweep 'a load, 4 workers' 3 0 $'transfers 20\nsum 64000\nend\n' '' load 20

  printf 'cell c; fn main() { c = 1;\nout d; }' > source
  sweep 'a refused source' 0 5 '' $'cwstm: line 2: Unknown\n' run

  printf '%s' "$thousand" > source
  step=100
  sweep '1,000 spawned increments, 4 workers' 3 0 $'c = 1000\nend\n' '' run --workers 4
  step=1
}

if [ "$form" = short ]; then
  rounds=1
  sweep_short
else
  sweep_all
fi

# ## Threads

# A run comes to its own end with the threads that are left.
printf '%s' "$thousand" > source
for at in 0 1 2 3; do
  name="thread $at of 3 refused (0: all)" threads=$((at == 0 ? 0 : 2)) own_status=0 own_text=$'c = 1000\nend\n' own_note= told=0
  for _ in $(seq "$rounds"); do
    once thread "$at" run --workers 4 --aborts 1000000000
    if ! is_whole || [ "$made" != "$threads" ]; then tell 'the other threads go on'; fi
  done
done

# ## Reads and writes

printf 'cell c; fn main() { c = c + 1; out c; }' > source
threads=1 own_status=0 own_text=$'out 1\nc = 1\nend\n' own_note=

# fail CALL STATUS NOTE: refuses each read or each write in turn. What the writes before it wrote is a front of the text, or nothing.
fail() {
  local at=1 written
  name="each $1, error $REFUSE_ERROR${REFUSE_SHORT:+, one byte a call}" told=0
  once "$1" "$at" run --workers 2
  while [ -n "$refused" ]; do
    written=
    if [ "$1" = write ] && [ -n "$REFUSE_SHORT" ]; then written=${own_text:0:at-1}; fi
    if [ "$status" != "$2" ] || [ "$note" != "$3" ] || [ "$text" != "$written" ]; then tell "call $at"; fi
    at=$((at + 1))
    once "$1" "$at" run --workers 2
  done
  if ! is_whole || [ "$at" = 1 ]; then tell "call $at is none"; fi
  echo "$name: $((at - 1)) calls"
}

# the errors EIO and EINTR
for REFUSE_SHORT in '' 1; do
  for REFUSE_ERROR in 5 4; do
    fail read 3 $'cwstm: read fault\n'
    fail write 4 $'cwstm: write fault\n'
  done
done

echo "$runs runs, $wrong wrong"
[ "$wrong" = 0 ]
