#!/usr/bin/env bash
# Runs programs by several workers, over and over, and counts how the runs end: each example of examples/ that `run` takes, each program of
# outside/threads/ and each program of the list below with 2, 3, 4 and 8 workers, and generated programs with the same numbers in turn. If the
# result cannot depend on the schedule, the text and the status must be those of `--workers 1`. A run that does not begin (status 2 or 5) is
# wrong, too. For status 8 the whole program is printed: the record of that run did not replay, so it is a bug. Last, a run must have as many
# threads as workers.
# It takes minutes, and is run by hand.
# Usage: outside/workers.sh PROGRAM [TIMES] [GENERATED] [EACH], with the program as the gate builds it: crates/cwstm/out/cwstm, once `rt ci` has
# passed. TIMES: runs of each program with each number of workers (500); GENERATED: how many generated programs (200), each run EACH times (50).
# Ends with a table of statuses and the line 'N runs, of which K had a spawn in their program, M wrong', and with status 1 if one is wrong.
set -u
. "$(dirname "$0")/../bench/lib.sh" || exit 1
use_program "${1:-}"
times=${2:-500}
generated=${3:-200}
each=${4:-50}
numbers=(2 3 4 8)
runs=0
forking=0
wrong=0
declare -A statuses

# tell WHAT NAME WORKERS WORD..: what is wrong with a run, with its program, text and note
tell() {
  local what=$1 name=$2 workers=$3
  shift 3
  wrong=$((wrong + 1))
  printf '%s: %s, run --workers %s %s\n' "$what" "$name" "$workers" "$*"
  if [ "$status" = 8 ] || [ "$wrong" -le 20 ]; then
    sed 's/^/  | /' source
    printf '  text: %s\n  note: %s\n' "$(head -c 400 text | tr '\n' '/')" "$(head -c 400 note | tr '\n' '/')"
    printf '  alone: status %s, text %s\n' "$alone" "$(head -c 400 alone_text | tr '\n' '/')"
  fi
}

# alone WORD..: what one worker makes of the file `source`
alone() {
  alone=0
  timeout 60 "$program" run --workers 1 "$@" < source > alone_text 2> alone_note || alone=$?
}

# once KIND NAME WORKERS WORD..: one run of the file `source`. KIND `same`: the schedule cannot show; `any`: it can; otherwise the text of
# each run
once() {
  local kind=$1 name=$2 workers=$3
  shift 3
  status=0
  timeout 60 "$program" run --workers "$workers" "$@" < source > text 2> note || status=$?
  runs=$((runs + 1))
  if grep -q 'spawn' source; then forking=$((forking + 1)); fi
  statuses[$status]=$((${statuses[$status]:-0} + 1))
  case $status in
    0 | 6 | 7) ;;
    8) tell 'STATUS 8, THE RECORD DOES NOT REPLAY' "$name" "$workers" "$@" ;;
    124) tell 'NO END IN 60 SECONDS' "$name" "$workers" "$@" ;;
    *) tell "STATUS $status" "$name" "$workers" "$@" ;;
  esac
  case $kind in
    any) ;;
    same)
      if [ "$status" != "$alone" ] || ! cmp -s text alone_text; then
        tell "NOT AS BY ONE WORKER, status $status" "$name" "$workers" "$@"
      fi
      ;;
    *) if [ "$(cat text)" != "$kind" ]; then tell "NOT '$kind', status $status" "$name" "$workers" "$@"; fi ;;
  esac
}

# often KIND NAME WORD..: all runs of the file `source`
often() {
  local kind=$1 name=$2 workers
  shift 2
  alone "$@"
  for workers in "${numbers[@]}"; do
    for _ in $(seq "$times"); do once "$kind" "$name" "$workers" "$@"; done
  done
}

# ## Examples

# the results of these do not depend on the schedule
same='array count counter divisor fault fault.none halves loop parts spawned'

# without_workers WORD..: the words, a line each, without the option --workers
without_workers() {
  while [ "$#" -gt 0 ]; do
    case $1 in
      --workers) shift ;;
      --workers=*) ;;
      *) printf '%s\n' "$1" ;;
    esac
    shift
  done
}

for file in "$root"/examples/*.args; do
  run=$(basename "$file" .args)
  read -r -a words < "$file"
  [ "${words[0]}" = run ] || continue
  case $(cat "${file%.args}.status" 2> /dev/null) in 2 | 5) continue ;; esac
  mapfile -t words < <(without_workers "${words[@]:1}")
  cp "$root/examples/${run%%.*}.cw" source
  kind=any
  case " $same " in *" $run "*) kind=same ;; esac
  often "$kind" "example $run" ${words[@]+"${words[@]}"}
done

# these name the turns of their workers; here they run on threads
for run in alone order refused undone; do
  cp "$root/examples/$run.cw" source
  often any "example $run"
  often any "example $run, one attempt" --aborts 1
done

# ## Programs in files

for file in "$root"/outside/threads/*.cw; do
  name=$(basename "$file")
  kind=any
  words=(--fuel 1000000000)
  case $name in
    spent.cw) kind='budget spent in 0.1r' words+=(--aborts 20) ;;
    stopped.cw) kind=same ;;
  esac
  cp "$file" source
  often "$kind" "$name" "${words[@]}"
done

# blocks with strands of their own, where budgets are spent, and where most forks wait inline
for name in nested nested_twice; do
  cp "$root/outside/threads/$name.cw" source
  often any "$name.cw, few attempts" --aborts 2
  often any "$name.cw, few columns" --strands 9
done

# ## Programs

# row KIND NAME WORD..: all runs of the program of standard input
row() {
  cat > source
  often "$@"
}

row same 'no spawn' <<< 'cell c; fn main() { let i = 0; while i < 50 { atomic { c = c + i; } out c; i = i + 1; } }'
row same 'spawned increments' <<< 'cell c; fn main() { let i = 0; while i < 1000 { spawn { atomic { c = c + 1; } } i = i + 1; } }'
row same 'increments in a block' <<< 'cell c; fn main() { atomic { spawn { atomic { c = c + 1; } } atomic { c = c + 1; } } }'
row same 'two columns' --strands 2 <<< 'cell c; fn main() { spawn { atomic { c = c + 1; } } spawn { atomic { c = c + 1; } } spawn { atomic { c = c + 1; } } }'
row same 'forks in each other' <<< 'cell c; fn f(n) { if n { spawn { f(n - 1); } f(n - 1); atomic { c = c + 1; } } } fn main() { f(6); }'
row any 'blocks in each other, with forks' <<< 'cell c; cell d; fn f(n) { if n { atomic { spawn { c = c + 1; } f(n - 1); } } else { d = d + 1; } } fn main() { f(50); }'
row any 'a lost update' <<< 'cell c; fn main() { atomic { spawn { c = c + 1; } c = c + 1; } }'
row any 'an outer victim' <<< 'cell c; fn main() { spawn { atomic { c = 1; } } atomic { atomic { c = 2; } } }'
row any 'joined before a block' <<< 'cell c; cell d; fn main() { spawn { d = 5; } c = 1; sync; atomic { spawn { c = c + d; } d = d + 1; } }'
row any 'joined inside a block' <<< 'cell c; cell d; fn main() { spawn { atomic { spawn { d = 5; } c = 1; sync; d = 1; } } c = 2; }'
row any 'an abort after an inner commit' <<< 'cell a = 7; cell b = 8; cell c; fn main() { spawn { atomic { c = 1; } } atomic { atomic { a = a + 1; } b = b + 1; c = 2; } }'
row same 'a fault in a block' <<< 'cell c; cell d; fn main() { atomic { c = 1; d = 1 / d; } }'
row same 'a fault beside a block' <<< 'cell c; cell d; fn main() { spawn { atomic { c = 1; c = 2; } } atomic { spawn { c = 3; } d = 1 / d; } }'
row any 'few attempts, so that a budget may be spent' --aborts 2 <<< 'cell c; cell d; fn w(n) { let i = 0; while i < n { i = i + 1; } } fn main() { let i = 0; while i < 20 { spawn { atomic { c = c + 1; w(200); d = d + 1; } } spawn { atomic { d = d + 1; w(200); c = c + 1; } } i = i + 1; } }'
row any 'one attempt each' --aborts 1 <<< 'cell c; fn main() { let i = 0; while i < 20 { spawn { atomic { c = c + 1; } } i = i + 1; } }'

for _ in $(seq "$((times / 10 + 1))"); do
  echo 'cell c; fn main() { let i = 0; while i < 100 { spawn { atomic { c = c + 1; } } i = i + 1; } }' > source
  alone
  once same 'more workers than processors' 64
done

# ## Threads

# as many threads as there are workers, once main has made its first access
echo 'cell c; fn main() { c = 1; let i = 0; while i < 400000000 { i = i + 1; } }' > source
for workers in "${numbers[@]}" 64; do
  "$program" run --workers "$workers" --fuel 1000000000 < source > text 2> note &
  run=$!
  for _ in $(seq 50); do
    sleep 0.1
    threads=$(find "/proc/$run/task" -mindepth 1 -maxdepth 1 2> /dev/null | wc -l)
    if [ "$threads" = "$workers" ]; then break; fi
  done
  kill "$run"
  wait "$run" 2> /dev/null
  if [ "$threads" != "$workers" ]; then
    wrong=$((wrong + 1))
    echo "$threads THREADS: run --workers $workers"
  fi
done

# ## Generated programs

for seed in $(seq "$generated"); do
  source_of_seed "$seed" > source
  words=("$((seed % 5))" "$((seed % 3 + 1))")
  alone "${words[@]}"
  for turn in $(seq "$each"); do
    once any "generated program $seed" "${numbers[turn % 4]}" "${words[@]}"
  done
done

for status in $(printf '%s\n' "${!statuses[@]}" | sort -n); do
  printf 'status %3s: %s\n' "$status" "${statuses[$status]}"
done
echo "$runs runs, of which $forking had a spawn in their program, $wrong wrong"
[ "$wrong" = 0 ]
