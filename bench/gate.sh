#!/usr/bin/env bash
# What a run of the gate costs: runs `rt ci` at the repository's top and prints the processor seconds of each crate, the dearest first.
#   own    the proof of the crate itself
#   tests  the proof of its tests
#   seed   the proof that its must-fail edits start from, and the one that looks at it again at the end
#   edits  the must-fail edits
# Then come the sums, what else the run took (compilers, the runs of tests and programs, rt itself) and the whole, with the wall time.
# It looks at the processes of the run once a second, so a process that lives for less than a second counts as "else". What the machine
# keeps from earlier runs is not proved again: give --anew for the cost from nothing. Other work makes each second dearer.
# Usage: bench/gate.sh [--anew] [CRATE..]; what rt says goes to standard error, and its status is that of the script.
set -uo pipefail
. "$(dirname "$0")/lib.sh"

declare -A label spent
hertz=$(getconf CLK_TCK)

# name_of PID: the crate and the kind of a rattle process, by its words and its folder
name_of() {
  local words folder crate kind=own at
  { mapfile -d '' -t words < "/proc/$1/cmdline"; } 2> /dev/null || return 1
  folder=$(readlink "/proc/$1/cwd") || return 1
  for at in "${!words[@]}"; do
    if [ "${words[at]}" = --crate-name ]; then crate=${words[at + 1]}; fi
    if [ "${words[at]}" = --test ]; then kind=tests; fi
  done
  case $folder in
    */rt-edit-*)
      kind=edits
      case "${words[*]}" in *--incremental*/seed*) kind=seed ;; esac
      ;;
  esac
  [ -n "${crate:-}" ] && name="$crate $kind"
}

# sample RT: adds up what the rattle processes below the process RT have taken until now, each with the kernels that it starts
sample() {
  local pid top above name fields key
  declare -A parent taken start now
  for pid in $(pgrep -x rattle) $(pgrep -x antt-kernel); do
    fields_of "$pid" || continue
    parent[$pid]=${fields[1]}
    taken[$pid]=$((fields[11] + fields[12] + fields[13] + fields[14]))
    start[$pid]=${fields[19]}
  done
  for pid in "${!taken[@]}"; do
    top=$pid
    while [ -n "${start[${parent[$top]}]:-}" ]; do top=${parent[$top]}; done
    key=$top.${start[$top]}
    now[$key]=$((${now[$key]:-0} + taken[$pid]))
    if [ -z "${label[$key]:-}" ]; then
      above=${parent[$top]}
      while [ "$above" != "$1" ] && [ "$above" -gt 1 ] && fields_of "$above"; do above=${fields[1]}; done
      if [ "$above" = "$1" ] && name_of "$top"; then label[$key]=$name; fi
    fi
  done
  for key in "${!now[@]}"; do
    if [ "${now[$key]}" -gt "${spent[$key]:-0}" ]; then spent[$key]=${now[$key]}; fi
  done
}

times=$(mktemp)
trap 'rm -f "$times"' EXIT
TIMEFORMAT='%R %U %S'
exec 3>&2
{ time rt ci "$@" >&3 2>&3; } 2> "$times" &
runner=$!
while kill -0 "$runner" 2> /dev/null; do
  sample "$runner"
  sleep 1
done
wait "$runner"
status=$?
read -r wall in_user in_system < <(tail -n 1 "$times")

for key in "${!label[@]}"; do
  echo "${label[$key]} ${spent[$key]:-0}"
done | awk -v hertz="$hertz" -v wall="$wall" -v user_time="$in_user" -v system_time="$in_system" '
  { sum[$1] += $3 / hertz; of[$1, $2] += $3 / hertz; all[$2] += $3 / hertz; seen += $3 / hertz }
  function row(name, own, tests, seed, edits, whole) { return sprintf("%-16s %7.0f %7.0f %7.0f %7.0f %8.0f", name, own, tests, seed, edits, whole) }
  END {
    printf "%-16s %7s %7s %7s %7s %8s\n", "crate", "own", "tests", "seed", "edits", "seconds"
    fflush()
    for (name in sum) print row(name, of[name, "own"], of[name, "tests"], of[name, "seed"], of[name, "edits"], sum[name]) | "sort -k6,6nr"
    close("sort -k6,6nr")
    print row("sum", all["own"], all["tests"], all["seed"], all["edits"], seen)
    printf "else %.0f\nin all %.1f processor minutes, %.1f minutes of wall\n", user_time + system_time - seen, (user_time + system_time) / 60, wall / 60
  }'
exit "$status"
