#!/usr/bin/env bash
# What the proof of each function of a crate costs, in processor seconds, the dearest first:
#   Lts      the borrow checker's derivation of the body, which only the form of the code makes shorter
#   Proof    the search for goals that have no answer in a file
#   Answers  the answers from files
#   rest     statements, layouts, and what a module of lemmas or definitions takes
# The last line has the sums. The time of a module goes from the end of the module before it, by a sample ten times a second.
# What a check on this machine has kept, in other clones too, is not proved again and does not show: begin where none has checked
# the crate, with the crates below it proved. Other work on the machine makes each second dearer.
# Usage: bench/proofs.sh CRATE [--test], at the repository's top; with --test its tests are proved too, and none is run.
set -euo pipefail
. "$(dirname "$0")/lib.sh"
crate=$1
shift
cd "crates/$crate"
make_folder

# Writes the time of day and the processor seconds that the checks of this crate, in this folder, have taken until now.
declare -A taken
sample() {
  local process fields sum=0
  for process in $(pgrep -f "rattle check --crate-name $crate "); do
    if [ "$(readlink "/proc/$process/cwd")" = "$PWD" ] && fields_of "$process"; then
      taken[$process]=$((fields[11] + fields[12]))
    fi
  done
  for process in "${!taken[@]}"; do sum=$((sum + taken[$process])); done
  printf '%s %d.%02d\n' "$EPOCHREALTIME" $((sum / 100)) $((sum % 100))
}

touch "$folder/begin"
rt check --jobs 1 "$@" > "$folder/said" 2>&1 &
check=$!
while kill -0 "$check" 2> /dev/null; do
  sample
  sleep 0.1
done > "$folder/samples"
wait "$check" || echo "the check failed: $(tail -n 1 "$folder/said")" >&2

find out/incremental -name '*.oantt' -newer "$folder/begin" -printf '%T@ %f\n' | sort -n | awk -v samples="$folder/samples" '
  function at(time) {
    while (place < count && when[place + 1] <= time) place++
    return cost[place]
  }
  BEGIN {
    while ((getline line < samples) > 0) { split(line, part, " "); when[++count] = part[1]; cost[count] = part[2] }
    place = 1
  }
  {
    name = $2
    sub(/(\.decls)?\.oantt$/, "", name)
    sub(/^Rattle-[a-z0-9_]+[-.]/, "", name)
    kind = name
    sub(/.*\./, "", kind)
    if (kind != "Lts" && kind != "Proof" && kind != "Answers") kind = "rest"
    else sub(/\.[A-Za-z]+$/, "", name)
    now = at($1)
    spent[name, kind] += now - last
    sum[name] += now - last
    all[kind] += now - last
    last = now
  }
  END {
    format = "%8.2f %8.2f %8.2f %8.2f %8.2f  %s\n"
    printf "%8s %8s %8s %8s %8s\n", "seconds", "Lts", "Proof", "Answers", "rest"
    for (name in sum) if (sum[name] >= 0.05) printf format, sum[name], spent[name, "Lts"], spent[name, "Proof"], spent[name, "Answers"], spent[name, "rest"], name | "sort -rn"
    close("sort -rn")
    printf format, cost[count], all["Lts"], all["Proof"], all["Answers"], all["rest"], "in all"
  }'
