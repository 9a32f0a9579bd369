#!/usr/bin/env bash
# Tries the wrong bodies under wrong-bodies/: each is an edit of one crate that turns the meaning of a public call, and the proof of that crate
# must refuse it. The gate tries the few in crates/*/must-fail; this script tries all the others, over the last commit of this checkout.
# It prints a line for each edit with what refused it, then 'N refused, M not', and ends with status 1 where one was not refused.
# What a gate passed on this machine is taken from there. A crate takes the time of its proof once, and then about 10 to 100 seconds an edit.
# Usage: outside/wrong-bodies.sh [CRATE..]; without a crate, all that have wrong bodies.
set -u
. "$(dirname "$0")/../bench/lib.sh" || exit 1
if [ $# = 0 ]; then
  cd "$root/wrong-bodies" || exit 1
  set -- *
fi
for crate; do
  if ! [ -d "$root/wrong-bodies/$crate" ]; then
    echo "$crate has no folder in wrong-bodies/" >&2
    exit 1
  fi
done
make_folder
git clone -q "$root" "$folder/copy" || exit 1
cd "$folder/copy" || exit 1
rm -rf crates/*/must-fail
wanted=0
for crate; do
  cp -r "wrong-bodies/$crate" "crates/$crate/must-fail"
  wanted=$((wanted + $(find "crates/$crate/must-fail" -name '*.edit' | wc -l)))
done
rt ci "$@" 2>&1 | tee "$folder/said" | sed -un 's/^rt: must-fail //p; /^rt: .* trying /s/^rt: //p; /^rt: FAILED/s/^rt: //p'
refused=$(grep -c 'must-fail .*: refused, as it must be' "$folder/said")
echo "$refused refused, $((wanted - refused)) not"
[ "$refused" = "$wanted" ]
