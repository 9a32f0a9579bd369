#!/usr/bin/env bash
# Shows that a sheet is checked in proportion to its nodes: 100,000 and 1,000,000 accesses in one strand; forks in forks, which one memory
# would make all at once; 8,000 and 80,000 refusals of one access inside 2,000 blocks; 4,096 elements touched inside 10,000 and 100,000
# blocks inside each other, and again outside; 500 and 5,000 blocks inside each other that are given up; 1,000 and 10,000 one after
# another, with 50 accesses behind each. Each time is that of the whole command: reading the sheet and auditing it. A node of the large
# sheet takes at most 1.5 times as long as one of the small one, and 1,000,000 nodes under 3 s and 1 GB.
# Usage: bench/sheets.sh PROGRAM, with the program as the gate builds it: crates/cwstm/out/cwstm, once `rt ci` has passed.
# Ends with status 1 if it is not so.
set -eu
. "$(dirname "$0")/lib.sh"
use_program "${1:-}"
wrong=0

# keep_run PROGRAM WORD..: writes the sheet of a run of this program by one worker to the file `sheet`
keep_run() {
  local text=$1
  shift
  printf '%s' "$text" | "$program" keep --workers 1 --size 10000000 "$@" > sheet || [ $? = 6 ]
}

# keep_refused COUNT: writes the sheet of an access that is refused so often, by a block beside it, inside 2,000 blocks around both
keep_refused() {
  printf '%s' 'cell c; fn f(n) { atomic { if n { f(n - 1); } else { spawn { atomic { c = 1; } } c = 2; } } } fn main() { f(1999); }' > source
  "$program" keep --workers 1 < source | sed '/^nodes /,$d' > sheet
  awk -v count="$1" 'BEGIN {
    print "nodes", 2007 + count
    print "strand 0"
    for (n = 1; n <= 2000; n++) print "block", n - 1, n, "committed", 4006 - n
    print "fork 2000 2001\nstrand 2001\nblock 2002 2002 committed 2004\nwrite 2003 2003 0 1\nstrand 2001"
    for (n = 1; n <= count; n++) print "tried 2005 0"
    print "write 2005 2005 0 2"
    print "conflicts", count
    for (n = 1; n <= count; n++) print 0, 2003, 2005 + n, 2002, 0, n, 2003
    print "finished\nmemory 2\noutputs\nend record"
  }' >> sheet
}

# sheet_of SHAPE SIZE: writes the file `sheet`
sheet_of() {
  case $1 in
    'accesses in one strand') keep_run "cell c; fn main() { let i = 0; while i < $2 { c = i; i = i + 1; } }" --fuel 1000000000 ;;
    'forks in forks') keep_run 'fn f() { spawn { f(); } f(); } fn main() { f(); }' --fuel "$2" ;;
    'refusals inside 2,000 blocks') keep_refused "$2" ;;
    'blocks around 4,096 elements')
      # a call begins 20 blocks, since at most 10,000 functions wait for each other
      blocks=$(printf 'atomic { %.0s' {1..20})
      ends=$(printf '} %.0s' {1..20})
      keep_run "cell a[4096]; fn t(i) { while i < 4096 { a[i] = i; i = i + 1; } } fn f(n) { $blocks if n { f(n - 1); } else { t(0); } $ends } fn main() { f($2 / 20 - 1); t(0); }" --fuel 1000000000
      ;;
    'blocks that are given up') keep_run "language 2; cell c; fn f(n) { atomic { c = n; if n { f(n - 1); } cancel; } } fn main() { f($2 - 1); out c; }" --fuel 1000000000 ;;
    'blocks given up one after another') keep_run "language 2; cell c; cell d; fn main() { let i = 0; while i < $2 { atomic { c = i; cancel; } let j = 0; while j < 50 { d = j; j = j + 1; } i = i + 1; } }" --fuel 1000000000 ;;
  esac
}

while IFS='|' read -r shape least most; do
  small=
  for size in "$least" "$most"; do
    sheet_of "$shape" "$size"
    nodes=$(sed -n '/^nodes /{s/nodes //p;q}' sheet)
    took=$(least_of 3 run_file sheet check)
    memory=$(most_memory "$program" check < sheet)
    each=$((took / nodes))
    echo "$shape, $size: $nodes nodes, $((took / 1000000)) ms, $each ns a node, $memory, $(cat text)"
    if [ "$(cat text)" != sound ]; then miss 'the sheet is not sound'; fi
    if [ -n "$small" ] && [ $((each * 10)) -gt $((small * 15)) ]; then miss 'a node costs more in a large sheet'; fi
    if [ $((took / 3000)) -gt $((nodes + 100000)) ]; then miss 'over 3 s for 1,000,000 nodes'; fi
    if [ "${memory% KiB}" != unknown ] && [ $((${memory% KiB} * 1024 / 1000)) -gt $((nodes + 100000)) ]; then miss 'over 1 GB for 1,000,000 nodes'; fi
    small=$each
  done
done << 'SHAPES'
accesses in one strand|100000|1000000
forks in forks|100000|1000000
refusals inside 2,000 blocks|8000|80000
blocks around 4,096 elements|10000|100000
blocks that are given up|500|5000
blocks given up one after another|1000|10000
SHAPES
exit "$wrong"
