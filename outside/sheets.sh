#!/usr/bin/env bash
# Tries `read_sheet` and `sheet_text` of `cw_sheet` from outside, by a program that reads a sheet, and writes it back or says its first fault.
# The sheets of outside/sheets/ must be written back byte for byte. Each with one thing changed must be refused on the line and for the kind of
# its row, or be written back too. Large sheets are read under a bar on memory, which no clause has, and their times are printed.
# It proves and builds `cw_sheet` for that, which takes minutes. It is run by hand.
# Usage: outside/sheets.sh [NODES], with the number of nodes of the large sheets (1000000).
# Ends with the line 'N passed, M failed', and with status 1 if one failed.
# `$` is the last line for sed.
# shellcheck disable=SC2016
set -u
. "$(dirname "$0")/../bench/lib.sh" || exit 1
export LC_ALL=C
nodes=${1:-1000000}
sheets=$root/outside/sheets
passed=0
failed=0
make_folder
copy_crates cw_base cw_code cw_text cw_strand cw_compile cw_job cw_tree cw_open cw_serial cw_record cw_sheet
new_program sheet_rows cw_base cw_code cw_text cw_strand cw_compile cw_tree cw_record cw_sheet
cat > src/main.rt <<'END'
#![tactic(auto)]

use cw_sheet::{SheetKind, SheetRefusal, read_sheet, sheet_text};
use std::io;
use std::io::{Read, Write};

fn name(kind: SheetKind) -> &'static str {
    match kind {
        SheetKind::NotUtf8 => "NotUtf8",
        SheetKind::TooLong => "TooLong",
        SheetKind::Unexpected => "Unexpected",
        SheetKind::BadNumber => "BadNumber",
        SheetKind::BadTree => "BadTree",
        SheetKind::BadSource => "BadSource",
    }
}

fn main(rt: HostRuntime) -> io::Result<()> {
    let alloc = rt.alloc();
    let mut bytes = Vec::new(alloc);
    rt.stdin().read_to_end(&mut bytes)?;
    match read_sheet(alloc, bytes.as_slice()) {
        Ok(sheet) => match sheet_text(alloc, &sheet) {
            Ok(text) => rt.stdout().write_all(text.as_slice()),
            Err(_) => println!(rt; "want of memory"),
        },
        Err(SheetRefusal::Sheet(fault)) => println!(rt; "line {}: {}", fault.line, name(fault.kind)),
        Err(SheetRefusal::OutOfMemory) => println!(rt; "want of memory"),
    }
}
END
# it has no words
# shellcheck disable=SC2119
build < "$sheets/P.sheet"
program=$PWD/$program
cd "$folder" || exit 1

# ## Rows

# judge NAME WANTED: the program must say for the file `sheet` what the file WANTED holds
judge() {
  local status=0
  timeout 60 "$program" < sheet > text 2> note || status=$?
  if [ "$status" = 0 ] && [ ! -s note ] && cmp -s text "$2"; then
    passed=$((passed + 1))
  else
    failed=$((failed + 1))
    printf 'FAILED %s: status %s; wanted %s; text %s; note %s\n' "$1" "$status" "$(head -c 60 "$2" | tr '\n' '~')" \
      "$(head -c 200 text | tr '\n' '~')" "$(head -c 200 note | tr '\n' '~')"
  fi
}

# written_back NAME: the file `sheet` is read, and written back byte for byte
written_back() {
  judge "$1" sheet
}

# refused NAME LINE KIND: the file `sheet` is refused on this line for this
refused() {
  echo "line $2: $3" > wanted
  judge "$1" wanted
}

# change SHEET COMMAND..: makes the file `sheet`, that sheet as these commands of sed change it. A command that changes nothing is a failed row.
change() {
  local command
  cp "$sheets/$1.sheet" sheet
  for command in "${@:2}"; do
    sed "$command" sheet > changed
    if cmp -s sheet changed; then
      failed=$((failed + 1))
      printf 'FAILED %s, %s: nothing is changed\n' "$1" "$command"
    fi
    mv changed sheet
  done
}

# reads SHEET COMMAND..: as these commands of sed change it, the sheet is written back
reads() {
  change "$@"
  written_back "$*"
}

# refuses LINE KIND SHEET COMMAND..: as these commands of sed change it, the sheet is refused
refuses() {
  change "${@:3}"
  refused "${*:3}" "$1" "$2"
}

# ## Sheets that are read

for sheet in "$sheets"/*.sheet; do
  cp "$sheet" sheet
  written_back "$(basename "$sheet")"
done

to_moves='/^finished$/,/^outputs/c moves'
reads S 's/^fork 0 1$/fork 0 14/'
reads S "$to_moves"
reads S "$to_moves" 's/^block 6 5 .*/block 6 5 pending 0/'
reads S 's/^block 5 9 .*/block 5 9 pending 0/'
reads B 's/^budget .*/moves/'
reads P '/^out 0/d' 's/^nodes 5/nodes 4/' "$to_moves"
reads C '/^write 1 6/,/^out 0 9/d' 's/^nodes 9/nodes 6/' 's/^block 0 1 .*/block 0 1 pending 0/' "$to_moves"

# No reader judges what the numbers say.
reads S 's/^block 2 2 .*/block 2 2 committed 3/'
reads S 's/^0 3 8 2 4 1 3/7 0 99 4 5 2/'
reads S 's/^0 3 8 2 4 1 3/0 3 8 2 4 1 3 11 18446744073709551615/'
reads S 's/^words/words 7/'
reads S 's/^limits .*/limits 0 0 0 0 0/'
reads S 's/^limits .*/limits 18446744073709551615 4294967295 4294967295 4294967295 18446744073709551615/'
reads S 's/^write 10 11 0 2/write 10 18446744073709551615 4294967295 -9223372036854775808/'
reads S 's/^memory 2/memory/'
reads S '/^conflicts/,/^0 3/c conflicts 0'
reads B 's/^budget 5/budget 4294967295/'
reads C 's/^cancel 1 .*/cancel 1 5 0/'
reads C 's/^cancel 1 .*/cancel 1 5 3 7 -5 7 9223372036854775807 0 0/'
reads C 's/^out 1 4 9/out 1 4 -9/'
for kind in Zero Overflow Range Depth Fuel Size; do reads P "/^finished$/,/^outputs/c fault 7 $kind"; done

# ## Lines and items

refuses 20 Unexpected P '$d'
head -c -1 "$sheets/P.sheet" > sheet
refused 'P without its last newline' 20 Unexpected
refuses 21 Unexpected P '$a x'
refuses 21 Unexpected P '$G'
refuses 20 Unexpected P 's/^end record/end  record/'
refuses 20 Unexpected P 's/^end record/end record /'
refuses 1 Unexpected P 's/record 1/record 2/'
refuses 1 Unexpected P 's/record 1/record 01/'
refuses 1 Unexpected P 's/^cwstm/ cwstm/'
refuses 1 Unexpected P 's/^cwstm record/cwstm\trecord/'
refuses 1 Unexpected P '1s/^/\n/'
refuses 1 Unexpected P '1d'
refuses 1 Unexpected P '1,$d'
refuses 1 Unexpected P 's/$/\r/'
refuses 8 Unexpected P 's/^words/words\r/'
refuses 11 Unexpected P 's/^strand 0/strand 0\r/'
refuses 16 Unexpected P '/^out 0/G'
refuses 16 Unexpected P 's/^conflicts 0/conflict 0/'

# ## Source

refuses 2 BadSource P 's/^source 45/source 44/'
refuses 2 BadSource P 's/^source 45/source 46/'
refuses 2 BadSource P 's/^source 45/source 0/'
refuses 21 Unexpected P 's/^source 45/source 999/'
refuses 21 Unexpected P 's/^source 45/source 100000000/'
refuses 2 BadNumber P 's/^source 45/source 045/'
refuses 2 BadNumber P 's/^source 45/source -0/'
refuses 2 BadNumber P 's/^source 45/source -1/'
refuses 2 BadNumber P 's/^source 45/source 100000001/'
refuses 2 BadNumber P 's/^source 45/source 99999999999999999999999999/'
refuses 2 Unexpected P 's/^source 45/source/'
refuses 2 Unexpected P 's/^source 45/source +45/'
refuses 2 Unexpected P 's/^source 45/source  45/'
refuses 2 BadSource P 's/^source 45/source 50/' '2a // x'
refuses 2 BadSource P 's/^source 45/source 58/' '2a language 1 ;'
refuses 2 BadSource P 's/^source 45/source 46/' 's/^cell c ;/cell c ;\r/'
refuses 2 BadSource P 's/^source 45/source 44/' 's/^cell c ;/cell c;/'
refuses 2 BadSource P 's/^source 45/source 46/' 's/^out c ;/out  c ;/'
refuses 2 BadSource P 's/^source 45/source 49/' 's/^cell c ;/cell c = 0 ;/'
# a cell that no one declares, and a token that is none
refuses 2 BadSource P 's/^out c ;/out d ;/'
refuses 2 BadSource P 's/^out c ;/out @ ;/'
# its fault comes before all that is wrong further on
refuses 2 BadSource P 's/^out c ;/out d ;/' 's/^words/words -0/'
# the first line of its source left out, with the number of bytes that is then right, and without
refuses 2 BadSource C '3d'
refuses 2 BadSource C '3d' 's/^source 94/source 81/'

# ## Words and limits

refuses 8 BadNumber P 's/^words/words -0/'
refuses 8 BadNumber P 's/^words/words 00/'
refuses 8 BadNumber P 's/^words/words -01/'
refuses 8 BadNumber P 's/^words/words 9223372036854775808/'
refuses 8 BadNumber P 's/^words/words -9223372036854775809/'
refuses 8 Unexpected P 's/^words/words /'
refuses 8 Unexpected P 's/^words/words +1/'
refuses 8 Unexpected P 's/^words/words --1/'
refuses 8 Unexpected P 's/^words/words -/'
refuses 8 Unexpected P 's/^words/words 1 x/'
refuses 8 Unexpected P 's/^words/words 1  2/'
reads P 's/^words/words 9223372036854775807 -9223372036854775808 0/'
refuses 9 Unexpected P 's/ 10000000$//'
refuses 9 Unexpected P 's/ 10000000$/ 10000000 1/'
refuses 9 BadNumber P 's/^limits 1000000 1000000/limits 1000000 4294967296/'
refuses 9 BadNumber P 's/^limits 1000000 1000000/limits 18446744073709551616 1000000/'
refuses 9 BadNumber P 's/ 100000 262144/ 4294967296 262144/'
refuses 9 BadNumber P 's/ 100000 262144/ 100000 4294967296/'
refuses 9 BadNumber P 's/ 10000000$/ 18446744073709551616/'
refuses 9 BadNumber P 's/^limits 1/limits -1/'

# ## Nodes

refuses 10 BadTree P '/^strand/,/^out 0/d' 's/^nodes 5/nodes 0/'
refuses 10 BadNumber P 's/^nodes 5/nodes 05/'
refuses 10 BadNumber P 's/^nodes 5/nodes 100000001/'
refuses 16 Unexpected P 's/^nodes 5/nodes 6/'
refuses 16 Unexpected P 's/^nodes 5/nodes 100000000/'
refuses 15 Unexpected P 's/^nodes 5/nodes 4/'
refuses 10 Unexpected P 's/^nodes 5/nodes/'
refuses 11 Unexpected P 's/^strand 0/strand 5/'
refuses 11 Unexpected P 's/^strand 0/strand 0 0/'
refuses 11 BadTree P 's/^strand 0/block 0 0 pending 0/'
refuses 11 BadTree P 's/^strand 0/block 5 0 pending 0/'
refuses 12 BadTree P 's/^read 0 1 0 0/read 1 1 0 0/'
refuses 12 BadTree P 's/^read 0 1 0 0/read 4294967295 1 0 0/'
refuses 18 BadNumber P 's/^read 0 1 0 0/read 1 1 0 0/' 's/^memory 1/memory 01/'
refuses 20 Unexpected P 's/^read 0 1 0 0/read 1 1 0 0/' '$d'
refuses 13 BadTree P 's/^write 0 2 0 1/write 1 2 0 1/'
refuses 12 BadTree P 's/^read 0 1 0 0/strand 0/'
refuses 12 BadTree P 's/^read 0 1 0 0/fork 0 1/'
refuses 12 BadNumber P 's/^read 0 1 0 0/read 4294967296 1 0 0/'
refuses 12 BadNumber P 's/^read 0 1 0 0/read 0 18446744073709551616 0 0/'
refuses 12 BadNumber P 's/^read 0 1 0 0/read 0 1 4294967296 0/'
refuses 12 BadNumber P 's/^read 0 1 0 0/read 0 1 0 9223372036854775808/'
refuses 12 BadNumber P 's/^read 0 1 0 0/read 0 1 0 -0/'
refuses 12 Unexpected P 's/^read 0 1 0 0/read 0 1 0/'
refuses 12 Unexpected P 's/^read 0 1 0 0/read 0 1 0 0 0/'
refuses 12 Unexpected P 's/^read 0 1 0 0/reads 0 1 0 0/'
refuses 12 Unexpected P 's/^read 0 1 0 0/read 0 x 0 0/'
refuses 15 BadNumber P 's/^out 0 4 1/out 0 4 01/'
refuses 15 Unexpected P 's/^out 0 4 1/out 0 4/'
refuses 20 BadTree S 's/^strand 1$/strand 0/'
refuses 20 BadTree S '24s/^strand 1/block 1 4 pending 0/'
refuses 20 BadTree S '27s/^tried 7 0/strand 1/'
refuses 20 BadTree S '21s/^strand 1/strand 2/'
refuses 22 Unexpected S 's/^block 2 2 committed 6/block 2 2 done 6/'
refuses 22 Unexpected S 's/^block 2 2 committed 6/block 2 2 committed/'
refuses 22 BadNumber S 's/^block 2 2 committed 6/block 2 2 committed 06/'
refuses 27 Unexpected S 's/^tried 7 0/tried 7 8 0/'
refuses 28 BadTree S 's/^block 5 9 committed 13/block 8 9 committed 13/'
refuses 28 BadTree S 's/^block 5 9 committed 13/strand 5/'

refuses 22 Unexpected C 's/^cancel 1 5 1 0 5/cancel 1 5 2 0 5/'
refuses 22 Unexpected C 's/^cancel 1 5 1 0 5/cancel 1 5 0 0 5/'
refuses 22 Unexpected C 's/^cancel 1 5 1 0 5/cancel 1 5 1 0/'
refuses 22 Unexpected C 's/^cancel 1 5 1 0 5/cancel 1 5 1/'
refuses 22 Unexpected C 's/^cancel 1 5 1 0 5/cancel 1 5 100000000 0 5/'
refuses 22 BadNumber C 's/^cancel 1 5 1 0 5/cancel 1 5 100000001 0 5/'
refuses 22 BadNumber C 's/^cancel 1 5 1 0 5/cancel 1 5 01 0 5/'
# the pairs that are there are read before they are counted
refuses 22 BadNumber C 's/^cancel 1 5 1 0 5/cancel 1 5 2 0 05/'
refuses 23 BadTree C 's/^write 1 6 0 5/write 5 6 0 5/'

# ## Refused accesses and the end

refuses 16 BadNumber P 's/^conflicts 0/conflicts 100000001/'
refuses 17 Unexpected P 's/^conflicts 0/conflicts 100000000/'
refuses 17 Unexpected P 's/^conflicts 0/conflicts 1/'
refuses 32 Unexpected S 's/^conflicts 1/conflicts 0/'
refuses 33 Unexpected S 's/^conflicts 1/conflicts 2/'
refuses 32 Unexpected S 's/^0 3 8 2 4 1 3/0 3 8 2 4/'
refuses 32 Unexpected S 's/^0 3 8 2 4 1 3/ 0 3 8 2 4 1 3/'
refuses 32 BadNumber S 's/^0 3 8 2 4 1 3/4294967296 3 8 2 4 1 3/'
refuses 32 BadNumber S 's/^0 3 8 2 4 1 3/0 3 8 2 4 1 03/'
refuses 32 BadNumber S 's/^0 3 8 2 4 1 3/0 3 8 2 4 1 18446744073709551616/'
refuses 17 Unexpected P 's/^finished/finished 1/'
refuses 17 Unexpected P 's/^finished/end/'
refuses 18 Unexpected P '/^memory/d'
refuses 19 Unexpected P '/^outputs/d'
refuses 18 Unexpected P 's/^finished/moves/'
refuses 19 BadNumber P 's/^outputs 1/outputs 1 9223372036854775808/'
refuses 30 BadNumber B 's/^budget 5/budget 4294967296/'
refuses 30 Unexpected B 's/^budget 5/budget 5 5/'
refuses 17 Unexpected P '/^finished$/,/^outputs/c fault 0 Memory'
refuses 17 Unexpected P '/^finished$/,/^outputs/c fault 0'
refuses 17 BadNumber P '/^finished$/,/^outputs/c fault 00 Fuel'

# ## Bytes

refuses 15 NotUtf8 P 's/^out 0 4 1/out 0 4 \xff/'
refuses 15 NotUtf8 P 's/^out 0 4 1/out 0 4 \xff/' 's/record 1/record 2/'
refuses 15 NotUtf8 P 's/^out 0 4 1/out 0 4 \xff/' 's/^source 45/source 44/'
# the first two bytes of three
refuses 20 NotUtf8 P 's/^end record/end \xe2\x82/'
refuses 15 Unexpected P 's/^out 0 4 1/out 0 4 \xe2\x82\xac/'
refuses 2 BadSource P 's/^out c ;/out \xc3\xa9 ;/' 's/^source 45/source 46/'

# long COUNT: the file `sheet` is P with newlines behind it, of this many bytes in all
long() {
  { cat "$sheets/P.sheet"; head -c $(($1 - $(stat -c %s "$sheets/P.sheet"))) /dev/zero | tr '\0' '\n'; } > sheet
}
long 67108864
refused 'as many bytes as a sheet may have' 21 Unexpected
long 67108865
refused 'one byte more' 0 TooLong
printf '\377' | dd of=sheet bs=1 seek=13 conv=notrunc status=none
refused 'one byte more, and one that is not UTF-8' 0 TooLong

# with_source COUNT SHORT LONG: the file `sheet` has a source of COUNT bytes, with SHORT statements of 8 bytes and LONG of 9
with_source() {
  {
    printf 'cwstm record 1\nsource %s\ncell c ;\nfn main ( ) {\n' "$1"
    yes 'c = 1 ;' | head -n "$2"
    yes 'c = 10 ;' | head -n "$3"
    printf '}\n'
    sed -n '/^words/,$p' "$sheets/P.sheet"
  } > sheet
}
with_source 1048576 131061 7
written_back 'as many bytes as a program may have that is run'
with_source 1048577 131060 8
written_back 'a source of one byte more'

# ## Memory

# large KIND COUNT: the file `sheet` has so many nodes, or up to two fewer: accesses of one strand, blocks in each other, or forks in each other
large() {
  awk -v kind="$1" -v count="$2" 'BEGIN {
    if (kind == "forks") count -= (count - 1) % 3
    printf "cwstm record 1\nsource 25\ncell c ;\nfn main ( ) {\n}\nwords\nlimits 1000000 1000000 100000 262144 10000000\nnodes %d\nstrand 0\n", count
    for (n = 1; n < count; n++) {
      if (kind == "accesses") printf "%s 0 %d %d %d\n", (n % 2 ? "write" : "read"), n, n % 4096, n * 7919
      if (kind == "blocks") printf "block %d %d pending 0\n", n - 1, n
      if (kind == "forks") {
        if (n % 3 == 1) printf "fork %d %d\n", n - 1, n
        else printf "strand %d\n", n - (n % 3 ? 1 : 2)
      }
    }
    printf "conflicts 0\nmoves\nend record\n"
  }' > sheet
}

# Under any bound on memory the program says `want of memory`, or that it cannot read, or writes the sheet back.
large accesses 20000
wants=0
for kilobytes in $(seq 3000 250 12000); do
  status=0
  (ulimit -v "$kilobytes"; exec "$program" < sheet > text 2> note) || status=$?
  if [ "$status" = 0 ] && grep -qx 'want of memory' text; then
    wants=$((wants + 1))
  elif [ "$status" -gt 1 ] || { [ "$status" = 0 ] && ! cmp -s sheet text; }; then
    failed=$((failed + 1))
    printf 'FAILED %s KiB: status %s, text %s, note %s\n' "$kilobytes" "$status" "$(head -c 200 text | tr '\n' '~')" "$(head -c 200 note | tr '\n' '~')"
  fi
done
if [ "$wants" -gt 0 ] && cmp -s sheet text; then
  passed=$((passed + 1))
else
  failed=$((failed + 1))
  echo "FAILED bounds on memory: $wants wants, and at the last bound $(head -c 100 text | tr '\n' '~')"
fi

# ## Time

# The times are printed, not judged: a machine may be busy. For 10^6 nodes they are to be under 3 s, and at most a factor of 1.5 apart a node.
# Memory is judged: 1 GB a million nodes.
for kind in accesses blocks forks; do
  before=0
  for count in $((nodes / 10)) "$nodes"; do
    large "$kind" "$count"
    written_back "$count nodes, $kind"
    least=$(least_of 5 run_file sheet)
    each=$((least / count))
    memory=$(most_memory "$program" < sheet)
    printf '%s nodes, %s: %s ms, %s ns each, %s' "$count" "$kind" $((least / 1000000)) "$each" "$memory"
    if [ "$before" -gt 0 ]; then printf ', %s%% of the time a node of a tenth' $((each * 100 / before)); fi
    echo
    before=$each
    kilobytes=${memory% KiB}
    if [ "$memory" != unknown ] && [ "$kilobytes" -gt $((count + 20000)) ]; then
      failed=$((failed + 1))
      echo "FAILED $count nodes, $kind: $memory"
    fi
  done
done

echo "$passed passed, $failed failed"
[ "$failed" -eq 0 ]
