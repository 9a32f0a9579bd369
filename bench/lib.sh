# What the scripts of bench/ and outside/ share. A script of bench/ sources it by its own place: . "$(dirname "$0")/lib.sh"
# It sets `root`, the repository's top.
root=$(realpath "$(dirname "${BASH_SOURCE[0]}")/..")

# ## Folders, and programs in a copy of the crates

# Makes `folder`, which is removed when the script ends.
make_folder() {
  folder=$(mktemp -d)
  trap 'rm -rf "$folder"' EXIT
}

# use_program PATH: sets `program` to the built program at PATH, makes `folder` and goes there.
use_program() {
  program=$(realpath "${1:?the program}")
  make_folder
  cd "$folder" || exit 1
}

# copy_crates CRATE..: copies these crates into `folder`, with their lines of crates.txt and the handles that they may use, and goes there.
copy_crates() {
  local crate part
  for crate; do
    mkdir -p "$folder/crates/$crate"
    for part in src specs proofs; do
      if [ -d "$root/crates/$crate/$part" ]; then cp -r "$root/crates/$crate/$part" "$folder/crates/$crate/"; fi
    done
    grep -E "^$crate:" "$root/crates.txt" >> "$folder/crates.txt"
  done
  cp "$root/HANDLES" "$folder"
  cd "$folder" || exit 1
}

# new_program NAME LIBRARY..: makes the program NAME over these libraries, with no source yet, and goes into its crate. `program` is what
# `build` makes of it.
new_program() {
  rt new "crates/$1" start_io > new.log
  rm -rf "crates/$1"/{specs,proofs,src,stdin,stdout}
  mkdir "crates/$1/src"
  echo "$1: ${*:2}" >> crates.txt
  cd "crates/$1" || exit 1
  program=out/$1
}

# build WORD..: proves and builds the program of this crate, and runs it once with these words. If that fails, shows why and ends the script.
build() {
  rt run -- "$@" > "$folder/build.log" 2>&1 || {
    tail -40 "$folder/build.log"
    exit 1
  }
}

# ## What a run takes

# each_of RUNS COMMAND..: runs a command or a function over and over; `spent` has the nanoseconds of each run. Fails with a run that fails.
each_of() {
  local runs=$1 begin
  shift
  spent=()
  while [ "${#spent[@]}" -lt "$runs" ]; do
    begin=$(date +%s%N)
    "$@" || return
    spent+=($(($(date +%s%N) - begin)))
  done
}

# least_of RUNS COMMAND..: prints the nanoseconds of the fastest of these runs.
least_of() {
  each_of "$@" || return
  printf '%s\n' "${spent[@]}" | sort -n | head -n 1
}

# median_of RUNS COMMAND..: prints the nanoseconds of the run in the middle.
median_of() {
  each_of "$@" || return
  printf '%s\n' "${spent[@]}" | sort -n | sed -n "$(((${#spent[@]} + 1) / 2))p"
}

# mean_of RUNS COMMAND..: prints the nanoseconds of a run, in the mean.
mean_of() {
  local sum=0 one
  each_of "$@" || return
  for one in "${spent[@]}"; do sum=$((sum + one)); done
  echo $((sum / ${#spent[@]}))
}

# run_file SOURCE WORD..: runs `program` with these words on the file SOURCE. The text goes to the file `text`.
run_file() {
  "$program" "${@:2}" < "$1" > text
}

# run_quietly WORD..: runs `program` with these words. Its text is lost.
run_quietly() {
  "$program" "$@" > /dev/null
}

# most_memory COMMAND..: prints the most memory that a run took, or `unknown` without GNU time. What the command says is lost.
most_memory() {
  if [ -x /usr/bin/time ]; then /usr/bin/time -f '%M KiB' "$@" 2>&1 > /dev/null; else echo unknown; fi
}

# instructions_of COSTS COMMAND..: prints the instructions of a run, by callgrind, which writes its costs to the file COSTS. The text goes
# to the file `text`.
instructions_of() {
  local costs=$1
  shift
  valgrind --tool=callgrind --callgrind-out-file="$costs" "$@" 2>&1 > text | sed -n 's/.*Collected : *//p'
}

# dearest COSTS COUNT: prints the functions with the most instructions in costs of callgrind, with short names.
dearest() {
  callgrind_annotate "$1" 2> /dev/null | grep -E '^ *[0-9,]+ \(.*:' | head -n "$2" | short_names
}

# Shortens the names of functions that callgrind_annotate prints.
short_names() {
  sed -e 's/ \[[^]]*\]$//' -e 's/[^ ]*\/\([^/]*\)$/\1/'
}

# Names the machine's processor.
show_machine() {
  sed -n 's/^model name[^:]*: //p' /proc/cpuinfo | head -1
}

# fields_of PID: sets `fields` to those of /proc/PID/stat behind the name of the program; an error if the process has gone.
fields_of() {
  local line
  { read -r line < "/proc/$1/stat"; } 2> /dev/null || return 1
  read -r -a fields <<< "${line##*) }"
}

# miss TEXT: says that something is not as it has to be, and sets `wrong`.
miss() {
  echo "  NOT SO: $1"
  wrong=1
}

# ## Sources

# source_of_transfers COUNT: prints a program of this many spawned transfers between 64 cells, 16 in a function. The cells and amounts come
# from a linear congruential generator.
source_of_transfers() {
  awk -v n="$1" 'BEGIN {
    print "cell a[64] = 1000;"
    print "fn t(i, j, x) { atomic { a[i] = a[i] - x; a[j] = a[j] + x; } }"
    s = 1
    for (k = 0; k < n; k++) {
      if (k % 16 == 0) printf "%sfn g%d() {", (k ? " }\n" : ""), k / 16
      s = (s * 1103515245 + 12345) % 2147483648; i = int(s / 65536) % 64
      s = (s * 1103515245 + 12345) % 2147483648; j = int(s / 65536) % 64
      printf " spawn { t(%d, %d, %d); }", i, j, k % 100
    }
    if (n) print " }"
    printf "fn main() {"
    for (k = 0; k < n; k += 16) printf " spawn { g%d(); }", k / 16
    print " sync; }"
  }'
}

# source_of_seed SEED: prints a generated program: three cells, an array, two functions, and main with two parameters, in which blocks of
# all kinds are inside each other. Quotients, indexes and loops may come to a fault.
source_of_seed() {
  awk -v seed="$1" '
    function draw(n) { state = (state * 16807) % 2147483647; return int(state / 7) % n }
    function pad(deep,  text) { while (deep-- > 0) text = text "    "; return text }
    function one_of(words,  list) { return list[1 + draw(split(words, list, " "))] }
    function value(deep, known,  kind) {
      kind = draw(deep > 2 ? 3 : 9)
      if (kind == 0) return draw(7)
      if (kind == 1) return one_of("a b c")
      if (kind == 2) return one_of(known)
      if (kind == 3) return "d[" draw(4) "]"
      if (kind == 4 && draw(12) == 0) return "d[" value(deep + 1, known) "]"
      if (kind == 5 && draw(4) == 0) return "(" value(deep + 1, known) " " one_of("/ %") " " value(deep + 1, known) ")"
      if (kind == 6) return "(" value(deep + 1, known) " " one_of("== < <= !=") " " value(deep + 1, known) ")"
      if (kind == 7 && functions > 0) return "f" draw(functions) "(" value(deep + 1, known) ")"
      return "(" value(deep + 1, known) " " one_of("+ - *") " " draw(4) ")"
    }
    # statements, and what they may name
    function statements(deep, known,  left, kind, name) {
      left = 1 + draw(deep > 3 ? 2 : 5)
      while (left-- > 0) {
        kind = draw(deep > 4 ? 4 : 10)
        if (kind == 0) print pad(deep) one_of("a b c") " = " value(0, known) ";"
        else if (kind == 1) print pad(deep) "d[" draw(4) "] = " value(0, known) ";"
        else if (kind == 2) print pad(deep) "out " value(0, known) ";"
        else if (kind == 3) { name = "v" ++names; print pad(deep) "let " name " = " value(0, known) ";"; known = known " " name }
        else if (kind == 4) { print pad(deep) "if " value(0, known) " {"; statements(deep + 1, known); print pad(deep) "} else {"; statements(deep + 1, known); print pad(deep) "}" }
        else if (kind == 5) {
          name = "v" ++names
          print pad(deep) "let " name " = " draw(4) ";"
          print pad(deep) "while " name " {"
          print pad(deep + 1) name " = " name " - 1;"
          statements(deep + 1, known)
          print pad(deep) "}"
          known = known " " name
        }
        else if (kind == 6) print pad(deep) "sync;"
        else { print pad(deep) one_of("spawn spawn atomic") " {"; statements(deep + 1, known); print pad(deep) "}" }
      }
    }
    BEGIN {
      state = seed * 7919 + 1
      for (i = 0; i < 20; i++) draw(2)
      print "cell a; cell b = " draw(5) "; cell c = -" draw(5) "; cell d[4] = " draw(3) ";"
      for (f = 0; f < 2; f++) { print "fn f" f "(p" f ") {"; statements(1, "p" f); print pad(1) "return " value(0, "p" f) ";"; print "}"; functions = f + 1 }
      print "fn main(x, y) {"; statements(1, "x y"); statements(1, "x y"); print "}"
    }'
}
