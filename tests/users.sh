#!/usr/bin/env bash
# What users meet besides the programs: tools/run (statuses, signals, standard error), tools/timeline, ./example and tools/build. The real
# programs are used where they can show it, else shell scripts in their place, in a root of their own with a stub for rt.
# Needs the built programs (rt ci or tools/build). Its last line is `N passed, M failed`.
set -u
cd "$(dirname "$0")/.." || exit 1
. tests/counting.sh

root=$work/root
real_path=$PATH
mkdir -p "$root" "$work/stubs" "$work/elsewhere" "$work/few" "$work/tmp"

# Tries a command for ten seconds until it succeeds.
in_time() {
  for _ in {1..100}; do
    "$@" && return
    sleep 0.1
  done
  return 1
}

# A process that is no more, or that only waits to be counted by the system.
gone() {
  [ ! -d "/proc/$1" ] || grep -q '^State:[[:space:]]*Z' "/proc/$1/status" 2>/dev/null
}

# Writes a shell script from standard input.
script() {
  { echo '#!/bin/sh' && cat; } >"$1" && chmod +x "$1"
}

# Writes a program of that root from standard input.
program() {
  mkdir -p "$root/crates/$1/out" && script "$root/crates/$1/out/$1"
}

# Sends a signal to a process that writes the ids of what it started to $work/pid: all of them end, it with the signal's status.
end_by() {
  local signal=$1 runner=$2 status=0 each
  in_time [ -s "$work/pid" ] && kill -s "$signal" "$runner" && in_time gone "$runner" || status=1
  for each in $(cat "$work/pid"); do
    gone "$each" || { kill -s KILL "$each" && status=1; }
  done
  gone "$runner" || kill -s KILL "$runner"
  wait "$runner"
  [ $? -eq $((128 + $(kill -l "$signal"))) ] && [ "$status" -eq 0 ]
}

# Runs a command with the signal INT as it is in a terminal: what a script starts in the background ignores it.
attended() {
  exec python3 -c 'import os, signal, sys; signal.signal(signal.SIGINT, signal.SIG_DFL); os.execvp(sys.argv[1], sys.argv[1:])' "$@"
}

# Runs a script of that root with that kit.
there() {
  RATTLE_HOME=$work/kit "$root/$1" "${@:2}"
}

# ---- a root with scripts as programs, and an emulator that runs them as they are

cp -R example tools examples "$root"
script "$work/elsewhere/uname" <<<'echo other'
script "$work/elsewhere/qemu-x86_64" <<'END'
[ "$2" = --library-path ] || exit 99
shift 3
exec "$@"
END
program copy <<'END'
exec cat
END
program take_line <<'END'
read -r line
printf '%s\n' "$line"
END
program say_bytes <<'END'
exec cat "$1" >&2
END
program say_and_wait <<'END'
echo first >&2
read -r line
echo "then $line" >&2
END
program fall <<'END'
kill -s "$1" $$
END
program wait <<'END'
echo $$ >"$1.new"
mv "$1.new" "$1"
exec sleep 1000
END

# ---- tools/run

runs_well() {
  tools/run schedule <examples/listing/calls.schedule >"$work/wrote" 2>"$work/said" && [ ! -s "$work/said" ] && cmp "$work/wrote" examples/listing/lines.txt
}

tells_failure() {
  echo 'capacity 64 begin 0' | tools/run write_schedule >"$work/wrote" 2>"$work/said"
  [ $? -eq 1 ] && [ ! -s "$work/wrote" ] && grep -q '^line 1: ' "$work/said"
}

passes_bytes_on() {
  there tools/run say_bytes "$1" 2>"$work/said"
  [ $? -eq 1 ] && cmp "$1" "$work/said"
}

passes_words_on_at_once() {
  local runner
  rm -f "$work/in" && mkfifo "$work/in"
  there tools/run say_and_wait <"$work/in" 2>"$work/said" &
  runner=$!
  exec {held}>"$work/in"
  in_time grep -q first "$work/said"
  local came=$?
  echo more >&"$held"
  exec {held}>&-
  wait "$runner"
  [ $? -eq 1 ] && [ "$came" -eq 0 ] && [ "$(cat "$work/said")" = "$(printf 'first\nthen more')" ]
}

copies_input() {
  there tools/run copy <"$work/bytes" 2>"$work/said" | cmp - "$work/bytes" && [ ! -s "$work/said" ]
}

leaves_the_rest() {
  [ "$(printf 'one\ntwo\nthree\n' | { there tools/run take_line && cat; } | tr '\n' ' ')" = "one two three " ]
}

ends_by_signal() {
  there tools/run fall "$1" 2>"$work/said"
  [ $? -eq $((128 + $(kill -l "$1"))) ] && grep -q "ended by signal $1" "$work/said"
}

passes_signal_on() {
  rm -f "$work/pid"
  attended env RATTLE_HOME="$work/kit" "$root/tools/run" wait "$work/pid" 2>"$work/said" &
  end_by "$1" $!
}

ends_with_its_reader() {
  local statuses
  yes | there tools/run copy 2>"$work/said" | head -n 1 >"$work/wrote"
  statuses=${PIPESTATUS[*]}
  [ "$statuses" = "141 141 0" ] && [ ! -s "$work/said" ] && [ "$(cat "$work/wrote")" = y ]
}

# Whatever of the three is closed, the program is told of it and not of another file.
works_closed() {
  local status
  eval "timeout 60 tools/run schedule <examples/listing/calls.schedule $1"
  status=$?
  [ "$status" -eq "$2" ]
}

misuse_is_told() {
  tools/run 2>"$work/said"
  [ $? -eq 2 ] && grep -q usage "$work/said" || return
  tools/run no_such_program 2>"$work/said"
  [ $? -eq 127 ] && grep -q 'not built' "$work/said"
}

# On another processor the emulator runs the program, with the same statuses.
runs_elsewhere() {
  (PATH=$work/elsewhere:$PATH && passes_bytes_on "$work/bytes" && ends_by_signal SEGV && passes_signal_on TERM && copies_input) || return
  mv "$work/elsewhere/qemu-x86_64" "$work/elsewhere/none"
  (PATH=$work/elsewhere:$PATH && ! copies_input 2>/dev/null)
}

{ printf '\0\377\\n\n' && head -c 5000000 /dev/urandom; } >"$work/bytes"
printf '\\' >"$work/one_byte"
printf '\0' >"$work/no_letter"

expect "tools/run: a program that does its work" runs_well
expect "tools/run: a program that tells a failure" tells_failure
expect "tools/run: five million bytes on standard error" passes_bytes_on "$work/bytes"
expect "tools/run: one byte on standard error" passes_bytes_on "$work/one_byte"
expect "tools/run: a zero byte on standard error" passes_bytes_on "$work/no_letter"
expect "tools/run: words on standard error come at once" passes_words_on_at_once
expect "tools/run: input and output as they are" copies_input
expect "tools/run: input that is not read stays" leaves_the_rest
for signal in SEGV TERM KILL; do
  expect "tools/run: a program that ends by $signal" ends_by_signal "$signal"
done
for signal in INT TERM HUP; do
  expect "tools/run: $signal is passed on" passes_signal_on "$signal"
done
expect "tools/run: a reader that leaves" ends_with_its_reader
expect "tools/run: closed input" works_closed '<&- 2>/dev/null' 1
expect "tools/run: closed output" works_closed '>&- 2>/dev/null' 1
expect "tools/run: closed standard error" works_closed '>/dev/null 2>&-' 0
expect "tools/run: closed output and standard error" works_closed '>&- 2>&-' 1
expect "tools/run: all closed" works_closed '<&- >&- 2>&-' 1
expect "tools/run: wrong use" misuse_is_told
expect "tools/run: another processor" runs_elsewhere

# ---- tools/timeline

timeline_is_stored() {
  tools/timeline "examples/$1/calls.schedule" | cmp - "examples/$1/timeline.txt" &&
    tools/timeline "examples/$1/calls.schedule" --svg "$work/picture.svg" && cmp "$work/picture.svg" "examples/$1/timeline.svg" &&
    python3 -c 'import sys, xml.dom.minidom; xml.dom.minidom.parse(sys.argv[1])' "$work/picture.svg"
}

# The text of the calls gives the same as the file, but for the name in the first line.
timeline_of_text() {
  cmp <(tools/timeline - <"examples/$1/calls.txt" | tail -n +2) <(tail -n +2 "examples/$1/timeline.txt")
}

timeline_ends() {
  tools/timeline "$1" >"$work/wrote" 2>"$work/said"
}

# The schedule in a file does not run to its end: which is told on standard error, behind so many lines of the timeline.
timeline_tells() {
  printf "$1" >"$work/calls"
  timeline_ends "$work/calls"
  [ $? -eq 1 ] && [ "$(wc -l <"$work/wrote")" -eq "$2" ] && grep -q "^timeline: .*$3" "$work/said"
}

# A listing that the calls do not allow: two nodes due where one is held.
timeline_disagrees() {
  program schedule <<<"sed 's/^9 11 0 1\$/9 11 0 2/' '$PWD/examples/listing/lines.txt'"
  program read_schedule <<<"grep -v '^#' '$PWD/examples/listing/calls.txt'"
  there tools/timeline examples/listing/calls.schedule >"$work/wrote" 2>"$work/said"
  [ $? -eq 1 ] && grep -q '^timeline: call 9 answers 2 for the nodes made due' "$work/said"
}

# All 256 nodes, in lines of at most 160 columns.
timeline_is_narrow() {
  { echo 'capacity 256 start 0' && seq 1 256 | sed 's/.*/insert & 1 0/' && echo 'fast 1 64'; } >"$work/calls"
  timeline_ends "$work/calls" && awk 'length($0) > 160 { long = 1 } END { exit long }' "$work/wrote" && grep -q '+192' "$work/wrote"
}

for example in listing clocks; do
  expect "the timeline of $example" timeline_is_stored "$example"
  expect "the timeline of $example from its text" timeline_of_text "$example"
done
for situation in tests/situations/*.txt; do
  expect "the timeline of $situation" timeline_ends "$situation"
done
expect "the timeline of a file that stops" timeline_tells '@\0\1\24\2\0\16' 7 'stop: byte 6 '
expect "the timeline of a refused set-up" timeline_tells 'A\0' 0 'set-up refused (2)'
expect "the timeline of too large a capacity" timeline_tells '\200\4\0' 0 'set-up refused (1)'
expect "the timeline of nothing" timeline_tells '' 0 'no header: stop: byte 0 '
expect "the timeline of a text with a fault" timeline_tells 'capacity 64 start 0\nlook 1\n' 0 'line 2: '
expect "the timeline of answers that cannot be" timeline_disagrees
expect "the timeline of 256 nodes" timeline_is_narrow

# ---- ./example and tools/build, with a stub for rt in a root of its own

# What rt would print comes from $RT_SAYS; behind its first $RT_HEAD lines it may wait for a line from $RT_WAITS, or for ever with a child.
script "$work/stubs/rt" <<'END'
[ "$* in ${PWD##*/}" = "run in schedule" ] || exit 2
head -n "${RT_HEAD-2}" "$RT_SAYS" >&2
[ -z "${RT_WAITS-}" ] || read -r line <"$RT_WAITS"
if [ -n "${RT_CHILD-}" ]; then
  mktemp >/dev/null
  sleep 1000 &
  echo "$$ $!" >"$RT_CHILD.new"
  mv "$RT_CHILD.new" "$RT_CHILD"
  wait
fi
tail -n +"$((${RT_HEAD-2} + 1))" "$RT_SAYS" >&2
echo thrown away
! grep -q 'did not build' "$RT_SAYS"
END
program schedule <<<"exec cat '$PWD/examples/listing/lines.txt'"
mkdir -p "$root/crates/schedule/src"
cat >"$root/crates.txt" <<'END'
# four of these are needed
lists:
sizes: lists # no other
apart: lists sizes
lines: lists sizes io
schedule: lines sizes io
END
for crate in lists sizes lines schedule; do
  printf 'rt: chose --jobs 2 for %s\nlogic=proved functions=1 native=nat\n' "$crate"
done >"$work/all_new"
echo 'rt: running out/schedule; to give it other input, run that file yourself' >>"$work/all_new"
printf 'rt: chose --jobs 2 for lists\nlogic=not-proved\nrt: the library lists did not build, so nothing above it was checked\n' >"$work/not_proved"

stub_example() {
  touch "$root/crates/schedule/src/main.rt"
  env PATH="$work/stubs:$real_path" TMPDIR="$work/tmp" RATTLE_HOME="$work/kit" RT_SAYS="$work/$1" "${@:2}" "$root/example" >"$work/wrote" 2>"$work/said"
}

nothing_left() {
  [ -z "$(ls -A "$work/tmp")" ]
}

# Each crate has its line, at once; the number of crates is that of crates.txt.
example_tells() {
  local runner came
  rm -f "$work/in" && mkfifo "$work/in"
  stub_example all_new RT_WAITS="$work/in" &
  runner=$!
  in_time grep -q '^example: proved lists: 1 of 4 crates, 0 min [0-9]* s$' "$work/said"
  came=$?
  echo go >"$work/in"
  wait "$runner" && [ "$came" -eq 0 ] && grep -q '^example: proved schedule: 4 of 4 crates, ' "$work/said" &&
    [ "$(wc -l <"$work/said")" -eq 4 ] && cmp "$work/wrote" examples/listing/lines.txt && nothing_left
}

# A crate that takes long is named while it is being proved.
example_names() {
  local runner came
  rm -f "$work/in" && mkfifo "$work/in"
  stub_example all_new RT_WAITS="$work/in" RT_HEAD=5 &
  runner=$!
  in_time grep -q '^example: proving lines: 2 of 4 crates are proved, 0 min [0-9]* s$' "$work/said"
  came=$?
  echo go >"$work/in"
  wait "$runner" && [ "$came" -eq 0 ] && nothing_left
}

# On a terminal one line is written anew, and is gone before the program's lines come.
example_on_terminal() {
  touch "$root/crates/schedule/src/main.rt"
  PATH=$work/stubs:$real_path TMPDIR=$work/tmp RATTLE_HOME=$work/kit RT_SAYS=$work/all_new python3 -c 'import pty, sys; pty.spawn(sys.argv[1:])' \
    "$root/example" </dev/null >"$work/wrote"
  tr '\r' '\n' <"$work/wrote" | grep -q 'example: proved schedule: 4 of 4 crates' &&
    tail -n +2 "$work/wrote" | tr -d '\r' | cmp - <(tail -n +2 examples/listing/lines.txt)
}

# A program that is newer than all sources is run as it is: rt is not asked.
example_is_quiet() {
  touch "$root/crates.txt" "$root/crates/schedule/src/main.rt"
  sleep 0.01
  touch "$root/crates/schedule/out/schedule"
  PATH=$work/stubs:$real_path TMPDIR=$work/tmp RATTLE_HOME=$work/kit RT_SAYS=$work/not_proved "$root/example" >"$work/wrote" 2>"$work/said" &&
    [ ! -s "$work/said" ] && cmp "$work/wrote" examples/listing/lines.txt && nothing_left
}

example_not_proved() {
  stub_example not_proved A=b
  [ $? -eq 1 ] && [ ! -s "$work/wrote" ] && grep -q '^rt: the library lists did not build' "$work/said" && nothing_left
}

example_without_rt() {
  ln -sf "$(command -v dirname)" "$(command -v find)" "$BASH" "$work/few/"
  touch "$root/crates/schedule/src/main.rt"
  PATH=$work/few "$BASH" "$root/example" >"$work/wrote" 2>"$work/said"
  [ $? -eq 2 ] && grep -q 'no rt on the PATH' "$work/said"
}

# Ended from outside: rt and its child are gone, and so are all temporary files.
example_ends() {
  rm -f "$work/pid"
  touch "$root/crates/schedule/src/main.rt"
  PATH=$work/stubs:$real_path TMPDIR=$work/tmp RATTLE_HOME=$work/kit RT_SAYS=$work/all_new RT_CHILD=$work/pid attended "$root/example" >"$work/wrote" 2>"$work/said" &
  end_by "$1" $! && nothing_left
}

# With everything proved the real one proves nothing, says nothing and shows the lines.
example_proves_nothing() {
  touch "$work/mark"
  ./example clocks >"$work/wrote" 2>"$work/said" && [ ! -s "$work/said" ] &&
    [ -z "$(find crates/*/out -newer "$work/mark")" ] && cmp "$work/wrote" examples/clocks/lines.txt
}

build_is_misused() {
  tools/build 2>"$work/said"
  [ $? -eq 2 ] && grep -q usage "$work/said" || return
  tools/build no_such_program 2>"$work/said"
  [ $? -eq 2 ] && grep -q 'no program no_such_program' "$work/said"
}

expect "example: how far the proof is" example_tells
expect "example: how far the proof is, on a terminal" example_on_terminal
expect "example: the crate that is being proved" example_names
expect "example: no word where all is proved" example_is_quiet
expect "example: a crate that is not proved" example_not_proved
expect "example: no rt" example_without_rt
for signal in INT TERM HUP; do
  expect "example: ended by $signal" example_ends "$signal"
done
expect "example: everything proved" example_proves_nothing
expect "tools/build: wrong use" build_is_misused

echo "$passed passed, $failed failed"
[ "$failed" -eq 0 ]
