#!/usr/bin/env bash
# Runs the program `schedule` as its users do and as they should not: the examples, input in pieces of
# a few bytes, long input, input that cannot be read, output that cannot be written. Needs the built
# programs and the second program (tests/run.sh builds it). Its last line is `N passed, M failed`.
set -u
cd "$(dirname "$0")/.." || exit 1
. tests/counting.sh

programs=${CARGO_TARGET_DIR:-$PWD/target/second}/release
schedule="tools/run schedule"

same_as_example() {
  $schedule <"examples/$1/calls.schedule" | cmp - "examples/$1/lines.txt" &&
    "$programs/second" <"examples/$1/calls.schedule" | cmp - "examples/$1/lines.txt"
}

# The text of an example makes its schedule file, and the file's text makes the same file again.
text_makes_file() {
  tools/run write_schedule <"examples/$1/calls.txt" | cmp - "examples/$1/calls.schedule" &&
    tools/run read_schedule <"examples/$1/calls.schedule" >"$work/text" &&
    tools/run write_schedule <"$work/text" | cmp - "examples/$1/calls.schedule"
}

# The situations of document 01, which both programs run to the end.
same_situation() {
  tools/run write_schedule <"$1" >"$work/situation" && "$programs/second" <"$work/situation" >"$work/expected" &&
    [ "$(tail -n 1 "$work/expected")" = end ] && $schedule <"$work/situation" | cmp - "$work/expected"
}

# In pieces of so many bytes, each taken before the next one comes.
same_in_pieces() {
  "$programs/feed" "$1" $schedule <"$2" 2>/dev/null | cmp - "$3"
}

# The most memory that schedule held over a file, in KiB.
peak_over() {
  "$programs/feed" 65536 $schedule <"$1" 2>&1 >/dev/null | sed -n 's/^peak //p'
}

memory_is_constant() {
  local small large
  small=$(peak_over "$work/short") && large=$(peak_over "$work/long") && [ -n "$small" ] &&
    [ "$large" -le $((small + 1024)) ]
}

# A program that cannot go on ends and says so on standard error, by which tools/run ends with 1.
says_so() {
  local word=$1 status=$2
  [ "$status" -eq 1 ] && grep -q "^schedule: $word.* failed$" "$work/said"
}

unreadable_input() {
  timeout 60 $schedule <"$work" >"$work/wrote" 2>"$work/said"
  says_so "reading standard input" "$?" && [ ! -s "$work/wrote" ]
}

full_output() {
  timeout 60 $schedule <"$work/short" >/dev/full 2>"$work/said"
  says_so "writing standard output" "$?"
}

closed_output() {
  timeout 60 $schedule <"$work/short" >&- 2>"$work/said"
  says_so "writing standard output" "$?"
}

# A reader that leaves early gets the first lines, and the program ends.
early_reader() {
  timeout 60 $schedule <"$work/long" 2>/dev/null | head -n 3 >"$work/wrote"
  [ "${PIPESTATUS[0]}" -ne 124 ] && cmp -s "$work/wrote" <("$programs/second" <"$work/long" 2>/dev/null | head -n 3)
}

# Each program ends with 141 where the reader of its output has left, and says nothing.
ends_with_its_reader() {
  local statuses
  timeout 60 tools/run "$1" <"$2" 2>"$work/said" | head -c 1 >"$work/wrote"
  statuses=${PIPESTATUS[*]}
  [ "$statuses" = "141 0" ] && [ ! -s "$work/said" ]
}

"$programs/generate" 7 long 1 >"$work/million" || exit 1
head -c 100000 "$work/million" >"$work/short"
cp "$work/million" "$work/long"
"$programs/second" <"$work/short" >"$work/short.lines"
"$programs/second" <"$work/long" >"$work/long.lines"

for example in listing clocks; do
  expect "the example $example" same_as_example "$example"
  expect "the text of the example $example" text_makes_file "$example"
done
for situation in tests/situations/*.txt; do
  expect "the situation $situation" same_situation "$situation"
done
for piece in 1 2 3 5 7 11 30 31 32 33 64 100 4096 65535 65537; do
  expect "the listing in pieces of $piece" same_in_pieces "$piece" examples/listing/calls.schedule examples/listing/lines.txt
  expect "100,000 bytes in pieces of $piece" same_in_pieces "$piece" "$work/short" "$work/short.lines"
done
expect "a million transactions" same_in_pieces 65536 "$work/long" "$work/long.lines"
expect "memory that grows with the input" memory_is_constant
expect "input that cannot be read" unreadable_input
expect "output that cannot be written" full_output
expect "output that is closed" closed_output
expect "a reader that leaves early" early_reader
head -c 400000 "$work/long" | tools/run read_schedule >"$work/long.text" 2>/dev/null
for program in schedule read_schedule; do
  expect "$program: the reader of its output left" ends_with_its_reader "$program" "$work/long"
done
expect "write_schedule: the reader of its output left" ends_with_its_reader write_schedule "$work/long.text"

echo "$passed passed, $failed failed"
[ "$failed" -eq 0 ]
