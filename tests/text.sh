#!/usr/bin/env bash
# Runs the program `write_schedule` on texts as people write them and on texts with faults: what is told of each fault, to the letter,
# and that the file it leaves runs to `stop` at the right place. Needs the built programs. Its last line is `N passed, M failed`.
set -u
cd "$(dirname "$0")/.." || exit 1
. tests/counting.sh

write="tools/run write_schedule"
schedule="tools/run schedule"
calls="lookup, insert, remove, hand-over, ceil, floor, succ, pred, fast, open, step, close, sweep, tally"
header='capacity 64 start 0\n'
whole='capacity 64 start 0\ninsert 10 1 0\n'
signed="a number from -9223372036854775808 to 9223372036854775807 was expected"

# Makes a schedule file of a text, written as printf has it, and keeps what is told.
make() {
  # shellcheck disable=SC2059
  printf "$1" | $write >"$work/file" 2>"$work/said"
}

# The last line that schedule prints of the file made.
last_line() {
  $schedule <"$work/file" 2>/dev/null | tail -n 1
}

# A text with a fault: exactly this is told, and the file stops at this place.
faulty() {
  make "$1"
  printf '%s\n' "$2" | cmp - "$work/said" && [ "$(last_line)" = "stop $3" ]
}

# A text with no fault makes the same file as another, and nothing is told.
same_file() {
  make "$2" && [ ! -s "$work/said" ] && cp "$work/file" "$work/other" && make "$1" && [ ! -s "$work/said" ] && cmp "$work/file" "$work/other" &&
    [ "$(last_line)" = end ]
}

# What is told is printable ASCII and line feeds.
told_printable() {
  make "$1"
  [ -s "$work/said" ] && [ "$(LC_ALL=C tr -d '\n -~' <"$work/said" | wc -c)" -eq 0 ]
}

# Something is told of a text exactly when its file does not run to the end.
told_or_whole() {
  $write <"$1" >"$work/file" 2>"$work/said"
  if [ -s "$work/said" ]; then
    [[ $(last_line) == "stop "* ]]
  else
    [ "$(last_line)" = end ]
  fi
}

# So many bytes of a letter or a blank.
repeated() {
  head -c "$2" /dev/zero | tr '\0' "$1"
}

# Input that cannot be read on: a pipe that does not wait and has no more.
broken_input() {
  python3 - "$1" "$work" <<'END'
import os, subprocess, sys
text, work = sys.argv[1].encode().decode('unicode_escape').encode(), sys.argv[2]
read, write = os.pipe()
os.write(write, text)
os.set_blocking(read, False)
with open(work + '/file', 'wb') as out, open(work + '/said', 'wb') as said:
    subprocess.run(['tools/run', 'write_schedule'], stdin=read, stdout=out, stderr=said, timeout=60)
END
  grep -q "standard input" "$work/said" && [ "$(last_line)" = "stop $2" ]
}

# Each cut of a text, and each byte of it replaced.
cut_texts() {
  local n size
  printf "$whole" >"$work/text"
  size=$(wc -c <"$work/text")
  for ((n = 0; n <= size; n++)); do
    head -c "$n" "$work/text" >"$work/cut"
    told_or_whole "$work/cut" || return
  done
}

changed_texts() {
  local n size
  printf "$whole" >"$work/text"
  size=$(wc -c <"$work/text")
  for ((n = 0; n < size; n++)); do
    { head -c "$n" "$work/text" && printf 'x' && tail -c +$((n + 2)) "$work/text"; } >"$work/cut"
    told_or_whole "$work/cut" || return
  done
}

first='a header was expected, as "capacity 64 start 0"'
forty=$(repeated y 40)

# Every kind of fault, with the whole of what is told. The header takes 2 bytes, the insertion 4.
expect "an unknown call" faulty "${header}insrt 1 2 3\n" "line 2: \"insrt\": no such call ($calls)" 2
expect "a call's name in capitals" faulty "${header}Insert 1 2 3\n" "line 2: \"Insert\": no such call ($calls)" 2
expect "a fault behind a call, a remark and an empty line" faulty "${whole}# a remark\n\nsweeep\n" "line 5: \"sweeep\": no such call ($calls)" 6
expect "a number is missing behind a name" faulty "${header}insert\n" 'line 2: a number is missing behind "insert"' 2
expect "a number is missing behind a number" faulty "${header}insert 1 2\n" 'line 2: a number is missing behind "2"' 2
expect "a number is missing in front of a remark" faulty "${header}insert 1 2 # 3\n" 'line 2: a number is missing behind "2"' 2
expect "a word too many" faulty "${header}sweep extra\n" 'line 2: "extra": nothing more was expected behind "sweep"' 2
expect "a number too many" faulty "${header}insert 1 2 3 4 5\n" 'line 2: "4": nothing more was expected behind "3"' 2
expect "no number" faulty "${header}lookup 12x\n" 'line 2: "12x": a number was expected' 2
expect "a plus" faulty "${header}lookup +1\n" 'line 2: "+1": a number was expected' 2
expect "a minus alone" faulty "${header}lookup -\n" 'line 2: "-": a number was expected' 2
expect "the first fault from the left" faulty "${header}insert 1 x y z\n" 'line 2: "x": a number was expected' 2
expect "a key above its range" faulty "${header}lookup 9223372036854775808\n" "line 2: \"9223372036854775808\": $signed" 2
expect "a value below its range" faulty "${header}insert 0 -9223372036854775809 0\n" "line 2: \"-9223372036854775809\": $signed" 2
expect "a coin above its range" faulty "${header}insert 0 0 18446744073709551616\n" 'line 2: "18446744073709551616": a number from 0 to 18446744073709551615 was expected' 2
expect "a negative coin" faulty "${header}insert 0 0 -1\n" 'line 2: "-1": a number from 0 to 18446744073709551615 was expected' 2
expect "a node above its range" faulty "${header}hand-over 4294967296\n" 'line 2: "4294967296": a number from 0 to 4294967295 was expected' 2
expect "a number of 60 digits" faulty "${header}step 1 1$(repeated 0 59)\n" "line 2: \"1$(repeated 0 39)..\": a number from 0 to 4294967295 was expected" 2
expect "a negative version" faulty "${header}close -1\n" 'line 2: "-1": a number from 0 to 4294967295 was expected' 2
expect "a second header" faulty "${whole}${header}" 'line 3: "capacity": a call was expected, since there is a header' 6
expect "a call in front of the header" faulty "\n${whole#"$header"}$header" "line 2: \"insert\": $first" 0
expect "a misspelt header" faulty "capacty 64 start 0\n" "line 1: \"capacty\": $first" 0
expect "another word than start" faulty "capacity 64 from 0\n" 'line 1: "from": the word "start" was expected behind "64"' 0
expect "no start" faulty "capacity 64\n" 'line 1: the word "start" was expected behind "64"' 0
expect "no capacity" faulty "capacity\n" 'line 1: a number is missing behind "capacity"' 0
expect "no start version" faulty "capacity 64 start\n" 'line 1: a number is missing behind "start"' 0
expect "a capacity out of range" faulty "capacity 4294967296 start 0\n" 'line 1: "4294967296": a number from 0 to 4294967295 was expected' 0
expect "an empty text" faulty "" 'line 1: the text ends without a header, as "capacity 64 start 0"' 0
expect "remarks alone" faulty "# one\n\n# three" 'line 3: the text ends without a header, as "capacity 64 start 0"' 0
expect "a line of 4097 bytes" faulty "${header}sweep$(repeated ' ' 4092)\n" "line 2: longer than 4096 bytes" 2
expect "a remark of 100,000 bytes" faulty "${whole}#$(repeated x 99999)\n" "line 3: longer than 4096 bytes" 6
expect "half a line" faulty "${whole}insert 1" 'line 3: a number is missing behind "1"' 6
expect "half a name" faulty "${whole}ins" "line 3: \"ins\": no such call ($calls)" 6

# What is shown of a word.
expect "a word of 40 bytes" faulty "${header}$forty\n" "line 2: \"$forty\": no such call ($calls)" 2
expect "a word of 41 bytes" faulty "${header}${forty}z\n" "line 2: \"$forty..\": no such call ($calls)" 2
expect "a word of 4000 bytes behind a call" faulty "${header}sweep $(repeated y 4000)\n" "line 2: \"$forty..\": nothing more was expected behind \"sweep\"" 2
expect "control characters" faulty "${header}\\033[31mred\\001\\177\\n" "line 2: \"?[31mred??\": no such call ($calls)" 2
expect "bytes that are no ASCII" faulty "${header}lookup \\303\\2741\\000\\377\\n" 'line 2: "??1??": a number was expected' 2
for byte in 000 001 007 010 013 014 033 177 200 233 377; do
  expect "the byte $byte is not echoed" told_printable "${header}\\${byte}x\\n"
done

# Texts as people write them.
expect "a byte order mark" same_file "\\357\\273\\277$whole" "$whole"
expect "a byte order mark in front of a remark" same_file "\\357\\273\\277# a remark\n$whole" "$whole"
expect "two byte order marks" faulty "\\357\\273\\277\\357\\273\\277$whole" "line 1: \"???capacity\": $first" 0
expect "a byte order mark in front of the second line" faulty "$header\\357\\273\\277sweep\n" "line 2: \"???sweep\": no such call ($calls)" 2
expect "half a byte order mark" faulty "\\357\\273$whole" "line 1: \"??capacity\": $first" 0
expect "a text of a byte order mark alone" faulty "\\357\\273\\277" 'line 1: the text ends without a header, as "capacity 64 start 0"' 0
expect "remarks behind calls" same_file 'capacity 64 start 0 # why\ninsert 10 1 0 #why 5\nsweep # # #\n' 'capacity 64 start 0\ninsert 10 1 0\nsweep\n'
expect "a word with # within it" faulty "${header}close 1#\n" 'line 2: "1#": a number was expected' 2
expect "lines that end with CR LF" same_file 'capacity 64 start 0\r\n\r\ninsert 10 1 0\r\n# a remark\r\n' "$whole"
expect "no line feed at the end" same_file "${whole%'\n'}" "$whole"
expect "a header alone" same_file 'capacity 64 start 0' "$header"
expect "a line of 4096 bytes" same_file "${header}sweep$(repeated ' ' 4091)\n" "${header}sweep\n"

# A file runs to its end exactly when nothing was told of its text.
expect "each cut of a text" cut_texts
expect "each byte of a text changed" changed_texts
expect "input that cannot be read on" broken_input "$whole" 6
expect "input that cannot be read on within a line" broken_input "${whole}insert 1" 6
expect "input that cannot be read on before the header" broken_input "capacity" 0

echo "$passed passed, $failed failed"
[ "$failed" -eq 0 ]
