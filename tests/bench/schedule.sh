#!/usr/bin/env bash
# The program `schedule` against the second program on one file of a million mixed transactions: the
# fastest of seven runs of each, in turns, and their ratio. Both must write the same. Times are processor
# times, so a loaded machine hardly shows. On x86-64 alone, for which the toolchain compiles.
set -eu
cd "$(dirname "$0")/../.."

work=$(mktemp -d)
trap 'rm -rf "$work"' EXIT
second="$PWD/target/second/fast/second"
schedule="$PWD/crates/schedule/out/schedule"

# The milliseconds that a program takes for the file: its own processor time and the system's for it.
milliseconds() {
  local TIMEFORMAT='%3U %3S' own system
  read -r own system < <({ time "$1" <"$work/file" >"$work/lines"; } 2>&1 | tr -d .)
  echo $((10#$own + 10#$system))
}

CARGO_TARGET_DIR="$PWD/target/second" cargo build --manifest-path tests/second/Cargo.toml --profile fast --offline --locked 2>"$work/log" ||
  { cat "$work/log"; exit 1; }
tools/build schedule
"${second%/*}/generate" 1 long 1 >"$work/file"
"$second" <"$work/file" >"$work/second.lines"
"$schedule" <"$work/file" | cmp - "$work/second.lines"
least_schedule=999999999
least_second=999999999
for _ in 1 2 3 4 5 6 7; do
  time=$(milliseconds "$schedule")
  [ "$time" -ge "$least_schedule" ] || least_schedule=$time
  time=$(milliseconds "$second")
  [ "$time" -ge "$least_second" ] || least_second=$time
done
echo "a million transactions, $(stat -c %s "$work/file") bytes in, $(stat -c %s "$work/second.lines") bytes out"
echo "schedule: $least_schedule ms; second: $least_second ms"
awk -v a="$least_schedule" -v b="$least_second" 'BEGIN { printf "second divided by schedule: %.2f\n", b / a }'
