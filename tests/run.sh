#!/usr/bin/env bash
# Builds the second program, runs its tests, sees what a corpus of schedule files reaches and compares
# the program `schedule` with the second program over that corpus (CORPUS says how many files); then runs
# tests/schedule.sh, tests/text.sh, tests/users.sh and tests/hosts.sh, compares the verdicts of the soundness
# test on damaged tables, and sees that the exports for C are those of the library. Needs the built
# programs (rt ci or tools/build).
# The last line is `N passed, M failed`; a step that breaks counts as failed. Exits with 0 exactly when
# M is 0.
set -u
cd "$(dirname "$0")/.." || exit 1

export CARGO_TARGET_DIR="$PWD/target/second"
programs="$CARGO_TARGET_DIR/release"
corpus_size=${CORPUS:-2200}
corpus_seed=1
# No program may take longer for the whole corpus: under an emulator (tools/run) each start takes a while.
most_seconds=900

passed=0
failed=0
work=$(mktemp -d) || exit 1
trap 'rm -rf "$work"' EXIT

finish() {
  echo "$passed passed, $failed failed"
  [ "$failed" -eq 0 ]
  exit
}

fail() {
  echo "tests: $1"
  failed=$((failed + 1))
}

second_cargo() {
  cargo "$1" --manifest-path tests/second/Cargo.toml --release --offline --locked "${@:2}" 2>&1
}

# Adds up what each of the cargo test programs says of itself.
run_own_tests() {
  local status own_passed own_failed
  second_cargo test --no-fail-fast >"$work/tests.log"
  status=$?
  grep -E '^test |^error|panicked at' "$work/tests.log"
  read -r own_passed own_failed < <(
    awk '/^test result:/ { good += $4; bad += $6 } END { print good + 0, bad + 0 }' "$work/tests.log"
  )
  passed=$((passed + own_passed))
  failed=$((failed + own_failed))
  if [ "$status" -ne 0 ] && [ "$own_failed" -eq 0 ]; then
    cat "$work/tests.log"
    fail "the tests of the second program broke off"
  fi
}

make_corpus() {
  mkdir "$work/corpus" &&
    "$programs/generate" --corpus "$work/corpus" "$corpus_size" "$corpus_seed" &&
    "$programs/generate" "$corpus_seed" long 1 >"$work/corpus/long"
}

check_coverage() {
  if "$programs/coverage" "$work/corpus" >"$work/coverage.log" 2>&1; then
    tail -n 1 "$work/coverage.log"
    passed=$((passed + 1))
  else
    cat "$work/coverage.log"
    fail "the corpus does not reach everything"
  fi
}

# Runs a command over every file of a corpus and keeps what it writes. A panic or a signal, which
# gives a status above 100, shall not pass for an answer.
answer_corpus() {
  local corpus=$1 answers=$2 file status
  shift 2
  mkdir "$answers" || return
  for file in "$corpus"/*; do
    { "$@" <"$file" >"$answers/${file##*/}"; } 2>/dev/null
    status=$?
    if [ "$status" -gt 100 ]; then
      echo "$*: exit status $status" >>"$answers/${file##*/}"
    fi
  done
}
export -f answer_corpus

# Every file that the two programs answer differently counts as failed; the first ten are named.
# A program that runs out of time leaves the rest of its answers out, so these differ too.
compare_schedule() {
  local differing
  timeout "$most_seconds" bash -c 'answer_corpus "$@"' - "$work/corpus" "$work/schedule" tools/run schedule &
  answer_corpus "$work/corpus" "$work/second" "$programs/second"
  wait "$!" || echo "tests: schedule did not get through the corpus"
  diff -rq "$work/second" "$work/schedule" >"$work/differing"
  differing=$(wc -l <"$work/differing")
  head -n 10 "$work/differing"
  echo "schedule and second compared, $differing files differ"
  failed=$((failed + differing))
  [ "$differing" -eq 0 ] && passed=$((passed + 1))
}

# Every cell of sound tables is damaged in turn: the library, called by the program of tests/hosts, and the
# second program must judge each the same.
compare_verdicts() {
  if timeout "$most_seconds" target/hosts/release/hosts verdicts >"$work/verdicts.txt" &&
    "$programs/verdicts" <"$work/verdicts.txt"; then
    passed=$((passed + 1))
  else
    fail "the verdicts on damaged tables differ"
  fi
}

# Runs another script of tests and adds what its last line says.
include() {
  local line
  "$@" 2>&1 | tee "$work/included.log"
  line=$(tail -n 1 "$work/included.log")
  if [[ $line =~ ^([0-9]+)\ passed,\ ([0-9]+)\ failed$ ]]; then
    passed=$((passed + BASH_REMATCH[1]))
    failed=$((failed + BASH_REMATCH[2]))
  else
    fail "$* did not say how many tests passed"
  fi
}

# The exports for C stand in the tree as tools/exports.py writes them, with the clauses of the library.
check_exports() {
  if tools/exports.py --check; then
    passed=$((passed + 1))
  else
    fail "the exports of lopresnik_c are not those of lopresnik"
  fi
}

if ! second_cargo build; then
  fail "the second program does not build"
  finish
fi
run_own_tests
include python3 tests/statements.py
if make_corpus; then
  check_coverage
  compare_schedule
else
  fail "the corpus could not be written"
fi
check_exports
include tests/schedule.sh
include tests/text.sh
include tests/users.sh
include env -u CARGO_TARGET_DIR tests/hosts.sh
compare_verdicts
finish
