#!/usr/bin/env bash
# The benchmark of docs/BENCHMARK.md: times of Lopresnik's batch and single entry points against a plain
# skip hash, BTreeMap, HashMap, std::map and LMDB, and of the soundness test against a plain pass, as
# tables of one run; then counts of instructions by callgrind. Installs LMDB and valgrind by apt-get
# where they are missing; where LMDB cannot be had, the tables say so. LOPRESNIK_ARCHIVE names a folder
# with a ready archive. It takes a few minutes of processor time.
set -eu
cd "$(dirname "$0")/../.."

export CARGO_TARGET_DIR="$PWD/target/hosts"
bench="$CARGO_TARGET_DIR/release/bench"

need() {
  [ -e "$1" ] || command -v "$1" >/dev/null || apt-get install -y --no-install-recommends "$2" >/dev/null 2>&1
}

# Instructions an operation: what two runs more take, which leaves out all that is done besides.
instructions() {
  local subject=$1 workload=$2 runs operations few many
  for runs in 1 3; do
    valgrind --tool=callgrind --callgrind-out-file="$work/profile" "$bench" count "$subject" "$workload" "$runs" \
      >"$work/said.$runs" 2>"$work/counted.$runs"
  done
  operations=$(awk '{ print $1 }' "$work/said.1")
  few=$(awk '/Collected/ { print $NF }' "$work/counted.1")
  many=$(awk '/Collected/ { print $NF }' "$work/counted.3")
  echo $(((many - few) / (2 * operations)))
}

need /usr/include/lmdb.h liblmdb-dev || true
need valgrind valgrind
if [ -z "${LOPRESNIK_ARCHIVE-}" ]; then
  hosts/archive.sh lopresnik >/dev/null
  export LOPRESNIK_ARCHIVE="$PWD/target/staticlib"
fi
cargo build --manifest-path hosts/bench/Cargo.toml --release --offline --locked
work=$(mktemp -d)
trap 'rm -rf "$work"' EXIT

echo "Machine: $(uname -m), $(nproc) cores, $(lscpu | awk -F: '/^Model name/ { gsub(/^ +/, "", $2); print $2; exit }')"
echo "Load before: $(cut -d ' ' -f 1-3 /proc/loadavg); $(rustc --version); $(cc --version | head -n 1)"
"$bench"

echo
echo "### Instructions an operation, counted by callgrind"
echo
echo "| | batch | plain batch | BTreeMap | std::map |"
echo "|---|---:|---:|---:|---:|"
for workload in "lookups" "inserts, removes" "ranges of 100"; do
  line="| $workload |"
  for subject in "batch" "plain batch" "BTreeMap" "std::map"; do
    line="$line $(instructions "$subject" "$workload") |"
  done
  echo "$line"
done
echo
echo "Load after: $(cut -d ' ' -f 1-3 /proc/loadavg)"
