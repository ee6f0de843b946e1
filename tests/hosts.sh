#!/usr/bin/env bash
# Tests of the static library from its hosts: makes the archive, tests the header, builds and runs the
# examples in C and Rust, installs, the examples of the Rust wrapper's documentation, and the programs of
# tests/hosts, of which two also run under valgrind. The example in C and the hostile memory are also
# compiled by the toolchain's own compiler and run with its C library. The last line is `N passed, M failed`; exits with 0 exactly when M is 0. LOPRESNIK_ARCHIVE names a folder with a ready archive.
set -u
cd "$(dirname "$0")/.." || exit 1

export CARGO_TARGET_DIR="$PWD/target/hosts"
# No step may take longer.
most_seconds=600

passed=0
failed=0
work=$(mktemp -d) || exit 1
trap 'rm -rf "$work"' EXIT

finish() {
  echo "$passed passed, $failed failed"
  [ "$failed" -eq 0 ]
  exit
}

# Runs a step and counts it; shows what it wrote where it fails.
step() {
  local name=$1
  shift
  if timeout "$most_seconds" "$@" >"$work/step.log" 2>&1; then
    passed=$((passed + 1))
    echo "hosts: $name"
  else
    failed=$((failed + 1))
    cat "$work/step.log"
    echo "hosts: $name FAILED"
    return 1
  fi
}

cargo_in() {
  cargo "$2" --manifest-path "$1/Cargo.toml" --release --offline --locked "${@:3}"
}

strict="-Wall -Wextra -pedantic -Werror"

# The header as C and as C++ without a warning, and what it adds.
run_header() {
  cc -std=c11 $strict -Ihosts/c tests/hosts/header.c "$LOPRESNIK_ARCHIVE/liblopresnik.a" -o "$work/header-c" &&
    "$work/header-c" &&
    c++ -std=c++17 $strict -Ihosts/c -x c++ tests/hosts/header.c -x none \
      "$LOPRESNIK_ARCHIVE/liblopresnik.a" -o "$work/header-cpp" &&
    "$work/header-cpp"
}

run_c_example() {
  cc -std=c11 $strict -Ihosts/c hosts/c/example.c "$LOPRESNIK_ARCHIVE/liblopresnik.a" -o "$work/example" &&
    "$work/example" | diff hosts/c/example.txt -
}

# What a C project is told to compile and link with: by pkg-config, or where that is missing from its file.
installed_flags() {
  local file=$1/lib/pkgconfig/lopresnik.pc
  if command -v pkg-config >/dev/null; then
    PKG_CONFIG_PATH=$1/lib/pkgconfig pkg-config --cflags --libs lopresnik
  else
    sed -n 's/^\(Cflags\|Libs\): //p' "$file" | sed "s,\${libdir},$1/lib,;s,\${includedir},$1/include,"
  fi
}

# Installed, moved away from everything else, compiled and run from there.
run_installed() {
  local prefix=$work/prefix flags version
  hosts/install.sh "$prefix" || return
  flags=$(installed_flags "$prefix") || return
  version=$(sed -n 's/^Version: //p' "$prefix/lib/pkgconfig/lopresnik.pc")
  grep -x "#define LOPRESNIK_VERSION $version" "$prefix/include/lopresnik.h" || return
  cp hosts/c/example.c "$work/installed.c" &&
    (cd / && cc -std=c11 $strict "$work/installed.c" $flags -o "$work/installed") &&
    "$work/installed" | diff hosts/c/example.txt -
}

# An archive that is not ours, in a folder of its own: of this version, every call refused with 99.
make_strange() {
  mkdir -p "$work/strange-$1" &&
    cc -std=c11 $strict -O2 -DVERSION="$1" -Ihosts/c -c tests/hosts/strange/archive.c -o "$work/strange-$1/archive.o" &&
    ar rcs "$work/strange-$1/liblopresnik.a" "$work/strange-$1/archive.o" &&
    cc -std=c11 $strict -Ihosts/c hosts/c/example.c "$work/strange-$1/liblopresnik.a" -o "$work/strange-$1/example"
}

strange_program() {
  LOPRESNIK_ARCHIVE=$work/strange-$1 CARGO_TARGET_DIR=$CARGO_TARGET_DIR/strange-$1 \
    cargo run -q --manifest-path tests/hosts/strange/Cargo.toml --offline --locked
}

# A program that must fail and say this.
fails_saying() {
  local said
  if said=$("${@:2}" 2>&1); then
    echo "it did not fail: $said"
    return 1
  fi
  grep -F "$1" <<<"$said" || { echo "$said"; return 1; }
}

# A refusal that nobody knows is an error and no panic.
meets_unknown_refusal() {
  make_strange "$1" &&
    fails_saying "set-up: refused with 99" "$work/strange-$1/example" &&
    strange_program "$1"
}

# Another version than the header's and the wrapper's is found before anything is called.
meets_other_version() {
  make_strange "$1" &&
    fails_saying "set-up: refused with 1000" "$work/strange-$1/example" &&
    fails_saying "liblopresnik.a has version $1 of the interface" strange_program "$1"
}

# Hostile memory, with the archive of this machine.
run_hostile() {
  cc -std=c11 $strict -O2 -Ihosts/c tests/hosts/hostile.c "$LOPRESNIK_ARCHIVE/liblopresnik.a" -o "$work/hostile" &&
    "$work/hostile" "$1"
}

# What the archive defines is what the header declares, and nothing else.
same_symbols() {
  nm --defined-only --extern-only "$LOPRESNIK_ARCHIVE/liblopresnik.a" | sed -n 's/^[0-9a-f]* [A-Z] //p' | sort >"$work/symbols"
  sed -n 's/^\(uint32_t\|size_t\|struct [a-z_]*\) \(lopresnik_[a-z_]*\)(.*/\2/p' hosts/c/lopresnik.h | sort | diff "$work/symbols" -
}

# toolchain_run SOURCE [WORD..]: compiles a program with the toolchain's compiler, which has no headers, links it with the
# toolchain's C library and runs it by the toolchain's loader.
toolchain_run() {
  local source=$1 tools name=$work/toolchain
  tools=$(dirname "$(dirname "$(readlink -f "$(command -v rt)")")")/toolchain
  shift
  "$tools/bin/clang" --target=x86_64-unknown-linux-gnu --no-default-config -std=c11 -O2 -fPIE -Wall -Wextra \
    -Werror -nostdinc -Itests/hosts/x86_64/include -Ihosts/c -c "$source" -o "$name.o" &&
    "$tools/bin/ld.lld" -pie -dynamic-linker /lib64/ld-linux-x86-64.so.2 -o "$name" \
      "$tools/lib/Scrt1.o" "$tools/lib/crti.o" "$tools/lib/crtbeginS.o" "$name.o" \
      "$LOPRESNIK_ARCHIVE/liblopresnik.a" "$tools/lib/libc.so.6" "$tools/lib/libc_nonshared.a" \
      "$tools/lib/libgcc.a" "$tools/lib/crtendS.o" "$tools/lib/crtn.o" &&
    "$tools/lib/ld-linux-x86-64.so.2" --library-path "$tools/lib" "$name" "$@"
}

run_rust_example() {
  cargo_in hosts/rust build --example findings &&
    "$CARGO_TARGET_DIR/release/examples/findings" | diff hosts/rust/examples/findings.txt -
}

run_program() {
  "$CARGO_TARGET_DIR/release/hosts" "$@" | tee "$work/said"
  return "${PIPESTATUS[0]}"
}

under_valgrind() {
  valgrind -q --error-exitcode=99 "$CARGO_TARGET_DIR/release/hosts" "$@"
}

has_valgrind() {
  command -v valgrind >/dev/null || apt-get install -y --no-install-recommends valgrind >/dev/null
  command -v valgrind
}
export -f cargo_in run_header run_c_example installed_flags run_installed make_strange strange_program \
  fails_saying meets_unknown_refusal meets_other_version run_hostile same_symbols toolchain_run \
  run_rust_example run_program under_valgrind has_valgrind
export work strict
version=$(sed -n 's/^#define LOPRESNIK_VERSION //p' hosts/c/lopresnik.h)

if [ -z "${LOPRESNIK_ARCHIVE-}" ]; then
  # (it may prove every crate below, where rt ci has not)
  most_seconds=7200 step "the archive is made" hosts/archive.sh lopresnik || finish
  export LOPRESNIK_ARCHIVE="$PWD/target/staticlib"
fi
step "the header, as C11 and as C++17" bash -o pipefail -c run_header
step "the example in C" bash -o pipefail -c run_c_example
flags_from="by pkg-config"
command -v pkg-config >/dev/null || flags_from="by its file for pkg-config, which is not there itself"
step "installed, and compiled from there $flags_from" bash -o pipefail -c run_installed
step "hostile memory" bash -o pipefail -c "run_hostile 100000" && cat "$work/step.log"
step "the archive has the functions of the header" bash -o pipefail -c same_symbols
step "the example in C by the toolchain" bash -o pipefail -c "toolchain_run hosts/c/example.c | diff hosts/c/example.txt -"
step "hostile memory by the toolchain" bash -o pipefail -c "toolchain_run tests/hosts/hostile.c 10000" && cat "$work/step.log"
step "a refusal that nobody knows" bash -o pipefail -c "meets_unknown_refusal $version"
step "an archive of another version" bash -o pipefail -c "meets_other_version $((version + 1))"
step "the examples of the wrapper's documentation" bash -o pipefail -c 'cargo_in hosts/rust test'
step "the example in Rust" bash -o pipefail -c run_rust_example
step "the programs are built" bash -o pipefail -c 'cargo_in tests/hosts build' || finish
for test in "lists 5000000" "single 100000" "ranges 30" "bytes 30" "damage 20000" "stack 20000"; do
  step "$test" bash -o pipefail -c "run_program $test" && cat "$work/said"
done
if step "valgrind is there" bash -o pipefail -c has_valgrind; then
  for test in "damage 400" "lists 20000" "single 1000"; do
    step "$test, under valgrind" bash -o pipefail -c "under_valgrind $test"
  done
fi
finish
