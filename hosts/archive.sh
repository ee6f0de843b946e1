#!/usr/bin/env bash
# hosts/archive.sh NAME: proves the crate NAME_c, which exports the library NAME to C, and writes target/staticlib/libNAME.a.
# Where `rt ci` was the last to prove the crates below, the archive is built over the libraries that it left in their out/;
# else by `rt lib`, which first proves what is not proved yet. The toolchain runs on x86-64 and compiles for it alone.
set -eu

if [ $# -ne 1 ]; then
  echo "usage: hosts/archive.sh NAME" >&2
  exit 2
fi
cd "$(dirname "$0")/.."
crate=$1_c
if [ ! -f "crates/$crate/src/lib.rt" ]; then
  echo "archive.sh: no crate $crate exports $1" >&2
  exit 2
fi
if [ "$(uname -m)" != x86_64 ]; then
  echo "archive.sh: the toolchain compiles for x86-64 alone" >&2
  exit 2
fi
root=$PWD
made=$root/crates/$crate/out/lib$crate.a
read -ra below < <(sed -n "s/#.*//;s/^$crate[ \t][^:]*://p" crates.txt)

# The library of this crate is one that rt ci left: with no stamp, and newer than all that it is made from.
is_left_by_ci() {
  local library=crates/$1/out/rlib/$1.rlib newer
  [ -f "$library/format" ] && [ ! -e "crates/$1/out/rlib/stamp" ] &&
    newer=$(find crates.txt "crates/$1" -name out -prune -o -type f -newer "$library" -print -quit) && [ -z "$newer" ]
}

# Proves the exports over those libraries, and compiles them with the code that they reach.
build_over_them() {
  local kit words it
  for it in "${below[@]}"; do is_left_by_ci "$it" || return; done
  kit=$(dirname "$(dirname "$(readlink -f "$(command -v rt)")")")
  words=(--crate-name "$crate" src/lib.rt --crate-type staticlib)
  for it in core std; do words+=(--extern "$it=$kit/rlibs/$it.rlib"); done
  for it in "${below[@]}"; do words+=(--extern "$it=$root/crates/$it/out/rlib/$it.rlib" -L "dependency=$root/crates/$it/out/rlib"); done
  words+=(-L "dependency=$kit/rlibs" --antt-project "$kit/rattle/logic/antt-project.json" --logic-built "$kit/logic_built")
  words+=(--links "$crate=" --jobs 2 --toolchain "$kit/toolchain" --backend llvm -o "$made")
  mkdir -p "crates/$crate/out"
  (cd "crates/$crate" && "$kit/bin/rattle" build "${words[@]}")
}

rm -f "$made"
build_over_them || (cd "crates/$crate" && rt lib)
mkdir -p target/staticlib
cp "$made" "target/staticlib/lib$1.a"
