#!/usr/bin/env bash
# Prints what keys of one bucket cost (docs/OPERATOR.md, "Keys that others choose"). Needs the archive: hosts/archive.sh lopresnik.
set -eu
cd "$(dirname "$0")/../.."
work=$(mktemp -d)
trap 'rm -rf "$work"' EXIT
cc -std=gnu11 -O2 -Wall -Wextra tests/bench/chains.c target/staticlib/liblopresnik.a -o "$work/chains"
"$work/chains"
