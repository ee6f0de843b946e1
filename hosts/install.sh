#!/usr/bin/env bash
# hosts/install.sh PREFIX: puts the archive, the header and a file for pkg-config where C projects look:
# PREFIX/lib, PREFIX/include, PREFIX/lib/pkgconfig. The archive is that of hosts/archive.sh, which is made
# first where it is not there yet; LOPRESNIK_ARCHIVE names a folder with a ready one.
set -eu

if [ $# -ne 1 ]; then
  echo "usage: hosts/install.sh PREFIX" >&2
  exit 2
fi
here=$(cd "$(dirname "$0")" && pwd -P)
mkdir -p "$1"
prefix=$(cd "$1" && pwd -P)
case $prefix in
  *[[:space:]]*)
    echo "install.sh: a folder with blanks in its name is none for pkg-config: $prefix" >&2
    exit 2
    ;;
esac

archive=${LOPRESNIK_ARCHIVE:-$here/../target/staticlib}/liblopresnik.a
if [ ! -f "$archive" ] && [ -z "${LOPRESNIK_ARCHIVE-}" ]; then
  (cd "$here/.." && hosts/archive.sh lopresnik)
fi
version=$(sed -n 's/^#define LOPRESNIK_VERSION \([0-9]*\)$/\1/p' "$here/c/lopresnik.h")

install -d "$prefix/lib/pkgconfig" "$prefix/include"
install -m 644 "$archive" "$prefix/lib/"
install -m 644 "$here/c/lopresnik.h" "$prefix/include/"
cat >"$prefix/lib/pkgconfig/lopresnik.pc" <<END
prefix=$prefix
libdir=\${prefix}/lib
includedir=\${prefix}/include

Name: lopresnik
Description: A proved ordered map with long ranges over a snapshot
Version: $version
Cflags: -I\${includedir}
Libs: -L\${libdir} -llopresnik
END
echo "lopresnik $version is in $prefix"
