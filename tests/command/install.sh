#!/bin/sh
# Installs to a temporary folder, with DESTDIR and without; builds a client with what is installed there; uninstalls.
set -e
cd "$(dirname "$0")/../.."
cc=${CC:-gcc}
# What a calling make was given is not meant for the calls below.
unset MAKEFLAGS MAKELEVEL DESTDIR PREFIX BINDIR LIBDIR INCLUDEDIR
to=$(mktemp -d)
trap 'rm -rf "$to"' EXIT

installed() {
    (cd "$1" && find . -type f | sort)
}
cat >"$to/expected" <<'END'
./bin/vaultgarlic
./include/vaultgarlic.h
./lib/libvaultgarlic.a
./lib/pkgconfig/vaultgarlic.pc
END

make --no-print-directory install PREFIX="$to/pre fix" >"$to/log"
installed "$to/pre fix" | diff "$to/expected" -
"$to/pre fix/bin/vaultgarlic" check examples/e.pkg >/dev/null
make --no-print-directory uninstall PREFIX="$to/pre fix"
test -z "$(installed "$to/pre fix")"

make --no-print-directory install PREFIX=/nowhere DESTDIR="$to/stage" >>"$to/log"
installed "$to/stage/nowhere" | diff "$to/expected" -
grep -q '^prefix=/nowhere$' "$to/stage/nowhere/lib/pkgconfig/vaultgarlic.pc"
make --no-print-directory uninstall PREFIX=/nowhere DESTDIR="$to/stage"
test -z "$(installed "$to/stage")"

make --no-print-directory install PREFIX="$to/prefix" >>"$to/log"
pc=$to/prefix/lib/pkgconfig/vaultgarlic.pc
if command -v pkg-config >/dev/null; then
    flags=$(PKG_CONFIG_PATH=$to/prefix/lib/pkgconfig pkg-config --cflags --libs vaultgarlic)
    test "$(PKG_CONFIG_PATH=$to/prefix/lib/pkgconfig pkg-config --modversion vaultgarlic)" = "$(cat VERSION)"
else
    flags=$(sed -n 's/^Cflags: //p; s/^Libs: //p' "$pc" | sed "s|\${includedir}|$to/prefix/include|; s|\${libdir}|$to/prefix/lib|")
fi
# The flags are many words.
# shellcheck disable=SC2086
"$cc" -std=c11 -O2 -Wall -Wextra -Wpedantic -Werror examples/client.c $flags -o "$to/client"
"$to/client" examples/e.pkg examples/aba.formula | head -n 1 | grep -q '^2 steps$'
test ! -s "$to/log"
echo 'installed, built a client with it, uninstalled'
