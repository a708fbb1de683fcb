#!/usr/bin/env bash
# The Makefile: what is installed is enough to build and run the examples and to play a script, away from the repository.
# Needs archive and bench program, no older than their sources. Exit 0: all is as wanted.
set -euo pipefail
unset DESTDIR PREFIX INSTALL MAKEFLAGS MAKELEVEL
cd "$(dirname "$0")/../.."
root=$PWD
work=$(mktemp -d)
trap 'rm -rf "$work"' EXIT

fail() {
    echo "install.sh: $*" >&2
    exit 1
}

# make alone says what it does, and does nothing.
make >"$work/help"
for target in all test install clean; do grep -q "^make $target " "$work/help" || fail "make does not say what make $target does"; done
! grep -qE '^(cd|rt|bash|rm|install) ' "$work/help" || fail "make alone runs something: $(cat "$work/help")"

# installed WORD...: `make install WORD...` runs, and builds nothing, since all is built
installed() {
    (umask 077 && make --no-print-directory install "$@") >"$work/log" 2>&1 || fail "make install $*: $(tail -n 5 "$work/log")"
    ! grep -q 'rt lib\|rt run' "$work/log" || fail "make install builds again what is built"
}

# holds FOLDER: these files and no others, readable for everyone
holds() {
    diff - <(cd "$1" && find . -type f -printf '%m %p\n' | sort) <<'LIST' || fail "other files are installed"
644 ./include/mileage.h
644 ./lib/libmileage.a
644 ./lib/pkgconfig/mileage.pc
755 ./bin/mileage_bench
LIST
}

prefix=$work/prefix
installed PREFIX="$prefix"
holds "$prefix"
cp examples/*.c "$work"
cd "$work"
export PKG_CONFIG_PATH=$prefix/lib/pkgconfig
version=$(sed -n 's/^#define MILEAGE_VERSION UINT32_C(\(.*\))$/\1/p' "$prefix/include/mileage.h")
[ -n "$version" ] || fail "no version in the header"
[ "$(pkg-config --modversion mileage)" = "$version" ] || fail "the version in mileage.pc is not the header's"
read -ra flags <<<"$(pkg-config --cflags --libs mileage)"
for example in one_bus one_card; do
    gcc -std=c99 -O2 -Wall -Wextra -pedantic -Werror "$example.c" "${flags[@]}" -o "$example"
    "./$example" | cmp - "$root/examples/$example.expected" || fail "the example $example prints otherwise"
done
"$prefix/bin/mileage_bench" <"$root/crates/mileage_bench/stdin" | cmp - "$root/crates/mileage_bench/stdout" || fail "the bench program prints otherwise"
cd "$root"

# Below a DESTDIR the same files, and the prefix without it; a prefix from here on is made whole; one with blanks is refused.
installed PREFIX=/opt/mileage DESTDIR="$work/image"
holds "$work/image/opt/mileage"
grep -qx 'prefix=/opt/mileage' "$work/image/opt/mileage/lib/pkgconfig/mileage.pc" || fail "DESTDIR is part of the prefix in mileage.pc"
installed PREFIX=target/prefix
grep -qx "prefix=$root/target/prefix" target/prefix/lib/pkgconfig/mileage.pc || fail "a prefix from here on is not made whole"
rm -r target/prefix
for bad in "" "$work/two words" "$work/it's"; do
    ! make --no-print-directory install PREFIX="$bad" >"$work/log" 2>&1 || fail "a prefix '$bad' is accepted"
    grep -q 'PREFIX is the name of a folder' "$work/log" || fail "a prefix '$bad': $(cat "$work/log")"
done

# Building, testing and cleaning, in a tree of its own with another rt that writes down how it was called.
mkdir -p "$work"/tree/crates/{tally,mileage,mileage_bench}/src "$work/tree/.ci" "$work/path"
cp -r Makefile include "$work/tree"
cd "$work/tree"
touch crates.txt crates/tally/src/one crates/tally/src/two
echo 'echo gate >>calls' >.ci/run
cat >"$work/path/rt" <<'RT'
#!/bin/sh
echo "$(basename "$PWD"): $*" >>../../calls
mkdir -p out
case $1 in
lib) : >>out/libmileage.a ;;
run) : >>out/mileage_bench ;;
esac
RT
chmod +x "$work/path/rt"
PATH=$work/path:$PATH
built() {
    rm -f calls
    make --no-print-directory "$2" >/dev/null
    diff <(printf %s "$3") <(cat calls 2>/dev/null || :) >"$work/log" || fail "$1: $(cat "$work/log")"
}
both=$'mileage: lib --cpu=x86-64\nmileage_bench: run\n'
built "from nothing" all "$both"
built "all is built" all ""
touch -d '1 hour ago' target/staticlib/libmileage.a target/bin/mileage_bench
built "older than a source" all "$both"
find crates crates.txt -exec touch -d '2 hours ago' {} +
touch -d '1 hour ago' target/staticlib/libmileage.a target/bin/mileage_bench
built "older sources" all ""
rm crates/tally/src/two
touch -d '1 minute ago' target/staticlib/libmileage.a target/bin/mileage_bench
built "a source is gone" all "$both"
built "the gate" test $'gate\n'
built "cleaning" clean ""
[ ! -e target ] && [ ! -e crates/mileage/out ] || fail "make clean leaves target/ or crates/mileage/out"
echo "install.sh: the Makefile builds, installs and cleans as wanted; the examples are built with pkg-config and print what is written down"
