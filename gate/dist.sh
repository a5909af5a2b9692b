#!/bin/sh
# What is shipped is what the crates make: the archive in dist/ is, byte for byte, the library that was just built, and of these sources.
# Nothing in the gate trusts dist/; and the check itself must complain of folders that are spoiled.
set -u
cd "$(dirname "$0")/.." || exit 1
built=target/staticlib
tested=dist
. host/counted.sh
work=$(mktemp -d)
trap 'rm -rf "$work"' EXIT

# told WORD FOLDER: what the file BUILT says behind a word
told() { sed -n "s/^$1 //p" "$2/BUILT"; }
same() { cmp "$built/liboxbreathe.a" "$1/liboxbreathe.a"; }
summed() { (cd "$1" && sha256sum --check --quiet liboxbreathe.a.sha256); }
of_sources() { [ "$(told sources "$1")" = "$sources" ] || { echo "dist: $1/BUILT is of other sources than these"; return 1; }; }
of_a_kit() { [ -n "$(told kit "$1")" ]; }
held() { same "$1" && summed "$1" && of_sources "$1" && of_a_kit "$1"; }
# spoiled FILE PROGRAM..: a copy with that file put through a program is not held
spoiled() {
    rm -rf "$work/dist"
    cp -R dist "$work/dist"
    file=$1
    shift
    "$@" <"dist/$file" >"$work/dist/$file"
    ! held "$work/dist" >/dev/null 2>&1
}

sources=$(host/sources.sh)
counted 'the archive is what was built' same dist
counted 'its sha256' summed dist
counted 'the hash of the sources' of_sources dist
counted 'the kit' of_a_kit dist
[ "$failed" = 0 ] || echo 'dist: dist/ is not what these crates make: make dist, and commit it with them'
# a byte of the code, a byte of the digest, another source, no kit
counted 'another archive seen' spoiled liboxbreathe.a tr '\000' '\001'
counted 'another digest seen' spoiled liboxbreathe.a.sha256 tr 0123456789 1234567890
counted 'other sources seen' spoiled BUILT sed 's/^sources .*/sources 0/'
counted 'no kit seen' spoiled BUILT sed '/^kit/d'
kit=$(told kit dist)
[ "$kit" = "$(rt version)" ] || echo "dist: the kit here is $(rt version); dist/ was built with $kit"
echo "dist: $passed passed, $failed failed"
[ "$failed" = 0 ]
