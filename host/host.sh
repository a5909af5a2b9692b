#!/bin/sh
# Builds what stands beside the crates, and runs it. Linked with the library of dist/, which is shipped:
#   host/host.sh preview FILE     what importing a file would do, by ox
#   host/host.sh ox               the tool for the log desk, target/ox
#   host/host.sh install          ox, its manual page and its completions below $DESTDIR$PREFIX
#   host/host.sh crates           what ox is made with, for cargo in host/
# With the library that rt builds of the crates:
#   host/host.sh library          target/staticlib/liboxbreathe.a
#   host/host.sh dist             the same, into dist/
#   host/host.sh compare [full]   its answers against std's and the original's, group by group
#   host/host.sh doc              what cargo builds, tests and documents, and the examples of the README
#   host/host.sh importer         the C program over include/oxbreathe.h, its own test, the header's examples
#   host/host.sh ox-test          the tool on the samples against stored outputs, and on what it must refuse; installed
#   host/host.sh browser          the page of --html in a real browser
#   host/host.sh bench            instructions of both between marks, one table; on x86-64 times as well
#   host/host.sh stack            the stack that each exported call takes
#   host/host.sh record [DIR]     the answers of std and the original as vectors, into DIR (else where they are kept)
# RIGFLOW_SRC: the original's sources. OXBREATHE_CACHE: where fetched packages stay. OXBREATHE_LIB: a folder with
# a liboxbreathe.a to use instead. SEED and ONLY: see compare/main.rs.
#
# No root is needed, and no network but Debian's packages, each fetched once.
set -eu
root=$(cd "$(dirname "$0")/.." && pwd -P)
host=$root/host
cache=${OXBREATHE_CACHE:-${HOME:-$root}/.cache/oxbreathe}
out=$root/.cache/host # this checkout's own build; what checkouts can share is in $cache
vectors=$root/crates/replay/data
samples=$root/samples/plans # files beside what showplan prints of them
arch=$(uname -m)

say() { echo "host: $*"; }
die() {
    say "$*" >&2
    exit 1
}

. "$host/debian.sh"
. "$host/compilers.sh"

# ---- the parts, each a plain call of rustc

# crate NAME EDITION FILE OPTION..: compiled into $to
crate() {
    name=$1 edition=$2 file=$3
    shift 3
    # shellcheck disable=SC2086
    "$rustc" --crate-name "$name" --edition "$edition" -O $flags -L "$to" --out-dir "$to" "$@" "$file"
}
# chrono and what it needs, from Debian's sources, and a stub of serde; compiled once for each compiler
dependencies() {
    deps=$cache/deps-$("$rustc" -vV | cksum | cut -d ' ' -f 1)
    [ ! -f "$deps/ok" ] || return 0
    sources=/usr/share/cargo/registry
    if [ -z "$(find "$sources" -maxdepth 1 -name 'chrono-0.4*' 2>/dev/null)" ]; then
        sources=$cache/sources/usr/share/cargo/registry
        if [ ! -f "$cache/sources.ok" ]; then
            apt_ready librust-chrono-dev
            unpack "$cache/sources" librust-chrono-dev librust-num-integer-dev librust-num-traits-dev
            touch "$cache/sources.ok"
        fi
    fi
    to=$deps
    mkdir -p "$to"
    set -- --crate-type rlib --cap-lints allow --cfg 'feature="std"'
    crate num_traits 2015 "$sources"/num-traits-0.2*/src/lib.rs "$@" --cfg has_i128
    crate num_integer 2015 "$sources"/num-integer-0.1*/src/lib.rs "$@" --cfg has_i128 --extern num_traits="$to/libnum_traits.rlib"
    crate chrono 2018 "$sources"/chrono-0.4*/src/lib.rs "$@" --cfg 'feature="alloc"' \
        --extern num_traits="$to/libnum_traits.rlib" --extern num_integer="$to/libnum_integer.rlib"
    # a derive runs inside the compiler: it is built for this machine, not for the target
    "$rustc" --crate-name serde --crate-type proc-macro --edition 2021 --out-dir "$to" "$host/original/serde.rs"
    touch "$to/ok"
}
# original OPTION..: the original's files, copied beside the crate's root (`rt ci` takes no links in a checkout)
original() {
    source=${RIGFLOW_SRC:-$root/../shared/docs/src}/rigflow-log/src
    with_original=
    if [ ! -f "$source/adif.rs" ]; then
        [ -z "${RIGFLOW_SRC:-}" ] || die "RIGFLOW_SRC has no rigflow-log/src/adif.rs: $RIGFLOW_SRC"
        return 0
    fi
    dependencies
    to=$out/$program
    mkdir -p "$out/original"
    rm -rf "$out/original/rigflow"
    cp -RL "$source" "$out/original/rigflow"
    cp "$host/original/lib.rs" "$out/original/lib.rs"
    crate rusqlite 2024 "$host/original/rusqlite.rs" --crate-type rlib "$@"
    crate original 2024 "$out/original/lib.rs" --crate-type rlib --cap-lints allow --extern rusqlite="$to/librusqlite.rlib" \
        --extern serde="$deps/libserde.so" --extern chrono="$deps/libchrono.rlib" -L "$deps" "$@"
    with_original="--cfg original --extern original=$to/liboriginal.rlib -L $deps"
}
# The static library, built anew where the sources or the kit are others than those that it was built of: the exported calls of each static
# library `ox_…`, whose archives have one object each, as one archive. They are built side by side, each lane on a copy of the crates of its own
# outside the checkout, since `rt` works on one crate of a checkout at a time; it begins with what was proved of them on this machine.
staticlib() {
    made=$archive/liboxbreathe.a
    printf 'sources %s\nkit %s\n' "$("$host/sources.sh")" "$(rt version)" >"$out/BUILT"
    if [ -f "$made" ] && cmp -s "$out/BUILT" "$archive/BUILT"; then
        return 0
    fi
    kit_tools
    rm -rf "$made" "$made.new"
    mkdir -p "$archive"
    # what was built on this machine of the same sources by the same kit
    kept=$cache/library/$(sha256sum <"$out/BUILT" | cut -c 1-32)
    if [ -f "$kept/liboxbreathe.a" ] && (cd "$kept" && sha256sum --check --quiet liboxbreathe.a.sha256); then
        cp "$kept/liboxbreathe.a" "$kept/liboxbreathe.a.sha256" "$archive/"
        cp "$out/BUILT" "$archive/BUILT"
        return 0
    fi
    areas=$(sed -n 's/^\(ox_[a-z_]*\) staticlib:.*/\1/p' "$root/crates.txt")
    # a check takes up to 4 GB
    lanes=$(awk -v most="$(nproc)" '/^MemAvailable/ {n = int($2 / 4000000); print n < 1 ? 1 : n < most ? n : most}' /proc/meminfo)
    LANES=$(mktemp -d) lane=0
    export LANES
    trap 'rm -rf "$LANES"' EXIT
    while [ "$lane" -lt "$lanes" ]; do
        mkdir -p "$LANES/$lane"
        cp "$root/crates.txt" "$LANES/$lane/"
        (cd "$root" && find crates -path 'crates/*/out' -prune -o -type f -print0 | tar -c --null -T - | tar -x -C "$LANES/$lane")
        lane=$((lane + 1))
    done
    # the last are the longest
    echo "$areas" | tac | xargs -n 1 -P "$lanes" --process-slot-var=LANE "$0" area || die "the library was not built"
    for area in $areas; do
        (cd "$LANES" && "$tools/bin/llvm-ar" x "lib$area.a" "$area.o" && "$tools/bin/llvm-ar" rcsD "$made.new" "$area.o")
    done
    rm -rf "$LANES"
    cp "$out/BUILT" "$archive/BUILT"
    mv "$made.new" "$made"
    (cd "$archive" && sha256sum liboxbreathe.a >liboxbreathe.a.sha256)
    mkdir -p "$kept.new"
    cp "$made" "$made.sha256" "$kept.new/"
    rm -rf "$kept"
    mv "$kept.new" "$kept"
}
# area NAME: one of them, in its lane
area() {
    (cd "$LANES/$LANE/crates/$1" && quietly rt lib --jobs 1)
    mv "$LANES/$LANE/crates/$1/out/lib$1.a" "$LANES/"
}
# quietly COMMAND..: what it prints is shown only where it fails
quietly() {
    log=$(mktemp "$out/log.XXXXXX")
    "$@" >"$log" 2>&1 || {
        cat "$log"
        rm -f "$log"
        die "$* failed"
    }
    rm -f "$log"
}
# the library that programs are linked with, in $archive
library() {
    archive=${OXBREATHE_LIB:-$root/target/staticlib}
    [ -n "${OXBREATHE_LIB:-}" ] || staticlib
    [ -f "$archive/liboxbreathe.a" ] || die "no $archive/liboxbreathe.a"
}
# What is shipped is what was built, with what it was built from beside it.
dist() {
    archive=$root/target/staticlib
    staticlib
    mkdir -p "$root/dist"
    for file in liboxbreathe.a liboxbreathe.a.sha256 BUILT; do cp "$archive/$file" "$root/dist/"; done
    cat "$root/dist/BUILT"
}
# wrapper NAME OPTION..: the Rust crate over it, for the program NAME and in its folder, $to
wrapper() {
    library
    alone for_rust
    to=$out/$1
    mkdir -p "$to"
    shift
    crate oxbreathe 2024 "$host/oxbreathe/src/lib.rs" --crate-type rlib -L "native=$archive" "$@"
}
# build NAME OPTION..: the program NAME; the options are for the original and for the crate
build() {
    program=$1
    shift
    wrapper "$program" "$@"
    alone original "$@"
    to=$out/$program
    # shellcheck disable=SC2086
    crate "$program" 2024 "$host/$program/main.rs" --check-cfg 'cfg(original)' $with_original \
        --extern oxbreathe="$to/liboxbreathe.rlib"
    say "$program built by $("$rustc" -V) for $arch"
}

# ---- what can be asked for

# The original is to panic where a sum wraps, as in a debug build: that is one of the answers to compare. And so is the crate,
# which is never to panic.
compare() {
    build compare -C overflow-checks=on
    $run "$to/compare" "$@"
}
# The original is built as its users build it. Debian's qemu-user counts, since the kit's takes no plugin.
bench() {
    build bench
    if [ ! -f "$cache/qemu.ok" ]; then
        apt_ready qemu-user
        # shellcheck disable=SC2046
        unpack "$cache/qemu" $(lacking qemu-user)
        touch "$cache/qemu.ok"
    fi
    cc -O2 -shared -fPIC -fvisibility=hidden -o "$out/libcount.so" "$host/emulator/count.c" || die "no cc to build the counter"
    LD_LIBRARY_PATH=$(echo "$cache"/qemu/usr/lib/*-linux-gnu) "$cache/qemu/usr/bin/qemu-x86_64" \
        -plugin "$out/libcount.so" "$to/bench" count 2>"$out/counts"
    case $arch in
    x86_64) "$to/bench" table "$out/counts" time ;;
    *) $run "$to/bench" table "$out/counts" ;;
    esac
}

# Of the code for x86-64, on either kind of machine.
stack() {
    build bench
    $run "$to/bench" stack
}
# What cargo builds, tests and documents of the workspace; and the examples of Rust in the README.
doc() {
    wrapper doc
    alone for_cargo
    awk '/^```rust$/, /^```$/' "$root/README.md" >"$to/README.md"
    {
        # shellcheck disable=SC2086
        "$rustdoc" --test --crate-name oxbreathe --edition 2024 $flags ${run:+--test-runtool "$run"} -L "$to" -L "native=$archive" \
            --extern oxbreathe="$to/liboxbreathe.rlib" "$to/README.md" || :
        OXBREATHE_LIB=$archive "$host/cargo.sh" "$cargo" 2>&1 || :
    } | tee "$to/told"
    awk '/^test result:/ {results++; passed += $4; failed += $6}
         /^cargo: [0-9]+ passed, [0-9]+ failed$/ {cargo++; passed += $2; failed += $4}
         END {if (results < 4 || cargo != 1 || passed == 0) failed++; printf "doc: %d passed, %d failed\n", passed, failed; exit failed > 0}' "$to/told"
}
# The C program, the examples of the header and the README, the header's structs beside the crates', and one of C++, built and tested.
importer() {
    library
    alone for_c
    to=$out/importer
    mkdir -p "$to/moved"
    (cd "$root" && awk -f host/importer/examples.awk include/oxbreathe.h README.md) >"$to/examples.c"
    (cd "$root" && awk -f gate/exported.awk -f host/importer/layout.awk crates/*/src/*.rt) >"$to/layout.c"
    # beside it, where C looks first, a header with two fields exchanged, which is to fail
    cp "$to/layout.c" "$to/moved"
    sed '/struct ox_contact {/,/}/ { s/ head;/ N;/; s/ next;/ head;/; s/ N;/ next;/; }' "$root/include/oxbreathe.h" >"$to/moved/oxbreathe.h"
    (cd "$root" && awk -f gate/exported.awk -f host/importer/exchange.awk crates/*/src/*.rt) >"$to/exchange.c"
    linked preview -std=c11 "$host/importer/preview.c" "$host/importer/selftest.c"
    # shellcheck disable=SC2046
    linked exchange -std=c11 $(sed -n 's/.* __wrap_\(ox_[a-z0-9_]*\)(.*{$/-Wl,--wrap=\1/p' "$to/exchange.c") \
        "$to/exchange.c" "$host/importer/preview.c" "$host/importer/selftest.c"
    linked examples -std=c11 "$to/examples.c"
    linked layout -std=c11 "$to/layout.c"
    linked moved/layout -std=c11 "$to/moved/layout.c"
    linked cpp -std=c++11 "$host/importer/header.cc"
    "$host/importer/test.sh" "$to" $run
}
# ox, as its users get it, in $program, linked with the library in a folder; built anew where a file is newer
built_ox() {
    alone for_cargo
    program=$out/cargo/$target/release/ox
    [ "$(cat "$out/ox.built" 2>/dev/null)" != "$1" ] || [ ! -x "$program" ] ||
        [ -n "$(find "$host/ox" "$host/oxbreathe" "$host/Cargo.toml" "$host/Cargo.lock" "$1/" -newer "$out/ox.built" | head -n 1)" ] || return 0
    rm -f "$out/ox.built"
    going 'building ox' ox_by_cargo "$1" || exit 1
    echo "$1" >"$out/ox.built"
}
ox_by_cargo() { cd "$host" && OXBREATHE_LIB=$1 "$cargo" build --release --locked --package ox --example largest --bin ox; }
# the library that is shipped, or another that was named
shipped() { echo "${OXBREATHE_LIB:-$root/dist}"; }
# put_ox FOLDER BESIDE: the program in a folder; on a machine of another kind its starter, and the program itself in another
put_ox() {
    case $arch in
    x86_64) install -D -m 755 "$program" "$1/ox" ;;
    *)
        install -D -m 755 "$host/ox/start.sh" "$1/ox"
        install -D -m 755 "$program" "$2/ox.x86_64"
        ;;
    esac
}
ox() {
    built_ox "$(shipped)"
    put_ox "$root/target" "$root/target"
}
preview() {
    [ $# = 1 ] && [ -n "$1" ] || die 'usage: make preview FILE=log.adi'
    built_ox "$(shipped)"
    # shellcheck disable=SC2086
    exec $run "$program" preview "$1"
}
# Where each thing belongs below $DESTDIR$PREFIX.
below=${DESTDIR:-}${PREFIX:-/usr/local}
completions='bash share/bash-completion/completions/ox
zsh share/zsh/site-functions/_ox
fish share/fish/vendor_completions.d/ox.fish'
install_ox() {
    built_ox "$(shipped)"
    put_ox "$below/bin" "$below/libexec/oxbreathe"
    install -D -m 644 "$host/ox/ox.1" "$below/share/man/man1/ox.1"
    echo "$completions" | while read -r shell file; do
        mkdir -p "$(dirname "$below/$file")"
        # shellcheck disable=SC2086
        $run "$program" completions "$shell" >"$below/$file"
    done
    say "installed $below/bin/ox, its manual page, and completions for bash, zsh and fish"
    [ "$arch" = x86_64 ] || say "ox is a program for x86-64: on this machine it needs Debian's qemu-user, or Rattle's kit"
}
uninstall_ox() {
    # shellcheck disable=SC2046
    (cd "$below" && rm -f bin/ox libexec/oxbreathe/ox.x86_64 share/man/man1/ox.1 $(echo "$completions" | cut -d ' ' -f 2))
    rmdir "$below/libexec/oxbreathe" 2>/dev/null || :
}
ox_test() {
    library
    built_ox "$archive"
    # shellcheck disable=SC2086
    "$host/ox/test.sh" "$(dirname "$program")" $run
}
browser() {
    library
    built_ox "$archive"
    . "$host/browser/chromium.sh"
    alone browser_ready || {
        echo 'browser: not run: no chromium that could be fetched and run'
        return 0
    }
    # shellcheck disable=SC2086
    "$host/browser/test.sh" "$chromium" $run "$program"
}
# linked NAME OPTION.. FILE..: a program of C, in $to
# shellcheck disable=SC2086
linked() {
    name=$1
    shift
    $cc -Wall -Wextra -Werror -pedantic -O2 -I "$root/include" "$@" "$archive/liboxbreathe.a" -o "$to/$name"
}

mkdir -p "$cache" "$out"
export RUST_BACKTRACE=0
case ${1:-} in
compare)
    case ${2:-} in
    '') compare sample "$vectors" "$samples" ;;
    full) compare full "$vectors" "$samples" ;;
    *) die "compare takes nothing, or full" ;;
    esac
    ;;
preview)
    shift
    preview "$@"
    ;;
install) install_ox ;;
uninstall) uninstall_ox ;;
crates) alone crates ;;
library)
    archive=$root/target/staticlib
    staticlib
    ;;
dist) dist ;;
browser) browser ;;
area) area "$2" ;; # of the library, for `library` itself
doc) doc ;;
importer) importer ;;
ox) ox ;;
ox-test) ox_test ;;
bench) bench ;;
stack) stack ;;
record)
    mkdir -p "${2:-$vectors}" "${2:-$samples}"
    compare record "${2:-$vectors}" "${2:-$samples}"
    ;;
*)
    sed -n 's/^#   //p' "$0"
    exit 2
    ;;
esac
