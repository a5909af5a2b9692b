#!/bin/sh
# What a user of Cargo does with the workspace, offline: host/cargo.sh CARGO. host.sh sets what cargo needs to build for x86-64 here;
# OXBREATHE_LIB is the folder of the library.
set -u
here=$(cd "$(dirname "$0")" && pwd -P)
cargo=$1
work=$(mktemp -d)
trap 'rm -rf "$work"' EXIT
cd "$here" || exit 1
tested=cargo
. ./counted.sh

built() { "$cargo" build --workspace --locked --release; }
# the tests of ox are its unit tests; those of oxbreathe the examples of its documentation
passes() { "$cargo" test --workspace --locked --release; }
documents() { RUSTDOCFLAGS="${RUSTDOCFLAGS:-} -D warnings" "$cargo" doc --workspace --locked --release --no-deps; }
# a sentence and nothing else: what is wrong, and what to do
says() {
    sentence=$1
    shift
    ! "$@" >"$work/told" 2>&1 && grep -v -e '^ *Compiling' -e '^ *Checking' "$work/told" | head -n 1 | grep -qxF "error: oxbreathe@0.1.0: $sentence" || { cat "$work/told"; return 1; }
}
elsewhere() {
    says "the proved library liboxbreathe.a is for x86-64 Linux and this build is for aarch64 linux: build with --target $CARGO_BUILD_TARGET" \
        "$cargo" check --package oxbreathe --target aarch64-unknown-linux-gnu
}
nowhere() {
    says "there is no liboxbreathe.a in $work: let OXBREATHE_LIB name the folder that has it, as dist/ of the repository does" \
        env OXBREATHE_LIB="$work" "$cargo" check --package oxbreathe
}
listed() {
    ./package.sh "$cargo" --list >"$work/list" || return 1
    for file in Cargo.toml LICENSE NOTICE README.md build.rs src/lib.rs src/sys.rs dist/liboxbreathe.a dist/BUILT; do
        grep -qxF "$file" "$work/list" || { echo "$file is not in the package"; return 1; }
    done
}
# the package by itself, with the library that is in it, in a program of a stranger
packaged() {
    ./package.sh "$cargo" --no-verify || return 1
    mkdir -p "$work/stranger/src"
    tar -x -z -C "$work" -f "$CARGO_TARGET_DIR/package/oxbreathe-0.1.0.crate"
    printf '[package]\nname = "stranger"\nedition = "2024"\n[dependencies]\noxbreathe = { path = "../oxbreathe-0.1.0" }\n' >"$work/stranger/Cargo.toml"
    echo 'fn main() { println!("{}", oxbreathe::SOURCES) }' >"$work/stranger/src/main.rs"
    told=$(cd "$work/stranger" && unset OXBREATHE_LIB && "$cargo" run -q)
    [ "sources $told" = "$(head -n 1 ../dist/BUILT)" ]
}
counted 'cargo build' built
counted 'cargo test' passes
counted 'cargo doc' documents
counted 'another kind of machine' elsewhere
counted 'no archive' nowhere
counted 'what is in the package' listed
counted 'the package, elsewhere' packaged
echo "cargo: $passed passed, $failed failed"
[ "$failed" = 0 ]
