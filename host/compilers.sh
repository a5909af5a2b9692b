# Compilers for x86-64, which is all that the proved library is for. On x86-64 the machine's own; on aarch64 Debian's rustc-web (unpacked, never
# installed), the kit's clang with Debian's headers and C library, the kit's lld, and the kit's qemu to run what they built; a kit that has no
# tools for such a machine cannot serve there, and RATTLE_HOME names another. For the scripts beside it, which set $host, $out, $arch and $cache.

target=x86_64-unknown-linux-gnu

kit_tools() {
    command -v rt >/dev/null || die "no rt: Rattle's kit is needed for this"
    kit=${RATTLE_HOME:-$(dirname "$(dirname "$(readlink -f "$(command -v rt)")")")}
    tools=$kit/on/$arch/toolchain
    # a kit for x86-64 alone
    [ -d "$tools" ] || [ "$arch" != x86_64 ] || tools=$kit/toolchain
    [ -x "$tools/bin/llvm-ar" ] || die "the kit at $kit has no tools for a machine of kind $arch: RATTLE_HOME names another kit"
}
no_recipe() { die "no recipe for a machine of kind $arch"; }
# script FILE COMMAND: a script that becomes the command; in one step, since the one before it may be running
script() {
    printf '#!/bin/sh\nexec %s\n' "$2" >"$1.new"
    chmod +x "$1.new"
    mv "$1.new" "$1"
}

# ---- $cc for C, and $run to run what it built

for_c() {
    run=''
    case $arch in
    x86_64)
        command -v cc >/dev/null || die "no cc to build C with"
        cc=cc
        ;;
    aarch64)
        linker
        c_library
        cc="$link/cc -nostdinc $(printf ' -isystem %s' "$cache"/c/usr/lib/gcc/*/*/include "$cache"/c/usr/include/*-linux-gnu "$cache/c/usr/include")"
        ;;
    *) no_recipe ;;
    esac
}
# the kit's clang, with its C library; made once, since another part of the gate may be using it
linker() {
    kit_tools
    run=$tools/bin/qemu-x86_64 link=$out/link
    if [ "$(cat "$link/ok" 2>/dev/null)" = "$tools" ] && [ "$link/ok" -nt "$host/compilers.sh" ] && [ "$link/ok" -nt "$host/emulator/shim.c" ]; then
        return 0
    fi
    mkdir -p "$link"
    # the kit's C library has no linker scripts: these stand for them
    for lib in util rt pthread dl; do "$tools/bin/llvm-ar" rc "$link/lib$lib.a"; done
    echo "GROUP ( $tools/lib/libc.so.6 $tools/lib/libc_nonshared.a AS_NEEDED ( $tools/lib/ld-linux-x86-64.so.2 ) )" >"$link/libc.so"
    echo "GROUP ( $tools/lib/libgcc_s.so.1 $tools/lib/libgcc.a )" >"$link/libgcc_s.so"
    echo "INPUT ( $tools/lib/libm.so.6 )" >"$link/libm.so"
    "$tools/bin/clang" --target=$target -O2 -fPIC -c "$host/emulator/shim.c" -o "$link/shim.o"
    script "$link/cc" "$tools/bin/clang --target=$target --ld-path=$tools/bin/ld.lld -nostartfiles -Wl,--dynamic-linker=$tools/lib/ld-linux-x86-64.so.2 -Wl,-rpath,$tools/lib -L $link -L $tools/lib $tools/lib/Scrt1.o $tools/lib/crti.o $tools/lib/crtbeginS.o $link/shim.o \"\$@\" $tools/lib/crtendS.o $tools/lib/crtn.o"
    # a program that runs without the kit: Debian's C library, within it
    script "$link/cc-alone" "$tools/bin/clang --target=x86_64-linux-gnu --sysroot=$cache/c --ld-path=$tools/bin/ld.lld -static $link/shim.o \"\$@\""
    echo "$tools" >"$link/ok"
}
# the C library with its headers and a compiler's own, neither of which the kit has
c_library() {
    [ ! -f "$cache/c.ok" ] || return 0
    apt_ready libc6-dev
    # shellcheck disable=SC2086
    own=$(apt-cache $apt pkgnames libgcc- | grep -x 'libgcc-[0-9]*-dev' | sort -V | tail -n 1)
    [ -n "$own" ] || die "cannot fetch a compiler's headers: no libgcc-N-dev"
    unpack "$cache/c" libc6-dev:amd64 linux-libc-dev:amd64 "$own:amd64"
    touch "$cache/c.ok"
}

# ---- $rustc with $flags and $rustdoc, $cargo, and $run to run what they built

for_rust() {
    run='' flags=''
    case $arch in
    x86_64)
        if is_new_enough rustc; then
            rustc=rustc rustdoc=rustdoc
        else
            rust_of_debian
        fi
        ;;
    aarch64)
        linker
        rust_of_debian
        flags="--target $target -C linker=$link/cc"
        ;;
    *) no_recipe ;;
    esac
}
# is_new_enough TOOL: whether the machine has it, of a version that knows the edition of host/Cargo.toml
is_new_enough() {
    version=$("$1" -V 2>/dev/null | sed -n "s/^$1 1\.\([0-9]*\)\..*/\1/p")
    [ "${version:-0}" -ge 85 ]
}
rust_of_debian() {
    [ -f "$cache/rust.ok" ] || going "fetching a Rust compiler from Debian's packages" fetch_rust || exit 1
    link=$out/link
    mkdir -p "$link"
    for tool in rustc rustdoc; do
        script "$link/$tool" "env LD_LIBRARY_PATH=$(echo "$cache"/rust/usr/lib/*-linux-gnu) $cache/rust/usr/bin/$tool \"\$@\""
    done
    rustc=$link/rustc rustdoc=$link/rustdoc
}
fetch_rust() {
    apt_ready rustc-web
    here=$(dpkg --print-architecture)
    # the newest version that both architectures have
    # shellcheck disable=SC2086
    version=$(apt-cache $apt madison rustc-web | awk '{print $3}' | while read -r v; do
        if apt-cache $apt show "libstd-rust-web-dev:amd64=$v" >/dev/null 2>&1; then
            echo "$v"
            break
        fi
    done)
    [ -n "$version" ] || die "cannot fetch rustc-web: none that has a libstd-rust-web-dev:amd64"
    # shellcheck disable=SC2086
    std=$(apt-cache $apt show "libstd-rust-web-dev=$version" | sed -n 's/^Depends:.*\(libstd-rust-web-[0-9][0-9.]*\).*/\1/p' | head -n 1)
    # shellcheck disable=SC2086
    llvm=$(apt-cache $apt show "$std=$version" | sed -n 's/^Depends:.*\(libllvm[0-9]*\).*/\1/p' | head -n 1)
    # shellcheck disable=SC2046
    unpack "$cache/rust" "rustc-web=$version" "$std:$here=$version" "libstd-rust-web-dev:amd64=$version" \
        "libstd-rust-web-dev:$here=$version" $(lacking "$llvm")
    [ "$arch" = x86_64 ] || c_library
    touch "$cache/rust.ok"
}
# for_cargo: $cargo builds the workspace for x86-64 and nothing else, offline
for_cargo() {
    for_rust
    crates
    cargo=cargo
    if ! is_new_enough cargo; then
        mkdir -p "$out/link"
        cargo=$out/link/cargo
        script "$cargo" "env LD_LIBRARY_PATH=$(echo "$cache"/cargo/usr/lib/*-linux-gnu) $cache/cargo/usr/bin/cargo \"\$@\""
    fi
    export RUSTC="$rustc" RUSTDOC="$rustdoc" CARGO_NET_OFFLINE=true CARGO_TARGET_DIR="$out/cargo" CARGO_BUILD_TARGET="$target"
    # no path of this machine in what is built
    set -- --remap-path-prefix "$cache/crates/usr/share/cargo/registry=" --remap-path-prefix "$root/.cache/crates=" --remap-path-prefix "$root="
    [ "$arch" = x86_64 ] || {
        c_library
        export CARGO_TARGET_X86_64_UNKNOWN_LINUX_GNU_LINKER="$link/cc-alone" CARGO_TARGET_X86_64_UNKNOWN_LINUX_GNU_RUNNER="$run"
        set -- "$@" -C target-feature=+crt-static -C relocation-model=static
        export RUSTDOCFLAGS='-C target-feature=+crt-static -C relocation-model=static'
    }
    CARGO_ENCODED_RUSTFLAGS=$(printf '%s\037' "$@")
    export CARGO_ENCODED_RUSTFLAGS="${CARGO_ENCODED_RUSTFLAGS%?}"
}
# The crates of others that `ox` uses, and a cargo where the machine has none that will do. The versions are Debian's; Cargo.lock has them.
crates='clap clap-lex clap-complete bitflags os-str-bytes strsim humantime serde serde-derive serde-json itoa ryu sha2 digest block-buffer
    crypto-common generic-array typenum cfg-if cpufeatures version-check syn quote proc-macro2 unicode-ident once-cell libc'
crates() {
    if [ "$(cat "$cache/crates.ok" 2>/dev/null)" != "$crates" ] || { ! is_new_enough cargo && [ ! -f "$cache/cargo.ok" ]; }; then
        going "fetching what ox is made with from Debian's packages" fetch_crates || exit 1
    fi
    # a copy and no link, which `rt ci` would refuse
    if [ "$(cat "$root/.cache/crates/ok" 2>/dev/null)" != "$crates" ]; then
        mkdir -p "$root/.cache"
        rm -rf "$root/.cache/crates" "$root/.cache/crates.new"
        cp -RL "$cache/crates/usr/share/cargo/registry" "$root/.cache/crates.new"
        echo "$crates" >"$root/.cache/crates.new/ok"
        mv "$root/.cache/crates.new" "$root/.cache/crates"
    fi
}
fetch_crates() {
    apt_ready librust-clap-dev
    # shellcheck disable=SC2046,SC2086
    unpack "$cache/crates" $(printf 'librust-%s-dev ' $crates)
    echo "$crates" >"$cache/crates.ok"
    is_new_enough cargo || [ -f "$cache/cargo.ok" ] || {
        # shellcheck disable=SC2046
        unpack "$cache/cargo" cargo-web $(lacking cargo-web | grep '^lib' | grep -v -e rust -e -dev)
        touch "$cache/cargo.ok"
    }
}
