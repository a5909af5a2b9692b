#!/bin/sh
# Starts ox, a program for x86-64, on a machine of another kind, by an emulator: Debian's qemu-user, or that of Rattle's kit.
here=$(dirname "$(readlink -f "$0")")
program=$here/ox.x86_64
[ -x "$program" ] || program=$here/../libexec/oxbreathe/ox.x86_64
emulator=$(command -v qemu-x86_64 || command -v qemu-x86_64-static)
if [ -z "$emulator" ] && rt=$(command -v rt); then
    emulator=$(dirname "$(dirname "$(readlink -f "$rt")")")/on/$(uname -m)/toolchain/bin/qemu-x86_64
fi
[ -x "$emulator" ] || {
    echo "ox: this is a program for x86-64, and on this machine it needs Debian's package qemu-user" >&2
    exit 2
}
exec "$emulator" "$program" "$@"
