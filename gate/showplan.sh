#!/bin/sh
# The program `showplan` on a text: gate/showplan.sh FILE. It is for x86-64. `rt ci` and `rt run` build it, once it is proved; where it was not
# built of these sources yet, that comes first.
set -u
die() {
    echo "showplan: $*" >&2
    exit 2
}
[ $# -eq 1 ] && [ -f "$1" ] && [ -r "$1" ] || die "usage: gate/showplan.sh FILE"
root=$(cd "$(dirname "$0")/.." && pwd -P)
program=$root/crates/showplan/out/showplan
[ "$(uname -m)" = x86_64 ] || die "showplan is a program for x86-64, and this machine is of kind $(uname -m)"

if [ ! -x "$program" ] || [ -n "$(find "$root/crates.txt" "$root"/crates/*/src "$root"/crates/*/specs "$root"/crates/*/proofs -newer "$program" 2>/dev/null | head -n 1)" ]; then
    command -v rt >/dev/null || die 'no rt on this machine'
    (cd "$root/crates/showplan" && rt run </dev/null) >/dev/null || die 'showplan was not proved'
fi
exec "$program" <"$1"
