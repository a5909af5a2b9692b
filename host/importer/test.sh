#!/bin/sh
# Tests the C programs that host.sh built: host/importer/test.sh FOLDER [EMULATOR]. On the samples `preview` prints what
# showplan prints, with words behind it.
set -u
here=$(cd "$(dirname "$0")" && pwd -P)
cd "$here/../.." || exit 1
programs=$1
shift
run=$*
tested=importer
. "$here/../counted.sh"

program() {
    name=$1
    shift
    $run "$programs/$name" "$@"
}
# checks NAME ARGUMENT..: those that a program makes and counts itself
checks() {
    told=$(program "$@")
    echo "$1: $told"
    # shellcheck disable=SC2046
    set -- $(echo "$told" | sed -n 's/^\([0-9]*\) passed, \([0-9]*\) failed$/\1 \2/p')
    passed=$((passed + ${1:-0})) failed=$((failed + ${2:-1}))
}
again() { program preview samples/club.adi samples/club.adi | cmp - "$here/club_again.txt"; }
moved() {
    program moved/layout | sed '$d' >"$programs/moved/told"
    printf 'not as in the crates: offset of ox_contact.%s\n' head next | cmp - "$programs/moved/told"
}
unexchanged() { program exchange --self-test >/dev/null; }
# exchanged NUMBER: the self-test comes to its end with that exchange, and has failed
# shellcheck disable=SC2086
exchanged() { env EXCHANGE="$1" $run "$programs/exchange" --self-test | grep -q -x '[0-9]* passed, [1-9][0-9]* failed'; }
shown() {
    program preview "$1" | sed 's/^\([0-9]* unusable [0-9]\) (.*)$/\1/; s/^\(refused [0-9 ]*\):.*/\1/' | cmp - "${1%.adi}.txt"
}

checks examples
checks layout
counted 'a header with fields moved' moved
checks preview --self-test
counted 'the self-test with nothing exchanged' unexchanged
sed -n 's|.*; // ||p' "$programs/exchange.c" >"$programs/exchanges"
counted 'the exchanges' [ -s "$programs/exchanges" ]
while read -r number what; do counted "the self-test with $what exchanged" exchanged "$number"; done <"$programs/exchanges"
counted 'the header in C++' program cpp
counted 'a log against itself' again
for text in samples/plans/*.adi; do counted "$text" shown "$text"; done
echo "importer: $passed passed, $failed failed"
[ "$failed" = 0 ]
