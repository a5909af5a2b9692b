#!/bin/sh
# Tests the tool that host.sh built: host/ox/test.sh FOLDER [EMULATOR]. A session holds commands, each behind `$ `, with what they print,
# both outputs together, and the exit status where it is not 0. With RECORD=1 the sessions are stored as they came out.
set -u
. "$(dirname "$0")/../among_samples.sh"
programs=$1
shift
run=$*
tested=ox
. "$here/../counted.sh"
# pages are made at one time, and no list is always the same
export SOURCE_DATE_EPOCH=1781431200
unset OX_LOG

ox() { $run "$programs/ox" "$@"; }

# ---- sessions

# the commands of a session run one after the other, with what they print
played() {
    while IFS= read -r line; do
        case $line in
        '$ '*)
            printf '%s\n' "$line"
            (eval "${line#??}") </dev/null 2>&1
            status=$?
            [ "$status" = 0 ] || echo "[$status]"
            ;;
        esac
    done <"$1"
}
# session FILE: each of its commands is a check; one that prints something else fails for all
session() {
    rm -f ./*.list ./*.adi ./*.json ./*.html
    played "$1" >out
    if [ -n "${RECORD:-}" ] && [ "${1#"$here"}" != "$1" ]; then cp out "$1"; fi
    if diff "$1" out; then
        passed=$((passed + $(grep -c '^\$ ' "$1")))
    else
        failed=$((failed + 1))
        echo "ox: ${1##*/} prints something else"
    fi
}
for file in "$here"/sessions/*.txt; do session "$file"; done
# the stories that the papers tell are sessions too
for paper in samples/README.md README.md; do
    awk '/^```/ {inside = $0 == "```console"; next} inside' "$root/$paper" >story
    counted "a story in $paper" grep -q '^\$ ' story
    session story
done

# ---- the shared cases: the JSON beside what showplan prints

planned() {
    ox preview "$1" --json 2>/dev/null | sed -n '
        s/^    {"number": \([0-9]*\), .*"fate": "\([a-z-]*\)", "reason": \([0-9]\), "why": "[^"]*"},\{0,1\}$/\1 \2 \3/p
        s/^  "summary": "\(.*\)"$/\1/p
        /^  "refused": /{ s/[^0-9]//g; h; }
        /^  "place": /{ s/[^0-9]//g; H; g; s/\(.*\)\n/refused \1 /p; }' | cmp - "${1%.adi}.txt"
}
for text in samples/plans/*.adi; do counted "$text" planned "$text"; done

# ---- large files, a pipe closed early, a full disk, a terminal

$run "$programs/examples/largest" "$work" || failed=$((failed + 1))
full() {
    ox preview full.adi --log full.list >full.txt && [ "$(wc -c <full.adi)" = 16777216 ] && [ "$(wc -l <full.txt)" = 65539 ] &&
        grep -qx '65535 records · 52428 to import · 13107 duplicates (skipped)' full.txt
}
counted '65,535 records in 16 MiB against a list of 16 MiB' full
# refuses NUMBER ARGUMENT..: refused, and nothing else printed
refuses() {
    number=$1
    shift
    ox "$@" >out 2>err
    [ $? = 1 ] && [ ! -s out ] && grep -q ": refused $number: " err
}
counted 'a file that is too long' refuses 1 preview long.adi
counted 'a list that is too long' refuses 1 preview samples/club.adi --log long.adi
counted 'a log that is too long' refuses 1 list long.adi long.list
counted 'a file that gets too long' refuses 1 rewrite full.adi longer.adi
counted 'an endless file' refuses 1 preview /dev/zero
closed() {
    { ox preview full.adi; echo $? >status; } 2>err | head -n 1 >out
    [ "$(cat status)" = 0 ] && [ ! -s err ] && [ "$(wc -l <out)" = 1 ]
}
counted 'a pipe closed early' closed
no_room() {
    ox preview samples/club.adi >/dev/full 2>err
    [ $? = 2 ] && grep -q 'standard output' err
}
counted 'a full disk' no_room
# A terminal gets colours, unless it is asked not to; nothing else gets them.
escape=$(printf '\033')
colours() { script -qec "$run $programs/ox preview samples/club.adi" /dev/null </dev/null; }
coloured() { colours | grep -q "$escape\[32m"; }
uncoloured() { ! NO_COLOR=1 colours | grep -q "$escape" && ! ox preview samples/club.adi | grep -q "$escape"; }
counted 'colours on a terminal' coloured
counted 'no colours elsewhere' uncoloured

# Work that passes a second has a bar, on a terminal alone, and takes it away again.
many='full.adi full.adi full.adi full.adi full.adi full.adi full.adi full.adi'
bar() { script -qec "$run $programs/ox preview --summary $many --log full.list >out" bar </dev/null >/dev/null && tail -n 2 out | grep -q '^against full.list'; }
bared() {
    bar && tr '\r' '\n' <bar | grep -q 'K\[#*>\.*\] [0-7] of 8 files, full.adi, [0-9]* s$' && tail -n 2 bar | grep -q "$escape\[K\$"
}
unbared() {
    # shellcheck disable=SC2086
    ox preview --summary $many --log full.list >out 2>err && [ ! -s err ] &&
        script -qec "$run $programs/ox preview --summary samples/club.adi" quick </dev/null >/dev/null && ! grep -q 'samples/club.adi, ' quick
}
counted 'a bar on a terminal' bared
counted 'no bar elsewhere, nor where it is quick' unbared

# ---- outputs are whole or not there

kept() {
    echo mine >kept.list
    ox list samples/station.adi kept.list 2>err
    [ $? = 2 ] && [ "$(cat kept.list)" = mine ] && ox list samples/station.adi kept.list --force >out && ox list show kept.list >out
}
counted 'a file that is there already' kept
nothing_beside() { [ -z "$(find . -name '*.new')" ]; }
nowhere() {
    ox rewrite samples/club.adi no/such/folder.adi 2>err
    [ $? = 2 ] && mkdir folder.adi && ! ox rewrite samples/club.adi folder.adi --force 2>err && [ -d folder.adi ]
}
counted 'a folder that is not there, or is one' nowhere
counted 'nothing left beside an output' nothing_beside

# ---- any bytes: cut short anywhere, a file is previewed or refused

cut_anywhere() {
    for at in 0 1 2 17 80 113 114 200 333 500 777 1001 1234 1500 1777 2000 2022; do
        for sample in club eqsl lotw; do
            head -c $at "samples/$sample.adi" >cut.adi
            ox preview cut.adi >out 2>err
            status=$?
            [ $status -le 1 ] && ! grep -q panicked err && { [ $status = 1 ] || [ ! -s err ]; } || return 1
        done
    done
}
counted 'a file cut anywhere' cut_anywhere
any_list() {
    ox list samples/station.adi any.list --force >out || return 1
    for at in 0 1 4 5 6 30 100 500; do
        head -c $at any.list >cut.list
        ox list show cut.list >out 2>err
        [ $? = 1 ] && grep -q ': refused 17: ' err || return 1
    done
}
counted 'a list cut anywhere' any_list

# ---- the manual page and the completions

for shell in bash zsh fish; do ox completions $shell >"completions.$shell"; done
# each command, option and fate that the help names
known() {
    for command in '' preview list 'list show' fresh rewrite completions; do
        ox $command --help | tee help | grep -o -e '--[a-z]\+'
        sed -n '/^Commands:/,/^$/s/^  \([a-z]*\) .*/\1/p' help
        grep -o 'possible values: [^]]*' help | sed 's/.*: //' | tr -d , | tr ' ' '\n'
    done | sort -u
}
documented() {
    known >names
    sed 's/\\-/-/g' "$here/ox.1" >page
    [ "$(wc -l <names)" = 29 ] || { cat names; return 1; }
    while read -r name; do
        for place in page completions.bash completions.zsh; do
            grep -qw -e "$name" "$place" || { echo "$name is not in $place"; return 1; }
        done
    done <names
    # those for fish have an option by its name alone, and no shells to choose
    ox completions --help | grep -o 'possible values: [^]]*' | tr -d , | tr ' ' '\n' >shells
    grep -vxFf shells names | sed 's/^--//' | while read -r name; do
        grep -qw -e "$name" completions.fish || { echo "$name is not in completions.fish"; exit 1; }
    done
}
counted 'what the help names is in the manual page and the completions' documented
# completes WORDS CHOICES: the last word, of which nothing or its start stands there; with no choice the shell itself completes files
completes() {
    told=$(bash -c ". ./completions.bash; COMP_WORDS=($1); COMP_CWORD=\$((\${#COMP_WORDS[@]} - 1)); _ox ox; echo \"\${COMPREPLY[*]}\"; complete -p ox" </dev/null)
    [ "$told" = "$2
complete -o bashdefault -o default -F _ox ox" ] || { echo "$1: $told"; return 1; }
}
counted 'a command completed' completes "ox ''" '-h -V --help --version preview list fresh rewrite completions'
counted 'a file completed' completes 'ox preview 01.a' ''
counted 'a second file completed' completes 'ox preview 01.adi 02.a' ''
counted 'an option completed' completes 'ox preview 01.adi --wi' '--window'
counted 'a fate completed' completes 'ox preview 01.adi --only un' 'unusable unmatched'
counted 'a second fate completed' completes 'ox preview 01.adi --only unusable --only dup' 'duplicate-in-log duplicate-in-file'
touch 02.txt
counted 'a list completed' completes 'ox preview 01.adi --log 02.t' '02.txt'
counted 'show completed' completes 'ox list sh' 'show'

# ---- installed: it runs from where it was put, and needs nothing of this checkout

below=$work/root/usr/local
installed() { (cd / && env -i PATH="/usr/bin:/bin${run:+:$(dirname "$run")}" "$below/bin/ox" "$@"); }
places() {
    (cd "$below" && find . -type f | LC_ALL=C sort) >places
    { [ -z "$run" ] || echo ./libexec/oxbreathe/ox.x86_64; printf '%s\n' ./bin/ox ./share/bash-completion/completions/ox \
        ./share/fish/vendor_completions.d/ox.fish ./share/man/man1/ox.1 ./share/zsh/site-functions/_ox; } | LC_ALL=C sort | cmp - places
}
alike() { installed preview "$root/samples/club.adi" >out && ox preview "$root/samples/club.adi" | cmp - out; }
told_version() {
    installed --version >out
    { sed -n 's/^version = "\(.*\)"/ox \1/p' "$here/../Cargo.toml" && cat "$root/dist/BUILT"; } | cmp - out
}
alone() {
    program=$below/bin/ox
    [ -z "$run" ] || program=$below/libexec/oxbreathe/ox.x86_64
    ! grep -aq -e "$root" -e "${OXBREATHE_CACHE:-$HOME/.cache/oxbreathe}" "$program"
}
# what it does meanwhile is at most three lines on standard error
previews() {
    make -s -C "$root" preview FILE=samples/club.adi >out 2>err && (cd "$root" && ox preview samples/club.adi) | cmp - out && [ "$(wc -l <err)" -le 3 ]
}
gone() { DESTDIR=$work/root PREFIX=/usr/local make -s -C "$root" uninstall && [ -z "$(find "$work/root" -type f)" ]; }
counted 'installed' make -s -C "$root" install DESTDIR="$work/root" PREFIX=/usr/local
counted 'everything where it belongs' places
counted 'installed, it previews' alike
counted 'installed, it tells its version' told_version
counted 'no path of this checkout in it' alone
counted 'uninstalled' gone
counted 'make preview' previews

echo "ox: $passed passed, $failed failed"
[ "$failed" = 0 ]
