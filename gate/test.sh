#!/bin/sh
# The gate: every proof, must-fail edit and program, with the layout of the sources, the samples, the interfaces for C and Rust, the tool `ox`,
# and the library beside Rust's std and the original. Each part runs whatever the others said. The last line is `N passed, M failed`.
set -u
cd "$(dirname "$0")/.." || exit 1
log=$(mktemp -d)
trap 'rm -rf "$log"' EXIT
passed=0 failed=0 failures=

# part NAME COMMAND..: runs it, shows and keeps what it prints, and leaves its status in $status
part() {
    name=$1
    shift
    echo "== $name"
    began=$(date +%s)
    { "$@" 2>&1; echo $? >"$log/status"; } | tee "$log/out"
    status=$(cat "$log/status")
    echo "== $name: $(($(date +%s) - began)) s"
}
# beside NAME COMMAND..: starts it; `part NAME ended NAME` waits for it and shows what it printed
beside() {
    {
        name=$1
        shift
        began=$(date +%s)
        "$@" >"$log/$name.out" 2>&1
        status=$?
        echo "$name took $(($(date +%s) - began)) s, beside other parts" >>"$log/$name.out"
        echo "$status" >"$log/$name.status"
    } &
}
ended() {
    while [ ! -f "$log/$1.status" ]; do sleep 1; done
    cat "$log/$1.out"
    return "$(cat "$log/$1.status")"
}
# count PASSED FAILED: a part that failed counts for one failure at least, whatever it printed
count() {
    bad=$2
    [ "$status" = 0 ] || [ "$bad" -gt 0 ] || bad=1
    passed=$((passed + $1)) failed=$((failed + bad))
    [ "$bad" = 0 ] || failures="$failures $name"
}
# told FORM: the two numbers of the last line of that form, where \1 is what passed and \2 what failed; without one, a
# failure
told() { sed -n "s/^$1\$/\1 \2/p" "$log/out" | tail -n 1 | grep . || echo 0 1; }

part promises gate/promises.sh
# shellcheck disable=SC2046
count $(told 'promises: \([0-9]*\) passed, \([0-9]*\) failed')

part layers gate/layers.sh
# shellcheck disable=SC2046
count $(told 'layers: \([0-9]*\) passed, \([0-9]*\) failed')

# it refuses a file that is not laid out, and lets a must-fail edit pass that cannot be applied or read, which tells of it
part proofs rt ci
! grep -q '^rt: ok.*, [0-9]* bad' "$log/out" || status=1
# shellcheck disable=SC2046
count $(told '\([0-9]*\) passed, \([0-9]*\) failed')

part edits gate/edits.sh
# shellcheck disable=SC2046
count $(told 'edits: \([0-9]*\) passed, \([0-9]*\) failed')

part samples gate/samples.sh
# shellcheck disable=SC2046
count $(told 'samples: \([0-9]*\) passed, \([0-9]*\) failed')

# a program can be tried with no proof, which is quick while one writes it
tried() { (cd crates/showplan && rt try <stdin >"$log/tried" && cmp "$log/tried" stdout); }
part try tried
count $((status == 0)) 0

part interface gate/interface.sh
# shellcheck disable=SC2046
count $(told 'interface: \([0-9]*\) passed, \([0-9]*\) failed')

part library host/host.sh library
count $((status == 0)) 0

part dist gate/dist.sh
# shellcheck disable=SC2046
count $(told 'dist: \([0-9]*\) passed, \([0-9]*\) failed')

# beside the parts that use one processor
beside host host/host.sh compare

part importer host/host.sh importer
# shellcheck disable=SC2046
count $(told 'importer: \([0-9]*\) passed, \([0-9]*\) failed')

part ox host/host.sh ox-test
# shellcheck disable=SC2046
count $(told 'ox: \([0-9]*\) passed, \([0-9]*\) failed')

# where no browser can be fetched the part says so, and counts for nothing
part browser host/host.sh browser
if grep -q '^browser: not run: ' "$log/out"; then status=0 && count 0 0; else
    # shellcheck disable=SC2046
    count $(told 'browser: \([0-9]*\) passed, \([0-9]*\) failed')
fi

part doc host/host.sh doc
# shellcheck disable=SC2046
count $(told 'doc: \([0-9]*\) passed, \([0-9]*\) failed')

# nothing else in the gate needs the benchmark to build
part stack host/host.sh stack
count $((status == 0)) 0

part host ended host
# shellcheck disable=SC2046
count $(told 'host: \([0-9]*\) groups passed, \([0-9]*\) failed, [0-9]* comparisons')

[ -z "$failures" ] || echo "failed:$failures"
echo "$passed passed, $failed failed"
[ "$failed" = 0 ]
