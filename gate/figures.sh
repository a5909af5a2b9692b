#!/bin/sh
# Figures for docs/FIGURES.md: gate/figures.sh [LOG]
# The size of the repository, as a table; and from LOG, what a gate printed, the seconds of each part of the gate. Lines that are not blank are
# counted.
set -u
cd "$(dirname "$0")/.." || exit 1
log=${1:-}
[ -z "$log" ] || [ -r "$log" ] || {
    echo "figures: cannot read $log" >&2
    exit 2
}

# lines NAME..: how many lines, of the files below crates/ that have such a path
lines() { find crates -path 'crates/*/out' -prune -o "$@" -type f -exec cat {} + | grep -c .; }
code() { find crates -path 'crates/*/out' -prune -o -path '*/src/*.rt' -exec cat {} +; }
definitions() { find crates -path 'crates/*/out' -prune -o -path '*/specs/*.antt' -exec cat {} +; }

echo '| what | how much |'
echo '|---|---|'
echo "| crates | $(grep -c : crates.txt) |"
echo "| functions, each proved | $(code | grep -cE '^ *(pub )?(extern "C" )?fn '), of which $(code | grep -cE '^ *pub (extern "C" )?fn ') public and $(code | grep -c 'extern "C"') exported |"
echo "| code, contracts included | $(code | grep -c .) lines, of which $(code | grep -cE '^ *(requires|ensures) ') are contracts |"
echo "| definitions | $(definitions | grep -cE '^ *((unfoldable|abbrev) |(pub )?(record|data) )') in $(definitions | grep -c .) lines, worked examples included |"
echo "| proofs | $(lines -path '*/proofs/*.antt') lines |"
echo "| must-fail edits | $(find crates -name '*.edit' -exec cat {} + | grep -c '^edit: '), tried in $(find crates -name '*.edit' | wc -l) groups |"
echo "| recorded answers | $(lines -path '*/replay/data/*') lines, and $(find samples/plans -name '*.adi' | wc -l) files beside their plans |"
awk -F '|' '/^\| 20/ { gsub(/[ ,]/, ""); n += $6; bad += $7 }
    END { while (n >= 1000) { rest = sprintf(",%03d%s", n % 1000, rest); n = int(n / 1000) }
          print "| comparisons (docs/COMPARISONS.md) | " n rest ", of which " bad + 0 " differ |" }' docs/COMPARISONS.md
echo "| the Rust host | $(find host -name '*.rs' -exec cat {} + | grep -c .) lines |"

[ -n "$log" ] || exit 0
echo
awk '
function flow(title, list,    n, i, word, line) {
    n = split(list, word, "\n"); line = title
    for (i = 1; i < n; i++) {
        if (length(line) + length(word[i]) > 128) { print line; line = "" }
        line = line (line == "" ? "" : " ") word[i] (i < n - 1 ? "," : ".")
    }
    print line
}
/^== [a-z]+: [0-9]+ s$/ { sub(":", "", $2); parts = parts $2 " " $3 "\n"; all += $3 }
END {
    if (parts != "") flow("Seconds of the gate, " all " in all:", parts)
    if (parts == "") { print "figures: nothing of a gate in the log" > "/dev/stderr"; exit 2 }
}' "$log"
