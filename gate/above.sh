#!/bin/sh
# What a change to a crate costs: gate/above.sh CRATE
# The crates that stand on it, directly or not, which are proved again with it.
set -u
cd "$(dirname "$0")/.." || exit 1
[ $# -ge 1 ] && grep -q "^$1\( staticlib\)\?:" crates.txt || {
    echo "above: no crate ${1:-named}" >&2
    exit 2
}
awk -v crate="$1" '
FILENAME == "crates.txt" { sub(/ staticlib:/, ":"); name = $1; sub(/:/, "", name); order[++n] = name; for (i = 2; i <= NF; i++) on[name, $i] = 1; next }
END {
    again[crate] = 1
    do {
        grew = 0
        for (i = 1; i <= n; i++) if (!(order[i] in again)) for (j = 1; j <= n; j++)
            if ((order[j] in again) && ((order[i], order[j]) in on)) { again[order[i]] = 1; grew = 1; break }
    } while (grew)
    for (i = 1; i <= n; i++) if ((order[i] in again) && order[i] != crate) { list = list " " order[i]; count++ }
    print crate ": " count + 0 " crates above:" list
}' crates.txt
