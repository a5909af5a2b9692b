#!/bin/sh
# The picture of the layers in docs/ARCHITECTURE.md beside crates.txt: each crate stands on the line that is its longest way down, the lowest
# being 1, and none is missing or strange: gate/layers.sh [ROOT]
set -u
cd "${1:-$(dirname "$0")/..}" || exit 1
awk '
FILENAME == "crates.txt" {
    if ($0 !~ /:/) next
    sub(/ staticlib:/, ":")
    name = $1; sub(/:/, "", name); order[++n] = name; level[name] = 1
    for (i = 2; i <= NF; i++) on[name] = on[name] " " $i
    next
}
/^ +[0-9]+  .*[a-z]/ && $1 ~ /^[0-9]+$/ { for (i = 2; i <= NF; i++) { if ($i in drawn) twice[$i] = 1; drawn[$i] = $1 } }
END {
    do {
        grew = 0
        for (i = 1; i <= n; i++) {
            count = split(on[order[i]], below, " ")
            for (k = 1; k <= count; k++)
                if ((below[k] in level) && level[order[i]] <= level[below[k]]) { level[order[i]] = level[below[k]] + 1; grew = 1 }
        }
    } while (grew)
    for (i = 1; i <= n; i++) {
        name = order[i]
        if (name in twice) { print name ": stands twice in the picture"; failed++ }
        else if (!(name in drawn)) { print name ": not in the picture, line " level[name]; failed++ }
        else if (drawn[name] != level[name]) { print name ": on line " drawn[name] " of the picture, not on " level[name]; failed++ }
        else passed++
    }
    for (name in drawn) if (!(name in level)) { print name ": in the picture, and no crate"; failed++ }
    print "layers: " passed + 0 " passed, " failed + 0 " failed"
    exit failed > 0 || passed + 0 == 0
}' crates.txt docs/ARCHITECTURE.md
