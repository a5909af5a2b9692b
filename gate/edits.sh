#!/bin/sh
# The must-fail edits, each refused for its own reason: `gate/edits.sh [ROOT [CRATE..]]`. `rt ci` tries them as well and says that each file was
# refused; gate/tries.py keeps what the check said of each. A file of must-fail/ holds one edit or several in different places, which are tried
# together. Of each it says
#   edit: LABEL                      its name in docs/PROMISES.md
#   lost: FUNCTION [GOAL]            what has to fail by itself: a function of the crate (behind its module or type, as `modes::parent_of_key`), or a
#   lost: proofs/FILE.antt [LEMMA]   file of its specs/ or proofs/; behind it, where others of the edits that are tried together fail there too, the
#                                    fact that is missing for this one: a goal as the check names it (`returns-in-Made`, `loop-i-preserved`; with
#                                    `-clause-NAME` behind it one clause, without it any of them), or a lemma, a definition or an example of the file
# and then, as `rt` reads it, the file, the line that is there and the wrong one. (`rt` says of the lines `edit:` and `lost:` that they are not read,
# which is so.)
#   A function is lost where a fact is missing in its own proof: an answer or an invariant of proofs/FUNCTION/ is refused, or `search` finds no
# proof of a goal that has no answer. A file is lost where something in it is refused.
#   An edit fails here where its place is proved or only leans on something lost; where the proof merely does not fit the function any more (a name
# of the proof is gone; then a goal that has no answer tells nothing either, since it may have had one under the older name); or where two edits of
# one file have one place.
set -u
cd "${1:-$(dirname "$0")/..}" || exit 1
[ $# = 0 ] || shift
cache=${OXBREATHE_CACHE:-${HOME:-$PWD}/.cache/oxbreathe}/tries
gate/tries.py . "$cache" "$@" | LC_ALL=C awk '
function fail(what) { print what; failed++ }
# each word of a line that stands between grave accents, as facts of that place
function keep_facts(place, line,    part, n, i) {
    n = split(line, part, "`")
    for (i = 2; i <= n; i += 2) { open[place " " part[i]] = 1; sub(/-clause-.*/, "", part[i]); open[place " " part[i]] = 1 }
    open[place] = 1
}
# what the check said of the try: the facts that are missing, by file and by function, and which proofs do not fit
function read_log(log_file,    line, at, file, fact, word, pending, verdict) {
    split("", open); split("", lost); split("", unfit)
    pending = ""; verdict = ""
    while ((getline line < log_file) > 0) {
        if (line ~ /^logic=/) verdict = line
        # a goal that has no answer, of the function that is named next
        if (line ~ /^note: src\/[^ ]*: .* not proved that .*\(`[^`]*`\)/) {
            fact = line
            sub(/.*\(`/, "", fact); sub(/`\).*/, "", fact)
            pending = pending "`" fact "`"
        }
        if (line ~ /^fn [^ ]*: /) {
            split(line, word, /^fn |: /)
            if (line ~ /: not proved$/ && pending != "") keep_facts(word[2], pending)
            if (line ~ /did not prove `/) {
                fact = line
                sub(/.*did not prove /, "", fact); sub(/;.*/, "", fact)
                keep_facts(word[2], fact)
            }
            pending = ""
        }
        if (line !~ /^(\.\/)?(src|specs|proofs)\/[^ ]*:[0-9]+:[0-9]+: error: /) continue
        at = index(line, ": error: ")
        file = substr(line, 1, at - 1)
        sub(/:[0-9]+:[0-9]+$/, "", file); sub(/^\.\//, "", file)
        fact = substr(line, at + 9)
        # it leans on what was lost
        if (fact ~ /was not admitted/) continue
        if (fact ~ /can be named from here|has no field|has no `|is not in scope|is no name|not yet determined/) { unfit[file] = 1; continue }
        lost[file] = 1
        if (fact !~ /^`[^`]*`: /) continue
        sub(/^`/, "", fact); sub(/`: .*/, "", fact)
        lost[file " " fact] = 1
        # one clause of several
        if (sub(/-clause-.*/, "", fact)) lost[file " " fact] = 1
    }
    close(log_file)
    return verdict
}
# whether the fact (or where none is named some fact) is missing in the proof of the function of this path
function is_missing(path, fact,    folder, kind, k, own, wrong) {
    own = path
    gsub(/::/, "/", own)
    split("Answers Invariants Proof", kind, " ")
    does_not_fit = 0
    for (wrong = 0; wrong <= 1; wrong++) {
        folder = "proofs/" own
        # a function that calls itself has a + before its name
        if (wrong) sub(/[^\/]*$/, "+&", folder)
        for (k = 1; k <= 3; k++) {
            if (((folder "/" kind[k] ".antt") fact) in lost) return 1
            if ((folder "/" kind[k] ".antt") in unfit) does_not_fit = 1
        }
    }
    return !does_not_fit && ((crate "::" path fact) in open)
}
# the facts that are missing in a place, for whoever names one
function told_of(path,    key, list, own, plus, of) {
    own = path
    gsub(/::/, "/", own)
    plus = own
    sub(/[^\/]*$/, "+&", plus)
    for (key in lost) if (split(key, of, " ") == 2 && (of[1] == path || of[1] ~ ("^proofs/" own "/[^/]*$") || index(of[1], "proofs/" plus "/") == 1)) list = list " " of[2]
    for (key in open) if (split(key, of, " ") == 2 && of[1] == crate "::" path) list = list " " of[2]
    return list == "" ? "" : " (missing there:" list ")"
}
function judge(    path, fact, at) {
    if (label == "") return
    if (place == "") { fail(name ": " label ": no place"); return }
    if (pairs == 0) { fail(name ": " label ": changes nothing"); return }
    if (label in seen) { fail(name ": " label " stands twice"); return }
    path = place; fact = ""
    if (at = index(place, " ")) { path = substr(place, 1, at - 1); fact = substr(place, at) }
    # an edit that names no fact has its place to itself
    if ((place in taken) || (fact != "" && (path in taken)) || (fact == "" && (path in shared))) {
        fail(name ": " label " and " (place in taken ? taken[place] : "another") " have one place")
        return
    }
    seen[label] = 1; taken[place] = label
    if (fact != "") shared[path] = 1
    if (verdict == "") { fail(name ": " label ": was not tried" why); return }
    if (verdict !~ /^logic=not-proved/) { fail(name ": " label ": is proved"); return }
    if (path ~ /\.antt$/) {
        if ((path fact) in lost) passed++
        else if (path in unfit) fail(name ": " label ": " path " does not fit")
        else fail(name ": " label ":" (fact == "" ? " no fact is" : fact " is not") " missing in " path told_of(path))
        return
    }
    if (is_missing(path, fact)) passed++
    else if (does_not_fit) fail(name ": " label ": the proof of " path " does not fit")
    else fail(name ": " label ":" (fact == "" ? " no fact is" : fact " is not") " missing in the proof of " path told_of(path))
}
{
    name = $1; split(name, part, "/"); crate = part[1]
    sub(/:$/, "", name)
    if (crate != last) split("", seen)
    last = crate
    split("", taken); split("", shared)
    verdict = ""; why = ""
    if ($1 ~ /:$/) { why = $0; sub(/^[^:]*/, "", why) }
    else if (NF == 2) verdict = read_log($2)
    split(name, part, "/")
    file = "crates/" part[1] "/must-fail/" part[2] ".edit"
    label = ""; edits = 0
    while ((getline line < file) > 0) {
        if (line ~ /^edit: /) { judge(); label = substr(line, 7); place = ""; pairs = 0; edits++ }
        else if (line ~ /^lost: /) place = substr(line, 7)
        else if (line ~ /^new:/) pairs++
    }
    close(file)
    judge()
    if (!edits) fail(name ": no edit in it has a name")
}
END { print "edits: " passed + 0 " passed, " failed + 0 " failed"; exit failed > 0 || passed + 0 == 0 }'
