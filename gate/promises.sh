#!/bin/sh
# docs/PROMISES.md beside the sources: `gate/promises.sh [ROOT]`. It fails, with a line each, where
#   a public function has no row, no `ensures`, or fewer than two must-fail edits; an exported one has a `requires`;
#   a row stands twice, names a call, a file, a definition, an edit or a theorem that is not there, or is wrong in whether the call asks;
#   a call is not determined by a theorem `CALL_once`, or `CALL_TABLE_once` for each table that is lent;
#   a crate `NAME_c`, which exports what the library `NAME` has, says another promise of a call than that, or exports what it has not;
#   docs/DECISIONS.md names an edit that is not there.
# The tests' own crates have no rows.
set -u
cd "${1:-$(dirname "$0")/..}" || exit 1
grep '^edit: ' crates/*/must-fail/*.edit | LC_ALL=C awk '
function fail(what) { print what; failed++ }
# the file below crates/ as lines between newlines, or nothing
function read_file(file,    line, all) {
    if (file in content) return content[file]
    all = ""
    while ((getline line < ("crates/" file)) > 0) all = all "\n" line
    close("crates/" file)
    return content[file] = all
}
# a line that says what the name is: `name : ..`, `abbrev pub name : ..`, `pub record name ..`
function defines(file, name) {
    return read_file(file) ~ ("\n *((abbrev|unfoldable|pub|record|data) +)*" name "( |$|\n)")
}
function crate_of(call) { return (call in exported) ? exported[call] : substr(call, 1, index(call, "::") - 1) }
# the library of whose calls a crate NAME_c is the exports
function library_of(crate,    library) { library = crate; return sub(/_c$/, "", library) && (library in is_crate) ? library : crate }
function last_of(call,    n, part) { n = split(call, part, "::"); return part[n] }

# ---- the edits, as they come by standard input
/^crates\/[a-z0-9_]+\/must-fail\/[^ ]+\.edit:edit: / { split($0, part, "/"); edit[part[2] "/" $2] = 1; next }

# ---- the sources: every function, and what the public ones promise
FILENAME ~ /\.rt$/ {
    if (FNR == 1) { split(FILENAME, part, "/"); crate = part[2]; is_crate[crate] = 1; module = part[4]; sub(/\.rt$/, "", module); type = ""; head = "" }
    if ($1 == "impl") type = $2 "::"
    if ($0 == "}") type = ""
    if ($0 ~ /^ *(pub )?(extern "C" )?fn /) {
        name = $0; sub(/^.*fn /, "", name); sub(/[^A-Za-z0-9_].*/, "", name)
        path = crate "::" (module == "lib" || module == "main" ? "" : module "::") type name
        head = ($0 ~ /extern "C"/) ? name : path
        known[head] = 1
        if ($0 ~ /^ *pub /) {
            calls[++count] = head
            public[crate "::" name] = 1
            if (head == name) exported[head] = crate
        }
    }
    if (head != "") {
        line = $0; sub(/^ *(pub )?(extern "C" )?fn /, "", line); gsub(/ +/, " ", line)
        if ($1 != "{") said[head] = said[head] line
        if ($1 == "ensures") ensures[head] = 1
        else if ($1 == "requires") requires[head] = 1
        else { line = $0; lent[head] += gsub(/&mut \[/, "", line) }
        if ($1 == "{" || ($1 != "ensures" && $1 != "requires" && /\{$/)) head = ""
    }
    next
}

# ---- the theorems that a call is determined
FILENAME ~ /Determined\.antt$/ {
    split(FILENAME, part, "/")
    if ($0 ~ /^ *(pub )?[a-z0-9_]*once[a-z0-9_]* :/) { name = ($1 == "pub") ? $2 : $1; once[part[2]] = once[part[2]] " " name }
    next
}

# ---- the edits that the page of decisions names
FILENAME ~ /DECISIONS\.md$/ {
    n = split($0, word, "`")
    for (k = 2; k <= n; k += 2) if (word[k] ~ /^[a-z0-9_]+\/[a-z0-9_]+$/) decided[word[k]] = 1
    next
}

# ---- the page of promises
/^## / { part_of_page = $2 }
part_of_page == "Theorems" && /^\|/ { theorems[++theorem_rows] = $0; next }
part_of_page == "What" && /^\| `/ { split($0, cell, "`"); open_row[cell[2]] = 1; next }
/^\| `/ {
    n = split($0, cell, / *\| */)
    if (n != 7) { fail("a row of " n - 2 " cells: " substr($0, 1, 60)); next }
    call = cell[2]; gsub(/`/, "", call)
    if (call in definition) fail(call ": stands twice")
    definition[call] = cell[4]; edits[call] = cell[6]; row[++rows] = call
    promise[call] = cell[3]; asks[call] = cell[5] ~ /^asks: /
}

END {
    for (i = 1; i <= count; i++) {
        call = calls[i]; crate = crate_of(call); before = failed
        if (crate ~ /^(notation|answers_.*|replay)$/) continue
        # what a library has and NAME_c exports is one call, with one row
        if (exported[last_of(call)] == crate "_c") {
            if (said[call] != said[last_of(call)]) fail(call ": " crate "_c exports it under another promise")
            continue
        }
        if (crate != library_of(crate)) {
            crate = library_of(crate)
            if (!((crate "::" call) in known)) fail(call ": exported, and " crate " has no such call")
        }
        if (!(call in definition)) fail(call ": no row")
        if (!(call in ensures)) fail(call ": no ensures")
        if ((call in exported) && (call in requires)) fail(call ": exported, and requires")
        if ((call in definition) && asks[call] != (call in requires)) fail(call ": requires " (asks[call] ? "nothing" : "something") ", and its row says otherwise")
        # determined
        name = last_of(call); stem = name
        have = 0; n = split(once[crate], theorem, " ")
        for (k = 1; k <= n; k++) {
            if (index(theorem[k], stem "_") != 1) continue
            rest = substr(theorem[k], length(stem) + 2)
            if (rest ~ /^once/) have++
            else { sub(/_once$/, "", rest); if (!((crate "::" name "_" rest) in public)) have++ }
        }
        if (have < (lent[call] > 1 ? lent[call] : 1))
            fail(call ": " have " theorems " stem "_once in crates/" crate "/proofs/Determined.antt, lent tables " lent[call] + 0)
        # edits
        n = split(edits[call], label, /[,;] */); given = 0
        for (k = 1; k <= n; k++) if (label[k] != "") { given++; if (!(label[k] in edit)) fail(call ": no edit " label[k]) }
        if (given < 2) fail(call ": " given " edits")
        if (failed == before) passed++
    }
    for (i = 1; i <= rows; i++) {
        call = row[i]
        if (!(call in known)) fail(call ": a row, and no such call")
        if (promise[call] == "") fail(call ": no promise in words")
        n = split(definition[call], word, "`"); files = ""; names = ""
        for (k = 2; k <= n; k += 2) {
            if (word[k] ~ /\.antt$/) { files = files " " word[k]; if (read_file(word[k]) == "") fail(call ": no file " word[k]) }
            else names = names " " word[k]
        }
        if (files == "" && definition[call] !~ / of the kit$/) fail(call ": no file of its definition")
        n = split(names, name_of, " "); m = split(files, file_of, " ")
        for (k = 1; k <= n && m > 0; k++) {
            found = 0
            for (j = 1; j <= m; j++) if (defines(file_of[j], name_of[k])) found = 1
            if (!found) fail(call ": no definition " name_of[k] " in" files)
        }
    }
    for (name in decided) {
        split(name, part, "/")
        if ((part[1] in is_crate) && !(name in edit)) fail("docs/DECISIONS.md: no edit " name)
    }
    for (call in open_row) if (!(call in known)) fail(call ": left open, and no such call")
    for (i = 1; i <= theorem_rows; i++) {
        split(theorems[i], cell, / *\| */); n = split(cell[3], word, "`"); file = ""
        for (k = 2; k <= n; k += 2) {
            if (word[k] ~ /\.antt$/) { file = word[k]; if (read_file(file) == "") fail("theorem: no file " file) }
            else if (!defines(file, word[k])) fail("theorem: no " word[k] " in " file)
            else passed++
        }
    }
    print "promises: " passed + 0 " passed, " failed + 0 " failed"
    exit failed > 0 || passed + 0 == 0
}' - crates/*/src/*.rt crates/*/proofs/Determined.antt docs/DECISIONS.md docs/PROMISES.md
