# Holds include/oxbreathe.h and host/oxbreathe/src/sys.rs against what the crates export (exported.awk, which comes before it): each
# parameter of each call and each field of each struct in its place, by name and type, each answer, and that nothing else is declared.
# Where the header's fields then lie, the program of host/importer/layout.awk tests.
BEGIN {
    # what the header calls the length of a slice, unless it is a text or a list
    lengths["table"] = "numbers"
    lengths["index"] = "contacts"
    lengths["fates"] = "records"
    lengths["confirmations"] = "count"
    lengths["found"] = "count"
    lengths["out"] = "room"
    own["C ox_row"] = 1 # the five numbers of a row by name, for ox_row_at
}
function wrong(what) { has(0, what) }
function has(holds, what) {
    if (holds) passed++
    else {
        failed++
        print "interface: " what
    }
}

# ---- the header

FILENAME ~ /\.h$/ { header = FILENAME }
FILENAME ~ /\.h$/ && (/^#/ || continued) {
    continued = /\\$/
    next
}
FILENAME ~ /\.h$/ {
    line = uncommented($0)
    if (line ~ /^ *$/ || text == "" && line ~ /^(extern "C" \{|\}) *$/) next
    text = text " " line
    if (text ~ /^ static/ ? line ~ /^\}/ : text ~ /^ (typedef struct|enum)/ ? line ~ /\}/ : line ~ /;/) {
        read_header(text)
        text = ""
    }
}
function uncommented(line,    at, kept) {
    while (line != "") {
        at = index(line, commented ? "*/" : "/*")
        if (!commented) kept = kept (at ? substr(line, 1, at - 1) : line)
        if (!at) break
        line = substr(line, at + 2)
        commented = !commented
    }
    sub(/ +$/, "", kept)
    return kept
}
function read_header(text,    words, parts, n, i, value) {
    gsub(/ +/, " ", text)
    split(text, words, /[ (]/) # the first is empty, before the blank
    if (text ~ /^ static inline /) return
    if (text ~ /^ typedef struct /) {
        read_fields("C " words[4], text)
    } else if (text ~ /^ typedef /) {
        # typedef uint32_t ox_fate_row[28];
        i = index(words[4], "[")
        alias[substr(words[4], 1, i - 1)] = words[3] substr(words[4], i, length(words[4]) - i)
    } else if (text ~ /^ enum /) {
        sub(/^[^{]*\{/, "", text)
        sub(/\}.*/, "", text)
        gsub(/ /, "", text)
        value = -1
        n = split(text, parts, ",")
        for (i = 1; i <= n; i++) {
            if (split(parts[i], words, "=") == 2) value = words[2] - 1
            if (words[1] != "") alias[words[1]] = ++value
        }
    } else if (text ~ /^ OX_LAYOUT\(/) {
        gsub(/[ ()]/, "", text)
        split(text, parts, ",")
        sub(/^OX_LAYOUT/, "", parts[1])
        last_of[parts[1]] = parts[3]
    } else if (text ~ /^ [a-z0-9_]+ ox_[a-z0-9_]+\(/) {
        read_prototype("C " words[3], text)
        answer["C " words[3]] = words[2]
    } else wrong(header ": cannot read `" text "`")
}
# `type one, other[n]; …`
function read_fields(owner, text,    parts, names, n, m, i, j, its_type) {
    known[++owners] = owner
    count[owner] = 0
    sub(/^[^{]*\{ /, "", text)
    sub(/ \}.*/, "", text)
    n = split(text, parts, /; ?/)
    for (i = 1; i < n; i++) {
        its_type = parts[i]
        sub(/ .*/, "", its_type)
        sub(/^[^ ]* /, "", parts[i])
        m = split(parts[i], names, /, /)
        for (j = 1; j <= m; j++) {
            if (match(names[j], /\[/)) put(owner, substr(names[j], 1, RSTART - 1), spelled(its_type substr(names[j], RSTART)))
            else put(owner, names[j], spelled(its_type))
        }
    }
}
# `type name, const type *name, …`, where a text is of char, and bytes to whoever reads it
function read_prototype(owner, text,    parts, n, i, its_name) {
    known[++owners] = owner
    count[owner] = 0
    sub(/^[^(]*\(/, "", text)
    sub(/\).*/, "", text)
    if (text == "void") return
    n = split(text, parts, /, */)
    for (i = 1; i <= n; i++) {
        its_name = parts[i]
        sub(/.*[ *]/, "", its_name)
        sub(/[a-z0-9_]+$/, "", parts[i])
        sub(/ $/, "", parts[i])
        sub(/char \*/, "uint8_t *", parts[i])
        put(owner, its_name, spelled(parts[i]))
    }
}
# a type without the names that stand for others
function spelled(written,    done, word) {
    while (match(written, /[A-Za-z_][A-Za-z0-9_]*/)) {
        word = substr(written, RSTART, RLENGTH)
        done = done substr(written, 1, RSTART - 1) (word in alias ? alias[word] : word)
        written = substr(written, RSTART + RLENGTH)
    }
    return done written
}

# ---- the declarations for Rust

FILENAME ~ /\.rs$/ {
    sys = FILENAME
    sub(/\/\/.*/, "")
}
FILENAME ~ /\.rs$/ && /^pub type / {
    alias[$3] = $0
    sub(/.* = /, "", alias[$3])
    sub(/;$/, "", alias[$3])
}
FILENAME ~ /\.rs$/ && /^(macro_rules! structs|structs!|calls!) \{/ {
    block = $0
    text = ""
    next
}
FILENAME ~ /\.rs$/ && block != "" && /^}/ {
    if (block ~ /^structs/) read_structs(text)
    if (block ~ /^calls/) read_calls(text)
    block = ""
}
FILENAME ~ /\.rs$/ && block != "" { text = text " " $0 }
# an arm of the macro: the fields that an answer starts with, by the words that stand for them
FILENAME ~ /\.rs$/ && block ~ /^macro/ && /^    };/ {
    if (text ~ /\$name:ident \[[a-z ]*\] \{/) {
        words_of = text
        sub(/.*\$name:ident \[/, "", words_of)
        sub(/\].*/, "", words_of)
        if (words_of != "") {
            sub(/.*\$name \[\] \{/, "", text)
            sub(/\$\(\$field.*/, "", text)
        } else if (text ~ /#\[repr\(C\)\] .*pub struct \$name \{ \$\(pub \$field: \$type\),\* \}/) text = ""
        else wrong(sys ": cannot read the macro of the structs")
        leading[words_of] = text
    }
    text = ""
}
# `Name [words] { field: type, … } …`
function read_structs(text,    entry, owner, first) {
    while (match(text, /[A-Z][A-Za-z]* \[[a-z ]*\] \{[^}]*\}/)) {
        entry = substr(text, RSTART, RLENGTH)
        text = substr(text, 1, RSTART - 1) substr(text, RSTART + RLENGTH)
        owner = entry
        sub(/ .*/, "", owner)
        first = entry
        sub(/^[^[]*\[/, "", first)
        sub(/\].*/, "", first)
        if (!(first in leading)) wrong(sys ": " owner ": no fields for [" first "]")
        sub(/^[^{]*\{/, "", entry)
        sub(/\}$/, "", entry)
        read_rust(owner, leading[first] entry)
    }
    if (text !~ /^ *$/) wrong(sys ": cannot read `" text "`")
}
# `name(parameter: type, …) -> Answer; …`
function read_calls(text,    entry, owner) {
    while (match(text, /[a-z][a-z0-9_]*\([^)]*\) -> [A-Za-z0-9]+;/)) {
        entry = substr(text, RSTART, RLENGTH)
        text = substr(text, 1, RSTART - 1) substr(text, RSTART + RLENGTH)
        owner = entry
        sub(/\(.*/, "", owner)
        answer["Rust ox_" owner] = entry
        sub(/.* -> /, "", answer["Rust ox_" owner])
        sub(/;/, "", answer["Rust ox_" owner])
        sub(/^[^(]*\(/, "", entry)
        sub(/\).*/, "", entry)
        read_rust("ox_" owner, entry)
    }
    if (text !~ /^ *$/) wrong(sys ": cannot read `" text "`")
}
function read_rust(owner, list,    i) {
    owner = "Rust " owner
    known[++owners] = owner
    read_list(owner, list)
    for (i = 1; i <= count[owner]; i++) type[owner, i] = spelled(type[owner, i])
}

# ---- what they are to say

function in_rust(written,    done, word) {
    while (match(written, /[A-Za-z_][A-Za-z0-9_:]*/)) {
        word = substr(written, RSTART, RLENGTH)
        done = done substr(written, 1, RSTART - 1) (is_plain(word) ? word : struct_name("Rust", word))
        written = substr(written, RSTART + RLENGTH)
    }
    return done written
}
# the parameters of a call in C: a slice is two, and the length of a text has its name, or none where no text comes before
function expect_prototype(ours, theirs,    i, its_name, item, constant, texts) {
    for (i = 1; i <= count[ours]; i++) {
        its_name = declared("C", ours, name[ours, i])
        item = type[ours, i]
        constant = item ~ /^&\[/ ? "const " : ""
        if (!sub(/^&(mut )?\[/, "", item)) {
            put("expected", its_name, in_c(item))
            continue
        }
        put("expected", its_name, constant in_c(substr(item, 1, length(item) - 1)) " *")
        if (its_name in lengths) put("expected", lengths[its_name], "size_t")
        else if (++texts == 1 && name[theirs, count["expected"] + 1] == "length") put("expected", "length", "size_t")
        else put("expected", its_name "_length", "size_t")
    }
}
function expect(language, ours,    i) {
    for (i = 1; i <= count[ours]; i++)
        put("expected", declared(language, ours, name[ours, i]), language == "C" ? in_c(type[ours, i]) : in_rust(type[ours, i]))
}
# what is expected of OURS against THEIRS in FILE
function compare(ours, theirs, file, kind,    i) {
    named[theirs] = 1
    if (!(theirs in count)) wrong(ours " is not declared in " file)
    else
        for (i = 1; i <= count["expected"] || i <= count[theirs]; i++)
            same(ours ", " kind " " i, shown("expected", i), shown(theirs, i), file)
    count["expected"] = 0
}
function shown(owner, i) { return i > count[owner] ? "nothing" : name[owner, i] ": " type[owner, i] }
function same(what, expected, found, file) {
    has(expected == found, what ": `" expected "` in the crates, `" found "` in " file)
}

END {
    for (k = 1; k <= calls; k++) {
        ours = call[k]
        expect_prototype(ours, "C " ours)
        compare(ours, "C " ours, header, "parameter")
        same(ours ", answer", in_c(answer[ours]), answer["C " ours], header)
        expect("Rust", ours)
        compare(ours, "Rust " ours, sys, "parameter")
        same(ours ", answer", in_rust(answer[ours]), answer["Rust " ours], sys)
    }
    for (k = 1; k <= structs; k++) {
        ours = struct[k]
        theirs = struct_name("C", ours)
        expect("C", ours)
        same(ours ", last field", name["expected", count["expected"]], last_of[theirs], "OX_LAYOUT of " theirs)
        compare(ours, "C " theirs, header, "field")
        expect("Rust", ours)
        compare(ours, "Rust " struct_name("Rust", ours), sys, "field")
    }
    for (k = 1; k <= owners; k++) has(known[k] in named || known[k] in own, known[k] " is not exported")
    for (key in unused) wrong(key " has the same name everywhere, or is gone")
    print "interface: " calls + 0 " calls and " structs + 0 " structs"
    print passed + 0, failed + 0
}
