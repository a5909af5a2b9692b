# What the crates export, read from their Rattle sources, for the scripts that hold the declarations for C and for Rust against it:
#   call[1..calls]: count[CALL] parameters, name[CALL, i] and type[CALL, i], and answer[CALL]
#   struct[1..structs], inner before outer: count[STRUCT] fields, name[STRUCT, i] and type[STRUCT, i]
# A struct has its crate before its name, since two crates have a `Frequency`. What cannot be read is told to wrong(), which is the
# script's own, so that nothing is left out in silence.
BEGIN {
    # the names that a declaration does not share: in Rattle, in the header, in sys.rs
    differs("model::Frequency", "ox_hertz", "Hertz")                 # `Frequency` is the answer about a text
    differs("ox_import::LineAnswer", "ox_written", "Written")        # one answer of every call that writes
    differs("index::Contact", "ox_contact", "Record")                # the Rust crate's `Contact` has texts
    differs("tables::Place.len", "length", "len")                    # C's users know both of these as `length`
    differs("tables::Name.len", "length", "len")
    differs("ox_normalize::Classified.class", "mode_class", "class") # a keyword of C++, here and in the two calls
    differs("ox_class_modes.class", "mode_class", "class")
    differs("ox_class_name.class", "mode_class", "class")
    differs("ox_text_find.b", "byte", "byte")                        # a letter says too little to whoever only calls
    differs("ox_text_digits.n", "number", "number")
    differs(".s", "text", "text")                                    # in every call that has it

    c_type["u8"] = "uint8_t"
    c_type["u32"] = "uint32_t"
    c_type["u64"] = "uint64_t"
    c_type["i64"] = "int64_t"
    c_type["usize"] = "size_t"
    c_type["bool"] = "bool"
}
function differs(rattle, c, rust) {
    other["C", rattle] = c
    other["Rust", rattle] = rust
    unused[rattle] = 1
}
# the name in LANGUAGE of what is PLAIN in OWNER, a call or a struct
function declared(language, owner, plain,    key) {
    key = owner "." plain
    if (!((language, key) in other)) key = "." plain
    if (!((language, key) in other)) return plain
    delete unused[key]
    return other[language, key]
}
# that of a struct: in C in small letters, behind ox_
function struct_name(language, rattle,    plain, small) {
    if ((language, rattle) in other) {
        delete unused[rattle]
        return other[language, rattle]
    }
    plain = rattle
    sub(/.*::/, "", plain)
    if (language != "C") return plain
    while (match(plain, /[A-Z]/)) {
        small = small substr(plain, 1, RSTART - 1) "_" tolower(substr(plain, RSTART, 1))
        plain = substr(plain, RSTART + 1)
    }
    return "ox" small plain
}
# a type in C, an array as type[n]
function in_c(rattle,    n) {
    if (rattle ~ /^\[/) {
        n = rattle
        sub(/.*; /, "", n)
        return in_c(substr(rattle, 2, length(rattle) - length(n) - 3)) "[" n
    }
    return is_plain(rattle) ? c_type[rattle] : struct_name("C", rattle)
}
function is_plain(word) { return word == "mut" || word in c_type }
# something of that type as C declares it
function declaration(rattle, its_name,    in_words, at) {
    in_words = in_c(rattle)
    at = index(in_words "[", "[")
    return substr(in_words, 1, at - 1) " " its_name substr(in_words, at)
}

FILENAME ~ /\.rt$/ { sub(/\/\/.*/, "") }
FILENAME ~ /\.rt$/ && FNR == 1 {
    crate = FILENAME
    sub(/\/src\/.*/, "", crate)
    sub(/.*\//, "", crate)
    split("", imported)
}
# `use path::Name;`, or `use path::{Name, Other};`
FILENAME ~ /\.rt$/ && (using != "" || /^use /) {
    using = using " " $0
    if (using ~ /;/) {
        sub(/^ *use +/, "", using)
        sub(/;.*/, "", using)
        path = using
        sub(/\{.*/, "", path)
        if (path == using) sub(/[A-Za-z0-9_]*$/, "", path)
        listed = substr(using, length(path) + 1)
        gsub(/[{} ]/, "", listed)
        for (k = split(listed, names, ","); k > 0; k--) if (names[k] != "") imported[names[k]] = path names[k]
        using = ""
    }
}
FILENAME ~ /\.rt$/ && /^#\[unsafe\(no_mangle\)\]/ { marked++ }
# a struct up to its brace, a call up to the line on which its parameters end, where its answer stands
FILENAME ~ /\.rt$/ && (item != "" || represented && /^pub struct / || /extern "C" fn /) {
    item = item " " $0
    if (item ~ /^ pub struct / ? /\}/ : /\)/) {
        if (item ~ /^ pub struct /) read_struct(item)
        else read_call(item)
        item = ""
    }
}
FILENAME ~ /\.rt$/ { represented = /^#\[repr\(C\)\]/ || represented && /^(#\[.*)?$/ }

function read_struct(item,    whole) {
    whole = item
    sub(/^ pub struct /, "", whole)
    sub(/[^A-Za-z0-9_].*/, "", whole)
    whole = crate "::" whole
    if (whole in count) wrong(whole " is declared twice")
    sub(/^[^{]*\{/, "", item)
    sub(/\}.*/, "", item)
    gsub(/ pub /, " ", item)
    read_list(whole, item)
    in_crates(whole)
}
function read_call(item,    exported) {
    exported = item
    sub(/.* fn /, "", exported)
    sub(/\(.*/, "", exported)
    if (exported in count) wrong(exported " is exported twice")
    call[++calls] = exported
    answer[exported] = item
    if (!sub(/.*\) -> /, "", answer[exported])) wrong(exported ": cannot read its answer")
    sub(/ .*/, "", answer[exported])
    answer[exported] = in_crate(answer[exported])
    sub(/^[^(]*\(/, "", item)
    sub(/\).*/, "", item)
    read_list(exported, item)
    in_crates(exported)
}
# `name: type, …`, the parameters or the fields of OWNER
function read_list(owner, list,    parts, n, i, at) {
    count[owner] = 0
    n = split(list, parts, ",")
    for (i = 1; i <= n; i++) {
        gsub(/^ +| +$/, "", parts[i])
        if (parts[i] == "") continue
        at = index(parts[i], ": ")
        if (!at) wrong(owner ": cannot read `" parts[i] "`")
        put(owner, substr(parts[i], 1, at - 1), substr(parts[i], at + 2))
    }
}
function put(owner, its_name, its_type) {
    name[owner, ++count[owner]] = its_name
    type[owner, count[owner]] = its_type
}
function in_crates(owner,    i) {
    for (i = 1; i <= count[owner]; i++) type[owner, i] = in_crate(type[owner, i])
}
# a type, each struct in it behind its crate
function in_crate(written,    done, word, steps, n) {
    while (match(written, /[A-Za-z_][A-Za-z0-9_:]*/)) {
        word = substr(written, RSTART, RLENGTH)
        done = done substr(written, 1, RSTART - 1)
        written = substr(written, RSTART + RLENGTH)
        if (!is_plain(word)) {
            split(word, steps, "::")
            if (steps[1] in imported) word = imported[steps[1]] substr(word, length(steps[1]) + 1)
            else if (steps[1] == word) word = crate "::" word
            n = split(word, steps, "::")
            word = (steps[1] == "crate" ? crate : steps[1]) "::" steps[n]
        }
        done = done word
    }
    return done written
}
# the structs in a type of OWNER
function reach(owner, written,    word, i) {
    while (match(written, /[A-Za-z_][A-Za-z0-9_:]*/)) {
        word = substr(written, RSTART, RLENGTH)
        written = substr(written, RSTART + RLENGTH)
        if (is_plain(word) || word in met) continue
        met[word] = 1
        if (!(word in count)) wrong(owner ": no #[repr(C)] pub struct " word)
        for (i = 1; i <= count[word]; i++) reach(word, type[word, i])
        struct[++structs] = word
    }
}

END {
    if (calls == 0 || calls != marked) wrong(calls + 0 " calls were read, and " marked + 0 " are marked #[unsafe(no_mangle)]")
    for (k = 1; k <= calls; k++) {
        for (i = 1; i <= count[call[k]]; i++) reach(call[k], type[call[k], i])
        reach(call[k], answer[call[k]])
    }
    if (structs == 0) wrong("no struct was read")
}
