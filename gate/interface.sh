#!/bin/sh
# What the crates export is what include/oxbreathe.h and host/oxbreathe/src/sys.rs declare, by the name, the place and the type of each
# parameter and field; each call has an example in the header and is made by the C program's own test; each that takes a text is asked for
# its limits; and each safe function of the Rust crate is given hostile bytes.
set -u
cd "$(dirname "$0")/.." || exit 1
header=include/oxbreathe.h sys=host/oxbreathe/src/sys.rs
passed=0 failed=0
log=$(mktemp -d)
trap 'rm -rf "$log"' EXIT
exported=$(sed -n 's/^pub extern "C" fn \(ox_[a-z0-9_]*\)(.*/\1/p' crates/ox_*/src/*.rt)
safe=$(find host/oxbreathe/src -name '*.rs' ! -name sys.rs -exec sed -n 's/^ *pub fn \([a-z_]*\).*/\1/p' {} + | sort -u)

# tested STATUS COMPLAINT: one test
tested() {
    if [ "$1" = 0 ]; then
        passed=$((passed + 1))
    else
        failed=$((failed + 1))
        echo "interface: $2"
    fi
}
# has NAME WHAT PATTERN FILE: one test
has() {
    grep -q -e "$3" "$4"
    tested $? "$1 $2 $4"
}
# held FILE..: the declarations in the last two against the sources before them; the last line says how many passed and failed
held() { awk -f gate/exported.awk -f gate/interface.awk "$@"; }
# fault FILE EDIT COMPLAINT..: with that edit of a file, held complains so; else it might be holding nothing
fault() {
    edited=$1 edit=$2
    shift 2
    mkdir -p "$log/$(dirname "$edited")"
    sed "$edit" "$edited" >"$log/$edited"
    # shellcheck disable=SC2046
    held $(printf '%s\n' crates/*/src/*.rt $header $sys | sed "s|^$edited\$|$log/&|") | sed 's/^interface: //; s/: `.*//' >"$log/told"
    for complaint; do
        grep -q -x -F "$complaint" "$log/told"
        tested $? "$edited with $edit: not told: $complaint"
    done
}

# exchange ONE OTHER PLACE: the edit that exchanges two words in the list of fields or parameters that starts there
exchange() { printf '%s\n' "/$3/,/[})]/ { s/\\<$1/@/g; s/\\<$2/$1/g; s/@/$2/g; }"; }

held crates/*/src/*.rt $header $sys >"$log/told"
sed '$d' "$log/told"
# shellcheck disable=SC2046
set -- $(tail -n 1 "$log/told")
passed=$((passed + ${1:-0})) failed=$((failed + ${2:-1}))

# where nothing is wrong yet
[ "$failed" -gt 0 ] || {
    fault $header "$(exchange given negative 'struct ox_dxcc')" 'model::Dxcc, field 1' 'model::Dxcc, field 2'
    fault $header 's/uint32_t order;/uint64_t order;/' 'ox_text::Ordered, field 3'
    fault $header '/^OX_LAYOUT(ox_contact,/d' 'index::Contact, last field'
    fault $header 's/size_t at;/& bool more;/' 'ox_text::Found, field 4'
    fault $header "$(exchange grid name '^ox_.* ox_station_fields(')" 'ox_station_fields, parameter 3' 'ox_station_fields, parameter 5'
    fault $header "$(exchange numbers first '^ox_.* ox_record_to_qso(')" 'ox_record_to_qso, parameter 4' 'ox_record_to_qso, parameter 5'
    fault $header 's/^ox_qso_answer ox_normalize_qso/ox_qso_written ox_normalize_qso/' 'ox_normalize_qso, answer'
    fault $sys "$(exchange start end 'Trimmed \[')" 'ox_text::Trimmed, field 3' 'ox_text::Trimmed, field 4'
    fault $sys 's/refusal: u32, place: usize, \$/place: usize, refusal: u32, $/' 'ox_text::Told, field 1' 'ox_text::Told, field 2'
    fault $sys "$(exchange first count 'record_to_qso(')" 'ox_record_to_qso, parameter 3' 'ox_record_to_qso, parameter 4'
    fault crates/ox_writer/src/lib.rt "$(exchange grid name 'fn ox_station_fields(')" \
        'ox_station_fields, parameter 2' 'ox_station_fields, parameter 5'
    fault crates/tables/src/lib.rt 's/pub start: u32/pub start: u64/' 'tables::Place, field 2'
    fault crates/index/src/lib.rt '/repr(C)/d' 'ox_contacts_index: no #[repr(C)] pub struct index::Contact'
    fault crates/ox_reader/src/lib.rt 's/^pub extern "C" fn/pub fn/' 'C ox_read is not exported' 'Rust ox_read is not exported'
}

for call in $exported; do
    has "$call" 'has no example in' "^ \*     .*\<$call(" $header
    has "$call" 'is not called in' "\<$call(" host/importer/selftest.c
done
# those that take a text or a list
for call in $(awk '/^pub extern "C" fn/ {call = $5; sub(/\(.*/, "", call)} call != "" && /[a-z]: &\[u8\]/ {print call; call = ""} /^\{/ {call = ""}' \
    crates/ox_*/src/*.rt); do
    has "$call" 'is not asked for its limits in' "sys::${call#ox_}(" host/compare/limits.rs
done
for function in $safe; do
    has "$function" 'is not called in' "[:.]$function\>" host/compare/hostile.rs
done
echo "interface: $passed passed, $failed failed"
[ "$failed" = 0 ] && [ "$passed" -gt 0 ]
