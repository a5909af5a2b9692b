//! The writer against a plain second statement of its rules, each byte of each output; and, where the original's sources are
//! at hand, against `write_record`, the headers and `my_adif_fields`. What is written is read back, by both.

use crate::generate::{Placed, Random, WHITE, damage, every, utf8};
use crate::harness::{Group, Input, Run};
use crate::notation::bars;
use oxbreathe::sys::{self, Written};
use oxbreathe::{LONGEST, writing};
use std::collections::BTreeMap;

pub fn run(run: &mut Run) {
    run.group("writing/names", names);
    run.group("writing/random", random);
    run.group("writing/outputs", outputs);
    run.group("writing/refused", refused);
    run.group("writing/limits", limits);
    run.group("writing/journal", journal);
    run.group("writing/export", export);
    run.group("writing/station", station);
}

// The rules once more, on Rust's str.

pub const CONTROL: [&str; 3] = ["EOH", "EOR", "APP_LOTW_EOF"];

/// The text that rows give, or the refusal.
pub fn expected(text: &[u8], table: &[u32], count: usize, room: usize) -> Result<Vec<u8>, u32> {
    if text.len() > LONGEST {
        return Err(1);
    }
    if count > table.len() / 5 {
        return Err(11);
    }
    let part = |place: u32, length: u32| {
        let bytes = text.get(place as usize..place as usize + length as usize).ok_or(11u32)?;
        std::str::from_utf8(bytes).map_err(|_| 11u32)
    };
    let (mut out, mut record, mut names, mut before) = (String::new(), 0, 0, String::new());
    // a text that is too long anyway is not made longer
    let put = |out: &mut String, part: &str| {
        if out.len() <= LONGEST {
            out.push_str(part)
        }
    };
    for row in table.chunks_exact(5).take(count) {
        let (name, value) = (part(row[1], row[2])?, part(row[3], row[4])?);
        let raised = name.to_ascii_uppercase();
        let next = row[0] == record + 1;
        if !next && (record == 0 || row[0] != record || before >= raised) {
            return Err(11);
        }
        if name.trim() != name || name.contains([':', '>']) || CONTROL.contains(&raised.as_str()) {
            return Err(12);
        }
        names = if next { 1 } else { names + 1 };
        if names > 256 {
            return Err(8);
        }
        if row[0] > 65_535 {
            return Err(9);
        }
        if next && record > 0 {
            put(&mut out, "<EOR>\n");
        }
        put(&mut out, &format!("<{raised}:{}>", value.len()));
        put(&mut out, value);
        put(&mut out, " ");
        (record, before) = (row[0], raised);
    }
    if count > 0 {
        put(&mut out, "<EOR>\n");
    }
    fitting(out, room)
}

pub fn fitting(out: String, room: usize) -> Result<Vec<u8>, u32> {
    match out.len() {
        n if n > LONGEST => Err(1),
        n if n > room => Err(13),
        _ => Ok(out.into_bytes()),
    }
}

/// An output of `room` bytes in the midst of others, none of which is to change but those that are written.
pub struct Output {
    pub bytes: Vec<u8>,
    room: usize,
}

const AROUND: usize = 9;

impl Output {
    pub fn new(room: usize) -> Output {
        // no byte like its neighbours, so that one that is moved shows
        Output { bytes: (0..room + 2 * AROUND).map(|i| (i * 37 + 11) as u8).collect(), room }
    }

    pub fn lent(&mut self) -> &mut [u8] {
        &mut self.bytes[AROUND..AROUND + self.room]
    }

    /// What the call has to answer, and all bytes as it has to leave them.
    pub fn after(&self, expected: &Result<Vec<u8>, u32>) -> (Written, Vec<u8>) {
        let mut bytes = self.bytes.clone();
        let answer = match expected {
            Ok(text) => {
                bytes[AROUND..AROUND + text.len()].copy_from_slice(text);
                Written { refusal: 0, length: text.len() }
            }
            Err(refusal) => Written { refusal: *refusal, length: 0 },
        };
        (answer, bytes)
    }
}

/// One call on an output of `room` bytes.
fn call(
    g: &mut Group,
    input: impl Input,
    room: usize,
    theirs: &Result<Vec<u8>, u32>,
    ours: impl FnOnce(&mut [u8]) -> Written,
) {
    let mut output = Output::new(room);
    let after = output.after(theirs);
    let answer = ours(output.lent());
    g.same(input, (answer, output.bytes), after);
}

// Rows, and what they are written from.

#[derive(Clone, Default)]
pub struct Rows {
    pub text: Vec<u8>,
    pub table: Vec<u32>,
}

impl Input for &Rows {
    fn size(&self) -> usize {
        self.text.len() + self.table.len()
    }
    fn show(&self) -> String {
        format!("{} {:?}", bars(&self.text), self.table)
    }
}

impl Rows {
    pub fn count(&self) -> usize {
        self.table.len() / 5
    }

    fn place(&mut self, part: &[u8]) -> [u32; 2] {
        self.text.extend_from_slice(part);
        [self.text.len() - part.len(), part.len()].map(|n| n as u32)
    }

    /// A row behind the others.
    pub fn add(&mut self, record: u32, name: &[u8], value: &[u8]) {
        let ([a, b], [c, d]) = (self.place(name), self.place(value));
        self.table.extend([record, a, b, c, d]);
    }
}

const NAMES: &[&str] = &[
    "CALL", "call", "Call", "BAND", "MODE", "QSO_DATE", "TIME_ON", "FREQ", "freq_rx", "RST_SENT", "A", "a", "B", "",
    "APP_X", "NAME_INTL", "é", "É", "A<B", "[", "_", "Z", "{", "EO", "EORR", "a b", "A\u{3000}B", "\u{200B}", "\0",
];

/// A name that can be written: a usual one, one printable character and more, or any UTF-8 that is trimmed so.
fn name(random: &mut Random) -> String {
    loop {
        let name = match random.below(4) {
            0 | 1 => random.pick(NAMES).to_string(),
            2 => (0..=random.below(4)).map(|_| (0x20 + random.below(0x5F) as u8) as char).collect(),
            _ => {
                let length = random.place(9);
                String::from_utf8(utf8(random, length)).unwrap()
            }
        };
        let name = name.trim().replace([':', '>'], "-");
        if !CONTROL.contains(&name.to_ascii_uppercase().as_str()) {
            return name;
        }
    }
}

fn value(random: &mut Random) -> Vec<u8> {
    let length = random.pick(&[0, 1, 1, 2, 4, 4, 9, 10, 30, 99, 100]);
    match random.below(8) {
        0 => b"<EOR>\n<EOH><A:1>x<EOR><APP_LOTW_EOF>\n"[..length.min(37)].to_vec(),
        1 => b"\r\n \n"[..length.min(4)].to_vec(),
        _ => utf8(random, length),
    }
}

/// Some records that can be written, most of few fields; the text holds other bytes between their parts.
pub fn document(random: &mut Random) -> Rows {
    let mut rows = Rows::default();
    for record in 1..=random.pick(&[0, 1, 1, 1, 2, 3, 7]) {
        let fields: BTreeMap<String, String> = (0..=random.pick(&[0, 1, 2, 3, 5, 12]))
            .map(|_| name(random))
            .map(|n| (n.to_ascii_uppercase(), n))
            .collect();
        for name in fields.values() {
            if random.below(4) == 0 {
                rows.text.push(random.next() as u8);
            }
            let value = value(random);
            rows.add(record, name.as_bytes(), &value);
        }
    }
    rows
}

/// Rows that are not as they must be, or are so still.
pub fn damaged(random: &mut Random) -> Rows {
    let mut rows = document(random);
    for _ in 0..=random.below(2) {
        let numbers = rows.table.len();
        match random.below(6) {
            0 => damage(random, &mut rows.text),
            1 if numbers > 0 => {
                let at = random.place(numbers);
                rows.table[at] = random.pick(&[0, 1, 2, 3, rows.text.len() as u32, 65_536, u32::MAX]);
            }
            2 if numbers > 0 => {
                let at = random.place(numbers);
                rows.table[at] = rows.table[at].wrapping_add(random.pick(&[1, u32::MAX]));
            }
            3 if numbers >= 10 => {
                let (a, b) = (random.place(numbers / 5), random.place(numbers / 5));
                (0..5).for_each(|i| rows.table.swap(a * 5 + i, b * 5 + i));
            }
            4 => {
                let bad = random.pick(&[" A", "A ", "A:B", "A>", "eor", "EOH", "app_lotw_eof", "\u{3000}", "\n"]);
                let record = rows.table.chunks(5).last().map_or(1, |row| row[0] + random.below(2) as u32);
                rows.add(record, bad.as_bytes(), b"x");
            }
            _ => rows.table.truncate(random.place(numbers + 1)),
        }
    }
    rows
}

// What is compared.

/// The rows on an output of `room` bytes, beside the rules.
fn same(g: &mut Group, rows: &Rows, count: usize, room: usize) {
    told(g, rows, count, room).ok();
}

/// And what the rules say.
fn told(g: &mut Group, rows: &Rows, count: usize, room: usize) -> Result<Vec<u8>, u32> {
    let theirs = expected(&rows.text, &rows.table, count, room);
    let placed = Placed::new(&mut g.random, &rows.text);
    call(g, rows, room, &theirs, |out| sys::write(placed.text(), &rows.table, count, out));
    theirs
}

/// The rows on an output that is long enough, beside the original; and what is written is read back.
fn written(g: &mut Group, rows: &Rows) {
    // of each row the name and the value, at most 12 bytes around them, and 6 behind
    let room = rows.table.chunks_exact(5).map(|row| (row[2] + row[4]) as usize + 18).sum::<usize>() + 40;
    let Ok(text) = told(g, rows, rows.count(), room) else { return };
    read_back(g, rows, &text);
    #[cfg(original)]
    beside::same(g, rows, &text);
}

/// A record by its names in capitals.
type Record = BTreeMap<String, String>;

fn records(text: &[u8], table: &[u32]) -> Vec<Record> {
    let part = |place: u32, length: u32| {
        std::str::from_utf8(&text[place as usize..(place + length) as usize]).unwrap().to_string()
    };
    let mut records: Vec<Record> = Vec::new();
    for row in table.chunks_exact(5) {
        records.resize(row[0] as usize, Record::new());
        let name = part(row[1], row[2]).to_ascii_uppercase();
        records[row[0] as usize - 1].insert(name, part(row[3], row[4]));
    }
    records
}

fn read_back(g: &mut Group, rows: &Rows, text: &[u8]) {
    let mut table = vec![9; rows.table.len() / 5 * 5];
    let read = sys::read(text, &mut table);
    g.same(rows, (read.refusal, read.rows), (0, rows.count()));
    g.same(rows, records(text, &table), records(&rows.text, &rows.table));
}

#[cfg(original)]
mod beside {
    //! The original, which takes names in capitals and knows no limits.
    use super::*;
    use original::adif::{parse_adif, write_record};

    pub fn same(g: &mut Group, rows: &Rows, text: &[u8]) {
        let records = records(&rows.text, &rows.table);
        let theirs: String = records.iter().map(write_record).collect();
        let text = std::str::from_utf8(text).unwrap();
        g.same(rows, text, &theirs);
        g.same(rows, parse_adif(text), Ok(records));
    }
}

/// Names of up to three parts, of every kind, in one record; and every character by itself as a name, and at both ends.
fn names(g: &mut Group) {
    let parts: Vec<&[u8]> =
        ["", " ", ":", ">", "<", "a", "Z", "é", "\u{3000}", "EOR", "eoh", "APP_LOTW_EOF", "_", "\n", "\0"]
            .map(str::as_bytes)
            .to_vec();
    let some = every(&parts, 3).collect::<Vec<_>>();
    for name in some {
        if name.len() > 3 && !g.takes(3) {
            continue;
        }
        one(g, &name);
    }
    let all = (0..=0x10_FFFFu32).filter_map(char::from_u32);
    let one_in = g.depth(2_000, 100) as u64;
    for c in all {
        if c as u32 > 0x100 && !WHITE.contains(&c) && g.random.below(one_in) > 0 {
            continue;
        }
        for name in [format!("{c}"), format!("{c}x"), format!("x{c}"), format!("x{c}y")] {
            one(g, name.as_bytes());
        }
    }
}

fn one(g: &mut Group, name: &[u8]) {
    let mut rows = Rows::default();
    rows.add(1, name, "é\n".as_bytes());
    written(g, &rows);
}

/// Random documents, each written, compared and read back.
fn random(g: &mut Group) {
    for _ in 0..g.depth(2_500, 1_000_000) {
        let rows = document(&mut g.random);
        written(g, &rows);
    }
}

/// Outputs of no room, one byte short, exact, longer; and the wrapper over them. The count is of rows that the table has,
/// or one more.
fn outputs(g: &mut Group) {
    for _ in 0..g.depth(500, 20_000) {
        let rows = document(&mut g.random);
        let (text, table, count) = (&rows.text, &rows.table, rows.count());
        let Ok(full) = expected(text, table, count, usize::MAX) else { continue };
        for room in [0, full.len().saturating_sub(1), full.len(), full.len() + 1, full.len() + 100] {
            same(g, &rows, count, room);
            same(g, &rows, count + 1, room);
            same(g, &rows, count / 2, room);
            let mut out = vec![7; room];
            let rows_of_five: Vec<_> = table.chunks_exact(5).map(|row| row.try_into().unwrap()).collect();
            let ours = writing::write(text, &rows_of_five, &mut out).map(<[u8]>::to_vec).map_err(|r| r.number());
            g.same(&rows, ours, expected(text, table, count, room));
        }
        same(g, &rows, usize::MAX, full.len());
    }
}

/// Rows that are refused, most of them: 11, 12.
fn refused(g: &mut Group) {
    let mut given = BTreeMap::new();
    for _ in 0..g.depth(5_000, 500_000) {
        let rows = damaged(&mut g.random);
        let count = rows.count() + (g.random.below(20) == 0) as usize;
        let room = g.random.pick(&[0, 30, 10_000]);
        let theirs = told(g, &rows, count, room);
        *given.entry(theirs.err().unwrap_or(0)).or_insert(0) += 1;
    }
    // each of them is reached here, and 1, 8 and 9 by the limits
    g.same(0, given.into_keys().collect::<Vec<u32>>(), vec![0, 11, 12, 13]);
}

/// What a limit refuses and what it lets through: 255 to 257 names; 65,534 to 65,536 records; the longest source text and
/// the longest output, and one byte more.
fn limits(g: &mut Group) {
    for names in 255..=257 {
        for record in [1, 2] {
            let mut rows = Rows::default();
            rows.add(1, b"A", b"");
            let first = if record == 1 { 1 } else { 0 };
            (first..names).for_each(|i| rows.add(record, format!("N{i:03}").as_bytes(), b"x"));
            written(g, &rows);
        }
    }
    for records in 65_534..=65_536 {
        let mut rows = Rows { text: b"A".to_vec(), table: vec![] };
        rows.table = (1..=records).flat_map(|record| [record, 0, 1, 0, 1]).collect();
        written(g, &rows);
    }
    for length in [LONGEST - 1, LONGEST, LONGEST + 1] {
        let rows = Rows { text: vec![b'A'; length], table: vec![1, 0, 1, 5, 100] };
        same(g, &rows, 1, 1_000);
        // `<A:16777190>`, ` <EOR>` and a newline are 19 bytes; and in two records, 19 and 18
        let mut rows = Rows { text: vec![b'A'; LONGEST], table: vec![1, 0, 1, 0, length as u32 - 19] };
        same(g, &rows, 1, length);
        same(g, &rows, 1, length - 1);
        rows.table = vec![1, 0, 1, 0, 10_000_000, 2, 0, 1, 0, length as u32 - 10_000_000 - 37];
        same(g, &rows, 2, LONGEST + 5);
    }
    // many times the longest output
    let table = (1..=20).flat_map(|record| [record, 0, 1, 0, LONGEST as u32]).collect();
    let rows = Rows { text: vec![b'A'; LONGEST], table };
    same(g, &rows, rows.count(), 100);
}

pub const JOURNAL: &str = "<ADIF_VER:5>3.1.6 <PROGRAMID:7>rigflow <EOH>\n";

/// The journal's header, byte for byte, into outputs of every length around its own.
fn journal(g: &mut Group) {
    let header = JOURNAL;
    #[cfg(original)]
    g.same(header, original::adif::adif_header(), header.to_string());
    for room in 0..=100 {
        call(g, room as u64, room, &fitting(header.to_string(), room), sys::journal_header);
    }
    let mut out = [0; 50];
    g.same(header, writing::journal_header(&mut out), Ok(header.as_bytes()));
}

fn field(name: &str, value: &str) -> String {
    format!("<{name}:{}>{value} ", value.len())
}

pub fn export_header([version, program, created]: [&str; 3]) -> String {
    let text = field("ADIF_VER", version) + &field("PROGRAMID", "rigflow");
    text + &field("PROGRAMVERSION", program) + &field("CREATED_TIMESTAMP", created) + "<EOH>\n"
}

pub fn station_fields([call, grid, name, state, county, cq, itu]: [&str; 7]) -> String {
    let fields = [
        ("MY_CNTY", county),
        ("MY_CQ_ZONE", cq),
        ("MY_GRIDSQUARE", grid),
        ("MY_ITU_ZONE", itu),
        ("MY_NAME", name),
        ("MY_STATE", state),
        ("OPERATOR", call),
        ("STATION_CALLSIGN", call),
    ];
    let given = fields.iter().filter(|(_, value)| !value.trim().is_empty());
    given.map(|(name, value)| field(name, value.trim())).collect()
}

/// Any text, not always UTF-8.
pub fn any(random: &mut Random) -> Vec<u8> {
    let mut text = value(random);
    if random.below(3) == 0 {
        let white = random.pick(&WHITE);
        text.splice(0..0, white.to_string().bytes());
        text.extend(white.to_string().bytes());
    }
    if random.below(12) == 0 {
        damage(random, &mut text);
    }
    text
}

/// Outputs as in [`outputs`], for a call whose expected text is known.
fn rooms(g: &mut Group, input: &[u8], theirs: Result<String, u32>, ours: impl Fn(&mut [u8]) -> Written) {
    let length = theirs.as_ref().map_or(50, String::len);
    for room in [0, length.saturating_sub(1), length, length + 1, length + 50] {
        let theirs = theirs.clone().and_then(|text| fitting(text, room));
        call(g, (input, room as u64), room, &theirs, &ours);
    }
}

fn export(g: &mut Group) {
    for _ in 0..g.depth(1_000, 50_000) {
        let texts: [Vec<u8>; 3] = std::array::from_fn(|_| any(&mut g.random));
        let theirs = strs(texts.each_ref().map(Vec::as_slice)).map(|[version, program, created]| {
            let text = export_header([version, program, created]);
            #[cfg(original)]
            g.same(&texts.concat()[..], original::adif::export_header(version, program, created), text.clone());
            text
        });
        let [version, program, created] = &texts;
        rooms(g, &texts.concat(), theirs, |out| sys::export_header(version, program, created, out));
    }
    // the whole header of one byte less than the limit, of the limit, and of one more; and a text that is longer still
    let around = field("ADIF_VER", "").len() + field("PROGRAMID", "rigflow").len() + field("PROGRAMVERSION", "").len();
    let around = around + field("CREATED_TIMESTAMP", "").len() + "<EOH>\n".len() + "16777000".len() - 1;
    for length in [LONGEST - 1, LONGEST, LONGEST + 1, 2 * LONGEST] {
        let long = vec![b'x'; length - around];
        let text = format!("<ADIF_VER:{}>{} ", long.len(), std::str::from_utf8(&long).unwrap())
            + "<PROGRAMID:7>rigflow <PROGRAMVERSION:0> <CREATED_TIMESTAMP:0> <EOH>\n";
        call(g, length as u64, LONGEST, &fitting(text, LONGEST), |out| sys::export_header(&long, b"", b"", out));
    }
}

/// The texts as `str`; else 11 where one is not UTF-8, and then 1 where one is too long.
pub fn strs<const N: usize>(texts: [&[u8]; N]) -> Result<[&str; N], u32> {
    let mut all = [""; N];
    for (slot, text) in all.iter_mut().zip(texts) {
        *slot = std::str::from_utf8(text).map_err(|_| 11u32)?;
    }
    if texts.iter().any(|text| text.len() > LONGEST) {
        return Err(1);
    }
    Ok(all)
}

fn station(g: &mut Group) {
    for _ in 0..g.depth(1_000, 50_000) {
        let texts: [Vec<u8>; 7] = std::array::from_fn(|_| any(&mut g.random));
        let theirs = strs(texts.each_ref().map(Vec::as_slice)).map(|[call, grid, name, state, county, cq, itu]| {
            let text = station_fields([call, grid, name, state, county, cq, itu]);
            #[cfg(original)]
            {
                let theirs = original::model::Station {
                    station_call: call.to_string(),
                    // an absent text is an empty one here
                    gridsquare: (!grid.is_empty()).then(|| grid.to_string()),
                    name: Some(name.to_string()),
                    my_state: Some(state.to_string()),
                    my_county: (!county.is_empty()).then(|| county.to_string()),
                    cq_zone: Some(cq.to_string()),
                    itu_zone: Some(itu.to_string()),
                };
                let theirs: String = theirs.my_adif_fields().iter().map(|(name, value)| field(name, value)).collect();
                g.same(&texts.concat()[..], theirs, text.clone());
            }
            text
        });
        let [call, grid, name, state, county, cq, itu] = &texts;
        rooms(g, &texts.concat(), theirs, |out| sys::station_fields(call, grid, name, state, county, cq, itu, out));
    }
    let mut out = [0; 60];
    let station = writing::Station { call: " W1AW", cq_zone: "5", ..writing::Station::default() };
    let fields = b"<MY_CQ_ZONE:1>5 <OPERATOR:4>W1AW <STATION_CALLSIGN:4>W1AW ";
    g.same("a station", writing::station_fields(&station, &mut out), Ok(&fields[..]));
    // "11 for a text not UTF-8, 1, 13": 1 is for any of the texts, also one that would be trimmed away, and for what is written
    let long = |length: usize, with: u8| {
        let mut text = vec![b' '; length];
        text[length / 2] = with;
        text
    };
    let (blank, over, bad) = (long(LONGEST, b' '), long(LONGEST + 1, b' '), long(LONGEST + 1, 0xFF));
    let whole = vec![b'x'; LONGEST];
    for k in 0..7 {
        let with = |text: &[u8], out: &mut [u8], other: &[u8]| {
            let mut texts = [other; 7];
            texts[k] = text;
            let [call, grid, name, state, county, cq, itu] = texts;
            sys::station_fields(call, grid, name, state, county, cq, itu, out)
        };
        for room in [0, 100] {
            call(g, k as u64, room, &Ok(Vec::new()), |out| with(&blank, out, b""));
            call(g, k as u64, room, &Err(1), |out| with(&over, out, b""));
            call(g, k as u64, room, &Err(1), |out| with(&whole, out, b""));
            call(g, k as u64, room, &Err(11), |out| with(&bad, out, b""));
            call(g, k as u64, room, &Err(11), |out| with(&over, out, b"\xFF"));
        }
    }
}
