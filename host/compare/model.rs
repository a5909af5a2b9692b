//! Contacts: a record mapped and normalised, the library beside the original; whole texts, as `parse_adif_to_qsos`; and which rows
//! and which QSOs are refused, beside a plain second statement of the rules.

use crate::generate::{Random, damage, utf8};
use crate::harness::{Group, Run};
use crate::vectors::COLUMNS;
use original::adif::{AdifRecord, parse_adif_to_qsos, record_to_qso, write_record};
use original::model::Qso;
use oxbreathe::sys::{self, ColumnAnswer, Place, QsoAnswer};
use oxbreathe::{LONGEST, normalize};

pub fn run(run: &mut Run) {
    run.group("model/columns", columns);
    run.group("model/records", records);
    run.group("model/texts", texts);
    run.group("model/rows", rows);
    run.group("model/places", places);
    run.group("model/flags", odd_flags);
}

// A record over a text of its own, as the reader would give it.

pub struct Laid {
    pub text: Vec<u8>,
    pub table: Vec<u32>,
}

/// The fields at places of their own in one text, in the order of their names, as record `number`.
pub fn laid(random: &mut Random, record: &AdifRecord, number: u32) -> Laid {
    let mut text = Vec::new();
    let mut put = |part: &str| {
        let place = text.len();
        text.extend_from_slice(part.as_bytes());
        [place as u32, part.len() as u32]
    };
    let mut table = Vec::new();
    for (name, value) in record {
        let cased = if random.below(3) == 0 { name.to_ascii_lowercase() } else { name.clone() };
        table.push(number);
        table.extend(put(&cased));
        put(random.pick(&["", " ", "é"]));
        table.extend(put(value));
    }
    Laid { text, table }
}

const FREQUENCIES: [&str; 20] = [
    "14.074", "7.1", " 7.150 ", "0.4745", "1296.2", "5.3585", "-7.1", "-0", "nan", "inf", "-inf", "1e3", "1e14", "7,1",
    "", " ", "9007199254740993", "0.1357", "7.3000005", "1e-30",
];
const BANDS: [&str; 14] =
    ["40m", "40M", " 20m ", "70CM", "1.25M", "2190m", "", " ", "\t", "FOO ", "40 m", "23cm\u{3000}", "m", "é"];
const MODES: [&str; 18] = [
    "SSB", "usb", " LSB", "FT4", "js8 ", "PSK31", "MFSK", "cw", "CWU", "DATA", "", " ", "JT65B", "FT8", "Olivia 8/250",
    "é", "40m", "dig",
];
const ENTITIES: [&str; 14] = [
    "291", " 291 ", "+7", "-7", "-0", "0", "", " ", "9223372036854775807", "9223372036854775808",
    "-9223372036854775808", "-9223372036854775809", "7x", "١",
];
pub const EXTRA: [&str; 12] = [
    "NAME", "COMMENT", "APP_X_Y", "A", "ZZZ", "BAND_R", "CALLSIGN", "MY_GRIDSQUARE", "QSO_DATE_OFF", "", "NOTES_INTL",
    "É",
];

pub fn value(random: &mut Random, column: &str) -> String {
    if random.below(12) == 0 {
        let length = random.place(9);
        return String::from_utf8(utf8(random, length)).unwrap();
    }
    let of: &[&str] = match column {
        "FREQ" | "FREQ_RX" => &FREQUENCIES,
        "BAND" | "BAND_RX" => &BANDS,
        "MODE" | "SUBMODE" => &MODES,
        "DXCC" => &ENTITIES,
        _ => &["W1AW", "20260301", "1200", "599", "FN31", "", " ", "59é"],
    };
    if matches!(column, "FREQ" | "FREQ_RX") && random.below(2) == 0 {
        return format!("{}.{:0w$}", random.below(1400), random.below(1_000_000), w = random.place(7));
    }
    random.pick(of).to_string()
}

/// Every column present, absent, blank or odd, and some extra fields.
pub fn random_record(random: &mut Random) -> AdifRecord {
    let mut record = AdifRecord::new();
    let rare = random.below(4);
    for column in COLUMNS {
        if random.below(4) > rare {
            record.insert(column.to_string(), value(random, column));
        }
    }
    for _ in 0..random.below(5) {
        let name = if random.below(4) == 0 {
            let length = random.place(9);
            String::from_utf8(utf8(random, length)).unwrap().trim().to_ascii_uppercase()
        } else {
            random.pick(&EXTRA).to_string()
        };
        record.insert(name, value(random, ""));
    }
    record
}

// The library's answer as the original's struct.

fn spelled(text: &[u8], place: Place) -> Option<String> {
    let part = || std::str::from_utf8(&text[place.start as usize..][..place.len as usize]).unwrap();
    match place.kind {
        0 => None,
        1 => Some(part().to_string()),
        2 => Some(part().to_ascii_uppercase()),
        3 => Some(normalize::known_bands().nth(place.start as usize).unwrap().name().to_string()),
        4 => Some(name_of(place)),
        kind => panic!("a place of kind {kind}"),
    }
}

fn name_of(place: Place) -> String {
    let name = sys::entry_name(place.kind, place.start);
    String::from_utf8(name.bytes[..name.len].to_vec()).unwrap()
}

pub fn told(text: &[u8], table: &[u32], qso: &sys::Qso) -> Qso {
    let column = |k: usize| spelled(text, qso.columns[k]);
    let part =
        |place: u32, length: u32| std::str::from_utf8(&text[place as usize..][..length as usize]).unwrap().to_string();
    let rows = table.chunks_exact(5);
    let extra = rows.filter(|row| sys::column(part(row[1], row[2]).as_bytes()).column == 13);
    Qso {
        call: column(0).unwrap_or_default(),
        qso_date: column(1).unwrap_or_default(),
        time_on: column(2).unwrap_or_default(),
        band: column(3).unwrap_or_default(),
        mode: column(4).unwrap_or_default(),
        submode: column(5),
        freq_hz: (qso.freq.given == 1).then_some(qso.freq.hz),
        freq_rx_hz: (qso.freq_rx.given == 1).then_some(qso.freq_rx.hz),
        band_rx: column(8),
        rst_sent: column(9),
        rst_rcvd: column(10),
        gridsquare: column(11),
        dxcc: (qso.dxcc.given == 1).then(|| {
            let size = qso.dxcc.size as i128;
            i64::try_from(if qso.dxcc.negative == 1 { -size } else { size }).unwrap()
        }),
        extra: extra.map(|row| (part(row[1], row[2]).to_ascii_uppercase(), part(row[3], row[4]))).collect(),
    }
}

/// The original's answer; where the library refuses with 15, without both frequencies.
fn mapped(record: &AdifRecord, refusal: u32) -> Qso {
    let mut qso = record_to_qso(record);
    if refusal == 15 {
        (qso.freq_hz, qso.freq_rx_hz) = (None, None);
    }
    qso
}

/// Whether a frequency of the record is outside the exact window, by the library's own call, which has groups of its own.
pub fn inexact(record: &AdifRecord) -> bool {
    ["FREQ", "FREQ_RX"]
        .iter()
        .any(|name| record.get(*name).is_some_and(|text| sys::mhz_to_hz(text.as_bytes()).refusal == 15))
}

// The groups.

fn columns(g: &mut Group) {
    for (number, name) in COLUMNS.iter().enumerate() {
        for other in
            [name.to_string(), name.to_ascii_lowercase(), name[1..].to_string(), format!("{name}S"), format!(" {name}")]
        {
            let is = other.eq_ignore_ascii_case(name);
            let expected =
                if is { number } else { COLUMNS.iter().position(|c| c.eq_ignore_ascii_case(&other)).unwrap_or(13) };
            let answer = sys::column(other.as_bytes());
            g.same(other.as_str(), (answer.refusal, answer.place, answer.column as usize), (0, 0, expected));
        }
    }
    for name in EXTRA {
        g.same(name, sys::column(name.as_bytes()).column, 13);
    }
    // any bytes, most of them a name with one byte changed: as `from_utf8` says, and then as the names do
    for _ in 0..g.depth(2_000, 200_000) {
        let mut name = g.random.pick(&COLUMNS).as_bytes().to_vec();
        damage(&mut g.random, &mut name);
        let theirs = match std::str::from_utf8(&name) {
            Ok(name) => {
                let column = COLUMNS.iter().position(|c| c.eq_ignore_ascii_case(name)).unwrap_or(13) as u32;
                ColumnAnswer { column, ..ColumnAnswer::default() }
            }
            Err(error) => ColumnAnswer { refusal: 2, place: error.valid_up_to(), column: 0 },
        };
        g.same(&name[..], sys::column(&name), theirs);
    }
    for (length, refusal, column) in [(LONGEST, 0, 13), (LONGEST + 1, 1, 0)] {
        g.same(length as u64, sys::column(&vec![b' '; length]), ColumnAnswer { refusal, place: 0, column });
    }
}

/// One record mapped, normalised, and normalised again.
fn record_same(g: &mut Group, record: &AdifRecord) {
    let number = 1 + g.random.below(3) as u32;
    let Laid { text, mut table } = laid(&mut g.random, record, number);
    let count = table.len() / 5;
    // other rows before and after
    let first = g.random.place(3);
    for _ in 0..first * 5 {
        table.insert(0, 7);
    }
    table.extend([9; 3]);
    let r = sys::record_to_qso(&text, &table, first, count);
    let rows = &table[first * 5..][..count * 5];
    let theirs = mapped(record, r.refusal);
    let shown = write_record(record);
    g.same(
        shown.as_str(),
        (r.refusal, told(&text, rows, &r.qso)),
        (if inexact(record) { 15 } else { 0 }, theirs.clone()),
    );
    let mut normal = theirs;
    normal.normalize();
    let n = sys::normalize_qso(&text, r.qso);
    g.same(shown.as_str(), (n.refusal, told(&text, rows, &n.qso)), (0, normal));
    let both = sys::record_to_normal_qso(&text, &table, first, count);
    g.same(shown.as_str(), both, QsoAnswer { refusal: r.refusal, ..n });
    g.same(shown.as_str(), told(&text, rows, &sys::normalize_qso(&text, n.qso).qso), told(&text, rows, &n.qso));
}

fn records(g: &mut Group) {
    record_same(g, &AdifRecord::new());
    for column in COLUMNS {
        for value in FREQUENCIES.iter().chain(&BANDS).chain(&MODES).chain(&ENTITIES) {
            record_same(g, &AdifRecord::from([(column.to_string(), value.to_string())]));
        }
    }
    for band in BANDS {
        for frequency in FREQUENCIES {
            let pairs = [("BAND", band), ("FREQ", frequency), ("BAND_RX", band), ("FREQ_RX", frequency)];
            record_same(g, &pairs.iter().map(|(name, value)| (name.to_string(), value.to_string())).collect());
        }
    }
    for mode in MODES {
        for submode in MODES {
            record_same(g, &[("MODE", mode), ("SUBMODE", submode)].map(|(n, v)| (n.to_string(), v.to_string())).into());
        }
    }
    for _ in 0..g.depth(4_000, 1_000_000) {
        let record = random_record(&mut g.random);
        record_same(g, &record);
    }
}

/// Whole texts, read, mapped and normalised.
fn texts(g: &mut Group) {
    for _ in 0..g.depth(300, 50_000) {
        let mut text = String::new();
        for _ in 0..g.random.below(5) {
            let record = random_record(&mut g.random);
            if !inexact(&record) {
                text += &write_record(&record);
            }
        }
        let mut text = text.into_bytes();
        if g.random.below(3) == 0 {
            damage(&mut g.random, &mut text);
        }
        let Ok(text) = std::str::from_utf8(&text) else { continue };
        let mut table = vec![0; text.len()];
        let read = sys::read(text.as_bytes(), &mut table);
        let theirs = parse_adif_to_qsos(text).map_err(|_| ());
        if read.refusal != 0 {
            g.same(text, Err(()), theirs);
            continue;
        }
        let used = &table[..read.rows * 5];
        let mut first = 0;
        let mut ours = Vec::new();
        let mut exact = true;
        for number in 1..=read.records as u32 {
            let count = used.chunks_exact(5).filter(|row| row[0] == number).count();
            let r = sys::record_to_qso(text.as_bytes(), used, first, count);
            exact &= r.refusal == 0;
            let n = sys::normalize_qso(text.as_bytes(), r.qso);
            ours.push(told(text.as_bytes(), &used[first * 5..][..count * 5], &n.qso));
            first += count;
        }
        if exact {
            g.same(text, Ok(ours), theirs);
        }
    }
}

/// Which rows are a record's, once more.
fn is_record(text: &[u8], table: &[u32], first: usize, count: usize) -> bool {
    let rows: Vec<&[u32]> = table.chunks_exact(5).collect();
    let Some(rows) = first.checked_add(count).and_then(|end| rows.get(first..end)) else { return false };
    let part =
        |place: u32, length: u32| text.get(place as usize..place as usize + length as usize).map(std::str::from_utf8);
    let sound = |row: &&[u32]| matches!((part(row[1], row[2]), part(row[3], row[4])), (Some(Ok(_)), Some(Ok(_))));
    let name = |row: &[u32]| text[row[1] as usize..][..row[2] as usize].to_ascii_uppercase();
    rows.iter().all(sound)
        && rows.iter().all(|row| row[0] > 0 && row[0] == rows[0][0])
        && rows.windows(2).all(|w| name(w[0]) < name(w[1]))
}

fn rows(g: &mut Group) {
    for _ in 0..g.depth(3_000, 200_000) {
        let record = random_record(&mut g.random);
        let Laid { text, mut table } = laid(&mut g.random, &record, 1);
        let (mut first, mut count) = (0, table.len() / 5);
        match g.random.below(5) {
            0 if !table.is_empty() => {
                let i = g.random.place(table.len());
                table[i] = g.random.pick(&[
                    0,
                    1,
                    2,
                    u32::MAX,
                    table[i].wrapping_add(1),
                    table[i].wrapping_sub(1),
                    text.len() as u32,
                ]);
            }
            1 if count > 1 => {
                let i = g.random.place(count - 1) * 5;
                table[i..i + 10].rotate_left(5);
            }
            2 => first = g.random.pick(&[1, 2, usize::MAX, usize::MAX / 5]),
            3 => count = g.random.pick(&[0, count + 1, usize::MAX, count.saturating_sub(1)]),
            _ => (),
        }
        let r = sys::record_to_qso(&text, &table, first, count);
        let good = is_record(&text, &table, first, count);
        g.same(
            (&text[..], first as u64, count as u64),
            sys::record_to_normal_qso(&text, &table, first, count).refusal,
            r.refusal,
        );
        let refused = r == QsoAnswer { refusal: 11, ..QsoAnswer::default() };
        g.same((&text[..], first as u64, count as u64), (r.refusal == 11, refused), (!good, !good));
    }
}

/// The flags of a QSO.
pub fn flags(qso: &sys::Qso) -> [u8; 4] {
    [qso.freq.given, qso.freq_rx.given, qso.dxcc.given, qso.dxcc.negative]
}

/// A flag, rarely one that is neither 0 nor 1.
pub fn flag(random: &mut Random) -> u8 {
    match random.below(40) {
        0 => random.pick(&[2, 3, 127, 128, 254, 255]),
        n => (n % 2) as u8,
    }
}

/// Each flag by itself with what is no flag, in each call that takes a QSO: 11, and the QSO comes back unchanged.
fn odd_flags(g: &mut Group) {
    let text = b"W1AW";
    let mut sound = sys::Qso::default();
    sound.columns[0] = Place { kind: 1, start: 0, len: 4 };
    for value in 0..=255 {
        for k in 0..4 {
            let mut qso = sound;
            *[&mut qso.freq.given, &mut qso.freq_rx.given, &mut qso.dxcc.given, &mut qso.dxcc.negative][k] = value;
            let refusal = if value == 0 || value == 1 { 0 } else { 11 };
            let normal = sys::normalize_qso(text, qso);
            g.same((value as u64, k as u64), (normal.refusal, flags(&normal.qso)), (refusal, flags(&qso)));
            let mut out = [7; 200];
            let written = sys::write_qso(text, qso, &[], 0, &mut out);
            let untouched = refusal == 0 || out == [7; 200];
            g.same((value as u64, k as u64), (written.refusal, written.qso, untouched), (refusal, qso, true));
            let told = |q, o| {
                [
                    sys::in_log(text, q, text, o),
                    sys::in_file(text, q, text, o),
                    sys::same_natural_key(text, q, text, o),
                    sys::within_window(text, q, text, o, 1_800),
                    sys::is_duplicate(text, q, text, o, 1_800),
                ]
                .map(|told| told.refusal)
            };
            g.same((value as u64, k as u64), [told(qso, sound), told(sound, qso)], [[refusal; 5]; 2]);
        }
    }
    // 14 comes first, of a frequency that is given; where the flag is no flag, none is
    for (given, refusal) in [(0, 11), (1, 14), (2, 11)] {
        let mut qso = sound;
        qso.freq = sys::Hertz { given, hz: u64::MAX };
        qso.dxcc.given = 2;
        g.same(given as u64, sys::write_qso(text, qso, &[], 0, &mut [0; 9]).refusal, refusal);
    }
}

/// Which QSOs are QSOs of a text, once more: a bad place, or a flag that is none, comes back unchanged with 11.
fn places(g: &mut Group) {
    for _ in 0..g.depth(3_000, 200_000) {
        let length = g.random.place(40);
        let text = utf8(&mut g.random, length);
        let mut qso = sys::Qso::default();
        let mut good = true;
        for k in 0..13 {
            if g.random.below(3) > 0 {
                continue;
            }
            let small =
                |random: &mut Random| random.pick(&[0, 1, 2, 5, 17, 18, 19, 20, 30, 31, 32, 39, 40, 41, u32::MAX]);
            let p = Place { kind: g.random.below(6) as u32, start: small(&mut g.random), len: small(&mut g.random) };
            qso.columns[k] = p;
            good &= match p.kind {
                0 => true,
                1 | 2 => text
                    .get(p.start as usize..p.start as usize + p.len as usize)
                    .is_some_and(|t| std::str::from_utf8(t).is_ok()),
                3 => p.start < 19 && !matches!(k, 4 | 5),
                4 => p.start < 31,
                _ => false,
            };
        }
        qso.freq = sys::Hertz { given: flag(&mut g.random), hz: 7_000_000 + g.random.below(400_000) };
        qso.freq_rx = sys::Hertz { given: flag(&mut g.random), hz: 14_000_000 + g.random.below(400_000) };
        qso.dxcc = sys::Dxcc { given: flag(&mut g.random), negative: flag(&mut g.random), size: g.random.below(400) };
        good &= flags(&qso).iter().all(|flag| *flag == 0 || *flag == 1);
        let r = sys::normalize_qso(&text, qso);
        g.same(&text[..], r.refusal, if good { 0 } else { 11 });
        if !good {
            g.same(&text[..], r.qso, qso);
            continue;
        }
        let mut theirs = told(&text, &[], &qso);
        theirs.normalize();
        g.same(&text[..], told(&text, &[], &r.qso), theirs);
    }
}
