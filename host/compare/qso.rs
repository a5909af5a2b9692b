//! Contacts written back: a record mapped, normalised, written and read again, the library beside the original; QSOs and extra rows of
//! every kind, beside a plain second statement of the rules and, where they are taken, beside `qso_to_record`.

use crate::generate::{Random, damage, utf8};
use crate::harness::{Group, Run};
use crate::model::{EXTRA, Laid, flag, flags, inexact, laid, random_record, told, value};
use crate::vectors::COLUMNS;
use crate::writing::{CONTROL, Output, fitting};
use original::adif::{AdifRecord, parse_adif, parse_adif_to_qsos, qso_to_record, record_to_qso, write_record};
use oxbreathe::sys::{self, Place, Written};
use oxbreathe::{LONGEST, normalize};

pub fn run(run: &mut Run) {
    run.group("model/written", written);
    run.group("model/rules", rules);
    run.group("model/outputs", outputs);
    run.group("model/limits", limits);
}

// The rules once more, on Rust's str.

/// The text of a QSO and its extra rows, or the refusal.
fn expected(text: &[u8], qso: &sys::Qso, table: &[u32], count: usize, room: usize) -> Result<Vec<u8>, u32> {
    if text.len() > LONGEST {
        return Err(1);
    }
    let frequencies = [qso.freq, qso.freq_rx];
    if frequencies.iter().any(|f| f.given == 1 && f.hz >= 8_589_934_592_000_000) {
        return Err(14);
    }
    let part = |place: u32, length: u32| {
        let bytes = text.get(place as usize..place as usize + length as usize).ok_or(11u32)?;
        std::str::from_utf8(bytes).map_err(|_| 11u32)
    };
    if flags(qso).iter().any(|flag| ![0, 1].contains(flag)) {
        return Err(11);
    }
    let mut columns = Vec::new();
    for (k, p) in qso.columns.iter().enumerate() {
        columns.push(match (p.kind, k) {
            (0, _) => None,
            (1, _) => Some(part(p.start, p.len)?.to_string()),
            (2, _) => Some(part(p.start, p.len)?.to_ascii_uppercase()),
            (3, k) if !matches!(k, 4 | 5) => {
                Some(normalize::known_bands().nth(p.start as usize).ok_or(11u32)?.name().to_string())
            }
            (4, _) if p.start < 31 => {
                let name = sys::entry_name(4, p.start);
                Some(String::from_utf8(name.bytes[..name.len].to_vec()).unwrap())
            }
            _ => return Err(11),
        });
    }
    if count > table.len() / 5 {
        return Err(11);
    }
    let mut fields = AdifRecord::new();
    let mut put = |name: &str, value: Option<String>| {
        if let Some(value) = value {
            fields.insert(name.to_string(), value);
        }
    };
    let column = |k: usize| columns[k].clone();
    let mhz = |f: sys::Hertz| (f.given == 1).then(|| format!("{}.{:06}", f.hz / 1_000_000, f.hz % 1_000_000));
    for k in [0, 1, 2, 4] {
        put(COLUMNS[k], Some(column(k).unwrap_or_default()));
    }
    put("BAND", column(3).filter(|band| !band.is_empty()));
    for k in [5, 9, 10, 11] {
        put(COLUMNS[k], column(k));
    }
    put("FREQ", mhz(qso.freq));
    put("FREQ_RX", mhz(qso.freq_rx));
    put("BAND_RX", column(8).filter(|_| qso.freq_rx.given == 1));
    let sign = if qso.dxcc.negative == 1 && qso.dxcc.size > 0 { "-" } else { "" };
    put("DXCC", (qso.dxcc.given == 1).then(|| format!("{sign}{}", qso.dxcc.size)));
    let mut before: Option<String> = None;
    for row in table.chunks_exact(5).take(count) {
        let (name, value) = (part(row[1], row[2])?, part(row[3], row[4])?);
        let raised = name.to_ascii_uppercase();
        if before.as_ref().is_some_and(|before| *before >= raised) {
            return Err(11);
        }
        if name.trim() != name || name.contains([':', '>']) || CONTROL.contains(&raised.as_str()) {
            return Err(12);
        }
        fields.entry(raised.clone()).or_insert_with(|| value.to_string());
        if fields.len() > 256 {
            return Err(8);
        }
        before = Some(raised);
    }
    let mut out = String::new();
    for (name, value) in &fields {
        if out.len() <= LONGEST {
            out += &format!("<{name}:{}>{value} ", value.len());
        }
    }
    fitting(out + "<EOR>\n", room)
}

/// One call on an output of `room` bytes: the answer, the QSO that comes back, and every byte of the output and around it.
fn same(g: &mut Group, text: &[u8], qso: sys::Qso, table: &[u32], count: usize, room: usize) -> Result<Vec<u8>, u32> {
    let theirs = expected(text, &qso, table, count, room);
    let mut output = Output::new(room);
    let (answer, bytes) = output.after(&theirs);
    let ours = sys::write_qso(text, qso, table, count, output.lent());
    let told = Written { refusal: ours.refusal, length: ours.length };
    g.same((text, count as u64, room as u64), (told, ours.qso, output.bytes), (answer, qso, bytes));
    theirs
}

// The groups.

/// The rows of a record that are no columns.
fn extra_rows(text: &[u8], table: &[u32]) -> Vec<u32> {
    let extra = |row: &&[u32]| sys::column(&text[row[1] as usize..][..row[2] as usize]).column == 13;
    table.chunks_exact(5).filter(extra).flatten().copied().collect()
}

/// A name that the writer takes.
fn is_writable(name: &str) -> bool {
    name.trim() == name && !name.contains([':', '>']) && !CONTROL.contains(&name)
}

/// A record mapped, normalised, written and read again.
fn written(g: &mut Group) {
    for _ in 0..g.depth(4_000, 1_000_000) {
        let mut record = random_record(&mut g.random);
        record.retain(|name, _| is_writable(name));
        if inexact(&record) {
            continue;
        }
        let Laid { text, table } = laid(&mut g.random, &record, 1);
        let mapped = sys::record_to_qso(&text, &table, 0, table.len() / 5).qso;
        let normal = sys::normalize_qso(&text, mapped).qso;
        let extra = extra_rows(&text, &table);
        let mut theirs = record_to_qso(&record);
        let room = text.len() + 40 * (table.len() / 5 + 13);
        let shown = write_record(&record);
        // the original writes any frequency, the library those below the bound
        if [theirs.freq_hz, theirs.freq_rx_hz].iter().any(|hz| hz.is_some_and(|hz| hz >= 8_589_934_592_000_000)) {
            let refused = same(g, &text, normal, &extra, extra.len() / 5, room);
            g.same(shown.as_str(), refused, Err(14));
            continue;
        }
        // as mapped, and as normalised
        let mut out = vec![0; room];
        let r = sys::write_qso(&text, mapped, &extra, extra.len() / 5, &mut out);
        let expected = write_record(&qso_to_record(&theirs));
        g.same(shown.as_str(), (r.refusal, &out[..r.length]), (0, expected.as_bytes()));
        theirs.normalize();
        let r = sys::write_qso(&text, normal, &extra, extra.len() / 5, &mut out);
        let expected = write_record(&qso_to_record(&theirs));
        g.same(shown.as_str(), (r.refusal, &out[..r.length]), (0, expected.as_bytes()));
        // read again: both see the same record, and the same contact
        let text = &out[..r.length];
        let mut table = vec![0; 5 * 64];
        let read = sys::read(text, &mut table);
        table.truncate(read.rows * 5);
        let again = sys::record_to_normal_qso(text, &table, 0, read.rows);
        let here = std::str::from_utf8(text).unwrap();
        g.same(shown.as_str(), parse_adif(here).unwrap(), vec![qso_to_record(&theirs)]);
        if again.refusal == 0 {
            g.same(shown.as_str(), vec![told(text, &table, &again.qso)], parse_adif_to_qsos(here).unwrap());
        }
    }
}

/// A QSO over a text, most of its places sound; with extra rows in order, most of them writable.
fn random_qso(random: &mut Random) -> (Vec<u8>, sys::Qso, Vec<u32>) {
    let mut text = Vec::new();
    let mut put = |part: &[u8]| {
        text.extend_from_slice(part);
        [(text.len() - part.len()) as u32, part.len() as u32]
    };
    let mut qso = sys::Qso::default();
    for (k, name) in COLUMNS.iter().enumerate() {
        let [start, len] = put(value(random, name).as_bytes());
        qso.columns[k] = match random.below(7) {
            0 | 1 => Place::default(),
            2 | 3 => Place { kind: 1, start, len },
            4 => Place { kind: 2, start, len },
            5 if !matches!(k, 4 | 5) => Place { kind: 3, start: random.below(19) as u32, len: 0 },
            _ => Place { kind: 4, start: random.below(31) as u32, len: 0 },
        };
    }
    let hertz = |random: &mut Random| sys::Hertz {
        given: flag(random),
        hz: match random.below(4) {
            0 => random.pick(&[0, 1, 999_999, 1_000_000, 8_589_934_591_999_999]),
            1 => random.next() % 8_589_934_592_000_000,
            _ => random.below(30_000_000),
        },
    };
    (qso.freq, qso.freq_rx) = (hertz(random), hertz(random));
    let size = random.pick(&[0, 1, 7, 291, 1 << 63, u64::MAX]);
    qso.dxcc = sys::Dxcc { given: flag(random), negative: flag(random), size };
    let mut names = std::collections::BTreeMap::new();
    for _ in 0..random.pick(&[0, 1, 2, 5, 13, 20]) {
        let name = match random.below(5) {
            0 => random.pick(&COLUMNS).to_string(),
            1 => random.pick(&COLUMNS).to_ascii_lowercase(),
            2 => random.pick(&EXTRA).to_string(),
            _ => {
                let length = random.place(9);
                String::from_utf8(utf8(random, length)).unwrap().trim().replace([':', '>'], "-")
            }
        };
        names.insert(name.to_ascii_uppercase(), name);
    }
    let mut table = Vec::new();
    for name in names.values() {
        table.push(random.below(3) as u32);
        table.extend(put(name.as_bytes()));
        table.extend(put(value(random, "").as_bytes()));
    }
    (text, qso, table)
}

/// Every refusal, and what is not refused.
fn rules(g: &mut Group) {
    for _ in 0..g.depth(4_000, 400_000) {
        let (mut text, mut qso, mut table) = random_qso(&mut g.random);
        let mut count = table.len() / 5;
        let mut room = text.len() + 40 * (count + 13);
        for _ in 0..g.random.below(3) {
            let numbers = table.len();
            match g.random.below(9) {
                0 => damage(&mut g.random, &mut text),
                1 if numbers > 0 => {
                    let at = g.random.place(numbers);
                    table[at] = g.random.pick(&[0, 1, 2, text.len() as u32, u32::MAX]);
                }
                2 if numbers > 0 => {
                    let at = g.random.place(numbers);
                    table[at] = table[at].wrapping_add(g.random.pick(&[1, u32::MAX]));
                }
                3 if numbers >= 10 => {
                    let at = g.random.place(numbers / 5 - 1) * 5;
                    table[at..at + 10].rotate_left(5);
                }
                4 => {
                    let bad = g.random.pick(&[" ~", "~ ", "~:B", "~>", "eor", "EOH", "app_lotw_eof", "\u{3000}", "\n"]);
                    let start = text.len() as u32;
                    text.extend_from_slice(bad.as_bytes());
                    table.extend([1, start, bad.len() as u32, 0, 0]);
                    count = count.saturating_add(1);
                }
                5 => count = g.random.pick(&[0, count.saturating_add(1), count.saturating_sub(1), usize::MAX]),
                6 => qso.freq.hz = g.random.pick(&[8_589_934_591_999_999, 8_589_934_592_000_000, u64::MAX]),
                7 => {
                    let k = g.random.place(13);
                    let small = |random: &mut Random| random.pick(&[0, 1, 2, 18, 19, 30, 31, 40, u32::MAX]);
                    let (start, len) = (small(&mut g.random), small(&mut g.random));
                    qso.columns[k] = Place { kind: g.random.below(6) as u32, start, len };
                }
                _ => room = g.random.place(room.max(1)),
            }
        }
        if let Ok(out) = same(g, &text, qso, &table, count, room) {
            // and the original, which knows no limits and takes the extra fields that the rows say
            let Ok(()) = std::str::from_utf8(&text).map(|_| ()) else { continue };
            if qso.dxcc.given == 1 && qso.dxcc.size > i64::MAX as u64 {
                continue;
            }
            let part = |row: &[u32], k: usize| {
                std::str::from_utf8(&text[row[k] as usize..][..row[k + 1] as usize]).unwrap().to_string()
            };
            let mut theirs = told(&text, &[], &qso);
            let rows = table.chunks_exact(5).take(count);
            theirs.extra = rows.map(|row| (part(row, 1).to_ascii_uppercase(), part(row, 3))).collect();
            g.same(&text[..], &out[..], write_record(&qso_to_record(&theirs)).as_bytes());
        }
    }
}

/// Outputs of every length around that of the text.
fn outputs(g: &mut Group) {
    for _ in 0..g.depth(300, 20_000) {
        let (text, qso, table) = random_qso(&mut g.random);
        let count = table.len() / 5;
        let length = same(g, &text, qso, &table, count, 100_000).map_or(50, |text| text.len());
        for room in [0, 1, length - 1, length, length + 1, length + 50] {
            same(g, &text, qso, &table, count, room).ok();
        }
    }
}

/// 256 fields and one more, with names that the columns take and without; and texts and outputs around the limit.
fn limits(g: &mut Group) {
    let mut text = b"BANDBAND_RXCALLx".to_vec();
    let call = Place { kind: 1, start: 11, len: 4 };
    let mut qso = sys::Qso::default();
    qso.columns[0] = call;
    for extra in 250..=258u32 {
        for band in [false, true] {
            qso.columns[3] = if band { call } else { Place::default() };
            // BAND and CALL, which the columns may take, and then others that rise
            let mut table = vec![1, 0, 4, 15, 1, 1, 11, 4, 15, 1];
            for k in 0..extra {
                let name = format!("D{k:03}");
                let start = text.len() as u32;
                text.extend_from_slice(name.as_bytes());
                table.extend([k, start, 4, 15, 1]);
            }
            let count = table.len() / 5;
            same(g, &text, qso, &table, count, 100_000).ok();
            same(g, &text, qso, &table[10..], count - 2, 100_000).ok();
        }
    }
    // the source text, and then the output, around the limit
    for over in [0, 1] {
        let long = vec![b'x'; LONGEST + over];
        same(g, &long, qso, &[], 0, 200).ok();
    }
    let around = "<CALL:16777000> <MODE:0> <QSO_DATE:0> <TIME_ON:0> <EOR>\n".len();
    for length in [LONGEST - 1, LONGEST, LONGEST + 1] {
        let long = vec![b'x'; length - around];
        let mut qso = sys::Qso::default();
        qso.columns[0] = Place { kind: 1, start: 0, len: long.len() as u32 };
        same(g, &long, qso, &[], 0, LONGEST + 1).ok();
        same(g, &long, qso, &[], 0, 100).ok();
    }
    // two long columns, each within the limit
    let long = vec![b'x'; LONGEST];
    let mut qso = sys::Qso::default();
    for k in 0..13 {
        qso.columns[k] = Place { kind: 1 + k as u32 % 2, start: 0, len: LONGEST as u32 };
    }
    same(g, &long, qso, &[], 0, 100).ok();
}
