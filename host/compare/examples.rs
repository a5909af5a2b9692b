//! The checked examples of docs/SCOPE.md, each with the answer that the page gives: the library's, and where its sources are at hand the
//! original's, which differs only where the page names a departure.

#[cfg(original)]
use crate::harness::unless_panics;
use crate::harness::{Group, Run};
#[cfg(original)]
use crate::plan;
#[cfg(original)]
use original::{adif, dedupe, model::Qso, normalize};
use oxbreathe::sys;

pub fn run(run: &mut Run) {
    run.group("examples/reading", reading);
    run.group("examples/bands", bands);
    run.group("examples/frequencies", frequencies);
    run.group("examples/days", days);
    run.group("examples/window", window);
    #[cfg(original)]
    run.group("examples/showplan", plan::example);
}

/// The fields of each record, or a refusal's number, with the name that comes with it, the length wanted and the bytes left.
pub type Said = Result<Vec<Vec<(String, String)>>, (u32, String, u64, u64)>;

fn reading(g: &mut Group) {
    let one = |name: &str, value: &str| vec![(name.to_string(), value.to_string())];
    let refused = |number, name: &str, wanted, left| Err((number, name.to_string(), wanted, left));
    let examples: [(&str, Said); 11] = [
        ("", Ok(vec![])),
        ("<CALL:1>A", Ok(vec![])),
        ("<CALL:1>A<EOR><CALL:1>B", Ok(vec![one("CALL", "A"), one("CALL", "B")])),
        ("<call:1>A<CALL:1>B<EOR>", Ok(vec![one("CALL", "B")])),
        ("<NOTE:5><EOR><EOR>", Ok(vec![one("NOTE", "<EOR>")])),
        ("<A:+02:S>xy<EOR>", Ok(vec![one("A", "xy")])),
        ("<A:1>é<EOR>", refused(7, "A", 0, 0)),
        ("<A:18446744073709551615>x", refused(6, "A", u64::MAX, 1)),
        ("<A:18446744073709551616>x", refused(5, "A", 0, 0)),
        ("<A>x", refused(4, "A", 0, 0)),
        ("<A", refused(3, "", 0, 0)),
    ];
    for (text, said) in examples {
        g.same(text, ours(text), said.clone());
        // a length whose end wraps: the original panics
        #[cfg(original)]
        g.same(text, unless_panics(|| theirs(text)), if text.contains("615>") { None } else { Some(said) });
    }
}

pub fn ours(text: &str) -> Said {
    let mut table = [0; 5 * 256];
    let read = sys::read(text.as_bytes(), &mut table);
    let part = |place: usize, length: usize| text[place..place + length].to_string();
    if read.refusal > 0 {
        let name = part(read.name, read.name_length).to_ascii_uppercase();
        return Err((read.refusal, name, read.wanted, read.left));
    }
    let mut records = vec![vec![]; read.records];
    for row in table[..5 * read.rows].chunks(5).map(|row| row.iter().map(|&n| n as usize).collect::<Vec<_>>()) {
        records[row[0] - 1].push((part(row[1], row[2]).to_ascii_uppercase(), part(row[3], row[4])));
    }
    Ok(records)
}

#[cfg(original)]
pub fn theirs(text: &str) -> Said {
    use adif::AdifError::*;
    adif::parse_adif(text)
        .map(|records| records.into_iter().map(|record| record.into_iter().collect()).collect())
        .map_err(|error| match error {
            UnterminatedTag => (3, String::new(), 0, 0),
            MissingLength(name) => (4, name, 0, 0),
            BadLength(name) => (5, name, 0, 0),
            TruncatedValue { field, want, have } => (6, field, want as u64, have as u64),
            NonUtf8(name) => (7, name, 0, 0),
        })
}

fn bands(g: &mut Group) {
    for (hz, name) in [(7_300_000, "40m"), (7_300_001, "")] {
        let place = sys::band_for_freq_hz(hz);
        let entry = sys::entry_name(place.kind, place.start);
        g.same(hz, String::from_utf8_lossy(&entry.bytes[..entry.len]).into_owned(), name.to_string());
        #[cfg(original)]
        g.same(hz, normalize::band_for_freq_hz(hz).unwrap_or_default(), name);
    }
}

fn frequencies(g: &mut Group) {
    let examples = [
        ("14.074", 0, Some(14_074_000)),
        ("nan", 0, Some(0)),
        ("-0.1", 0, None),
        ("1e14", 0, Some(u64::MAX)),
        ("9007199254740993", 15, None),
    ];
    for (text, refusal, hz) in examples {
        let answer = sys::mhz_to_hz(text.as_bytes());
        g.same(text, (answer.refusal, answer.present.then_some(answer.hz)), (refusal, hz));
        // outside the exact window the original takes the nearest binary64
        #[cfg(original)]
        g.same(text, adif::mhz_string_to_hz(text), if refusal == 15 { Some(u64::MAX) } else { hz });
    }
}

fn days(g: &mut Group) {
    for (date, is_day) in [("20240229", true), ("20260231", false)] {
        g.same(date, sys::parse_dt(date.as_bytes(), b"1200").present, is_day);
        #[cfg(original)]
        g.same(date, dedupe::parse_dt(date, "1200").is_some(), is_day);
        // a contact of that day is a duplicate of itself, or of nothing
        let text = format!("<CALL:4>W1AW<QSO_DATE:8>{date}<TIME_ON:4>1200<BAND:3>40m<MODE:2>CW<EOR>");
        same_as(g, &text, &text, i64::MAX, is_day);
    }
}

/// 1,800 seconds apart, and 1,801.
fn window(g: &mut Group) {
    let at = |time: &str| format!("<CALL:4>W1AW<QSO_DATE:8>20260301<TIME_ON:6>{time}<BAND:3>40m<MODE:2>CW<EOR>");
    same_as(g, &at("120000"), &at("123000"), 1800, true);
    same_as(g, &at("120000"), &at("123001"), 1800, false);
}

/// Whether two records are duplicates of each other.
fn same_as(g: &mut Group, a: &str, b: &str, window: i64, expected: bool) {
    let qso = |text: &str| {
        let mut table = [0; 5 * 5];
        let rows = sys::read(text.as_bytes(), &mut table).rows;
        sys::record_to_qso(text.as_bytes(), &table, 0, rows).qso
    };
    let told = sys::is_duplicate(a.as_bytes(), qso(a), b.as_bytes(), qso(b), window);
    g.same((a, b), (told.refusal, told.yes), (0, expected));
    #[cfg(original)]
    {
        let qso = |text: &str| -> Qso { adif::parse_adif_to_qsos(text).expect("a record").remove(0) };
        g.same((a, b), dedupe::is_duplicate(&qso(a), &qso(b), window), expected);
    }
}
