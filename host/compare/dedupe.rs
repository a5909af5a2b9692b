//! The duplicate test beside the original's: every day of the calendar, times of day, keys and windows.

use crate::generate::Random;
use crate::harness::{Group, Run};
use original::adif::record_to_qso;
use original::dedupe;
use original::model::Qso;
use oxbreathe::sys;
use std::collections::BTreeMap;

pub fn run(run: &mut Run) {
    run.group("dedupe/days", days);
    run.group("dedupe/times", times);
    run.group("dedupe/malformed", malformed);
    run.group("dedupe/windows", windows);
    run.group("dedupe/keys", keys);
    run.group("dedupe/refused", refused);
}

/// Seconds since the first day of year 0, or none.
fn theirs(date: &str, time: &str) -> Option<u64> {
    let seconds =
        |date, time| Some(dedupe::parse_dt(date, time)?.signed_duration_since(dedupe::parse_dt("00000101", "0000")?));
    seconds(date, time).map(|since| since.num_seconds() as u64)
}

fn ours(date: &[u8], time: &[u8]) -> (u32, Option<u64>) {
    let answer = sys::parse_dt(date, time);
    (answer.refusal, answer.present.then_some(answer.seconds))
}

fn compare(g: &mut Group, date: &str, time: &str) {
    g.same((date, time), ours(date.as_bytes(), time.as_bytes()), (0, theirs(date, time)));
}

/// Every day of every year, and the days that no month has.
fn days(g: &mut Group) {
    let step = g.depth(211, 1) as usize;
    for year in (0..10_000).step_by(step) {
        for month in 0..=13 {
            for day in 0..=32 {
                compare(g, &format!("{year:04}{month:02}{day:02}"), "0000");
            }
        }
    }
}

/// Every time of four digits, and those of six, but for second 60, which chrono takes for a leap second.
fn times(g: &mut Group) {
    for time in 0..10_000 {
        compare(g, "20260301", &format!("{time:04}"));
    }
    let step = g.depth(997, 7) as usize;
    for time in (0..1_000_000).step_by(step) {
        match time % 100 {
            60 => g.same(time as u64, ours(b"20260301", format!("{time:06}").as_bytes()), (0, None)),
            _ => compare(g, "20240229", &format!("{time:06}")),
        }
    }
}

/// What is not 8 digits and 4 or 6 names no moment, whatever chrono makes of it; white space at the ends is aside.
fn malformed(g: &mut Group) {
    const SPACES: [&str; 6] = ["", " ", "\t", "\u{3000}", "\r\n", "\u{200b}"];
    const DIGITS: [&str; 14] = ["0", "1", "2", "9", "00", "12", "2026", "+", "-", " ", ":", "é", "\u{664}", "T"];
    let digits = |text: &str, lengths: &[usize]| {
        let text = text.trim();
        lengths.contains(&text.len()) && text.bytes().all(|b| b.is_ascii_digit())
    };
    for _ in 0..g.depth(3_000, 300_000) {
        let made = |random: &mut Random, whole: &str| {
            let mut inner = whole.to_string();
            if random.below(2) == 0 {
                inner = (0..random.below(8)).map(|_| random.pick(&DIGITS)).collect();
            }
            [random.pick(&SPACES), &inner, random.pick(&SPACES)].concat()
        };
        let (date, time) = (made(&mut g.random, "20260301"), made(&mut g.random, "1200"));
        match digits(&date, &[8]) && digits(&time, &[4, 6]) && !time.trim()[4..].starts_with("60") {
            true => compare(g, &date, &time),
            false => g.same((&*date, &*time), ours(date.as_bytes(), time.as_bytes()), (0, None)),
        }
    }
}

/// A contact on both sides: over a text of its own, and rigflow's.
struct Both {
    text: Vec<u8>,
    qso: sys::Qso,
    theirs: Qso,
}

fn both(fields: &[(&str, &str)], normal: bool) -> Both {
    let record: BTreeMap<String, String> =
        fields.iter().map(|(name, value)| (name.to_string(), value.to_string())).collect();
    let (mut text, mut table) = (Vec::new(), Vec::new());
    for (name, value) in &record {
        let at = text.len() as u32;
        text.extend_from_slice(name.as_bytes());
        text.extend_from_slice(value.as_bytes());
        table.extend([1, at, name.len() as u32, at + name.len() as u32, value.len() as u32]);
    }
    let mut qso = sys::record_to_qso(&text, &table, 0, record.len()).qso;
    let mut theirs = record_to_qso(&record);
    if normal {
        qso = sys::normalize_qso(&text, qso).qso;
        theirs.normalize();
    }
    Both { text, qso, theirs }
}

/// Windows at the difference, one below, one above, and at the ends of their numbers.
fn windows(g: &mut Group) {
    const DATES: [&str; 8] =
        ["20260301", "20260228", " 20260301", "20260231", "00000101", "99991231", "2026x301", "20240229"];
    const TIMES: [&str; 9] = ["1200", "120000", "122959", "123000", "123001", "2359", " 0000 ", "2400", "12:00"];
    for _ in 0..g.depth(3_000, 200_000) {
        let mut contact = || both(&[("QSO_DATE", g.random.pick(&DATES)), ("TIME_ON", g.random.pick(&TIMES))], false);
        let (a, b) = (contact(), contact());
        let apart = match (theirs(&a.theirs.qso_date, &a.theirs.time_on), theirs(&b.theirs.qso_date, &b.theirs.time_on))
        {
            (Some(x), Some(y)) => x.abs_diff(y) as i64,
            _ => 1_800,
        };
        for window in [apart - 1, apart, apart + 1, 0, -1, 1_800, i64::MIN, i64::MAX, g.random.next() as i64] {
            let ours = sys::within_window(&a.text, a.qso, &b.text, b.qso, window);
            let said = dedupe::within_window(&a.theirs, &b.theirs, window);
            g.same((&*a.text, &*b.text, window as u64), (ours.refusal, ours.yes), (0, said));
        }
    }
}

/// The three keys and the whole test, on calls, modes and bands that nearly agree, as they stand and normalised.
fn keys(g: &mut Group) {
    const CALLS: [&str; 9] = ["W1AW", "w1aw", " W1AW", "W1AW ", "w1aW\u{3000}", "W1AX", "", " ", "é1aw"];
    const MODES: [&str; 9] = ["SSB", "usb", "ssb", " SSB", "FT8", "ft4", "foo", "FOO", ""];
    const BANDS: [&str; 8] = ["40m", "40M", " 40m", "40m ", "20m", "", " ", "foo"];
    for _ in 0..g.depth(8_000, 400_000) {
        let normal = g.random.below(2) == 0;
        let mut contact = || {
            both(
                &[
                    ("CALL", g.random.pick(&CALLS)),
                    ("MODE", g.random.pick(&MODES)),
                    ("BAND", g.random.pick(&BANDS)),
                    ("QSO_DATE", "20260301"),
                    ("TIME_ON", g.random.pick(&["1200", "1229", "1231"])),
                ],
                normal,
            )
        };
        let (a, b) = (contact(), contact());
        let (p, q) = (&a.theirs, &b.theirs);
        let in_log = p.call.eq_ignore_ascii_case(&q.call) && p.mode == q.mode && p.band == q.band;
        let trimmed =
            |q: &Qso| (q.call.trim().to_ascii_uppercase(), q.band.trim().to_string(), q.mode.trim().to_string());
        let ours = [
            sys::in_log(&a.text, a.qso, &b.text, b.qso),
            sys::in_file(&a.text, a.qso, &b.text, b.qso),
            sys::same_natural_key(&a.text, a.qso, &b.text, b.qso),
            sys::is_duplicate(&a.text, a.qso, &b.text, b.qso, 1_800),
        ];
        let said =
            [in_log, trimmed(p) == trimmed(q), dedupe::same_natural_key(p, q), dedupe::is_duplicate(p, q, 1_800)];
        g.same((&*a.text, &*b.text), ours.map(|o| (o.refusal, o.yes)), said.map(|yes| (0, yes)));
    }
}

/// 1, 2 and 11, and a refused call says no.
fn refused(g: &mut Group) {
    let good = both(&[("CALL", "W1AW"), ("QSO_DATE", "20260301"), ("TIME_ON", "1200")], false);
    let long = vec![b'0'; oxbreathe::LONGEST + 1];
    g.same("long date", ours(&long, b"1200").0, 1);
    g.same("long time", ours(b"\xFF", &long).0, 1);
    for at in 0..8 {
        let mut date = *b"20260301";
        date[at] = 0xFF;
        let answer = sys::parse_dt(&date, b"1200");
        g.same("date not UTF-8", (answer.refusal, answer.place, answer.present), (2, at, false));
    }
    let answer = sys::parse_dt(b"20260301", b"12\xC3");
    g.same("time not UTF-8", (answer.refusal, answer.place), (2, 10));
    let all = |a: &[u8], q, b: &[u8], o| {
        [
            sys::in_log(a, q, b, o),
            sys::in_file(a, q, b, o),
            sys::same_natural_key(a, q, b, o),
            sys::within_window(a, q, b, o, i64::MAX),
            sys::is_duplicate(a, q, b, o, i64::MAX),
        ]
        .map(|told| (told.refusal, told.yes))
    };
    g.same("itself", all(&good.text, good.qso, &good.text, good.qso), [(0, true); 5]);
    g.same("long text", all(&good.text, good.qso, &long, good.qso), [(1, false); 5]);
    for column in 0..13 {
        let mut bad = good.qso;
        bad.columns[column] = sys::Place { kind: 1, start: good.text.len() as u32, len: 1 };
        g.same("first", all(&good.text, bad, &good.text, good.qso), [(11, false); 5]);
        g.same("second", all(&good.text, good.qso, &good.text, bad), [(11, false); 5]);
    }
}
