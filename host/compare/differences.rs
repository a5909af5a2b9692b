//! docs/DIFFERENCES.md, its rows marked *: each input through the library and through the original, with the answer that the page gives
//! of either.

use crate::contacts::{self, Contact};
use crate::examples::{ours, theirs};
use crate::files::EMPTY;
use crate::harness::{Group, Run, unless_panics};
use original::adif::{AdifRecord, write_record};
use original::adif::{adif_header, hz_to_mhz_string, mhz_string_to_hz, parse_adif, parse_adif_to_qsos, qso_to_record};
use original::model::Station;
use original::rusqlite::Connection;
use original::{dedupe, import};
use oxbreathe::LONGEST;
use oxbreathe::sys::{self, Fated, Place, Record};

pub fn run(run: &mut Run) {
    run.group("differences/texts", texts);
    run.group("differences/reading", reading);
    run.group("differences/writing", writing);
    run.group("differences/frequencies", frequencies);
    run.group("differences/contacts", contacts);
    run.group("differences/duplicates", duplicates);
    run.group("differences/lists", lists);
    run.group("differences/planning", planning);
}

const BAD: &[u8] = b"\xC3";
const INEXACT: &str = "9007199254740993";

fn long() -> String {
    " ".repeat(LONGEST + 1)
}

fn texts(g: &mut Group) {
    g.same("too long", sys::text_check(long().as_bytes()).refusal, 1);
    let bad = sys::text_check(BAD);
    g.same("not UTF-8", (bad.refusal, bad.place), (2, 0));
    let mut out = [9];
    g.same("10 into one byte", (sys::text_digits(10, &mut out).refusal, out), (13, [9]));
    g.same("past the end", sys::text_find(b"abc", 9, b'c').at, 3);
    g.same("past the end", unless_panics(|| "abc"[9..].find('c')), None);
}

fn reading(g: &mut Group) {
    let one = |name: &str, value: &str| Ok(vec![vec![(name.to_string(), value.to_string())]]);
    for (text, said) in [
        ("<ADIF_VER:5>3.1.6 <EOH><CALL:1>A<EOR>", one("CALL", "A")),
        ("<A:+02:S>xy<EOR>", one("A", "xy")),
        ("<:1>x<EOR>", one("", "x")),
    ] {
        g.same(text, (ours(text), theirs(text)), (said.clone(), said));
    }
    let mut row = [7; 5];
    g.same("an empty name", (sys::read(b"<:1>x<EOR>", &mut row).rows, row), (1, [1, 0, 0, 4, 1]));
    let wrap = "<A:18446744073709551615>x";
    g.same(wrap, (ours(wrap), unless_panics(|| theirs(wrap))), (Err((6, "A".to_string(), u64::MAX, 1)), None));
    // what is refused here, and where, and read there: how many records, and how many fields the first has
    let mut refused = |text: &str, told, read| {
        let mut table = vec![7; 5 * 65_536];
        let answer = sys::read(text.as_bytes(), &mut table);
        g.same("refused", (answer.refusal, answer.place), told);
        g.same("refused", table.iter().all(|&n| n == 0), true);
        let records = parse_adif(text).expect("records");
        g.same("read", (records.len(), records.first().map_or(0, |record| record.len())), read);
    };
    refused(&long(), (1, 0), (0, 0));
    refused(&((0..257).map(|n| format!("<A{n}:0>")).collect::<String>() + "<EOR>"), (8, 1_938), (1, 257));
    refused(&"<A:0><EOR>".repeat(65_536), (9, 655_355), (65_536, 1));
    let bad = sys::read(BAD, &mut row);
    g.same("not UTF-8", (bad.refusal, bad.place), (2, 0));
    let few = sys::read(b"<A:0><B:0><EOR>", &mut row);
    g.same("few rows", (few.refusal, few.place, row), (10, 10, [0; 5]));
}

/// What the library writes of rows over a text.
fn written(text: &str, rows: &[u32]) -> Result<String, u32> {
    let mut out = [0; 64];
    let answer = sys::write(text.as_bytes(), rows, rows.len() / 5, &mut out);
    match answer.refusal {
        0 => Ok(String::from_utf8_lossy(&out[..answer.length]).into_owned()),
        number => Err(number),
    }
}

fn writing(g: &mut Group) {
    let field = |name: &str| {
        let length = name.len() as u32;
        let ours = written(&format!("{name}x"), &[1, 0, length, length, 1]);
        (ours, write_record(&AdifRecord::from([(name.to_string(), "x".to_string())])))
    };
    g.same("call", field("call"), (Ok("<CALL:1>x <EOR>\n".to_string()), "<call:1>x <EOR>\n".to_string()));
    for name in ["A>", "A:B", " A", "EOR"] {
        let (ours, theirs) = field(name);
        g.same(name, (ours, theirs.as_str()), (Err(12), format!("<{name}:1>x <EOR>\n").as_str()));
        let record = AdifRecord::from([(name.to_string(), "x".to_string())]);
        g.same(name, parse_adif(&theirs).is_ok_and(|records| records == [record]), false);
    }
    for rows in [vec![2, 0, 1, 1, 1], vec![1, 0, 1, 1, 2], vec![1, 1, 1, 0, 0, 1, 0, 1, 0, 0]] {
        g.same("rows", written("ab", &rows), Err(11));
    }
    // a text of a station that is too long, of blanks alone: rigflow has no field of it
    let mut out = [9; 44];
    let blank = Station { station_call: "W1AW".to_string(), gridsquare: Some(long()), ..Station::default() };
    g.same("a station", blank.my_adif_fields().len(), 2);
    let answer = sys::station_fields(b"W1AW", long().as_bytes(), b"", b"", b"", b"", b"", &mut out);
    g.same("a station", (answer.refusal, out), (1, [9; 44]));
    g.same("44 bytes", (sys::journal_header(&mut out).refusal, out.iter().all(|&b| b == 9)), (13, true));
    g.same("45 bytes", adif_header().len(), 45);
}

fn frequencies(g: &mut Group) {
    let answer = sys::mhz_to_hz(INEXACT.as_bytes());
    g.same(INEXACT, (answer.refusal, answer.present, mhz_string_to_hz(INEXACT)), (15, false, Some(u64::MAX)));
    let high = 8_589_934_592_000_001;
    let refusal = |hz| sys::hz_to_mhz(hz, &mut [0; 64]).refusal;
    g.same(high, (refusal(high), hz_to_mhz_string(high).as_str()), (14, "8589934592.000002"));
    g.same(high, (refusal(high - 2), refusal(high - 1)), (0, 14));
}

/// A text's first record as a QSO, and what the call says.
fn qso(text: &str) -> sys::QsoAnswer {
    let mut table = [0; 5 * 8];
    let rows = sys::read(text.as_bytes(), &mut table).rows;
    sys::record_to_qso(text.as_bytes(), &table, 0, rows)
}

fn contacts(g: &mut Group) {
    let theirs = |text: &str| parse_adif_to_qsos(text).expect("a record").remove(0);
    let inexact = format!("<FREQ:16>{INEXACT}<FREQ_RX:1>7<EOR>");
    let answer = qso(&inexact);
    g.same(&*inexact, (answer.refusal, answer.qso.freq.given, answer.qso.freq_rx.given), (15, 0, 0));
    g.same(&*inexact, theirs(&inexact).freq_hz, Some(u64::MAX));
    let high = "<FREQ:4>1e14<EOR>";
    let answer = sys::write_qso(high.as_bytes(), qso(high).qso, &[], 0, &mut [0; 200]);
    let record = qso_to_record(&theirs(high));
    g.same(high, (answer.refusal, record["FREQ"].as_str()), (14, "18446744073709.550781"));
    let mut outside = sys::Qso::default();
    outside.columns[0] = Place { kind: 1, start: 0, len: 2 };
    g.same("a place past the end", sys::normalize_qso(b"A", outside).refusal, 11);
    g.same("a place past the end", sys::in_log(b"A", outside, b"A", outside).refusal, 11);
    let mut flagged = sys::Qso::default();
    flagged.freq.given = 2;
    g.same("a flag of 2", sys::normalize_qso(b"A", flagged).refusal, 11);
    g.same("a flag of 2", sys::write_qso(b"A", flagged, &[], 0, &mut [0; 99]).refusal, 11);
    g.same("a flag of 2", sys::is_duplicate(b"A", flagged, b"A", flagged, 0).refusal, 11);
    let bad = sys::column(b"\xFF");
    g.same("a name", (bad.refusal, bad.place, sys::column(long().as_bytes()).refusal), (2, 0, 1));
}

fn duplicates(g: &mut Group) {
    for (date, time, day, clock, later) in [
        ("2026031", "1200", "20260311", "200000", 0),
        ("2026 0301", "1200", "20260301", "120000", 0),
        ("20260301", "120060", "20260301", "120059", 1),
    ] {
        let answer = sys::parse_dt(date.as_bytes(), time.as_bytes());
        g.same((date, time), (answer.refusal, answer.present), (0, false));
        let taken = dedupe::parse_dt(date, time).zip(dedupe::parse_dt(day, clock));
        g.same((date, time), taken.map(|(taken, for_it)| (taken - for_it).num_seconds()), Some(later));
    }
}

fn contact(id: u64, date: &str) -> Contact {
    let text = |text: &str| text.as_bytes().to_vec();
    Contact {
        id,
        services: 0,
        call: text("W1AW"),
        date: text(date),
        time: text("1200"),
        band: text("40m"),
        mode: text("CW"),
    }
}

fn lists(g: &mut Group) {
    let check = |list: &[u8]| sys::contacts_check(list).refusal;
    g.same("lists", [check(&[2, 0, 0, 0, 0]), check(&[]), check(&[1, 0, 0, 0, 1])], [16, 17, 17]);
    g.same("lists", check(&contacts::written(&[contact(7, "20260301"), contact(7, "20260301")])), 18);
    let two = contacts::written(&[contact(7, "20260301"), contact(8, "20260231")]);
    let mut index = [contacts::USED; 1];
    g.same("an index of one", (sys::contacts_index(&two, &mut index).refusal, index), (19, [Record::default()]));
    let (mut index, mut found) = ([contacts::USED; 2], [7; 1]);
    let answer = sys::contacts_search(&two, &two, 0, &mut index, &mut found);
    g.same("numbers for one", (answer.refusal, index, found), (19, [Record::default(); 2], [0]));
    let append = |list: [u8; 5], told: usize| {
        let mut out = [9; 64];
        out[..5].copy_from_slice(&list);
        let before = out;
        let answer = sys::contacts_append(&mut out, 5, told, 0, 1, 0, b"W1AW", b"20260301", b"1200", b"40m", b"CW");
        (answer.refusal, out == before)
    };
    g.same("no list", [append([3; 5], 0), append(EMPTY, u32::MAX as usize - 1)], [(16, true), (17, true)]);
    g.same("a list", append(EMPTY, 0), (0, false));
    // the first contact is found by itself, the second, of no day, by nothing
    let (mut index, mut found) = ([contacts::USED; 2], [7; 2]);
    let answer = sys::contacts_search(&two, &two, i64::MAX, &mut index, &mut found);
    g.same("no day", (answer.refusal, found, dedupe::parse_dt("20260231", "1200")), (0, [1, 0], None));
}

/// The fate and the reason of each record here, and how many records the original would import.
fn planned(text: &str, window: i64) -> (Vec<[u32; 2]>, usize) {
    let mut fates = [[7; 28]; 2];
    let answer = sys::plan(text.as_bytes(), &EMPTY, window, false, &mut [0; 5 * 16], &mut [], &mut fates, &mut []);
    let ours = fates[..answer.records].iter().map(|row: &Fated| [row[0], row[1]]).collect();
    let theirs = import::plan(&Connection::plain(vec![]), text, window).expect("a plan");
    (ours, theirs.importable.len())
}

fn planning(g: &mut Group) {
    let record = |time: &str, more: &str| {
        format!("<CALL:4>W1AW<QSO_DATE:8>20260301<TIME_ON:6>{time}<BAND:3>40m<MODE:2>CW{more}<EOR>")
    };
    let inexact = record("120000", &format!("<FREQ:16>{INEXACT}"));
    g.same(&*inexact, planned(&inexact, 1800), (vec![[4, 5]], 1));
    let leap = record("120060", "") + &record("120059", "");
    g.same(&*leap, planned(&leap, 1), (vec![[1, 0], [1, 0]], 1));
    let (mut table, mut index) = ([7; 40], [contacts::USED; 1]);
    let text = record("120000", "");
    let answer = sys::plan(text.as_bytes(), &EMPTY, 0, false, &mut table, &mut index, &mut [], &mut []);
    g.same(&*text, (answer.refusal, table == [0; 40], index), (19, true, [Record::default()]));
}
