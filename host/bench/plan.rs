//! Planning a file, beside rigflow's `plan` over contacts in a `HashMap`, keyed as its query asks: call in capitals, mode and band. Both
//! sides start from the file's and the list's bytes.

use crate::contacts::{contacts, list, texts};
use crate::measure::Row;
use crate::rows::kept;
use original::import;
use original::rusqlite::{Connection, Contact};
use oxbreathe::plan::Tables;
use std::cell::RefCell;

#[derive(Clone, Copy)]
struct Case {
    text: &'static [u8],
    list: &'static [u8],
    tables: &'static RefCell<Tables>,
}

pub fn rows() -> [Row; 4] {
    let case = |text: String, list: &'static [u8]| {
        let text = kept(text.into_bytes());
        Case { text, list, tables: Box::leak(Box::new(RefCell::new(Tables::new(text, list)))) }
    };
    let log = kept(list(0..100_000, |i| i));
    let none = kept(list(0..0, |i| i));
    let row = |name, case| Row::new("plan", name, case, library, original);
    // of ten records, five are in the log, of which two are confirmed; one comes twice; four are new
    let mixed = (0..10_000).map(|i| match i % 10 {
        k @ 0..5 => record(i * 10, k < 2),
        5 => record(200_000 + (i - 1) * 10, false),
        _ => record(200_000 + i * 10, false),
    });
    let new = |count: u64| (0..count).map(|i| record(i, false)).collect();
    [
        row("10,000 in 100,000", case(mixed.collect(), log)),
        row("1,000 new", case(new(1_000), none)),
        row("10,000 new", case(new(10_000), none)),
        row("60,000 new", case(new(60_000), none)),
    ]
}

fn library(case: Case) -> u64 {
    let answer = case.tables.borrow_mut().plan(case.text, case.list, 1800, false);
    assert_eq!(answer.refusal, 0);
    answer.counts.importable
}

fn original(case: Case) -> u64 {
    let logged = |(id, services, [call, date, time, band, mode]): (u64, u8, [&str; 5])| {
        let [call, date, time, band, mode] = [call, date, time, band, mode].map(str::to_string);
        Contact { id: id as i64, services, call, date, time, band, mode }
    };
    let connection = Connection::keyed(contacts(case.list).map(logged).collect());
    let text = std::str::from_utf8(case.text).expect("UTF-8");
    import::plan(&connection, text, 1800).expect("a readable text").importable.len() as u64
}

/// A record as a logging program writes it, of the contact with this number.
fn record(number: u64, confirmed: bool) -> String {
    let [call, date, time, band, mode] = texts(number, number);
    let freq = ["7.074000", "14.074000", "144.174000"][number as usize % 3];
    let fields = [
        ("CALL", call.as_str()),
        ("QSO_DATE", &date),
        ("TIME_ON", &time),
        ("BAND", &band),
        ("FREQ", freq),
        ("MODE", &mode),
        ("RST_SENT", "59"),
        ("RST_RCVD", "599"),
        ("GRIDSQUARE", "JO62qm"),
        ("STATION_CALLSIGN", "DL1ABC"),
        ("COMMENT", "73 de DL1ABC"),
    ];
    let confirmation: &[(&str, &str)] =
        if confirmed { &[("LOTW_QSL_RCVD", "Y"), ("LOTW_QSLRDATE", "20260401")] } else { &[] };
    let fields = fields.iter().chain(confirmation);
    fields.map(|(name, value)| format!("<{name}:{}>{value} ", value.len())).collect::<String>() + "<EOR>\n"
}
