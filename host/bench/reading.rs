//! Reading, beside `parse_adif`: a log of ordinary fields, and texts of growing size, whose cost a byte is to stay the same.

use crate::measure::Row;
use crate::rows::kept;
use original::adif::parse_adif;
use oxbreathe::reading::{read, table};
use oxbreathe::sys;
use std::cell::RefCell;
use std::str::from_utf8;

/// A text, and how many rows the table for it has.
type Text = (&'static [u8], usize);

pub fn rows() -> [Row; 4] {
    let lent = |text: Vec<u8>| {
        let rows = table(&text).len();
        (kept(text), rows)
    };
    let row = |name, text| Row::new("read", name, text, library, original);
    [
        row("10,000 records", lent(log(10_000))),
        row("1 MiB", lent(filled(1 << 20))),
        row("4 MiB", lent(filled(4 << 20))),
        row("16 MiB", lent(filled(16 << 20))),
    ]
}

fn library((text, rows): Text) -> usize {
    thread_local!(static TABLE: RefCell<Vec<sys::Row>> = RefCell::new(vec![[0; sys::ROW]; 800_000]));
    TABLE.with_borrow_mut(|table| read(text, &mut table[..rows]).map_or(0, |read| read.len()))
}

fn original((text, _): Text) -> usize {
    from_utf8(text).ok().and_then(|text| parse_adif(text).ok()).map_or(0, |records| records.len())
}

/// A log as a logging program writes it, of some 2.5 MB for 10,000 records.
pub fn log(records: usize) -> Vec<u8> {
    let header = "Written by a logger\n<ADIF_VER:5>3.1.6 <PROGRAMID:6>logger <EOH>\n".to_string();
    (0..records).fold(header, |text, i| text + &record(i) + "<EOR>\n").into_bytes()
}

fn record(i: usize) -> String {
    let (band, freq) = [("40m", "7.074000"), ("20m", "14.074000"), ("2m", "144.174000")][i % 3];
    let portable = if i % 7 == 0 { "/P" } else { "" };
    let fields = [
        ("CALL", format!("{}{}{portable}", ["W1AW", "DL0XX", "JA1ABC", "G4ZZ"][i % 4], i % 10)),
        ("QSO_DATE", format!("2026{:02}{:02}", i % 12 + 1, i % 28 + 1)),
        ("TIME_ON", format!("{:02}{:02}{:02}", i % 24, i % 60, i * 7 % 60)),
        ("BAND", band.to_string()),
        ("FREQ", freq.to_string()),
        ("MODE", ["SSB", "CW", "FT8"][i % 3].to_string()),
        ("RST_SENT", "59".to_string()),
        ("RST_RCVD", "599".to_string()),
        ("GRIDSQUARE", "JO62qm".to_string()),
        ("STATION_CALLSIGN", "DL1ABC".to_string()),
        ("COMMENT", format!("contact no. {i}, 73 de DL1ABC")),
    ];
    fields.iter().map(|(name, value)| format!("<{name}:{}>{value} ", value.len())).collect()
}

/// That many bytes of records with a note each, so that a text of 16 MiB stays within the limit of records.
fn filled(length: usize) -> Vec<u8> {
    let note = format!("<NOTES:100>{} <EOR>\n", "x".repeat(100));
    let mut text = String::with_capacity(length);
    for more in (0..).map(record) {
        if text.len() + more.len() + note.len() > length {
            break;
        }
        text = text + &more + &note;
    }
    let mut text = text.into_bytes();
    text.resize(length, b' ');
    text
}
