//! The window test of two contacts from their texts, beside rigflow's `within_window`.

use crate::measure::Row;
use crate::rows::kept;
use original::model::Qso;
use oxbreathe::sys::{self, Place};

/// A contact on both sides.
struct Both {
    text: Vec<u8>,
    qso: sys::Qso,
    theirs: Qso,
}

pub fn rows() -> [Row; 1] {
    let contact = |i: u32| {
        let (date, time) =
            (format!("2026{:02}{:02}", i % 12 + 1, i % 28 + 1), format!("{:02}{:02}{:02}", i % 24, i % 60, i % 60));
        let mut qso = sys::record_to_qso(&[], &[], 0, 0).qso;
        qso.columns[1] = Place { kind: 1, start: 0, len: 8 };
        qso.columns[2] = Place { kind: 1, start: 8, len: 6 };
        let text = [date.as_bytes(), time.as_bytes()].concat();
        Both { text, qso, theirs: Qso { qso_date: date, time_on: time, ..Qso::default() } }
    };
    let contacts = kept((0..1_001).map(contact).collect());
    [Row::new("window test", "1,000 pairs", contacts, library, original)]
}

fn library(all: &'static [Both]) -> u64 {
    all.windows(2).filter(|p| sys::within_window(&p[0].text, p[0].qso, &p[1].text, p[1].qso, 1_800).yes).count() as u64
}

fn original(all: &'static [Both]) -> u64 {
    all.windows(2).filter(|p| original::dedupe::within_window(&p[0].theirs, &p[1].theirs, 1_800)).count() as u64
}
