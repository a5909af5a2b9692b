//! Mapping and normalising every record of a log that was read, beside `record_to_qso` and `Qso::normalize`; and writing each contact
//! back, beside `qso_to_record` and `write_record`.

use crate::measure::Row;
use crate::reading::log;
use crate::rows::kept;
use original::adif::{AdifRecord, parse_adif, qso_to_record, record_to_qso, write_record};
use original::model::Qso;
use oxbreathe::sys::{self, ROW};
use std::cell::RefCell;

/// A log as each side reads it.
struct Log {
    text: Vec<u8>,
    table: Vec<u32>,
    records: Vec<AdifRecord>,
}

/// Its contacts as each side holds them, and of each the rows of its extra fields.
struct Contacts {
    text: Vec<u8>,
    ours: Vec<(sys::Qso, Vec<u32>)>,
    theirs: Vec<Qso>,
}

pub fn rows() -> [Row; 2] {
    let text = log(10_000);
    let mut table = vec![0; 150_000 * ROW];
    let rows = sys::read(&text, &mut table).rows;
    table.truncate(rows * ROW);
    let records = parse_adif(std::str::from_utf8(&text).unwrap()).unwrap();
    let log = &kept(vec![Log { text, table, records }])[0];
    let contacts = &kept(vec![contacts(log)])[0];
    [
        Row::new("map and normalise", "10,000 records", log, library, original),
        Row::new("write a QSO", "10,000 contacts", contacts, library_write, original_write),
    ]
}

fn contacts(log: &Log) -> Contacts {
    let Log { text, table, records } = log;
    let (mut first, mut ours) = (0, Vec::new());
    while let Some(&record) = table.get(first * ROW) {
        let rows = table[first * ROW..].chunks_exact(ROW).take_while(|row| row[0] == record);
        let is_extra = |row: &&[u32]| sys::column(&text[row[1] as usize..][..row[2] as usize]).column == 13;
        let extra: Vec<u32> = rows.clone().filter(is_extra).flatten().copied().collect();
        let count = rows.count();
        ours.push((sys::record_to_normal_qso(text, table, first, count).qso, extra));
        first += count;
    }
    let normal = |record| {
        let mut qso = record_to_qso(record);
        qso.normalize();
        qso
    };
    Contacts { text: text.clone(), ours, theirs: records.iter().map(normal).collect() }
}

fn library_write(contacts: &'static Contacts) -> usize {
    thread_local!(static OUT: RefCell<Vec<u8>> = RefCell::new(vec![0; 100_000]));
    OUT.with_borrow_mut(|out| {
        let Contacts { text, ours, .. } = contacts;
        ours.iter().map(|(qso, extra)| sys::write_qso(text, *qso, extra, extra.len() / ROW, out).length).sum()
    })
}

fn original_write(contacts: &'static Contacts) -> usize {
    contacts.theirs.iter().map(|qso| write_record(&qso_to_record(qso)).len()).sum()
}

fn library(log: &'static Log) -> u64 {
    let Log { text, table, .. } = log;
    let (mut first, mut sum) = (0, 0);
    while let Some(&record) = table.get(first * ROW) {
        let count = table[first * ROW..].chunks_exact(ROW).take_while(|row| row[0] == record).count();
        sum += sys::record_to_normal_qso(text, table, first, count).qso.freq.hz;
        first += count;
    }
    sum
}

fn original(log: &'static Log) -> u64 {
    let normal = |record| {
        let mut qso = record_to_qso(record);
        qso.normalize();
        qso.freq_hz.unwrap_or(0)
    };
    log.records.iter().map(normal).sum()
}
