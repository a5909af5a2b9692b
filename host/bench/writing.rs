//! Writing, beside `write_record`: the records of the reader's log, from the text and the rows that reading gave, and from
//! the records that `parse_adif` gave. Both sides make one text of them.

use crate::measure::Row;
use crate::reading::log;
use crate::rows::kept;
use original::adif::{AdifRecord, parse_adif, write_record};
use oxbreathe::reading::{self, read};
use oxbreathe::writing::write;
use std::cell::RefCell;

#[derive(Clone, Copy)]
struct Log {
    text: &'static [u8],
    table: &'static [reading::Row],
    records: &'static [AdifRecord],
}

pub fn rows() -> [Row; 1] {
    let text = kept(log(10_000));
    let mut table = reading::table(text);
    let used = read(text, &mut table).unwrap().rows().len();
    table.truncate(used);
    let records = parse_adif(std::str::from_utf8(text).unwrap()).unwrap();
    [Row::new("write", "10,000 records", Log { text, table: kept(table), records: kept(records) }, library, original)]
}

fn library(log: Log) -> usize {
    thread_local!(static OUT: RefCell<Vec<u8>> = RefCell::new(vec![0; 4_000_000]));
    OUT.with_borrow_mut(|out| write(log.text, log.table, out).map_or(0, |written| written.len()))
}

fn original(log: Log) -> usize {
    log.records.iter().map(write_record).collect::<String>().len()
}
