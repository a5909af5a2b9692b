//! Makes the largest files that the tool must take, into a folder: `full.adi`, 65,535 records in 16 MiB; `full.list`, as many contacts as
//! 16 MiB hold, among them every fifth record of the file; and `long.adi`, a byte too long.

use oxbreathe::contacts::{Contact, Writer};
use oxbreathe::{LONGEST, Refusal};
use std::path::PathBuf;

const RECORDS: usize = 65_535;

/// A call and a time for each number, no two alike.
fn call(number: usize) -> String {
    format!("DL{number:06}")
}

fn time(number: usize) -> String {
    format!("{:02}{:02}", number / 60 % 24, number % 60)
}

fn record(number: usize) -> String {
    let fields =
        format!("<CALL:8>{}<QSO_DATE:8>20260613<TIME_ON:4>{}<BAND:3>20m<MODE:2>CW", call(number), time(number));
    let left = 256 - fields.len() - "<COMMENT:100><EOR>\n".len();
    format!("{fields}<COMMENT:{left}>{:left$}<EOR>\n", "")
}

fn list() -> Result<Writer, Refusal> {
    let mut list = Writer::new();
    for number in 1.. {
        let call = call(number * 5);
        let (date, time) = ("20260613", time(number * 5));
        let id = number as u64;
        let contact = Contact { id, call: &call, date, time: &time, band: "20m", mode: "CW", ..Contact::default() };
        if list.bytes().len() + 64 > LONGEST {
            break;
        }
        list.append(&contact)?;
    }
    Ok(list)
}

fn main() -> Result<(), Box<dyn std::error::Error>> {
    let folder = PathBuf::from(std::env::args_os().nth(1).ok_or("no folder")?);
    let file: String = (1..=RECORDS).map(record).collect();
    let spare = " ".repeat(LONGEST - file.len());
    std::fs::write(folder.join("full.adi"), file + &spare)?;
    std::fs::write(folder.join("full.list"), list()?.bytes())?;
    std::fs::write(folder.join("long.adi"), " ".repeat(LONGEST + 1))?;
    Ok(())
}
