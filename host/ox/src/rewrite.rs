//! A file read, its contacts normalised, and written back.

use crate::files::{In, Out};
use crate::refused;
use crate::table::cell;
use crate::{Failure, Said, done};
use oxbreathe::reading::{Field, Record, read, table};
use oxbreathe::writing::journal_header;
use oxbreathe::{Refusal, text};

pub fn run(from: &In, out: &Out) -> Result<Said, Failure> {
    out.check(&[from])?;
    let bytes = from.read()?;
    let mut rows = table(&bytes);
    let file = refused::of(from, &bytes, read(&bytes, &mut rows))?;
    let mut written = refused::of(from, &bytes, journal_header(&mut [0; 64]).map(<[u8]>::to_vec))?;
    let mut said = String::new();
    for record in file.records() {
        let (bytes, lost) = rewritten(&record).map_err(|why| {
            let number = record.number();
            Failure::Refused(format!("{from}: record {number}: refused {}: {}\n", why.number(), why.cause.name()))
        })?;
        written.extend(bytes);
        for Field { name, value } in lost {
            said += &format!("record {}: {} left out: {}\n", record.number(), cell(name), cell(value));
        }
    }
    // what is written must read again
    refused::of(&In::named(out.path.clone()), &written, text::check(&written))?;
    out.write(&written)?;
    let records = if file.len() == 1 { "record" } else { "records" };
    done(format!("{said}{}: {} {records}\n", out.path.display(), file.len()))
}

/// The record of the normalised contact, and the fields that it has no more, though they said something.
fn rewritten<'a>(record: &Record<'a>) -> Result<(Vec<u8>, Vec<Field<'a>>), Refusal> {
    let (qso, refusal) = record.normal_qso();
    let bytes = refusal.map_or(qso.to_vec(), Err)?;
    let mut rows = table(&bytes);
    let again = read(&bytes, &mut rows)?.records().next();
    let is_lost =
        |field: &Field| again.is_none_or(|again| again.field(field.name).is_none()) && !field.value.trim().is_empty();
    let lost = record.fields().filter(is_lost).collect();
    Ok((bytes, lost))
}
