//! Contact lists: made of a log, and printed.

use crate::files::{In, Out};
use crate::refused;
use crate::table::{self, of_contacts};
use crate::{Failure, Said, done};
use oxbreathe::contacts::{Contact, List, Mark, Service, Services, Writer};
use oxbreathe::plan::{Fate, plan, plan_download};
use oxbreathe::reading::Record;
use std::collections::BTreeMap;

/// A mark in words.
pub fn marked(mark: Mark) -> String {
    let contacts = if mark.contacts == 1 { "contact" } else { "contacts" };
    format!("{} {contacts}, largest id {}", mark.contacts, mark.largest)
}

/// Makes a list of a log: its usable records, each with its number as its id. Who confirmed a contact is what a download of the log itself
/// would confirm in the list.
pub fn make(from: &In, out: &Out) -> Result<Said, Failure> {
    out.check(&[from])?;
    let log = from.read()?;
    let plan = refused::of(from, &log, plan(&log, Writer::new().bytes(), 0))?;
    let mut said = String::new();
    let mut kept: Vec<Record> = Vec::new();
    let mut bare = Writer::new();
    for (record, fate) in plan.records() {
        let why = match fate {
            Fate::Unusable(reason) => reason.name().to_string(),
            _ => match bare.append_qso(record.number().into(), Services::default(), &record.normal_qso().0) {
                Ok(()) => {
                    kept.push(record);
                    continue;
                }
                Err(why) => why.to_string(),
            },
        };
        said += &format!("record {} left out: {why}\n", record.number());
    }
    let download = refused::of(from, &log, plan_download(&log, bare.bytes(), 0))?;
    let mut services: BTreeMap<u64, Vec<Service>> = BTreeMap::new();
    for confirmation in &download.confirmations {
        services.entry(confirmation.id).or_default().push(confirmation.service);
    }
    let mut list = Writer::new();
    for record in kept {
        let id = record.number().into();
        let services = services.remove(&id).unwrap_or_default().into_iter().collect();
        refused::of(from, &log, list.append_qso(id, services, &record.normal_qso().0))?;
    }
    out.write(list.bytes())?;
    done(format!("{said}{}: {}\n", out.path.display(), marked(list.mark())))
}

pub fn show(input: &In) -> Result<Said, Failure> {
    let bytes = input.read()?;
    let list = refused::of(input, &bytes, List::new(&bytes))?;
    let row = |contact: Contact| {
        let services = contact.services.iter().map(Service::name).collect::<Vec<_>>().join(" ");
        table::row(contact.id.to_string(), table::contact(&contact), [services], None)
    };
    let rows: Vec<_> = list.contacts().map(row).collect();
    let table = of_contacts("id", ["confirmed by"], &rows);
    done(format!("{table}\n{}\n", marked(list.mark())))
}
