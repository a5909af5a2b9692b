//! A preview as it is saved: what it was made of, so that it can be held against that later, and what it says.

use crate::args::Against;
use crate::digest::sha256;
use crate::files::In;
use oxbreathe::{contacts, plan};
use serde::{Deserialize, Serialize};

/// What a preview was made of.
#[derive(Serialize, Deserialize, Clone, Debug, PartialEq)]
pub struct Basis {
    pub file: String,
    pub file_sha256: String,
    /// None is an empty log, which has a SHA-256 as well: that of a list with no contact.
    pub log: Option<String>,
    pub log_sha256: String,
    pub window: i64,
    pub download: bool,
    pub mark: Mark,
}

impl Basis {
    pub fn new(file: &In, bytes: &[u8], against: &Against, log: &[u8], mark: contacts::Mark) -> Basis {
        Basis {
            file: file.given(),
            file_sha256: sha256(bytes),
            log: against.log.as_ref().map(In::given),
            log_sha256: sha256(log),
            window: against.window,
            download: against.download,
            mark: mark.into(),
        }
    }
}

/// The mark of a list.
#[derive(Serialize, Deserialize, Clone, Copy, Debug, PartialEq)]
pub struct Mark {
    pub contacts: usize,
    pub largest: u64,
}

impl From<contacts::Mark> for Mark {
    fn from(mark: contacts::Mark) -> Mark {
        Mark { contacts: mark.contacts, largest: mark.largest }
    }
}

impl From<Mark> for contacts::Mark {
    fn from(mark: Mark) -> contacts::Mark {
        contacts::Mark { contacts: mark.contacts, largest: mark.largest }
    }
}

/// All that is saved of a preview.
#[derive(Serialize)]
pub struct Saved<'a> {
    #[serde(flatten)]
    pub basis: Basis,
    pub counts: Counts,
    pub records: Vec<Record<'a>>,
    pub confirmations: Vec<Confirmation<'a>>,
    pub summary: String,
}

#[derive(Serialize)]
pub struct Counts {
    pub total: u64,
    pub importable: u64,
    pub duplicates: u64,
    pub confirmations: u64,
    pub already_confirmed: u64,
    pub unmatched: u64,
    pub unusable: u64,
}

impl From<plan::Counts> for Counts {
    fn from(counts: plan::Counts) -> Counts {
        let plan::Counts { total, importable, confirmations, already_confirmed, duplicates, unmatched, unusable } =
            counts;
        Counts { total, importable, duplicates, confirmations, already_confirmed, unmatched, unusable }
    }
}

#[derive(Serialize)]
pub struct Record<'a> {
    pub number: u32,
    pub call: &'a str,
    pub date: &'a str,
    pub time: &'a str,
    pub band: &'a str,
    pub mode: &'a str,
    pub fate: &'static str,
    pub reason: u32,
    pub why: &'static str,
}

#[derive(Serialize)]
pub struct Confirmation<'a> {
    pub id: u64,
    pub call: &'a str,
    pub service: &'static str,
    pub date: Option<&'a str>,
}

/// What the previews of a saved text were made of, none where it is no preview; several files make a list of them.
pub fn read(text: &[u8]) -> Option<Vec<Basis>> {
    if text.trim_ascii_start().starts_with(b"[") {
        serde_json::from_slice(text).ok()
    } else {
        serde_json::from_slice(text).ok().map(|basis| vec![basis])
    }
}
