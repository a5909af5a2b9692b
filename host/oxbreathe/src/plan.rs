//! What importing a file, or a download of confirmations, would do to a log, as rigflow's `plan` and `plan_download`. The log is a list of
//! contacts, as [`contacts::Writer`] makes it. Nothing is changed: a plan says what would happen.

use crate::contacts::{self, Mark, Service, joined};
use crate::reading::{self, Read, Record, Row};
use crate::refusal::{Answer, Refusal};
use crate::sys::{self, Confirmed, Fated, PlanAnswer};
use crate::text::{part, taken};

pub use crate::sys::Counts;

numbered! {
    /// Why a record is unusable.
    Reason {
        NoCall = 1 "no CALL",
        BadDate = 2 "bad QSO_DATE",
        BadTime = 3 "bad TIME_ON",
        NoMode = 4 "no MODE",
        InexactFrequency = 5 "a frequency outside the exact window",
    }
}

/// What becomes of one record, in the order of the numbers, from 1.
#[derive(Clone, Copy, Debug, PartialEq, Eq, Hash)]
pub enum Fate {
    /// It is to be imported.
    Importable,
    /// The log has it.
    DuplicateInLog,
    /// An importable record before it is the same contact.
    DuplicateInFile,
    /// No contact can be made of it.
    Unusable(Reason),
    /// It bears a confirmation of a contact in the log.
    Confirmed,
    /// It bears a confirmation, and the log has no such contact.
    Unmatched,
    /// A download imports nothing.
    Ignored,
}

impl Fate {
    /// The fate of a number and the reason that stands beside it.
    pub fn numbered(fate: u32, reason: u32) -> Option<Fate> {
        match (fate, reason) {
            (1, 0) => Some(Fate::Importable),
            (2, 0) => Some(Fate::DuplicateInLog),
            (3, 0) => Some(Fate::DuplicateInFile),
            (4, _) => Reason::numbered(reason).map(Fate::Unusable),
            (5, 0) => Some(Fate::Confirmed),
            (6, 0) => Some(Fate::Unmatched),
            (7, 0) => Some(Fate::Ignored),
            _ => None,
        }
    }

    /// Its number in the C interface, and what the program `showplan` calls it.
    fn told(self) -> (u32, &'static str) {
        match self {
            Fate::Importable => (1, "importable"),
            Fate::DuplicateInLog => (2, "duplicate-in-log"),
            Fate::DuplicateInFile => (3, "duplicate-in-file"),
            Fate::Unusable(_) => (4, "unusable"),
            Fate::Confirmed => (5, "confirmed"),
            Fate::Unmatched => (6, "unmatched"),
            Fate::Ignored => (7, "ignored"),
        }
    }

    /// Its number in the C interface.
    pub fn number(self) -> u32 {
        self.told().0
    }

    /// As the program `showplan` prints it.
    pub fn name(self) -> &'static str {
        self.told().1
    }

    /// Why the record is unusable.
    ///
    /// ```
    /// use oxbreathe::plan::Fate;
    ///
    /// let fate = Fate::numbered(4, 2).unwrap();
    /// assert_eq!((fate.name(), fate.reason().unwrap().name()), ("unusable", "bad QSO_DATE"));
    /// ```
    pub fn reason(self) -> Option<Reason> {
        if let Fate::Unusable(reason) = self { Some(reason) } else { None }
    }
}

/// A contact that a service newly confirms.
#[derive(Clone, Copy, Debug, PartialEq, Eq)]
pub struct Confirmation<'a> {
    /// The contact's id.
    pub id: u64,
    /// Who confirms it.
    pub service: Service,
    /// When, as the record says it.
    pub date: Option<&'a str>,
}

/// What would happen.
#[derive(Clone, Debug, PartialEq, Eq)]
pub struct Plan<'a> {
    /// One a record, in the order of the file.
    pub fates: Vec<Fate>,
    /// One for each contact and service.
    pub confirmations: Vec<Confirmation<'a>>,
    /// How many of each.
    pub counts: Counts,
    /// The mark of the list that it was made against.
    pub mark: Mark,
    text: &'a str,
    rows: Vec<Row>,
}

/// Plans the import of a text against a list, two contacts being within `window` seconds.
///
/// ```
/// use oxbreathe::plan::{Fate, Reason, plan};
///
/// let text = b"<CALL:4>W1AW<QSO_DATE:8>20260301<TIME_ON:4>1200<BAND:3>40M<MODE:3>USB<EOR><QSO_DATE:8>20260301<EOR>";
/// let plan = plan(text, &[1, 0, 0, 0, 0], 1800)?;
/// assert_eq!(plan.fates, [Fate::Importable, Fate::Unusable(Reason::NoCall)]);
/// assert_eq!(plan.summary(), "2 records · 1 to import · 1 unusable");
/// # Ok::<(), oxbreathe::Refusal>(())
/// ```
pub fn plan<'a>(text: &'a [u8], list: &[u8], window: i64) -> Result<Plan<'a>, Refusal> {
    planned(text, list, window, false)
}

/// Plans what a download of confirmations would do: records that bear none are ignored.
///
/// ```
/// use oxbreathe::contacts::{Contact, Service, Writer};
/// use oxbreathe::plan::{Confirmation, Fate, plan_download};
///
/// let mut log = Writer::new();
/// let (date, time) = ("20260301", "1200");
/// log.append(&Contact { id: 7, call: "W1AW", date, time, band: "40m", mode: "SSB", ..Contact::default() })?;
/// let text = b"<CALL:4>W1AW<QSO_DATE:8>20260301<TIME_ON:4>1201<BAND:3>40m<MODE:3>SSB<QSL_RCVD:1>Y<QSLRDATE:8>20260401<EOR>";
/// let plan = plan_download(text, log.bytes(), 1800)?;
/// assert_eq!(plan.fates, [Fate::Confirmed]);
/// assert_eq!(plan.confirmations, [Confirmation { id: 7, service: Service::Qsl, date: Some("20260401") }]);
/// # Ok::<(), oxbreathe::Refusal>(())
/// ```
pub fn plan_download<'a>(text: &'a [u8], list: &[u8], window: i64) -> Result<Plan<'a>, Refusal> {
    planned(text, list, window, true)
}

fn planned<'a>(text: &'a [u8], list: &[u8], window: i64, download: bool) -> Result<Plan<'a>, Refusal> {
    let mut tables = Tables::new(text, list);
    let answer = tables.plan(text, list, window, download).accepted()?;
    // Safe: the text was accepted.
    let text = unsafe { taken(text) };
    let fate = |&[fate, reason, ..]: &Fated| Fate::numbered(fate, reason);
    let confirmation = |&[low, high, bit, place, length]: &Confirmed| {
        let date = part(text, place, length).filter(|date| !date.is_empty());
        Some(Confirmation { id: joined(low, high), service: Service::numbered(bit)?, date })
    };
    let Tables { mut rows, fates, confirmations, .. } = tables;
    rows.truncate(answer.rows);
    Ok(Plan {
        fates: fates.iter().take(answer.records).filter_map(fate).collect(),
        confirmations: confirmations.iter().take(answer.confirmations).filter_map(confirmation).collect(),
        counts: answer.counts,
        mark: Mark { contacts: answer.contacts, largest: answer.largest },
        text,
        rows,
    })
}

impl<'a> Plan<'a> {
    /// The records, each with its fate.
    ///
    /// ```
    /// let text = b"<CALL:4>W1AW <EOR> <CALL:4>G4ZZ <EOR>";
    /// let plan = oxbreathe::plan::plan(text, &[1, 0, 0, 0, 0], 1800)?;
    /// let told = |(record, fate): (oxbreathe::reading::Record, oxbreathe::plan::Fate)| {
    ///     format!("{} {} {}", record.number(), record.field("CALL").unwrap_or("?"), fate.name())
    /// };
    /// assert_eq!(plan.records().map(told).collect::<Vec<_>>(), ["1 W1AW unusable", "2 G4ZZ unusable"]);
    /// # Ok::<(), oxbreathe::Refusal>(())
    /// ```
    pub fn records(&self) -> impl Iterator<Item = (Record<'_>, Fate)> {
        self.read().records().zip(self.fates.iter().copied())
    }

    /// What was read of the file.
    pub fn read(&self) -> Read<'_> {
        Read::new(self.text, &self.rows, self.fates.len())
    }

    /// The plan in one line.
    pub fn summary(&self) -> String {
        summary(self.counts)
    }

    /// Whether the plan still holds against a list.
    pub fn is_fresh(&self, list: &[u8]) -> Result<bool, Refusal> {
        contacts::is_fresh(self.mark, list)
    }
}

/// Counts in one line.
///
/// ```
/// use oxbreathe::plan::{Counts, summary};
///
/// let counts = Counts { total: 3, importable: 2, duplicates: 1, ..Counts::default() };
/// assert_eq!(summary(counts), "3 records · 2 to import · 1 duplicate (skipped)");
/// ```
pub fn summary(counts: Counts) -> String {
    // seven numbers of at most 20 digits, and at most 128 bytes of words around them
    let mut out = [0; 268];
    let length = sys::plan_summary(counts, &mut out).length;
    String::from_utf8_lossy(out.get(..length).unwrap_or_default()).into_owned()
}

/// The tables that a plan works in, and leaves its answers in.
#[derive(Clone, Debug)]
pub struct Tables {
    /// A row for each field of the text.
    pub rows: Vec<Row>,
    /// One for each contact of the list.
    pub index: Vec<sys::Record>,
    /// One for each record of the text.
    pub fates: Vec<Fated>,
    /// One for each contact and service that is newly confirmed.
    pub confirmations: Vec<Confirmed>,
}

/// No more are read ([`Cause::TooManyRecords`](crate::Cause)).
const MOST_RECORDS: usize = 65_535;

impl Tables {
    /// Large enough for any plan of this text against this list: a record has a tag and, but for the last, ends in one more, whose name
    /// is EOR; and each record and each contact has at most four confirmations.
    pub fn new(text: &[u8], list: &[u8]) -> Tables {
        let ends = text.windows(3).filter(|name| name.eq_ignore_ascii_case(b"EOR")).count();
        let records = reading::tags(text).div_ceil(2).min(ends + 1).min(MOST_RECORDS);
        let contacts = contacts::most(list);
        Tables {
            rows: reading::table(text),
            index: vec![sys::Record::default(); contacts],
            fates: vec![[0; 28]; records],
            confirmations: vec![[0; 5]; 4 * records.min(contacts)],
        }
    }

    /// The plan by its numbers. What the tables held before does not matter.
    pub fn plan(&mut self, text: &[u8], list: &[u8], window: i64, download: bool) -> PlanAnswer {
        let Tables { rows, index, fates, confirmations } = self;
        sys::plan(text, list, window, download, rows.as_flattened_mut(), index, fates, confirmations)
    }
}
