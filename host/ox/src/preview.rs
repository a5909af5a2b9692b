//! What importing files would do: the library's plan of each, as a table, as JSON or as a page.

use crate::args::{Against, Form, Preview};
use crate::files::{In, Out};
use crate::html::{self, Origin};
use crate::progress::Progress;
use crate::refused::{self, Refused};
use crate::saved::{self, Basis, Saved};
use crate::table::{self, Row, cell, colour, laid_out, of_contacts};
use crate::{Failure, Said, json};
use oxbreathe::Refusal;
use oxbreathe::contacts::{self, Contact, List, Writer};
use oxbreathe::plan::{Confirmation, Counts, Fate, Plan, plan, plan_download};
use std::borrow::Cow;
use std::iter::once;
use std::time::{Duration, SystemTime};

/// A record as it is compared, with its fate.
pub struct Record<'a> {
    pub number: u32,
    pub call: Cow<'a, str>,
    pub date: Cow<'a, str>,
    pub time: Cow<'a, str>,
    pub band: Cow<'a, str>,
    pub mode: Cow<'a, str>,
    pub fate: Fate,
}

impl Record<'_> {
    /// Why it is unusable, in words.
    pub fn reason(&self) -> &'static str {
        self.fate.reason().map_or("", |reason| reason.name())
    }
}

/// All that is shown of a file.
pub struct Shown<'a> {
    pub plan: &'a Plan<'a>,
    /// Those that were asked for.
    pub records: Vec<Record<'a>>,
    /// Each with the contact that it confirms.
    pub confirmations: Vec<(Confirmation<'a>, Contact<'a>)>,
}

/// The log that files are previewed against.
struct Log<'a> {
    against: &'a Against,
    bytes: Vec<u8>,
    mark: contacts::Mark,
}

impl Log<'_> {
    /// It is looked at first, here as in the planner: what a plan is then refused for is the file's.
    fn read(against: &Against) -> Result<Log<'_>, Failure> {
        let bytes = against.log.as_ref().map_or(Ok(Writer::new().bytes().to_vec()), In::read)?;
        let mark = match &against.log {
            None => Writer::new().mark(),
            Some(list) => refused::of(list, &bytes, contacts::check(&bytes))?,
        };
        Ok(Log { against, bytes, mark })
    }

    fn plan<'b>(&self, file: &'b [u8]) -> Result<Plan<'b>, Refusal> {
        let made = if self.against.download { plan_download } else { plan };
        made(file, &self.bytes, self.against.window)
    }

    /// Its name and its mark.
    fn told(&self) -> String {
        let name = self.against.log.as_ref().map_or("an empty log".to_string(), In::to_string);
        format!("against {name}: {}\n", crate::list::marked(self.mark))
    }
}

/// What became of a file, as the table of files tells it.
enum Outcome {
    Planned { records: usize, counts: Counts },
    Refused(Refusal),
    Unread,
}

pub fn run(asked: &Preview, coloured: bool) -> Result<Said, Failure> {
    if let Form::Html(out) = &asked.form {
        out.check(&asked.files.iter().chain(&asked.against.log).collect::<Vec<_>>())?;
    }
    let log = Log::read(&asked.against)?;
    let mut said = Said::default();
    let mut outcomes = Vec::new();
    let progress = Progress::of(asked.files.len());
    let several = asked.files.len() > 1;
    for (number, file) in asked.files.iter().enumerate() {
        progress.at(number, &file.to_string());
        match (&asked.form, several) {
            (Form::Table, true) => said.out(format!("{}{}\n", if number > 0 { "\n" } else { "" }, named(file))),
            (Form::Json, true) => said.out(if number > 0 { ",\n" } else { "[\n" }),
            _ => (),
        }
        outcomes.push(one(asked, &log, file, coloured, &mut said)?);
    }
    drop(progress);
    match &asked.form {
        Form::Json if several => said.out("\n]\n"),
        Form::Table | Form::Summary if several => said.out(of_files(asked, &log, &outcomes)),
        _ => (),
    }
    Ok(said)
}

fn named(file: &In) -> String {
    table::plain(&file.to_string())
}

/// One file previewed. Where there are several, one that cannot be read does not keep the others from it.
fn one(asked: &Preview, log: &Log, file: &In, coloured: bool, said: &mut Said) -> Result<Outcome, Failure> {
    let several = asked.files.len() > 1;
    let bytes = match file.read() {
        Err(failure) if several => {
            let (text, status) = failure.told();
            said.err(text);
            said.status(status);
            if let Form::Json = asked.form {
                said.out("null");
            }
            return Ok(Outcome::Unread);
        }
        read => read?,
    };
    let plan = match log.plan(&bytes) {
        Ok(plan) => plan,
        Err(why) => {
            let refused = Refused { input: file, bytes: &bytes, why };
            said.err(refused.text());
            said.status(1);
            match &asked.form {
                Form::Json => said.out(element(refused.json(), several)),
                Form::Html(out) => {
                    let basis = Basis::new(file, &bytes, log.against, &log.bytes, log.mark);
                    let page = refused.with_fault(|fault| with_origin(&basis, |origin| html::refused(origin, fault)));
                    write_page(out, &page, said)?;
                }
                Form::Table | Form::Summary => (),
            }
            return Ok(Outcome::Refused(why));
        }
    };
    let shown = Shown { plan: &plan, records: records(asked, &plan), confirmations: confirmed(log, &plan)? };
    let basis = || Basis::new(file, &bytes, log.against, &log.bytes, plan.mark);
    let summary = || format!("{}\n", plan.summary());
    match &asked.form {
        Form::Table => said.out(shown.text(asked, coloured) + &summary()),
        Form::Summary if !several => said.out(summary()),
        Form::Summary => (),
        Form::Json => said.out(element(shown.json(basis()), several)),
        Form::Html(out) => {
            said.out(summary());
            write_page(out, &with_origin(&basis(), |origin| html::page(origin, &shown)), said)?;
        }
    }
    if let (Form::Table | Form::Summary, false) = (&asked.form, several) {
        said.out(log.told());
    }
    Ok(Outcome::Planned { records: plan.fates.len(), counts: plan.counts })
}

/// JSON as it is printed: by itself it ends its line, of several a comma or a bracket does.
fn element(json: String, several: bool) -> String {
    if several { json.trim_end().to_string() } else { json }
}

fn write_page(out: &Out, page: &str, said: &mut Said) -> Result<(), Failure> {
    out.write(page.as_bytes())?;
    said.out(format!("{} written\n", out.path.display()));
    Ok(())
}

/// What a page tells at its foot.
fn with_origin<T>(basis: &Basis, told: impl FnOnce(&Origin) -> T) -> T {
    let sources = oxbreathe::SOURCES.get(..12).unwrap_or(oxbreathe::SOURCES);
    told(&Origin {
        file: &basis.file,
        file_sha256: &basis.file_sha256,
        log: basis.log.as_deref().map(|log| (log, &*basis.log_sha256)),
        download: basis.download,
        window: basis.window,
        made: &made(),
        by: &format!("ox {} (sources {sources}, {})", env!("CARGO_PKG_VERSION"), oxbreathe::KIT),
    })
}

/// The time of making, which SOURCE_DATE_EPOCH sets where a page has to come out the same twice.
fn made() -> String {
    let set = std::env::var("SOURCE_DATE_EPOCH").ok().and_then(|seconds| seconds.parse().ok());
    let set = set.and_then(|seconds| SystemTime::UNIX_EPOCH.checked_add(Duration::from_secs(seconds)));
    let time = humantime::format_rfc3339_seconds(set.unwrap_or_else(SystemTime::now)).to_string();
    time.replace('T', " ").replace('Z', " UTC")
}

fn records<'a>(asked: &Preview, plan: &'a Plan) -> Vec<Record<'a>> {
    let is_wanted = |fate: Fate| asked.only.is_empty() || asked.only.iter().any(|name| name == fate.name());
    let wanted = plan.records().filter(|(_, fate)| is_wanted(*fate));
    let shown = wanted.map(|(record, fate)| {
        let (qso, _) = record.normal_qso();
        let (call, date, time, band, mode) = (qso.call(), qso.qso_date(), qso.time_on(), qso.band(), qso.mode());
        Record { number: record.number(), call, date, time, band, mode, fate }
    });
    // the table of files needs no record
    if let Form::Summary = asked.form { Vec::new() } else { shown.collect() }
}

fn confirmed<'a>(log: &'a Log, plan: &'a Plan) -> Result<Vec<(Confirmation<'a>, Contact<'a>)>, Failure> {
    let (Some(list), false) = (&log.against.log, plan.confirmations.is_empty()) else { return Ok(Vec::new()) };
    let contacts: Vec<Contact> = refused::of(list, &log.bytes, List::new(&log.bytes))?.contacts().collect();
    let contact = |id| contacts.binary_search_by_key(&id, |contact| contact.id).ok().and_then(|at| contacts.get(at));
    let confirmations = plan.confirmations.iter();
    Ok(confirmations.map(|confirmed| (*confirmed, contact(confirmed.id).copied().unwrap_or_default())).collect())
}

impl Shown<'_> {
    fn text(&self, asked: &Preview, coloured: bool) -> String {
        let row = |record: &Record| {
            let contact = [&record.call, &record.date, &record.time, &record.band, &record.mode].map(|text| cell(text));
            let said = [record.fate.name().to_string(), record.reason().to_string()];
            table::row(record.number.to_string(), contact, said, coloured.then(|| colour(record.fate)))
        };
        let rows: Vec<_> = self.records.iter().map(row).collect();
        let mut text = of_contacts("no", ["fate", "reason"], &rows);
        if !self.confirmations.is_empty() {
            let row = |(confirmation, contact): &(Confirmation, Contact)| {
                let said = [confirmation.service.name().to_string(), cell(confirmation.date.unwrap_or_default())];
                table::row(confirmation.id.to_string(), table::contact(contact), said, None)
            };
            let rows: Vec<_> = self.confirmations.iter().map(row).collect();
            text += "\nnewly confirmed:\n";
            text += &of_contacts("id", ["by", "on"], &rows);
        }
        text += "\n";
        if !asked.only.is_empty() {
            text += &format!("{} of {} records shown\n", self.records.len(), self.plan.fates.len());
        }
        text
    }

    fn json(&self, basis: Basis) -> String {
        fn record<'a>(record: &'a Record) -> saved::Record<'a> {
            let Record { number, call, date, time, band, mode, fate } = record;
            let reason = fate.reason().map_or(0, |reason| reason.number());
            let (fate, why) = (fate.name(), record.reason());
            saved::Record { number: *number, call, date, time, band, mode, fate, reason, why }
        }
        fn confirmation<'a>((confirmation, contact): &'a (Confirmation, Contact)) -> saved::Confirmation<'a> {
            let (service, date) = (confirmation.service.name(), confirmation.date);
            saved::Confirmation { id: confirmation.id, call: contact.call, service, date }
        }
        json::text(&Saved {
            basis,
            counts: self.plan.counts.into(),
            records: self.records.iter().map(record).collect(),
            confirmations: self.confirmations.iter().map(confirmation).collect(),
            summary: self.plan.summary(),
        })
    }
}

/// A row a file, and below them what they come to.
fn of_files(asked: &Preview, log: &Log, outcomes: &[Outcome]) -> String {
    let head = ["file", "records", "to import", "duplicates", "unusable", "refused"];
    let row = |name: String, numbers: Option<[u64; 4]>, refused: String| {
        let numbers = numbers.map_or(Default::default(), |numbers| numbers.map(|number| number.to_string()));
        Row { cells: once(name).chain(numbers).chain([refused]).collect(), colour: None }
    };
    let mut rows = Vec::new();
    let (mut sums, mut refused) = ([0; 4], 0);
    for (file, outcome) in asked.files.iter().zip(outcomes) {
        let (numbers, why) = match outcome {
            Outcome::Planned { records, counts } => {
                let numbers = [*records as u64, counts.importable, counts.duplicates, counts.unusable];
                (Some(numbers), String::new())
            }
            Outcome::Refused(why) => (None, format!("{}: {}", why.number(), why.cause.name())),
            Outcome::Unread => (None, "cannot be read".to_string()),
        };
        refused += usize::from(numbers.is_none());
        for (sum, number) in sums.iter_mut().zip(numbers.unwrap_or_default()) {
            *sum += number;
        }
        rows.push(row(named(file), numbers, why));
    }
    let all = outcomes.len();
    let refused = if refused > 0 { format!("{refused} of {all} files") } else { String::new() };
    rows.push(row(format!("{all} files"), Some(sums), refused));
    let before = if let Form::Table = asked.form { "\n" } else { "" };
    let by_itself = "each file by itself: a contact that stands in two of them counts in both";
    format!("{before}{}{}{by_itself}\n", laid_out(&head, &[1, 2, 3, 4], &rows), log.told())
}
