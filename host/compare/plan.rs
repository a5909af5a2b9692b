//! Plans beside the original's: every table, number for number, after success and after a refusal. The original tells each record's fate
//! by what it makes of the record alone and of the records up to it.

use crate::contacts::{self, Contact};
use crate::files::{Case, EMPTY, EXAMPLE, case, show};
use crate::generate::{Placed, Random, damage};
use crate::harness::{Group, Input, Run};
use crate::places::{self, Refused};
use crate::{reading, rust};
use original::adif::{AdifRecord, parse_adif, record_to_qso, write_record};
use original::import::{self, ImportPlan, ImportProblem};
use original::model::Qso;
use original::rusqlite::{self, Connection};
use oxbreathe::contacts::Service;
use oxbreathe::plan::{self, Reason};
use oxbreathe::sys::{self, Confirmed, Counts, Fated, PlanAnswer, ReadAnswer, Record, Written};
use oxbreathe::{LONGEST, Refusal};
use std::collections::HashSet;

pub fn run(run: &mut Run) {
    run.group("plan/files", files);
    run.group("plan/refused", refused);
    run.group("plan/places", places);
    run.group("plan/wrapped", wrapped);
    run.group("plan/long", long);
    run.group("plan/limits", limits);
    run.group("plan/summaries", summaries);
}

// A question and its answer.

/// How long the lent tables are.
#[derive(Clone, Copy, Debug)]
pub struct Rooms {
    pub numbers: usize,
    pub index: usize,
    pub fates: usize,
    pub confirmations: usize,
}

/// What a call answers, and what it leaves in the tables.
#[derive(Clone, Debug, PartialEq)]
struct Left {
    answer: PlanAnswer,
    table: Vec<u32>,
    index: Vec<Record>,
    fates: Vec<Fated>,
    confirmations: Vec<Confirmed>,
}

fn ours(case: &Case, rooms: Rooms) -> Left {
    let mut left = Left {
        answer: PlanAnswer::default(),
        table: vec![0xEEEE_EEEE; rooms.numbers],
        index: vec![contacts::USED; rooms.index],
        fates: vec![[7; 28]; rooms.fates],
        confirmations: vec![[7; 5]; rooms.confirmations],
    };
    let Left { table, index, fates, confirmations, .. } = &mut left;
    left.answer = sys::plan(&case.text, &case.list, case.window, case.download, table, index, fates, confirmations);
    left
}

// The original's side.

/// A confirmation: id, service, and the place and length of the date.
type Kept = (u64, u32, usize, usize);

/// What the original makes of a file.
pub struct Theirs {
    /// Fate and reason of each record.
    pub fates: Vec<[u32; 2]>,
    pub confirmations: Vec<Kept>,
    pub plan: ImportPlan,
}

impl Theirs {
    pub fn counts(&self) -> Counts {
        let ImportPlan { total, importable, duplicates, confirmations, .. } = &self.plan;
        Counts {
            total: *total as u64,
            importable: importable.len() as u64,
            confirmations: confirmations.len() as u64,
            already_confirmed: self.plan.already_confirmed as u64,
            duplicates: *duplicates as u64,
            unmatched: self.plan.unmatched_confirmations as u64,
            unusable: self.plan.unusable.len() as u64,
        }
    }
}

/// A plan of the original's that counts so.
pub fn counted(counts: Counts) -> ImportPlan {
    let problem = ImportProblem { record: 1, call: String::new(), reason: String::new() };
    let confirmation = import::Confirmation { qso_id: 1, service: String::new(), confirmed_at: None };
    ImportPlan {
        total: counts.total as usize,
        importable: vec![Qso::default(); counts.importable as usize],
        duplicates: counts.duplicates as usize,
        confirmations: vec![confirmation; counts.confirmations as usize],
        already_confirmed: counts.already_confirmed as usize,
        unmatched_confirmations: counts.unmatched as usize,
        unusable: vec![problem; counts.unusable as usize],
    }
}

/// A file of at most so many records is planned up to each of them.
const SHORT: usize = 16;

/// What the original makes of records, whose rows lie in the table, against the contacts of a list.
///
/// Two of the recorded differences are made up for: second 60, which chrono takes for a leap second, becomes 61, which names no moment
/// to it either; and a record with a frequency outside the exact window, which is unusable here, is left out of the file.
fn theirs(case: &Case, contacts: &[Contact], records: &[AdifRecord], table: &[u32]) -> Theirs {
    let connection = Connection::plain(contacts.iter().map(logged).collect());
    let plan = |text: &str| {
        let call = if case.download { import::plan_download } else { import::plan };
        call(&connection, text, case.window).expect("a readable text")
    };
    let text = std::str::from_utf8(&case.text).expect("a readable text");
    let made_up: Vec<(AdifRecord, bool)> = records.iter().map(made_up).collect();
    let alone: Vec<ImportPlan> = made_up.iter().map(|(record, _)| plan(&write_record(record))).collect();
    let mut fates: Vec<[u32; 2]> = alone.iter().map(by_itself).collect();
    for (fate, (_, inexact)) in fates.iter_mut().zip(&made_up) {
        if *inexact && fate[0] != 4 {
            *fate = [4, 5];
        }
    }
    let kept: Vec<(&AdifRecord, [u32; 2])> =
        made_up.iter().map(|(record, _)| record).zip(fates.iter().copied()).filter(|(_, fate)| fate[1] != 5).collect();
    let same = kept.len() == records.len() && kept.iter().zip(records).all(|((record, _), given)| *record == given);
    let file: String = kept.iter().map(|(record, _)| write_record(record)).collect();
    let mut whole = plan(if same { text } else { &file });
    let imported = imported(&kept, &whole.importable);
    if records.len() <= SHORT {
        assert_eq!(imported, imported_up_to(&kept, plan), "records imported of {}", case.show());
    }
    for (fate, imported) in fates.iter_mut().filter(|fate| fate[1] != 5).zip(imported) {
        if fate[0] == 1 && !imported {
            fate[0] = 3;
        }
    }
    let confirmations = confirmations(text, table, &made_up, &alone);
    let dated = |&(id, service, place, length): &Kept| (id, service, text[place..place + length].to_string());
    let told =
        |c: &import::Confirmation| (c.qso_id as u64, bit(&c.service), c.confirmed_at.clone().unwrap_or_default());
    let (found, told): (Vec<_>, Vec<_>) =
        (confirmations.iter().map(dated).collect(), whole.confirmations.iter().map(told).collect());
    assert_eq!(found, told, "confirmations of {}", case.show());
    let problem = ImportProblem { record: 0, call: String::new(), reason: String::new() };
    whole.unusable.extend(vec![problem; records.len() - kept.len()]);
    whole.total = records.len();
    Theirs { fates, confirmations, plan: whole }
}

/// The fate of a record that is all of its file.
fn by_itself(plan: &ImportPlan) -> [u32; 2] {
    match plan {
        p if !p.unusable.is_empty() => [4, reason(&p.unusable[0].reason)],
        p if p.confirmations.len() + p.already_confirmed > 0 => [5, 0],
        p if p.unmatched_confirmations > 0 => [6, 0],
        p if p.duplicates > 0 => [2, 0],
        p if p.importable.is_empty() => [7, 0],
        _ => [1, 0],
    }
}

/// Of records by themselves, which are imported with the others before them: those at which what is imported grows.
fn imported_up_to(kept: &[(&AdifRecord, [u32; 2])], plan: impl Fn(&str) -> ImportPlan) -> Vec<bool> {
    let (mut file, mut before) = (String::new(), 0);
    kept.iter()
        .map(|(record, fate)| {
            file += &write_record(record);
            let now = if fate[0] == 1 { plan(&file).importable.len() } else { before };
            now > std::mem::replace(&mut before, now)
        })
        .collect()
}

/// The same from what is imported in the end, which is in order: a record that is equal to a later one is imported before it.
fn imported(kept: &[(&AdifRecord, [u32; 2])], importable: &[Qso]) -> Vec<bool> {
    let mut left = importable.iter().peekable();
    let taken = kept.iter().map(|(record, fate)| {
        let takes = fate[0] == 1 && left.peek() == Some(&&normal(record));
        takes && left.next().is_some()
    });
    let taken = taken.collect();
    assert_eq!(left.next(), None, "a contact that is imported, and no record of the file");
    taken
}

/// Once per contact and service, from what each record confirms by itself.
fn confirmations(text: &str, table: &[u32], records: &[(AdifRecord, bool)], alone: &[ImportPlan]) -> Vec<Kept> {
    let mut seen = HashSet::new();
    let mut all = Vec::new();
    for (number, ((_, inexact), plan)) in (1..).zip(records.iter().zip(alone)) {
        for confirmation in plan.confirmations.iter().filter(|_| !inexact) {
            let (id, service) = (confirmation.qso_id as u64, bit(&confirmation.service));
            if seen.insert((id, service)) {
                let rows: Vec<&[u32]> = table.chunks_exact(5).filter(|row| row[0] == number).collect();
                let (place, length) = dated(text, &rows, service);
                all.push((id, service, place, length));
            }
        }
    }
    all
}

fn normal(record: &AdifRecord) -> Qso {
    let mut qso = record_to_qso(record);
    qso.normalize();
    qso
}

/// The record with the differences made up for, and whether a frequency is outside the exact window.
fn made_up(record: &AdifRecord) -> (AdifRecord, bool) {
    let mut record = record.clone();
    if let Some(time) = record.get_mut("TIME_ON") {
        *time = no_leap(time);
    }
    let inexact = ["FREQ", "FREQ_RX"].iter().any(|name| record.get(*name).is_some_and(|text| rust::inexact(text)));
    if inexact {
        record.remove("FREQ");
        record.remove("FREQ_RX");
    }
    (record, inexact)
}

/// Second 60 as 61.
fn no_leap(time: &str) -> String {
    let digits = time.trim();
    match digits.len() == 6 && digits.ends_with("60") {
        true => time.replacen(digits, &format!("{}61", &digits[..4]), 1),
        false => time.to_string(),
    }
}

fn logged(contact: &Contact) -> rusqlite::Contact {
    let text = |bytes: &[u8]| String::from_utf8(bytes.to_vec()).expect("a sound contact");
    rusqlite::Contact {
        id: contact.id as i64,
        services: contact.services,
        call: text(&contact.call),
        date: text(&contact.date),
        time: no_leap(&text(&contact.time)),
        band: text(&contact.band),
        mode: text(&contact.mode),
    }
}

fn bit(service: &str) -> u32 {
    match service {
        "lotw" => 1,
        "eqsl" => 2,
        "qrz" => 4,
        "qsl" => 8,
        other => panic!("a service {other}"),
    }
}

fn reason(told: &str) -> u32 {
    let starts = ["no CALL", "bad QSO_DATE", "bad TIME_ON", "no MODE"];
    (1..).zip(starts).find(|(_, start)| told.starts_with(start)).expect("a reason").0
}

/// Where the date of a record's confirmation stands: trimmed, in the service's own field if there is more than white space, else in the
/// date of the contact.
fn dated(text: &str, rows: &[&[u32]], service: u32) -> (usize, usize) {
    let part = |place: u32, length: u32| &text[place as usize..(place + length) as usize];
    let value = |name: &str| rows.iter().find(|row| part(row[1], row[2]).eq_ignore_ascii_case(name));
    let trimmed = |name: &str| {
        let row = value(name)?;
        let (start, end) = rust::trim(part(row[3], row[4]));
        (start < end).then_some((row[3] as usize + start, end - start))
    };
    let says_so = |row: &&[u32]| part(row[3], row[4]).trim().eq_ignore_ascii_case("Y");
    let field = match service {
        1 if value("LOTW_QSL_RCVD").is_some_and(|row| says_so(row)) => "LOTW_QSLRDATE",
        2 => "EQSL_QSLRDATE",
        4 => "APP_QRZLOG_QSLDATE",
        _ => "QSLRDATE",
    };
    trimmed(field).or(trimmed("QSO_DATE")).unwrap_or((0, 0))
}

/// The refusals in their order, and what a call leaves.
fn expected(case: &Case, rooms: Rooms) -> (Left, Result<Theirs, Refusal>) {
    let mut left = Left {
        answer: PlanAnswer::default(),
        table: vec![0; rooms.numbers],
        index: vec![Record::default(); rooms.index],
        fates: vec![[0; 28]; rooms.fates],
        confirmations: vec![[0; 5]; rooms.confirmations],
    };
    let mut refuse = |refusal| {
        left.answer.refusal = refusal;
        (left.clone(), Err(rust::refusal(refusal, 0)))
    };
    let contacts: Vec<Contact> = match contacts::read(&case.list) {
        Ok(contacts) => contacts.into_iter().map(|(_, contact)| contact).collect(),
        Err(refusal) => return refuse(refusal),
    };
    if contacts.len() > rooms.index {
        return refuse(19);
    }
    let (read, table) = reading::expected(&case.text, rooms.numbers);
    if read.refusal != 0 {
        let ReadAnswer { refusal, place, name, name_length, wanted, left: behind, .. } = read;
        left.answer = PlanAnswer { refusal, place, name, name_length, wanted, left: behind, ..PlanAnswer::default() };
        return (left, Err(reading::refusal(&read)));
    }
    if read.records > rooms.fates {
        return refuse(19);
    }
    let records = std::str::from_utf8(&case.text).map(parse_adif).expect("UTF-8").expect("a readable text");
    let theirs = theirs(case, &contacts, &records, &table[..read.rows * 5]);
    if theirs.confirmations.len() > rooms.confirmations {
        return refuse(19);
    }
    let mark = contacts::marked(&case.list);
    left.answer = PlanAnswer {
        records: read.records,
        rows: read.rows,
        confirmations: theirs.confirmations.len(),
        contacts: mark.contacts,
        largest: mark.largest,
        counts: theirs.counts(),
        ..PlanAnswer::default()
    };
    left.table = table;
    left.index = contacts::indexed(&case.list, rooms.index).1;
    for (row, fate) in left.fates.iter_mut().zip(&theirs.fates) {
        row[..2].copy_from_slice(fate);
    }
    for (row, &(id, service, place, length)) in left.confirmations.iter_mut().zip(&theirs.confirmations) {
        *row = [id as u32, (id >> 32) as u32, service, place as u32, length as u32];
    }
    (left, Ok(theirs))
}

/// What the original makes of a case, and the answer that goes with it, or the refusal.
pub fn made(case: &Case) -> Result<(PlanAnswer, Theirs), Refusal> {
    let (left, theirs) = expected(case, enough(case));
    theirs.map(|theirs| (left.answer, theirs))
}

/// Rooms that a plan of the case can do with.
fn enough(case: &Case) -> Rooms {
    let tables = plan::Tables::new(&case.text, &case.list);
    Rooms {
        numbers: tables.rows.len() * 5,
        index: tables.index.len(),
        fates: tables.fates.len(),
        confirmations: tables.confirmations.len(),
    }
}

/// One plan, part by part; gives back what the original made of it.
fn same(g: &mut Group, case: &Case, rooms: Rooms) -> Option<Theirs> {
    let ours = ours(case, rooms);
    let (expected, theirs) = expected(case, rooms);
    g.same(case, ours.answer, expected.answer);
    g.same(case, used(&ours.fates), used(&expected.fates));
    g.same(case, ours.confirmations, expected.confirmations);
    g.same(case, ours.table, expected.table);
    g.same(case, ours.index, expected.index);
    if let Ok(theirs) = &theirs {
        let mut out = [0; 268];
        let Written { refusal, length } = sys::plan_summary(ours.answer.counts, &mut out);
        let line = String::from_utf8_lossy(&out[..length]).into_owned();
        g.same(case, (refusal, line), (0, theirs.plan.summary()));
    }
    theirs.ok()
}

/// The fates' table so that a difference can be read: a fate and a reason a row, and what else is not zero.
fn used(fates: &[Fated]) -> (Vec<(u32, u32)>, Vec<Fated>) {
    let other = fates.iter().filter(|row| row[2..].iter().any(|&n| n != 0)).copied().collect();
    (fates.iter().map(|row| (row[0], row[1])).collect(), other)
}

// Groups.

/// The example of docs/SCOPE.md, as `showplan` prints it.
pub fn example(g: &mut Group) {
    let (text, shown) = EXAMPLE;
    let case = Case { text: text.into(), list: EMPTY.to_vec(), window: 1800, download: false };
    let theirs = same(g, &case, enough(&case)).expect("a plan");
    g.same(&case, show(&theirs.fates, &theirs.plan.summary()), shown.to_string());
}

/// How often each of them occurred.
#[derive(Default)]
struct Tally {
    plans: u64,
    downloads: u64,
    fates: [u64; 8],
    reasons: [u64; 6],
    services: [u64; 4],
    already: u64,
    unmatched: u64,
}

impl Tally {
    fn add(&mut self, case: &Case, theirs: &Theirs) {
        self.plans += 1;
        self.downloads += case.download as u64;
        for fate in &theirs.fates {
            self.fates[fate[0] as usize] += 1;
            self.reasons[fate[1] as usize] += 1;
        }
        for (_, service, ..) in &theirs.confirmations {
            self.services[service.trailing_zeros() as usize] += 1;
        }
        self.already += theirs.plan.already_confirmed as u64;
        self.unmatched += theirs.plan.unmatched_confirmations as u64;
    }

    /// Prints them, and fails where one never did.
    fn told(&self, g: &mut Group) {
        let Tally { plans, downloads, fates, reasons, services, already, unmatched } = self;
        println!(
            "plan/files: {plans} plans, {downloads} of them downloads; fates 1 to 7: {:?}; reasons 1 to 5: {:?}; lotw, eqsl, qrz, qsl newly confirmed: {services:?}; already confirmed: {already}; unmatched: {unmatched}",
            &fates[1..],
            &reasons[1..]
        );
        let each = fates[1..].iter().chain(&reasons[1..]).chain(services).chain([downloads, already, unmatched]);
        g.same("each occurs", each.filter(|&&n| n == 0).count(), 0);
    }
}

/// Short files against short lists, in tables that are long enough: now and then exactly, and with room left over.
fn files(g: &mut Group) {
    let mut tally = Tally::default();
    for _ in 0..g.depth(2_200, 250_000) {
        let (records, contacts) = (g.random.place(12), g.random.place(14));
        let case = case(&mut g.random, records, contacts);
        let mut rooms = enough(&case);
        if g.random.below(3) == 0 {
            let more = |random: &mut Random| random.place(4);
            rooms.numbers += more(&mut g.random) * 3;
            rooms.index += more(&mut g.random);
            rooms.fates += more(&mut g.random);
            rooms.confirmations += more(&mut g.random);
        }
        let placed = Placed::new(&mut g.random, &case.text);
        let case = Case { text: placed.text().to_vec(), ..case };
        if let Some(theirs) = same(g, &case, rooms) {
            tally.add(&case, &theirs);
        }
    }
    tally.told(g);
}

/// Tables of every kind one too short or just long enough, bad lists and bad texts, by themselves and together.
fn refused(g: &mut Group) {
    let mut refusals = [0u64; 20];
    for _ in 0..g.depth(700, 60_000) {
        let (records, contacts) = (g.random.place(7), g.random.place(6));
        let mut case = case(&mut g.random, records, contacts);
        let answer = expected(&case, enough(&case)).0.answer;
        let PlanAnswer { records, rows, confirmations, contacts, .. } = answer;
        let mut rooms = Rooms { numbers: rows * 5, index: contacts, fates: records, confirmations };
        for _ in 0..1 + g.random.below(2) {
            match g.random.below(9) {
                0 => spoil_list(&mut g.random, &mut case.list),
                1 => spoil_text(&mut g.random, &mut case.text),
                2 => rooms.index = rooms.index.saturating_sub(1),
                3 => rooms.numbers = rooms.numbers.saturating_sub(1 + g.random.place(5)),
                4 => rooms.fates = rooms.fates.saturating_sub(1),
                5 | 6 => rooms.confirmations = rooms.confirmations.saturating_sub(1),
                7 => rooms = Rooms { numbers: 0, index: 0, fates: 0, confirmations: 0 },
                _ => (),
            }
        }
        same(g, &case, rooms);
        refusals[expected(&case, rooms).0.answer.refusal as usize] += 1;
    }
    let counted: Vec<(usize, u64)> = refusals.into_iter().enumerate().filter(|(_, n)| *n > 0).collect();
    println!("plan/refused: how often each refusal: {counted:?}");
    for wanted in [0, 2, 3, 4, 5, 6, 7, 10, 16, 17, 18, 19] {
        g.same(wanted as u64, refusals[wanted] > 0, true);
    }
}

fn spoil_list(random: &mut Random, list: &mut Vec<u8>) {
    match (random.below(5), &list[..]) {
        (0, [_, ..]) => list[0] = random.pick(&[0, 2, 255]),
        (1, _) => list.clear(),
        // the second contact's id becomes the first's
        (2, [1, 0, 0, 0, 2..=255, high, low, ..]) => {
            let second = 9 + u16::from_be_bytes([*high, *low]) as usize;
            if second + 8 <= list.len() {
                list.copy_within(7..15, second);
            }
        }
        _ => damage(random, list),
    }
}

fn spoil_text(random: &mut Random, text: &mut Vec<u8>) {
    match random.below(3) {
        0 => damage(random, text),
        _ => text.extend_from_slice(random.pick(&[
            &b"<A"[..],
            b"<A>x",
            b"<A:x>",
            b"<A:5>x",
            b"<A:18446744073709551615>x",
            b"<A:1>\xC3\xA9<EOR>",
            b"\xFF",
        ])),
    }
}

/// Texts that are refused where their parts say, beside a list that is not empty; and lists and tables that are refused with no place, beside
/// the same texts.
fn places(g: &mut Group) {
    let list = case(&mut g.random, 0, 5).list;
    let contact = contacts::read(&list).expect("a list")[0].1.clone();
    let bad = [
        (vec![], 17),
        (vec![2, 0, 0, 0, 0], 16),
        (list[..list.len() - 1].to_vec(), 17),
        (contacts::written(&[contact.clone(), contact]), 18),
    ];
    let mut placed = |text: &[u8], list: &[u8], rooms: Rooms, told: (u32, usize)| {
        for download in [false, true] {
            let case = Case { text: text.to_vec(), list: list.to_vec(), window: 1800, download };
            let answer = ours(&case, rooms).answer;
            g.same(&case, (answer.refusal, answer.place), told);
            same(g, &case, rooms);
        }
    };
    let rooms = |rows| Rooms { numbers: rows * 5, index: 5, fates: 2, confirmations: 2 };
    for Refused { text, rows, refusal, at } in places::refused() {
        placed(&text, &list, rooms(rows), (refusal, at.start));
        placed(&text, &list, Rooms { index: 4, ..rooms(rows) }, (19, 0));
        for (list, refusal) in &bad {
            placed(&text, list, rooms(rows), (*refusal, 0));
        }
    }
    placed(EXAMPLE.0.as_bytes(), &list, rooms(20), (19, 0));
}

/// The wrapper's calls.
fn wrapped(g: &mut Group) {
    for _ in 0..g.depth(200, 20_000) {
        let (records, contacts) = (g.random.place(10), g.random.place(10));
        let mut case = case(&mut g.random, records, contacts);
        match g.random.below(12) {
            0 => damage(&mut g.random, &mut case.list),
            1 => damage(&mut g.random, &mut case.text),
            _ => (),
        }
        let Case { text, list, window, download } = &case;
        let call = if *download { plan::plan_download } else { plan::plan };
        let ours = call(text, list, *window);
        let (expected, theirs) = expected(&case, enough(&case));
        let theirs = match theirs {
            Ok(theirs) => theirs,
            Err(refusal) => {
                g.same(&case, ours.map(|_| ()), Err(refusal));
                continue;
            }
        };
        let Ok(ours) = ours else {
            g.same(&case, ours.map(|_| ()), Ok(()));
            continue;
        };
        let fates: Vec<[u32; 2]> =
            ours.fates.iter().map(|fate| [fate.number(), fate.reason().map_or(0, Reason::number)]).collect();
        let counts = (ours.counts, ours.mark.contacts, ours.mark.largest);
        g.same(&case, fates, theirs.fates.clone());
        g.same(&case, counts, (theirs.counts(), expected.answer.contacts, expected.answer.largest));
        let confirmations: Vec<_> = ours.confirmations.iter().map(|c| (c.id, c.service, c.date)).collect();
        let service = |c: &import::Confirmation| Service::numbered(bit(&c.service)).expect("a service");
        let told = theirs.plan.confirmations.iter().map(|c| (c.qso_id as u64, service(c), c.confirmed_at.as_deref()));
        g.same(&case, confirmations, told.collect());
        let calls = ours.records().map(|(record, fate)| (record.field("call").map(str::to_string), fate.number()));
        let records = std::str::from_utf8(text).map(parse_adif).unwrap().unwrap();
        let told =
            records.iter().map(|record| record.get("CALL").cloned()).zip(theirs.fates.iter().map(|fate| fate[0]));
        g.same(&case, calls.collect::<Vec<_>>(), told.collect());
        g.same(&case, ours.summary(), theirs.plan.summary());
        g.same(&case, ours.is_fresh(list), Ok(true));
    }
}

/// Files of hundreds of records against lists of hundreds of contacts, in which keys come again and again.
fn long(g: &mut Group) {
    for _ in 0..g.depth(4, 400) {
        let (records, contacts) = (g.random.place(700), g.random.place(300));
        let case = case(&mut g.random, records, contacts);
        same(g, &case, enough(&case));
    }
}

/// As many records as may be and one more; the longest text and list and one byte more.
fn limits(g: &mut Group) {
    let plain = |text: Vec<u8>, list: Vec<u8>| Case { text, list, window: 1800, download: false };
    for records in [65_535, 65_536].into_iter().skip(1 - g.depth(0, 1)) {
        let case = plain("<A:1>x<EOR>".repeat(records).into_bytes(), EMPTY.to_vec());
        same(g, &case, enough(&case));
    }
    let long = |byte, length| vec![byte; length];
    let list = |length| {
        let mut list = EMPTY.to_vec();
        list.resize(length, 0);
        list
    };
    for (text, list) in [
        (long(b' ', LONGEST), EMPTY.to_vec()),
        (long(b' ', LONGEST + 1), EMPTY.to_vec()),
        (long(0xFF, LONGEST + 1), EMPTY.to_vec()),
        (Vec::new(), list(LONGEST)),
        (Vec::new(), list(LONGEST + 1)),
        (long(0xFF, LONGEST + 1), list(LONGEST + 1)),
        (long(b'<', 1), Vec::new()),
        (long(b'<', 1), vec![2]),
    ] {
        let case = plain(text, list);
        same(g, &case, Rooms { numbers: 12, index: 2, fates: 2, confirmations: 2 });
    }
    let names: String = (0..257).map(|i| format!("<N{i}:1>x")).collect();
    let case = plain(format!("{names}<EOR>").into_bytes(), EMPTY.to_vec());
    same(g, &case, enough(&case));
}

/// The line of any counts, into outputs that are short, exact and longer.
fn summaries(g: &mut Group) {
    for _ in 0..g.depth(2_000, 200_000) {
        let random = &mut g.random;
        let any = |random: &mut Random| if random.below(2) == 0 { random.below(3) } else { random.number() };
        let few = |random: &mut Random| random.pick(&[0, 0, 1, 2, 10, 11]);
        let counts = Counts {
            total: any(random),
            importable: few(random),
            confirmations: few(random),
            already_confirmed: any(random),
            duplicates: any(random),
            unmatched: any(random),
            unusable: few(random),
        };
        let line = counted(counts).summary().into_bytes();
        let room = (line.len() + random.pick(&[0, 1, 2, 9])).saturating_sub(random.pick(&[0, 1, 1, 300]));
        let mut out = vec![b'.'; room];
        let mut whole = out.clone();
        let written = match whole.get_mut(..line.len()) {
            Some(front) => {
                front.copy_from_slice(&line);
                Written { refusal: 0, length: line.len() }
            }
            None => Written { refusal: 13, length: 0 },
        };
        let answer = sys::plan_summary(counts, &mut out);
        g.same((&line[..], room as u64), (answer, out), (written, whole));
    }
}
