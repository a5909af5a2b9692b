//! The vectors of plans, answered by the original, and files beside what `showplan` prints of them.

use super::{Area, Operation, Question};
use crate::files::{Case, EMPTY, EXAMPLE, case, file, show};
use crate::generate::Random;
use crate::notation::Argument::{self, Number, Text};
use crate::notation::bars;
use oxbreathe::sys::Counts;
use oxbreathe::{Refusal, plan};

pub const AREA: Area = Area {
    name: "plan",
    head: &[
        "What the original plans, one vector a line: plan TEXT LIST WINDOW DOWNLOAD = ANSWER. The window is 64 bits with a sign,",
        "so that 18446744073709551615 is -1; DOWNLOAD is 1 or 0. The answer: a refusal's number, and its place where it has one;",
        "or 0, how many records, a fate and a reason of each, how many confirmations, an id, a service and a date of each, the",
        "seven counts, the list's mark, and the summary. At most 4 records of 20 fields, and 4 contacts. summary COUNT.. =",
        "ANSWER: the line of seven counts.",
    ],
    longest: 1_000,
    operations: &[
        Operation { name: "plan", theirs: theirs::plan, ours },
        Operation { name: "summary", theirs: theirs::summary, ours: |a| bars(plan::summary(counts(a)).as_bytes()) },
    ],
    questions,
};

/// A plan as both sides tell it.
struct Told {
    fates: Vec<[u32; 2]>,
    confirmations: Vec<(u64, u32, String)>,
    counts: Counts,
    mark: (usize, u64),
    summary: String,
}

/// The number of a refusal, and its place where it has one.
fn refused(refusal: Refusal) -> String {
    let place = refusal.place.map_or(String::new(), |place| format!(" {place}"));
    format!("{}{place}", refusal.number())
}

fn shown(told: Result<Told, Refusal>) -> String {
    let told = match told {
        Ok(told) => told,
        Err(refusal) => return refused(refusal),
    };
    let mut words = vec!["0".to_string(), told.fates.len().to_string()];
    words.extend(told.fates.iter().flatten().map(u32::to_string));
    words.push(told.confirmations.len().to_string());
    for (id, service, date) in &told.confirmations {
        words.extend([id.to_string(), service.to_string(), bars(date.as_bytes())]);
    }
    let Counts { total, importable, confirmations, already_confirmed, duplicates, unmatched, unusable } = told.counts;
    let counts = [total, importable, confirmations, already_confirmed, duplicates, unmatched, unusable];
    words.extend(counts.map(|n| n.to_string()));
    words.extend([told.mark.0.to_string(), told.mark.1.to_string(), bars(told.summary.as_bytes())]);
    words.join(" ")
}

fn ours(a: &[Argument]) -> String {
    let call = if a[3].number() == 1 { plan::plan_download } else { plan::plan };
    let plan = match call(a[0].text(), a[1].text(), a[2].number() as i64) {
        Ok(plan) => plan,
        Err(refusal) => return shown(Err(refusal)),
    };
    let confirmation = |c: &plan::Confirmation| (c.id, c.service as u32, c.date.unwrap_or_default().to_string());
    shown(Ok(Told {
        fates: fates(&plan),
        confirmations: plan.confirmations.iter().map(confirmation).collect(),
        counts: plan.counts,
        mark: (plan.mark.contacts, plan.mark.largest),
        summary: plan.summary(),
    }))
}

fn fates(plan: &plan::Plan) -> Vec<[u32; 2]> {
    plan.fates.iter().map(|fate| [fate.number(), fate.reason().map_or(0, plan::Reason::number)]).collect()
}

fn counts(a: &[Argument]) -> Counts {
    let [total, importable, confirmations, already_confirmed, duplicates, unmatched, unusable] =
        std::array::from_fn(|i| a[i].number());
    Counts { total, importable, confirmations, already_confirmed, duplicates, unmatched, unusable }
}

#[cfg(original)]
mod theirs {
    use super::{Argument, Case, Told, bars, counts, refused, show, shown};
    use crate::plan::{counted, made};

    pub fn plan(a: &[Argument]) -> String {
        let (text, list) = (a[0].text().to_vec(), a[1].text().to_vec());
        let case = Case { text, list, window: a[2].number() as i64, download: a[3].number() == 1 };
        shown(made(&case).map(|(answer, theirs)| {
            let confirmation = |&(id, service, place, length): &(u64, u32, usize, usize)| {
                (id, service, String::from_utf8_lossy(&case.text[place..place + length]).into_owned())
            };
            Told {
                confirmations: theirs.confirmations.iter().map(confirmation).collect(),
                counts: theirs.counts(),
                mark: (answer.contacts, answer.largest),
                summary: theirs.plan.summary(),
                fates: theirs.fates,
            }
        }))
    }

    pub fn summary(a: &[Argument]) -> String {
        bars(counted(counts(a)).summary().as_bytes())
    }

    pub fn fates(case: &Case) -> Vec<[u32; 2]> {
        made(case).map_or(Vec::new(), |(_, theirs)| theirs.fates)
    }

    pub fn printed(case: &Case) -> String {
        match made(case) {
            Ok((_, theirs)) => show(&theirs.fates, &theirs.plan.summary()),
            Err(refusal) => format!("refused {}\n", refused(refusal)),
        }
    }
}

/// Without the original what was recorded cannot be asked again.
#[cfg(not(original))]
mod theirs {
    use super::{Argument, Case, bars, counts, ours, plan};

    pub fn plan(a: &[Argument]) -> String {
        ours(a)
    }

    pub fn summary(a: &[Argument]) -> String {
        bars(plan::summary(counts(a)).as_bytes())
    }

    pub fn fates(case: &Case) -> Vec<[u32; 2]> {
        let call = if case.download { plan::plan_download } else { plan::plan };
        call(&case.text, &case.list, case.window).map_or(Vec::new(), |plan| super::fates(&plan))
    }

    pub fn printed(case: &Case) -> String {
        super::printed(case)
    }
}

/// The document's example at windows about the half hour between its records, texts and lists that are refused, and random plans.
fn questions(random: &mut Random) -> Vec<Question> {
    let mut all: Vec<Question> = Vec::new();
    let mut add = |case: Case| {
        let numbers = [case.window as u64, case.download as u64].map(Number);
        all.push(("plan", [Text(case.text), Text(case.list)].into_iter().chain(numbers).collect()));
    };
    let on = |text: &[u8], list: &[u8], window, download| Case {
        text: text.to_vec(),
        list: list.to_vec(),
        window,
        download,
    };
    for (window, download) in [(1800, false), (1799, false), (-1, false), (1800, true)] {
        add(on(EXAMPLE.0.as_bytes(), &EMPTY, window, download));
    }
    for list in [&[][..], &[2], &[1, 0, 0, 0, 1], &[1, 0, 0, 0, 0, 0]] {
        add(on(b"<A", list, 1800, false));
    }
    for text in REFUSED.iter().chain(&REFUSED_TOO) {
        add(on(text, &EMPTY, 1800, false));
    }
    let mut plans = 0;
    while plans < PLANS {
        let (records, contacts) = (1 + random.place(4), random.place(5));
        let case = case(random, records, contacts);
        // most records are new to a list of so few contacts: of plans that say no more than that, some
        let has = |wanted: u32| theirs::fates(&case).iter().any(|fate| fate[0] == wanted);
        if has(5) || random.below(if has(2) || has(3) { 3 } else { 12 }) == 0 {
            add(case);
            plans += 1;
        }
    }
    for _ in 0..30 {
        let any = |random: &mut Random| if random.below(2) == 0 { random.below(3) } else { random.number() };
        let few = |random: &mut Random| random.pick(&[0, 1, 2, 11]);
        let counts = [any(random), few(random), few(random), any(random), any(random), any(random), few(random)];
        all.push(("summary", counts.map(Number).into()));
    }
    all
}

/// So many random ones; one that is too long for a line is left out.
const PLANS: usize = 60;

/// 4, 3, 6 and 5.
const REFUSED: [&[u8]; 4] = [b"<A>x", b"<A:1>x<EOR><B", b"<A:1>x<EOR><B:5>x", b"<A:x>"];

/// 2 and 7.
const REFUSED_TOO: [&[u8]; 2] = [b"<A:1>x<EOR>\xFF", b"\xC3\xA9<A:1>x<EOR><B:1>\xC3\xA9<EOR>"];

// What showplan prints

/// Files to show, in order: the document's example, texts that are refused, files of up to nine records, and more that are refused, the
/// last with 8.
pub fn files(random: &mut Random) -> Vec<Vec<u8>> {
    let mut all = vec![EXAMPLE.0.into()];
    all.extend(REFUSED.map(Vec::from));
    all.extend((0..15).map(|i| file(random, i % 9 + 1).into_bytes()));
    all.extend(REFUSED_TOO.map(Vec::from));
    let names: String = (0..257).map(|i| format!("<N{i}:0>")).collect();
    all.push(format!("<A:1>x<EOR>{names}").into_bytes());
    all
}

/// As showplan plans a text.
pub fn showplan(text: &[u8]) -> Case {
    Case { text: text.to_vec(), list: EMPTY.to_vec(), window: 1800, download: false }
}

pub fn expected(text: &[u8]) -> String {
    theirs::printed(&showplan(text))
}

/// What the library's own answers print.
pub fn printed(case: &Case) -> String {
    match plan::plan(&case.text, &case.list, case.window) {
        Ok(plan) => show(&fates(&plan), &plan.summary()),
        Err(refusal) => format!("refused {}\n", refused(refusal)),
    }
}
