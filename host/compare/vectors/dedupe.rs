//! The vectors of `dedupe`, answered by the original: moments in seconds since the first day of year 0, and the keys.

use super::{Area, LONGEST_LINE, Operation, Question, told};
use crate::generate::Random;
use crate::notation::Argument::{self, Number, Text};
use oxbreathe::dedupe;
use oxbreathe::sys::{self, Place};

pub const AREA: Area = Area {
    name: "dedupe",
    head: &[
        "What the original answers on duplicates, one vector a line: OPERATION ARG.. = ANSWER. moment: a date and a time of",
        "day; seconds since the first day of year 0, or none. keys: two contacts, each a call, a mode and a band one after the",
        "other, and the lengths of call and mode of each; whether they match in the log, in the file, and as natural keys.",
    ],
    longest: LONGEST_LINE,
    operations: &[
        Operation {
            name: "moment",
            theirs: theirs::moment,
            ours: |a| told(dedupe::moment(a[0].text(), a[1].text()), seconds),
        },
        Operation { name: "keys", theirs: theirs::keys, ours: keys },
    ],
    questions,
};

fn seconds(moment: Option<u64>) -> String {
    moment.map_or("none".to_string(), |n| n.to_string())
}

fn flags(flags: [bool; 3]) -> String {
    flags.map(|flag| u8::from(flag).to_string()).join(" ")
}

/// The text cut after its call and after its mode.
fn parts(a: &[Argument], contact: usize) -> [&[u8]; 3] {
    let (call, rest) = a[contact].text().split_at(a[2 + 2 * contact].number() as usize);
    let (mode, band) = rest.split_at(a[3 + 2 * contact].number() as usize);
    [call, mode, band]
}

fn keys(a: &[Argument]) -> String {
    let qso = |contact| {
        let mut qso = sys::record_to_qso(&[], &[], 0, 0).qso;
        let mut start = 0;
        for (part, column) in parts(a, contact).into_iter().zip([0, 4, 3]) {
            qso.columns[column] = Place { kind: 1, start, len: part.len() as u32 };
            start += part.len() as u32;
        }
        qso
    };
    let (x, q, y, o) = (a[0].text(), qso(0), a[1].text(), qso(1));
    flags([sys::in_log(x, q, y, o), sys::in_file(x, q, y, o), sys::same_natural_key(x, q, y, o)].map(|told| told.yes))
}

#[cfg(original)]
mod theirs {
    use super::{Argument, flags, parts, seconds};
    use original::dedupe::{parse_dt, same_natural_key};
    use original::model::Qso;

    fn text(bytes: &[u8]) -> &str {
        std::str::from_utf8(bytes).expect("a UTF-8 text")
    }

    pub fn moment(a: &[Argument]) -> String {
        let first = parse_dt("00000101", "0000").expect("a day");
        seconds(parse_dt(text(a[0].text()), text(a[1].text())).map(|at| (at - first).num_seconds() as u64))
    }

    pub fn keys(a: &[Argument]) -> String {
        let contact = |k| {
            let [call, mode, band] = parts(a, k).map(|part| text(part).to_string());
            Qso { call, mode, band, ..Qso::default() }
        };
        let (p, q) = (contact(0), contact(1));
        let trimmed =
            |q: &Qso| (q.call.trim().to_ascii_uppercase(), q.band.trim().to_string(), q.mode.trim().to_string());
        flags([
            p.call.eq_ignore_ascii_case(&q.call) && p.mode == q.mode && p.band == q.band,
            trimmed(&p) == trimmed(&q),
            same_natural_key(&p, &q),
        ])
    }
}

/// Without the original what was recorded cannot be asked again.
#[cfg(not(original))]
mod theirs {
    use super::{Argument, keys as ours, seconds};
    use oxbreathe::dedupe;

    pub fn moment(a: &[Argument]) -> String {
        dedupe::moment(a[0].text(), a[1].text()).map_or_else(|refusal| refusal.to_string(), seconds)
    }

    pub fn keys(a: &[Argument]) -> String {
        ours(a)
    }
}

fn of(text: &str) -> Argument {
    Text(text.as_bytes().to_vec())
}

/// Days at the ends of months and of the calendar, times at their ends, and calls, modes and bands that nearly agree.
fn questions(random: &mut Random) -> Vec<Question> {
    let mut all = Vec::new();
    for date in [
        "20240229", "20260231", "19000229", "20000229", "00000101", "00000229", "99991231", "20261301", "20260001",
        "20260100",
    ] {
        for time in ["0000", "2359", "2400", "1260", "235959", "000061", "\u{3000}1200 ", "120", "12000"] {
            all.push(("moment", vec![of(date), of(time)]));
        }
    }
    for _ in 0..120 {
        let (year, month, day) = (random.below(10_000), random.below(12) + 1, random.below(31) + 1);
        let time = format!("{:02}{:02}{:02}", random.below(25), random.below(61).min(59), random.below(60));
        all.push(("moment", vec![of(&format!("{year:04}{month:02}{day:02}")), of(&time)]));
    }
    const CALLS: [&str; 6] = ["W1AW", "w1aw", " W1AW", "W1AW\u{3000}", "K1", ""];
    const MODES: [&str; 4] = ["SSB", "ssb", " SSB", ""];
    const BANDS: [&str; 4] = ["40m", "40M", "40m ", ""];
    for _ in 0..200 {
        let [x, y] = [(); 2].map(|()| [random.pick(&CALLS), random.pick(&MODES), random.pick(&BANDS)]);
        let lengths = [x[0], x[1], y[0], y[1]].map(|part| Number(part.len() as u64));
        all.push(("keys", [of(&x.concat()), of(&y.concat())].into_iter().chain(lengths).collect()));
    }
    all
}
