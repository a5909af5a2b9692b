//! Files to plan and lists to plan them against: few calls, bands and modes, in every way to write them, and times about as far apart as
//! windows are.

use crate::contacts::{self, Contact};
use crate::generate::Random;
use crate::harness::Input;
use crate::notation::bars;
use oxbreathe::plan::Fate;

/// A text and a list to plan, shown as the vectors have them.
#[derive(Clone, Debug)]
pub struct Case {
    pub text: Vec<u8>,
    pub list: Vec<u8>,
    pub window: i64,
    pub download: bool,
}

impl Input for &Case {
    fn size(&self) -> usize {
        self.text.len() + self.list.len()
    }
    fn show(&self) -> String {
        format!("{} {} {} {}", bars(&self.text), bars(&self.list), self.window, self.download)
    }
}

pub const EMPTY: [u8; 5] = [1, 0, 0, 0, 0];

pub const EXAMPLE: (&str, &str) = (
    "<CALL:4>W1AW<QSO_DATE:8>20260301<TIME_ON:4>1200<BAND:3>40M<MODE:3>USB<EOR><CALL:4>w1aw<QSO_DATE:8>20260301\
     <TIME_ON:6>123000<FREQ:5>7.150<MODE:3>SSB<EOR><QSO_DATE:8>20260301<EOR>",
    "1 importable 0\n2 duplicate-in-file 0\n3 unusable 1\n\
     3 records · 1 to import · 1 duplicate (skipped) · 1 unusable\n",
);

/// What `showplan` prints.
pub fn show(fates: &[[u32; 2]], summary: &str) -> String {
    let line = |(number, &[fate, reason]): (usize, &[u32; 2])| {
        let name = Fate::numbered(fate, reason).expect("a fate").name();
        format!("{number} {name} {reason}\n")
    };
    (1..).zip(fates).map(line).collect::<String>() + summary + "\n"
}

const WINDOWS: [i64; 16] =
    [1800, 1800, 1800, 1800, 1799, 1801, 0, 1, 59, 60, 3600, 86_400, -1, -1800, i64::MIN, i64::MAX];
const BLANK: [&str; 4] = ["", " ", "\u{3000}", "\t\r\n"];

/// Texts of one kind: those that most records and contacts have, and the others.
type Kind = [&'static [&'static str]; 2];

const CALLS: Kind = [
    &["W1AW", "W1AW", "w1aw", "K1"],
    &["W1aw", "k1", "DL0XX", " W1AW", "W1AW ", "W1AW\u{3000}", "é1", "É1", "K1\0", "K1\0A", "K"],
];
const DATES: Kind = [
    &["20260301", "20260301", " 20260301", "20260301\u{A0}"],
    &["20260302", "20260228", "20260231", "00000101", "99991231", "00000000", "20240229"],
];
const BAD_DATES: [&str; 8] = ["", "2026031", "202603011", "2026-3-1", " ", "2026030A", "2026 0301", "\u{664}0260301"];
const BAD_TIMES: [&str; 8] = ["", "120", "12000", "12:00", "1200Z", " ", "1200001", "12 00"];
const BANDS: Kind = [&["40m", "40M", "40m", " 40m "], &["20m", "20M", "FOO", "foo", "foo ", "m", "40", "", " "]];
const LOGGED_BANDS: Kind = [&["40m"], &["20m", "40M", "FOO", "foo ", "foo", "", "m"]];
const FREQUENCIES: Kind = [&["7.074", "7.15", " 7.1 "], &["14.074", "nan", "1e14", "-7.1", "7,1", "5.0", "-0"]];
const INEXACT: [&str; 4] = ["9007199254740993", "1e23", "7.07400000000000001", "0.1e-22"];
const MODES: Kind =
    [&["SSB", "SSB", "usb", "LSB", " ssb"], &["CW", "cw", "FT4", "MFSK", "foo", " FOO", "\u{3000}FT8", "é"]];
const LOGGED_MODES: Kind = [&["SSB"], &["CW", "MFSK", "FOO", "foo", "ssb", "", "FT8"]];
const SAID: [&str; 8] = ["Y", "Y", "y", " Y ", "N", "R", "", "YY"];
const QSL_DATES: [&str; 7] = ["20260402", " 20260403\t", "", "  ", "no date", "\u{3000}é\u{3000}", "2026"];

fn mostly(random: &mut Random, [usual, others]: Kind) -> &'static str {
    if random.below(5) > 0 { random.pick(usual) } else { random.pick(others) }
}

/// Seconds after noon.
fn clock(random: &mut Random) -> u64 {
    let about = random.pick(&[0, 0, 0, 1, 59, 60, 1800, 1800, 3600, 5400, 10_000]);
    (about + random.pick(&[0, 0, 0, 1, 2, 60])) as u64
}

fn time(random: &mut Random) -> String {
    let second = 43_200 + clock(random);
    match random.below(24) {
        0 => random.pick(&["2400", "1260", "120060", "123060", "126000", "235959"]).to_string(),
        n => {
            let (hour, minute, second) = (second / 3600, second / 60 % 60, second % 60);
            match second == 0 && n % 2 == 0 {
                true => format!("{hour:02}{minute:02}"),
                false => format!("{hour:02}{minute:02}{second:02}"),
            }
        }
    }
}

/// A contact of the log, whose texts need not be normal.
fn contact(random: &mut Random, id: u64) -> Contact {
    Contact {
        id,
        services: random.pick(&[0, 0, 0, 1, 2, 4, 8, 5, 10, 15]),
        call: mostly(random, CALLS).into(),
        date: mostly(random, DATES).trim().into(),
        time: time(random).into(),
        band: mostly(random, LOGGED_BANDS).into(),
        mode: mostly(random, LOGGED_MODES).into(),
    }
}

fn log(random: &mut Random, count: usize) -> Vec<Contact> {
    let mut id = match random.below(20) {
        0 => (1 << 63) - 1 - 1_000 * count as u64,
        _ => 0,
    };
    (0..count)
        .map(|_| {
            id += 1 + random.number() % 999;
            contact(random, id)
        })
        .collect()
}

type Fields = Vec<(&'static str, String)>;

/// The columns of a record. One in eight wants something.
fn columns(random: &mut Random) -> Fields {
    let spoilt = if random.below(8) == 0 { 1 + random.below(6) } else { 0 };
    let mut fields: Fields = Vec::new();
    let mut put = |name, value: &str| fields.push((name, value.to_string()));
    put("CALL", if spoilt == 1 { random.pick(&BLANK) } else { mostly(random, CALLS) });
    put("QSO_DATE", if spoilt == 2 { random.pick(&BAD_DATES) } else { mostly(random, DATES) });
    match spoilt == 3 {
        true => put("TIME_ON", random.pick(&BAD_TIMES)),
        false => {
            let spaces = random.pick(&["", "", "", " ", "\u{3000}"]);
            put("TIME_ON", &[spaces, &time(random), spaces].concat());
        }
    }
    put("MODE", if spoilt == 4 { random.pick(&BLANK) } else { mostly(random, MODES) });
    if random.below(12) == 0 {
        put("SUBMODE", random.pick(&["FT4", "usb", "", "foo"]));
    }
    match random.below(6) {
        0 => put("FREQ", mostly(random, FREQUENCIES)),
        1 => {
            put("FREQ", mostly(random, FREQUENCIES));
            put("BAND", random.pick(&["", " ", "\u{3000}", "40m", "20m", "FOO"]));
        }
        _ => put("BAND", mostly(random, BANDS)),
    }
    if spoilt == 5 {
        put(random.pick(&["FREQ", "FREQ_RX"]), random.pick(&INEXACT));
    }
    if spoilt == 6 {
        let gone = random.place(fields.len());
        fields.remove(gone);
        // now and then more than one reason applies
        if random.below(3) == 0 {
            fields.push(("FREQ", random.pick(&INEXACT).to_string()));
        }
    }
    fields
}

/// What the services say, in some of the ways that they say it, or nearly.
fn sayings(random: &mut Random) -> Fields {
    let mut fields: Fields = Vec::new();
    for _ in 0..1 + random.below(3) {
        let (name, values): (_, &[&str]) = match random.below(12) {
            0 | 1 => ("LOTW_QSL_RCVD", &SAID),
            2 => ("EQSL_QSL_RCVD", &SAID),
            3 => ("EQSL_AG", &["Y", "N", ""]),
            4 => (random.pick(&["APP_EQSL_AG", "APP_EQSL", "APP_EQSLX", "APP_EQS"]), &["", "Y"]),
            5 => (random.pick(&["APP_LoTW_2xQSL", "APP_LOTW", "APP_LOTW_CQZ", "APP_LOT"]), &["", "Y"]),
            6 | 7 => ("APP_QRZLOG_STATUS", &["C", "C", "c", " C\t", "N", "Y", ""]),
            _ => ("QSL_RCVD", &SAID),
        };
        fields.push((name, random.pick(values).to_string()));
    }
    for name in ["LOTW_QSLRDATE", "EQSL_QSLRDATE", "APP_QRZLOG_QSLDATE", "QSLRDATE"] {
        if random.below(3) == 0 {
            fields.push((name, random.pick(&QSL_DATES).to_string()));
        }
    }
    fields
}

/// Ways to write one band.
const ONE_BAND: [&[&str]; 3] = [&["40m", "40M", " 40m "], &["foo", "foo ", " foo"], &["", " "]];

/// The columns of a record in a file of one key, about half an hour from the next.
fn of_one_key(random: &mut Random, band: &[&str]) -> Fields {
    let second = 43_200 + 1_800 * random.below(8) + random.below(3) - 1;
    let time = format!("{:02}{:02}{:02}", second / 3600, second / 60 % 60, second % 60);
    let mut fields = vec![("QSO_DATE", "20260301".to_string()), ("TIME_ON", time)];
    fields.push(("CALL", random.pick(&["W1AW", "w1aw", " W1AW", "W1aw\u{3000}"]).to_string()));
    fields.push(("MODE", random.pick(&["SSB", "usb", " ssb"]).to_string()));
    fields.push(("BAND", random.pick(band).to_string()));
    fields
}

/// A record as a file has it: its fields in any order, names in any case, comments between.
fn record(random: &mut Random, one_band: Option<&[&str]>) -> String {
    let (mut fields, quiet) = match one_band {
        Some(band) => (of_one_key(random, band), 4),
        None => (columns(random), 3),
    };
    if random.below(5) >= quiet {
        fields.extend(sayings(random));
    }
    if random.below(8) == 0 {
        fields
            .push((random.pick(&["NAME", "COMMENT", "QSL_SENT", "A"]), random.pick(&["Y", "<EOR>", "é"]).to_string()));
    }
    let mut text = String::new();
    while !fields.is_empty() {
        let next = if random.below(3) == 0 { random.place(fields.len()) } else { 0 };
        let (name, value) = fields.remove(next);
        let name = if random.below(6) == 0 { name.to_ascii_lowercase() } else { name.to_string() };
        text += &format!("<{name}:{}>{value}{}", value.len(), random.pick(&["", "", " ", "\n"]));
    }
    text + random.pick(&["<EOR>", "<EOR>", "<eor>\n"])
}

/// A file of so many records, some of them twice, or all of one key; now and then with a header, or without its last end.
pub fn file(random: &mut Random, records: usize) -> String {
    let mut text = random.pick(&["", "", "", "a log\n<ADIF_VER:5>3.1.6<EOH>\n"]).to_string();
    let one_band = (random.below(5) == 0).then(|| random.pick(&ONE_BAND));
    let mut last = record(random, one_band);
    for _ in 0..records {
        if random.below(8) > 0 {
            last = record(random, one_band);
        }
        text += &last;
    }
    if random.below(12) == 0 {
        if let Some(end) = text.to_ascii_uppercase().rfind("<EOR>") {
            text.truncate(end);
        }
    }
    text
}

pub fn case(random: &mut Random, records: usize, contacts: usize) -> Case {
    let text = file(random, records).into_bytes();
    let list = contacts::written(&log(random, contacts));
    let window = if random.below(8) == 0 { random.below(6_000) as i64 } else { random.pick(&WINDOWS) };
    Case { text, list, window, download: random.below(3) == 0 }
}
