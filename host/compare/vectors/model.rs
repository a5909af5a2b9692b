//! The vectors of contacts, answered by the original: a record mapped, normalised, and written back.

use super::{Area, Operation, Question, told};
use crate::generate::Random;
use crate::notation::Argument::{self, Text};
use crate::notation::bars;
use oxbreathe::qso::{Column, Qso};
use oxbreathe::reading;
use std::borrow::Cow;

pub const AREA: Area = Area {
    name: "model",
    head: &[
        "What the original makes of contacts, one vector a line: OPERATION TEXT = ANSWER. The text is ADIF of one record, of at",
        "most 20 fields. map: the record as a contact. normal: mapped and normalised. The answer: 15 if a frequency is outside the",
        "exact window, else 0; the thirteen columns in their order, a text each, the first five empty where they are absent, the",
        "others none; the hertz of FREQ and of FREQ_RX and the number of DXCC, or none; how many extra fields, a name and a value",
        "of each. qso: mapped, normalised and written back; 14 for a frequency too high to write, else 15 or 0, and the text.",
        "The host replays these; no Rattle program reads them yet.",
    ],
    longest: 500,
    operations: &[
        Operation { name: "map", theirs: theirs::map, ours: map },
        Operation { name: "normal", theirs: theirs::normal, ours: normal },
        Operation { name: "qso", theirs: theirs::qso, ours: qso },
    ],
    questions,
};

/// The columns of a contact, by their numbers.
pub const COLUMNS: [&str; 13] = [
    "CALL", "QSO_DATE", "TIME_ON", "BAND", "MODE", "SUBMODE", "FREQ", "FREQ_RX", "BAND_RX", "RST_SENT", "RST_RCVD",
    "GRIDSQUARE", "DXCC",
];

/// A contact as both sides tell it.
struct Told {
    refusal: u32,
    columns: [Option<String>; 13],
    hertz: [Option<u64>; 2],
    dxcc: Option<i64>,
    extra: Vec<(String, String)>,
}

fn shown(told: Told) -> String {
    let none = || "none".to_string();
    let mut words = vec![told.refusal.to_string()];
    words.extend(told.columns.map(|column| column.map_or_else(none, |text| bars(text.as_bytes()))));
    words.extend(told.hertz.map(|hz| hz.map_or_else(none, |hz| hz.to_string())));
    words.push(told.dxcc.map_or_else(none, |dxcc| dxcc.to_string()));
    words.push(told.extra.len().to_string());
    words.extend(told.extra.iter().flat_map(|(name, value)| [bars(name.as_bytes()), bars(value.as_bytes())]));
    words.join(" ")
}

// The library's answers.

/// Of the text's one record, mapped, and its refusal or 0.
fn mapped(a: &[Argument], show: impl FnOnce(Qso, u32) -> String) -> String {
    let mut table = reading::table(a[0].text());
    told(reading::read(a[0].text(), &mut table), |read| match read.records().next().map(|record| record.qso()) {
        Some((contact, refusal)) => show(contact, refusal.map_or(0, |refusal| refusal.number())),
        None => "no record".to_string(),
    })
}

fn contact(contact: Qso, refusal: u32) -> String {
    let of = |column| contact.column(column);
    let columns = [
        Some(contact.call()),
        Some(contact.qso_date()),
        Some(contact.time_on()),
        Some(contact.band()),
        Some(contact.mode()),
        of(Column::Submode),
        of(Column::Freq),
        of(Column::FreqRx),
        of(Column::BandRx),
        of(Column::RstSent),
        of(Column::RstRcvd),
        of(Column::Gridsquare),
        of(Column::Dxcc),
    ];
    shown(Told {
        refusal,
        columns: columns.map(|column| column.map(Cow::into_owned)),
        hertz: [contact.freq_hz(), contact.freq_rx_hz()],
        dxcc: contact.dxcc(),
        extra: contact.extra().map(|field| (field.name.to_ascii_uppercase(), field.value.to_string())).collect(),
    })
}

fn map(a: &[Argument]) -> String {
    mapped(a, contact)
}

fn normal(a: &[Argument]) -> String {
    mapped(a, |mapped, refusal| told(mapped.normalize(), |normal| contact(normal, refusal)))
}

fn qso(a: &[Argument]) -> String {
    mapped(a, |mapped, refusal| match mapped.normalize().and_then(|normal| normal.to_vec()) {
        Ok(text) => format!("{refusal} {}", bars(&text)),
        Err(refused) => refused.number().to_string(),
    })
}

#[cfg(original)]
mod theirs {
    use super::{Argument, Told, bars, shown};
    use crate::rust;
    use original::adif::{AdifRecord, parse_adif, qso_to_record, record_to_qso, write_record};
    use original::model::Qso;

    fn record(a: &[Argument]) -> AdifRecord {
        let text = std::str::from_utf8(a[0].text()).expect("a UTF-8 text");
        let [record] = parse_adif(text).expect("ADIF").try_into().expect("one record");
        record
    }

    /// Where a frequency is outside the exact window the library knows none.
    fn mapped(record: &AdifRecord) -> (u32, Qso) {
        let qso = record_to_qso(record);
        let inexact = |name| record.get(name).is_some_and(|text: &String| rust::inexact(text));
        match inexact("FREQ") || inexact("FREQ_RX") {
            true => (15, Qso { freq_hz: None, freq_rx_hz: None, ..qso }),
            false => (0, qso),
        }
    }

    fn normalized(record: &AdifRecord) -> (u32, Qso) {
        let (refusal, mut qso) = mapped(record);
        qso.normalize();
        (refusal, qso)
    }

    /// The texts of the frequencies and of DXCC, which the original does not keep, are the record's.
    fn contact(record: &AdifRecord, (refusal, q): (u32, Qso)) -> String {
        let of = |name: &str| record.get(name).cloned();
        shown(Told {
            refusal,
            columns: [
                Some(q.call),
                Some(q.qso_date),
                Some(q.time_on),
                Some(q.band),
                Some(q.mode),
                q.submode,
                of("FREQ"),
                of("FREQ_RX"),
                q.band_rx,
                q.rst_sent,
                q.rst_rcvd,
                q.gridsquare,
                of("DXCC"),
            ],
            hertz: [q.freq_hz, q.freq_rx_hz],
            dxcc: q.dxcc,
            extra: q.extra.into_iter().collect(),
        })
    }

    pub fn map(a: &[Argument]) -> String {
        let record = record(a);
        contact(&record, mapped(&record))
    }

    pub fn normal(a: &[Argument]) -> String {
        let record = record(a);
        contact(&record, normalized(&record))
    }

    /// The original writes any frequency.
    pub fn qso(a: &[Argument]) -> String {
        let (refusal, qso) = normalized(&record(a));
        if [qso.freq_hz, qso.freq_rx_hz].iter().any(|hz| hz.is_some_and(|hz| hz >= 8_589_934_592_000_000)) {
            return "14".to_string();
        }
        format!("{refusal} {}", bars(write_record(&qso_to_record(&qso)).as_bytes()))
    }
}

/// Without the original what was recorded cannot be asked again.
#[cfg(not(original))]
mod theirs {
    pub(super) use super::{map, normal, qso};
}

// What is asked.

/// A contact with every column.
const PLAIN: [&str; 13] =
    ["W1AW", "20260301", "1200", "40M", "usb", "FT4", "7.15", "14.0741", "20M", "59", "599", "FN31pr", "291"];
/// On and beside the bounds of bands, and of the last hertz.
const EDGES: [&str; 18] = [
    "0.1357", "0.135699", "0.479", "5.06", "5.45", "7", "6.999999", "6.9999995", "7.3", "7.3000004", "7.3000005",
    "7.300001", "14.35", "148", "225.000001", "450", "1300", "1300.000001",
];
/// A number by Rust's grammar or none, and on both sides of the exact window.
const FREQUENCIES: [&str; 22] = [
    "", " ", " 7.150\t", "+7.1", "-7.1", "-0", ".5", "5.", ".", "7,1", "7.1 MHz", "0x7", "nan", "-inf", "Infinity",
    "1e3", "1E-6", "4e-7", "9007199254740992e-9", "9007199254740993e-9", "71e-24", "0e99999",
];
const BANDS: [&str; 12] =
    ["", " ", "\u{3000}", "40m", "40M", "\t20m ", "70CM", "1.25M", "40", "40 m", " FOO", "40\u{FF4D}"];
const MODES: [(&str, Option<&str>); 20] = [
    ("SSB", None),
    ("usb", None),
    (" Lsb ", Some("")),
    ("SSB", Some("usb")),
    ("USB", Some("LSB")),
    ("FT4", None),
    ("ft4", Some("x")),
    ("MFSK", Some(" ft4")),
    ("JT65B", None),
    ("psk31 ", None),
    ("PSK", Some("PSK31")),
    ("CWU", None),
    ("DATA", None),
    ("dig", Some("FT8")),
    ("PKTUSB", Some(" ")),
    ("", Some("FT4")),
    (" ", None),
    ("olivia 8/250", Some("Olivia 8/250")),
    ("\u{E9}", Some("\u{E9}a ")),
    ("40m", None),
];
const ENTITIES: [&str; 15] = [
    "0", "-0", "+7", "-7", " 291 ", "007", "+", "2 91", "7x", "1.0", "\u{661}", "9223372036854775807",
    "9223372036854775808", "-9223372036854775808", "-9223372036854775809",
];
/// Names that are no columns, though some are near.
const EXTRA: [&str; 12] =
    ["NAME", "notes", "App_X", "A", "ZZ", "BAND_R", "BAND_RXX", "CALLSIGN", "CAL", "MY_GRIDSQUARE", "", "\u{C9}\u{E9}"];

fn field(name: &str, value: &str) -> String {
    format!("<{name}:{}>{value}", value.len())
}

fn question(operation: &'static str, fields: &[(&str, &str)]) -> Question {
    let fields: String = fields.iter().map(|(name, value)| field(name, value)).collect();
    (operation, vec![Text((fields + "<EOR>").into_bytes())])
}

/// Every column present, absent and blank; each number, band and mode; and random records.
fn questions(random: &mut Random) -> Vec<Question> {
    let mut all = Vec::new();
    let every: Vec<(&str, &str)> = COLUMNS.into_iter().zip(PLAIN).collect();
    let small = COLUMNS.map(str::to_ascii_lowercase);
    let small: Vec<(&str, &str)> = small.iter().map(String::as_str).zip(PLAIN).collect();
    let extra: Vec<(&str, &str)> = EXTRA.into_iter().zip(["x", "", " y", "\u{E9}"].into_iter().cycle()).collect();
    let twice = [("CALL", "K1"), ("call", "K22"), ("Name", "x"), ("NAME", "y")];
    for fields in [&every[..], &small, &extra, &twice] {
        all.extend(["map", "normal", "qso"].map(|operation| question(operation, fields)));
    }
    for (name, value) in every {
        all.push(question("map", &[(name, value)]));
        all.push(question("qso", &[(name, random.pick(&["", " "]))]));
    }
    for dxcc in ENTITIES {
        all.extend(["map", "qso"].map(|operation| question(operation, &[("DXCC", dxcc)])));
    }
    for freq in EDGES {
        all.push(question("normal", &[("FREQ", freq)]));
    }
    for freq in FREQUENCIES {
        all.push(question(random.pick(&["map", "qso"]), &[("FREQ", "7.1"), ("FREQ_RX", freq)]));
    }
    for freq in ["8589934591.999999", "8589934592", "1e14", "inf"] {
        all.extend(["normal", "qso"].map(|operation| question(operation, &[("FREQ", freq)])));
    }
    for band in BANDS {
        let fields = [("BAND", band), ("FREQ", "7.1"), ("BAND_RX", band), ("FREQ_RX", "14.1")];
        all.extend(["normal", "qso"].map(|operation| question(operation, &fields)));
    }
    for fields in [[("BAND", " "), ("BAND_RX", "20M")], [("FREQ", "7.1"), ("BAND_RX", "20M")]] {
        all.push(question("qso", &fields));
    }
    for (mode, submode) in MODES {
        let fields = [("MODE", mode), ("SUBMODE", submode.unwrap_or_default())];
        all.push(question("normal", &fields[..1 + usize::from(submode.is_some())]));
    }
    for _ in 0..24 {
        let operation = random.pick(&["map", "normal", "qso"]);
        all.push(question(operation, &any(random)));
    }
    all
}

/// Some columns and some extra fields, in any order.
fn any(random: &mut Random) -> Vec<(&'static str, &'static str)> {
    let mut fields = Vec::new();
    for (name, plain) in COLUMNS.into_iter().zip(PLAIN) {
        let value = match name {
            "FREQ" | "FREQ_RX" if random.below(2) == 0 => random.pick(&EDGES),
            "FREQ" | "FREQ_RX" => random.pick(&FREQUENCIES),
            "BAND" | "BAND_RX" => random.pick(&BANDS),
            "MODE" | "SUBMODE" => random.pick(&MODES).0,
            "DXCC" => random.pick(&ENTITIES),
            _ => random.pick(&[plain, plain, "", " "]),
        };
        if random.below(2) == 0 {
            fields.insert(random.place(fields.len() + 1), (name, value));
        }
    }
    for _ in 0..random.below(4) {
        let field = (random.pick(&EXTRA), random.pick(&["x", "", "\u{E9}>"]));
        fields.insert(random.place(fields.len() + 1), field);
    }
    fields
}
