//! The vectors of `normalize`, answered by the original: its operations, and what is recorded of each.

use super::{Area, LONGEST_LINE, Operation, Question, told};
use crate::generate::{Random, WHITE, damage};
use crate::notation::Argument::{self, Number, Text};
use crate::notation::bars;
use oxbreathe::normalize::{self as ours, Band, ModeClass};

pub const AREA: Area = Area {
    name: "normalize",
    head: &[
        "What the original answers on bands and modes, one vector a line: OPERATION ARG.. = ANSWER. A text stands in bars, %XX",
        "for a byte that is not visible ASCII, or is a bar or a percent sign; a number is decimal. frequency: hertz; the band.",
        "band: a text; the band that it names. mode: a mode alone, or a mode and a submode; both as they come out. class: a",
        "mode; its class. class_named: a text; the class that it names. Where there is nothing, the answer is none.",
    ],
    longest: LONGEST_LINE,
    operations: OPERATIONS,
    questions,
};

const OPERATIONS: &[Operation] = &[
    Operation {
        name: "frequency",
        theirs: theirs::frequency,
        ours: |a| shown(ours::band_for_freq_hz(a[0].number()).map(Band::name)),
    },
    Operation {
        name: "band",
        theirs: theirs::band,
        ours: |a| told(ours::canonical_band(a[0].text()), |band| shown(band.map(Band::name))),
    },
    Operation {
        name: "mode",
        theirs: theirs::mode,
        ours: |a| {
            let answer = ours::normalize_mode(a[0].text(), a.get(1).map(Argument::text));
            told(answer, |(mode, submode)| pair(&mode, submode.as_deref()))
        },
    },
    Operation {
        name: "class",
        theirs: theirs::class,
        ours: |a| told(ours::mode_class(a[0].text()), |class| shown(class.map(ModeClass::name))),
    },
    Operation {
        name: "class_named",
        theirs: theirs::class_named,
        ours: |a| told(ModeClass::parse(a[0].text()), |class| shown(class.map(ModeClass::name))),
    },
];

fn shown(name: Option<&str>) -> String {
    name.map_or("none".to_string(), |name| bars(name.as_bytes()))
}

fn pair(mode: &str, submode: Option<&str>) -> String {
    format!("{} {}", bars(mode.as_bytes()), shown(submode))
}

#[cfg(original)]
mod theirs {
    use super::{Argument, pair, shown};
    use original::normalize::{ModeClass, band_for_freq_hz, canonical_band, mode_class, normalize_mode};

    fn str(argument: &Argument) -> &str {
        std::str::from_utf8(argument.text()).expect("an operation on UTF-8 texts")
    }
    pub fn frequency(a: &[Argument]) -> String {
        shown(band_for_freq_hz(a[0].number()))
    }
    pub fn band(a: &[Argument]) -> String {
        shown(canonical_band(str(&a[0])))
    }
    pub fn mode(a: &[Argument]) -> String {
        let (mode, submode) = normalize_mode(str(&a[0]), a.get(1).map(str));
        pair(&mode, submode.as_deref())
    }
    pub fn class(a: &[Argument]) -> String {
        shown(mode_class(str(&a[0])).map(ModeClass::as_str))
    }
    pub fn class_named(a: &[Argument]) -> String {
        shown(ModeClass::parse(str(&a[0])).map(ModeClass::as_str))
    }
}

/// Without the original only the recorded answers are there to compare with.
#[cfg(not(original))]
mod theirs {
    use super::{Argument, OPERATIONS};

    fn ours(name: &str, a: &[Argument]) -> String {
        (OPERATIONS.iter().find(|o| o.name == name).unwrap().ours)(a)
    }
    pub fn frequency(a: &[Argument]) -> String {
        ours("frequency", a)
    }
    pub fn band(a: &[Argument]) -> String {
        ours("band", a)
    }
    pub fn mode(a: &[Argument]) -> String {
        ours("mode", a)
    }
    pub fn class(a: &[Argument]) -> String {
        ours("class", a)
    }
    pub fn class_named(a: &[Argument]) -> String {
        ours("class_named", a)
    }
}

const BANDS: &str = "2190m 630m 160m 80m 60m 40m 30m 20m 17m 15m 12m 10m 6m 4m 2m 1.25m 70cm 33cm 23cm";

const LIMITS: [u64; 38] = [
    135_700, 137_800, 472_000, 479_000, 1_800_000, 2_000_000, 3_500_000, 4_000_000, 5_060_000, 5_450_000, 7_000_000,
    7_300_000, 10_100_000, 10_150_000, 14_000_000, 14_350_000, 18_068_000, 18_168_000, 21_000_000, 21_450_000,
    24_890_000, 24_990_000, 28_000_000, 29_700_000, 50_000_000, 54_000_000, 70_000_000, 71_000_000, 144_000_000,
    148_000_000, 222_000_000, 225_000_000, 420_000_000, 450_000_000, 902_000_000, 928_000_000, 1_240_000_000,
    1_300_000_000,
];

const MODES: &str = "SSB AM FM DIGITALVOICE CW FT8 MFSK JT65 JT9 JT4 Q65 FSK441 ISCAT MSK144 PSK RTTY OLIVIA CONTESTIA \
    DOMINO THOR THRB MT63 HELL ARDOP PACKET PACTOR VARA WINMOR SSTV ATV FAX PSK31 PSK63 PSK125 QPSK31 QPSK63 FT4 JS8 \
    JT65A JT65B JT65C USB LSB CWU CWL PKTUSB DIG DATA";

fn of(text: impl AsRef<[u8]>) -> Argument {
    Text(text.as_ref().to_vec())
}

/// Every bound and one off; every name as it stands, small and with white space; near misses; pairs of names.
fn questions(random: &mut Random) -> Vec<Question> {
    let mut all = Vec::new();
    for limit in LIMITS {
        all.extend([limit - 1, limit, limit + 1].map(|hz| ("frequency", vec![Number(hz)])));
    }
    all.extend([0, u64::MAX].map(|hz| ("frequency", vec![Number(hz)])));
    all.extend((0..40).map(|_| ("frequency", vec![Number(random.number())])));
    for name in BANDS.split_whitespace() {
        spellings(&mut all, random, "band", name);
    }
    for name in MODES.split_whitespace() {
        spellings(&mut all, random, "class", name);
        spellings(&mut all, random, "mode", name);
        let other = random.pick(&MODES.split_whitespace().collect::<Vec<_>>());
        all.push(("mode", vec![of(name), of(other)]));
        all.push(("mode", vec![of(other.to_ascii_lowercase()), of(format!(" {name}\t"))]));
        all.push(("mode", vec![of(name), of(random.pick(&["", " ", "\u{3000}", "x"]))]));
    }
    for name in ["phone", "cw", "digital", "image"] {
        spellings(&mut all, random, "class_named", name);
    }
    all
}

fn spellings(all: &mut Vec<Question>, random: &mut Random, operation: &'static str, name: &str) {
    let white = random.pick(&WHITE);
    for text in
        [name.to_string(), name.to_ascii_lowercase(), name.to_ascii_uppercase(), format!("{white}{name}{white}")]
    {
        all.push((operation, vec![of(text)]));
    }
    let mut near = name.as_bytes().to_vec();
    damage(random, &mut near);
    if std::str::from_utf8(&near).is_ok() {
        all.push((operation, vec![of(near)]));
    }
}
