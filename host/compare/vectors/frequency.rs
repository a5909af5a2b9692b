//! The vectors of `mhz`, answered by std's f64: frequencies read inside the exact window, and written.

use super::{Area, LONGEST_LINE, Operation, Question, told};
use crate::generate::Random;
use crate::notation::Argument::{self, Number, Text};
use crate::notation::bars;
use crate::rust;
use oxbreathe::frequency;

pub const AREA: Area = Area {
    name: "mhz",
    head: &[
        "What Rust's f64 answers on frequencies, one vector a line: OPERATION ARG = ANSWER. hertz: a text of megahertz in",
        "bars; its whole hertz, or none where it is no number or one below zero. megahertz: a number of hertz; its text.",
    ],
    longest: LONGEST_LINE,
    operations: &[
        Operation {
            name: "hertz",
            theirs: |a| number(rust::hertz(std::str::from_utf8(a[0].text()).expect("a UTF-8 text"))),
            ours: |a| told(frequency::hertz(a[0].text()), number),
        },
        Operation {
            name: "megahertz",
            theirs: |a| bars(rust::megahertz(a[0].number()).as_bytes()),
            ours: |a| told(frequency::megahertz(a[0].number(), &mut [0; 20]), bars),
        },
    ],
    questions,
};

fn number(number: Option<u64>) -> String {
    number.map_or("none".to_string(), |n| n.to_string())
}

fn of(text: &str) -> Argument {
    Text(text.as_bytes().to_vec())
}

/// The edges of the grammar and of the window first, then random ones.
fn questions(random: &mut Random) -> Vec<Question> {
    let mut texts: Vec<String> = [
        "14.074", "nan", "-0.1", "1e14", "", ".", "+", "-", "1.", ".5", "1.e5", "+.5e-3", "1e", "1e+", "e5", "-0",
        "inf", "-inf", "+INFINITY", "infinit", "-NaN", "1_0", "0x1", "1.2.3", " 7.150\t", "\u{3000}7.150\u{A0}",
        "7 .150", "9007199254740992", "9007199254740991e-6", "1e22", "1e-22", "0.1e23", "0e99999999999",
        "00000000000000000000000001", "0.0000005", "0.0000015", "0.00000049999", "18446744073709", "18446744073710",
        "٣",
    ]
    .map(String::from)
    .to_vec();
    for _ in 0..120 {
        let hz = random.number() >> 11;
        texts.push(format!("{}.{:06}", hz / 1_000_000, hz % 1_000_000));
        texts.push(format!("{}.{:06}5", hz / 1_000_000, hz % 1_000_000));
        texts.push(format!("{}e{}", random.number() >> 11, random.below(45) as i64 - 22));
    }
    let read = texts.iter().filter(|text| !rust::inexact(text)).map(|text| ("hertz", vec![of(text)]));
    let powers = (0..16).map(|k| 10u64.pow(k)).flat_map(|n| [n - 1, n, n + 1]).chain([8_589_934_591_999_999]);
    let some: Vec<u64> = (0..60).map(|_| random.number() % 8_589_934_592_000_000).collect();
    read.chain(powers.chain(some).map(|hz| ("megahertz", vec![Number(hz)]))).collect()
}
