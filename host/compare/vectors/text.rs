//! The vectors of `text`, answered by Rust's std: its operations, and what is recorded of each.

use super::{Area, LONGEST_LINE, Operation, Question, told};
use crate::generate::{BESIDE, Random, WHITE, damage, utf8};
use crate::notation::Argument::{self, Number, Text};
use crate::notation::bars;
use crate::rust;
use oxbreathe::text;

pub const AREA: Area = Area {
    name: "text",
    head: &[
        "What Rust's std answers on texts, one vector a line: OPERATION ARG.. = ANSWER. A text stands in bars, %XX for a",
        "byte that is not visible ASCII, or is a bar or a percent sign; a number is decimal. utf8: the place of the first",
        "bad byte, or the length. trim: the first byte kept and the first one after. order: of the texts in capitals, 0",
        "less, 1 equal, 2 greater. find: a text, where to begin, the byte; its place, or the length.",
    ],
    longest: LONGEST_LINE,
    operations: OPERATIONS,
    questions,
};

const OPERATIONS: &[Operation] = &[
    Operation {
        name: "utf8",
        theirs: |a| rust::utf8(a[0].text()).to_string(),
        ours: |a| match text::check(a[0].text()) {
            Ok(text) => text.len().to_string(),
            Err(refusal) => refusal.place.map_or(refusal.to_string(), |place| place.to_string()),
        },
    },
    Operation {
        name: "trim",
        theirs: |a| {
            let (start, end) = rust::trim(str(&a[0]));
            format!("{start} {end}")
        },
        ours: |a| told(text::trim(a[0].text()), |kept| format!("{} {}", kept.start, kept.end)),
    },
    Operation {
        name: "same",
        theirs: |a| yes(str(&a[0]) == str(&a[1])),
        ours: |a| told(text::same(a[0].text(), a[1].text()), yes),
    },
    Operation {
        name: "same_raised",
        theirs: |a| yes(str(&a[0]).eq_ignore_ascii_case(str(&a[1]))),
        ours: |a| told(text::same_raised(a[0].text(), a[1].text()), yes),
    },
    Operation {
        name: "order",
        theirs: |a| rust::ordinal(rust::order_raised(str(&a[0]), str(&a[1]))).to_string(),
        ours: |a| told(text::order_raised(a[0].text(), a[1].text()), |order| rust::ordinal(order).to_string()),
    },
    Operation {
        name: "find",
        theirs: |a| rust::find(str(&a[0]).as_bytes(), a[1].number() as usize, a[2].number() as u8).to_string(),
        ours: |a| {
            let found = text::find(a[0].text(), a[1].number() as usize, a[2].number() as u8);
            told(found, |at| at.unwrap_or(a[0].text().len()).to_string())
        },
    },
    Operation {
        name: "unsigned",
        theirs: |a| number(str(&a[0]).parse::<u64>().ok()),
        ours: |a| told(text::unsigned(a[0].text()), number),
    },
    Operation {
        name: "signed",
        theirs: |a| number(str(&a[0]).parse::<i64>().ok()),
        ours: |a| told(text::signed(a[0].text()), number),
    },
    Operation {
        name: "digits",
        theirs: |a| bars(a[0].number().to_string().as_bytes()),
        ours: |a| told(text::digits(a[0].number(), &mut [0; 20]), bars),
    },
];

fn str(argument: &Argument) -> &str {
    std::str::from_utf8(argument.text()).expect("an operation on UTF-8 texts")
}

fn yes(is: bool) -> String {
    (is as u32).to_string()
}

fn number(number: Option<impl ToString>) -> String {
    number.map_or("none".to_string(), |n| n.to_string())
}

fn of(text: impl AsRef<[u8]>) -> Argument {
    Text(text.as_ref().to_vec())
}

/// The edges of each operation first, then random ones.
fn questions(random: &mut Random) -> Vec<Question> {
    let mut all = Vec::new();
    utf8_edges(&mut all);
    trim_edges(&mut all);
    pair_edges(&mut all);
    find_edges(&mut all);
    number_edges(&mut all);
    random_texts(&mut all, random);
    random_numbers(&mut all, random);
    all
}

fn utf8_edges(all: &mut Vec<Question>) {
    let mut add = |text: &[u8]| all.push(("utf8", vec![of(text)]));
    add(b"");
    add(b"plain ASCII, a tab\t and a NUL\0.");
    // the first and last character of each row of the table, and of each length
    let limits = "\0\u{7F}\u{80}\u{7FF}\u{800}\u{FFF}\u{1000}\u{CFFF}\u{D000}\u{D7FF}\u{E000}\u{FFFF}\
                  \u{10000}\u{3FFFF}\u{40000}\u{FFFFF}\u{100000}\u{10FFFF}";
    for c in limits.chars().map(String::from) {
        add(c.as_bytes());
        add(&c.as_bytes()[..c.len() - 1]);
        add(format!("a{c}b").as_bytes());
        add(&[c.as_bytes(), b"\x80"].concat());
    }
    // each byte that begins nothing, and each lead with a second byte just outside its row
    for lone in [0x80, 0xBF, 0xC0, 0xC1, 0xF5, 0xF8, 0xFE, 0xFF] {
        add(&[lone]);
        add(&[b'a', lone, 0x80, 0x80, 0x80]);
    }
    let outside = b"\xC2\x7F\xC2\xC0\xDF\x7F\xDF\xC0\xE0\x80\xE0\x9F\xE0\xC0\xE1\x7F\xE1\xC0\xEC\x7F\xEC\xC0\
                    \xED\xA0\xED\xBF\xEE\x7F\xEF\xC0\xF0\x80\xF0\x8F\xF0\xC0\xF1\x7F\xF3\xC0\xF4\x90";
    for pair in outside.chunks(2) {
        add(&[b"x", pair, b"\x80\x80"].concat());
    }
    for (lead, third) in [(0xE1, 0x7F), (0xE1, 0xC0), (0xF1, 0x7F), (0xF1, 0xC0)] {
        add(&[lead, 0x80, third, 0x80]);
        add(&[lead, 0x80, 0x80, third]);
    }
    // around the borders of blocks
    for length in [7, 8, 15, 16, 31, 32, 63, 64, 127, 128] {
        add(&[&vec![b'a'; length][..], b"\xC3\xA9"].concat());
        add(&[&vec![b'a'; length][..], b"\xE9"].concat());
    }
}

fn trim_edges(all: &mut Vec<Question>) {
    let mut add = |text: String| all.push(("trim", vec![of(text)]));
    for text in ["", "a", "a b", " a", "a ", " a b ", "\t\r\n", "\u{3000}\u{2003}é\u{85} ", "é", "😀 "] {
        add(text.to_string());
    }
    for c in WHITE {
        add(c.to_string());
        add(format!("{c}x{c}"));
    }
    for c in BESIDE.chars() {
        add(format!(" {c} "));
    }
}

fn pair_edges(all: &mut Vec<Question>) {
    let pairs = [
        "|", "|a", "a|", "a|a", "a|A", "Z|z", "z|Z", "@|`", "[|{", "A|[", "a|[", "Z|[", "z|[", "`|A", "`|a", "{|z",
        "{|Z", "_|a", "_|A", "0|A", "0|a", "CALL|call", "CALL|CALLS", "calls|CALL", "é|É", "é|é", "é|z", "ß|SS",
        "K|\u{212A}", "ſ|s", "a\0|a", "a|a ", "\u{7F}|\u{80}", "abcdefgh|ABCDEFGH", "abcdefghi|ABCDEFGHJ",
        "QSO_DATE|qso_date", "QSO_DATE|QSO-DATE",
    ];
    for name in ["same", "same_raised", "order"] {
        for (a, b) in pairs.iter().filter_map(|pair| pair.split_once('|')) {
            all.push((name, vec![of(a), of(b)]));
        }
    }
}

fn find_edges(all: &mut Vec<Question>) {
    let mut add =
        |text: &str, from: u64, byte: u8| all.push(("find", vec![of(text), Number(from), Number(byte as u64)]));
    add("", 0, b'<');
    for from in 0..=6 {
        add("a<b<c>", from, b'<');
        add("a<b<c>", from, b'>');
    }
    add("é€", 0, 0xA9);
    add("é€", 2, 0xA9);
    add("é€", 0, 0x82);
    add("é€", 0, 0xAC);
    add("\0\u{7F}", 0, 0);
    add("\0\u{7F}", 1, 0);
    add("\0\u{7F}", 0, 0x7F);
    add("abc", 0, 0xFF);
    add("abc", 3, b'c');
}

fn number_edges(all: &mut Vec<Question>) {
    let limits: [i128; 7] = [0, 10, 255, 4_294_967_296, i64::MAX as i128, u64::MAX as i128, i128::pow(10, 20)];
    for name in ["unsigned", "signed"] {
        let mut add = |text: &str| all.push((name, vec![of(text)]));
        for text in ["", "+", "-", "++1", "+-1", "-+1", "--1", "1+", "1-", "+0", "-0", "00", "007", "+007", "-007"] {
            add(text);
        }
        for text in [" 1", "1 ", "1 2", "1_0", "1,0", "1.0", "0x1", "1e3", "a", "/", ":", "1a", "１", "1\0", "٣"] {
            add(text);
        }
        for limit in limits {
            for near in limit - 1..=limit + 1 {
                add(&near.to_string());
                add(&(-near).to_string());
            }
        }
        add("18446744073709551620");
        add("+18446744073709551615");
        add("184467440737095516150");
        add("00000000000000000000000018446744073709551615");
        add("-0000000000000000000000009223372036854775808");
    }
    let powers = (0..20).map(|k| 10u64.pow(k)).flat_map(|n| [n - 1, n]);
    for n in powers.chain([i64::MAX as u64, 1 << 63, u64::MAX - 1, u64::MAX]) {
        all.push(("digits", vec![Number(n)]));
    }
}

fn random_texts(all: &mut Vec<Question>, random: &mut Random) {
    for _ in 0..60 {
        let length = random.place(33);
        let whole = utf8(random, length);
        let mut hurt = whole.clone();
        damage(random, &mut hurt);
        let alike = match random.below(3) {
            0 => whole.to_ascii_uppercase(),
            1 => whole.to_ascii_lowercase(),
            _ => whole.iter().map(|&b| if b.is_ascii() && random.below(12) == 0 { b ^ 0x20 } else { b }).collect(),
        };
        let byte = if whole.is_empty() { b'a' } else { random.pick(&whole) };
        let from = random.place(whole.len() + 1) as u64;
        all.push(("utf8", vec![of(&hurt)]));
        all.push(("trim", vec![of(&whole)]));
        all.push(("find", vec![of(&whole), Number(from), Number(byte as u64)]));
        for name in ["same", "same_raised", "order"] {
            all.push((name, vec![of(&whole), of(&alike)]));
        }
    }
}

fn random_numbers(all: &mut Vec<Question>, random: &mut Random) {
    for _ in 0..40 {
        let (before, after) = (random.pick(&["", "", "+", "-", "0"]), random.pick(&["", "", "", "5", "x"]));
        let text = format!("{before}{}{after}", random.number());
        all.push(("unsigned", vec![of(&text)]));
        all.push(("signed", vec![of(&text)]));
        all.push(("digits", vec![Number(random.number())]));
    }
}
