//! Texts that are refused, and where: known by how each was put together, not by reading it.

use crate::generate::{Random, length, utf8};
use std::ops::Range;

/// A text, how many rows there are for it, its refusal, and the bytes that this is about.
pub struct Refused {
    pub text: Vec<u8>,
    pub rows: usize,
    pub refusal: u32,
    pub at: Range<usize>,
}

/// What is refused behind something sound: how long it is up to the end of the tag's name, or none where it is the end of the text that
/// counts.
fn behind(before: &str, rest: &[u8], rows: usize, refusal: u32, length: Option<usize>) -> Refused {
    let text = [before.as_bytes(), rest].concat();
    let at = length.map_or(text.len()..text.len(), |length| before.len()..before.len() + length);
    Refused { text, rows, refusal, at }
}

/// Comments, fields, values that hold a `<` or whole tags, a record, a header; and characters of several bytes in them.
const BEFORE: [&str; 11] = [
    "", "a comment\n", "> é: 日本>\r\n", "<A:1>x ", "<é:5>日é", "<A:1>x<EOR>\n", "<NOTE:1><", "<NOTE:5><EOR>",
    "<NOTE:13><EOR><CALL:9>", "<NOTE:9>é<B><C:x", "<VER:5>3.1.6 <EOH>\n",
];

/// Rows enough for some of those.
const ROWS: usize = 20;

/// Tags with what follows them, for 3 to 7, and how long each is up to the end of its name.
const TAGS: [(&str, u32, usize); 22] = [
    ("<", 3, 1),
    ("<:", 3, 1),
    ("<AB", 3, 3),
    ("<EOR", 3, 4),
    ("< AB : 4 <CD:1", 3, 4),
    ("<AB\u{3000}\r\nmore", 3, 3),
    ("<>x<EOR>", 4, 1),
    ("<AB>x<EOR>", 4, 3),
    ("< é\u{A0}>", 4, 4),
    ("<\nAB>", 4, 4),
    ("<A\nB>", 4, 4),
    ("<:x>", 5, 1),
    ("< :>", 5, 1),
    ("<AB:>", 5, 3),
    ("<AB :-1><EOR>", 5, 3),
    ("<EOR ED:x>", 5, 7),
    ("<AB:18446744073709551616>x", 5, 3),
    ("<AB:9>é<EOR>", 6, 3),
    ("< AB:9>", 6, 4),
    ("<:18446744073709551615>x", 6, 1),
    ("<AB:1>é<EOR>", 7, 3),
    ("<:4>xx日", 7, 1),
];

/// What closes a record, and how long it is up to the end of its name, if it is a tag that counts.
const ENDS: [(&str, Option<usize>); 6] = [
    ("<EOR>", Some(4)),
    ("< eor\t:7> more", Some(5)),
    ("", None),
    (" more\n", None),
    ("<APP_LOTW_EOF>", None),
    ("< App_LoTW_eof :7><B:1>y<EOR> more", None),
];

/// Each of 2 to 10.
pub fn refused() -> Vec<Refused> {
    let mut all = Vec::new();
    for before in BEFORE {
        all.extend([&b"\xFF<AB"[..], b"\xE2\x82"].map(|bad| behind(before, bad, ROWS, 2, Some(1))));
        all.extend(TAGS.map(|(tag, refusal, length)| behind(before, tag.as_bytes(), ROWS, refusal, Some(length))));
    }
    // in a header, behind one, behind one that is full, and where a name came again
    let names: String = (0..256).map(|n| format!("<N{n:03}:1>x")).collect();
    for (before, tag) in [
        (names.clone(), "<N256:1>x<EOH><A:1>y<EOR>"),
        (format!("é<VER:5>3.1.6<EOH>{names}"), "<N256:1>x<EOR>"),
        (format!("{names}<EOH>{names}"), "<N256:0>"),
        (format!("{names}<n007:1>y"), "<N256:5><EOR>"),
    ] {
        all.push(behind(&before, tag.as_bytes(), ROWS, 8, Some(5)));
    }
    let many = "<A:1>x<EOR>".repeat(65_535) + "<A:1>y";
    for (end, length) in ENDS {
        all.push(behind(&many, end.as_bytes(), 65_536, 9, length));
        all.push(behind("é <A:1>x<EOR><A:1>y<B:2>é<C:1>z", end.as_bytes(), 3, 10, length));
    }
    all.push(behind("<A:1>x", b"<EOR>", 0, 10, Some(4)));
    all
}

/// One of the tags behind a comment of any length and some of what may stand there.
pub fn random(random: &mut Random) -> Refused {
    let size = length(random);
    let comment = String::from_utf8_lossy(&utf8(random, size)).replace('<', "-");
    let before: String = (0..random.below(5)).map(|_| random.pick(&BEFORE)).collect();
    let (tag, refusal, length) = random.pick(&TAGS);
    behind(&(comment + &before), tag.as_bytes(), ROWS, refusal, Some(length))
}
