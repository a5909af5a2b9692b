//! The crate `text` against Rust's std, each field of each answer of the C functions; and the Rust wrapper over them.

use crate::generate::{BESIDE, BORDERS, Placed, WHITE, bytes, damage, every, length, utf8};
use crate::harness::{Group, Run};
use crate::rust;
use oxbreathe::LONGEST;
use oxbreathe::sys::{self, Checked, Found, Numbered, Ordered, Told, Trimmed, Written};
use std::fmt::Debug;

pub fn run(run: &mut Run) {
    run.group("text/check", |g| one(g, sys::text_check, check));
    run.group("text/trim", |g| one(g, sys::text_trim, trim));
    run.group("text/blank", |g| one(g, sys::text_blank, blank));
    run.group("text/unsigned", |g| {
        one(g, sys::text_unsigned, unsigned);
        numbers(g, sys::text_unsigned, unsigned);
    });
    run.group("text/signed", |g| {
        one(g, sys::text_signed, signed);
        numbers(g, sys::text_signed, signed);
    });
    run.group("text/same", |g| two(g, sys::text_same, same));
    run.group("text/same_raised", |g| two(g, sys::text_same_raised, same_raised));
    run.group("text/order_raised", |g| two(g, sys::text_order_raised, order_raised));
    run.group("text/find", find);
    run.group("text/digits", digits);
    run.group("text/long", long);
    run.group("text/wrapper", wrapper);
}

// What std says, in the form of the C answers.

fn check(text: &[u8]) -> Checked {
    match rust::read([text]) {
        Ok([text]) => Checked { refusal: 0, place: text.len() },
        Err((refusal, place)) => Checked { refusal, place },
    }
}

fn trim(text: &[u8]) -> Trimmed {
    match rust::read([text]).map(|[text]| rust::trim(text)) {
        Ok((start, end)) => Trimmed { refusal: 0, place: 0, start, end },
        Err((refusal, place)) => Trimmed { refusal, place, start: 0, end: 0 },
    }
}

fn told(answer: Result<bool, (u32, usize)>) -> Told {
    match answer {
        Ok(yes) => Told { refusal: 0, place: 0, yes },
        Err((refusal, place)) => Told { refusal, place, yes: false },
    }
}

fn blank(text: &[u8]) -> Told {
    told(rust::read([text]).map(|[text]| rust::blank(text)))
}

fn same(a: &[u8], b: &[u8]) -> Told {
    told(rust::read([a, b]).map(|[a, b]| a == b))
}

fn same_raised(a: &[u8], b: &[u8]) -> Told {
    told(rust::read([a, b]).map(|[a, b]| a.eq_ignore_ascii_case(b)))
}

fn order_raised(a: &[u8], b: &[u8]) -> Ordered {
    match rust::read([a, b]).map(|[a, b]| rust::order_raised(a, b)) {
        Ok(order) => Ordered { refusal: 0, place: 0, order: rust::ordinal(order) },
        Err((refusal, place)) => Ordered { refusal, place, order: 0 },
    }
}

fn found(text: &[u8], from: usize, byte: u8) -> Found {
    match rust::read([text]) {
        Ok(_) => Found { refusal: 0, place: 0, at: rust::find(text, from, byte) },
        Err((refusal, place)) => Found { refusal, place, at: 0 },
    }
}

fn numbered(answer: Result<Option<(bool, u64)>, (u32, usize)>) -> Numbered {
    match answer {
        Ok(Some((negative, size))) => Numbered { refusal: 0, place: 0, present: true, negative, size },
        Ok(None) => Numbered::default(),
        Err((refusal, place)) => Numbered { refusal, place, ..Numbered::default() },
    }
}

fn unsigned(text: &[u8]) -> Numbered {
    numbered(rust::read([text]).map(|[text]| text.parse().ok().map(|n: u64| (false, n))))
}

fn signed(text: &[u8]) -> Numbered {
    numbered(rust::read([text]).map(|[text]| text.parse().ok().map(|n: i64| (n < 0, n.unsigned_abs()))))
}

// What they are compared on.

/// Reaches every branch: the limits of each row of UTF-8's table, the bytes of white space and their neighbours, digits,
/// signs, and the limits of both cases of letters.
const ALPHABET: &[u8] = b"\x00\x08\x09\x0D\x0E\x1F\x20\x21+-/019:@AZ[`az{\x7F\
    \x80\x81\x84\x85\x86\x8A\x8B\x8F\x90\x9A\x9F\xA0\xA1\xA7\xA8\xA9\xAA\xAE\xAF\xB0\xBF\
    \xC0\xC1\xC2\xDF\xE0\xE1\xE2\xE3\xEC\xED\xEE\xEF\xF0\xF1\xF3\xF4\xF5\xFF";

/// For texts of four bytes: the limits of UTF-8's table alone.
const LIMITS: &[u8] = b"A\x7F\x80\x8F\x90\x9F\xA0\xBF\xC2\xDF\xE0\xED\xEF\xF0\xF1\xF3\xF4\xF5";

/// What is put at every place of a text around a block's border: bad bytes, cut characters, whole ones, white space.
const SPECKS: [&[u8]; 9] = [
    b"\x80", b"\xFF", b"\xC3", b"\xE2\x82", b"\xED\xA0\x80", b"\xC3\xA9", b"\xE2\x82\xAC", b"\xF0\x9F\x98\x80",
    b"\xE2\x80\x83",
];

/// White space, characters beside it and others, as parts of texts.
fn characters() -> Vec<String> {
    WHITE.iter().copied().chain(BESIDE.chars()).chain("é€😀".chars()).map(String::from).collect()
}

/// A function of one text: every short text, every text of few characters, a speck at each place of a block, and
/// random texts, whole and damaged.
fn one<A: PartialEq + Debug>(g: &mut Group, ours: fn(&[u8]) -> A, theirs: fn(&[u8]) -> A) {
    let same = |g: &mut Group, text: &[u8]| g.same(text, ours(text), theirs(text));
    for text in every(&bytes(ALPHABET), 3) {
        if text.len() < 2 || g.takes(20) {
            same(g, &text);
        }
    }
    for text in every(&bytes(LIMITS), 4).filter(|text| text.len() == 4) {
        if g.takes(50) {
            same(g, &text);
        }
    }
    let characters = characters();
    let parts: Vec<&[u8]> = characters.iter().map(String::as_bytes).collect();
    for text in every(&parts, 3) {
        if text.len() < 5 || g.takes(50) {
            same(g, &text);
        }
    }
    for border in BORDERS.into_iter().take(6) {
        for length in border - 1..=border + 1 {
            for place in 0..=length {
                let speck = g.random.pick(&SPECKS);
                let text = [&vec![b'a'; place], speck, &vec![b' '; length - place]].concat();
                same(g, &text);
            }
        }
    }
    for _ in 0..g.depth(2_500, 25_000) {
        let length = length(&mut g.random);
        let mut text = utf8(&mut g.random, length);
        if g.random.below(3) == 0 {
            damage(&mut g.random, &mut text);
        }
        let placed = Placed::new(&mut g.random, &text);
        same(g, placed.text());
    }
}

/// Texts that spell numbers, or nearly: every short one, the limits, and random ones with signs, zeros and damage.
fn numbers(g: &mut Group, ours: fn(&[u8]) -> Numbered, theirs: fn(&[u8]) -> Numbered) {
    let same = |g: &mut Group, text: &[u8]| g.same(text, ours(text), theirs(text));
    for text in every(&bytes(b"+-0189 a"), 5) {
        if g.takes(20) {
            same(g, &text);
        }
    }
    let limits = [0, i64::MAX as u128, u64::MAX as u128].into_iter().chain((0..26).map(|k| 10u128.pow(k)));
    for limit in limits {
        for near in limit.saturating_sub(12)..=limit + 12 {
            for before in ["", "+", "-", "0", "-00000000000000000000000", " "] {
                same(g, format!("{before}{near}").as_bytes());
            }
        }
    }
    for _ in 0..g.depth(1_500, 30_000) {
        let sign = g.random.pick(&["", "", "+", "-"]);
        let zeros = "0".repeat(g.random.pick(&[0, 0, 0, 1, 30]));
        let more = g.random.pick(&["", "", "", "0", "7", " "]);
        let mut text = format!("{sign}{zeros}{}{more}", g.random.number()).into_bytes();
        if g.random.below(5) == 0 {
            damage(&mut g.random, &mut text);
        }
        let placed = Placed::new(&mut g.random, &text);
        same(g, placed.text());
    }
}

/// A function of two texts: all pairs of short ones, and random pairs that are alike but for a case, a byte or a length.
fn two<A: PartialEq + Debug>(g: &mut Group, ours: fn(&[u8], &[u8]) -> A, theirs: fn(&[u8], &[u8]) -> A) {
    let same = |g: &mut Group, a: &[u8], b: &[u8]| g.same((a, b), ours(a, b), theirs(a, b));
    let short: Vec<Vec<u8>> = every(&bytes(b"\x00@AZ[`az{\x7F\x80\xC2\xDF\xFF"), 2).collect();
    for a in &short {
        for b in &short {
            if g.takes(20) {
                same(g, a, b);
            }
        }
    }
    for _ in 0..g.depth(4_000, 40_000) {
        let length = length(&mut g.random);
        let mut a = utf8(&mut g.random, length);
        let mut b = a.clone();
        match g.random.below(5) {
            0 => damage(&mut g.random, &mut b),
            1 => b.make_ascii_uppercase(),
            2 => b.make_ascii_lowercase(),
            3 if length > 0 => {
                let place = g.random.place(length);
                b[place] = g.random.below(128) as u8;
            }
            _ => {}
        }
        if g.random.below(8) == 0 {
            damage(&mut g.random, &mut a);
        }
        let (a, b) = (Placed::new(&mut g.random, &a), Placed::new(&mut g.random, &b));
        same(g, a.text(), b.text());
        same(g, b.text(), a.text());
    }
}

fn find(g: &mut Group) {
    let same = |g: &mut Group, text: &[u8], from: usize, byte: u8| {
        let input = (text, from as u64, byte as u64);
        g.same(input, sys::text_find(text, from, byte), found(text, from, byte));
    };
    for text in every(&bytes(b"<>a\xC3\xA9"), 5) {
        for from in 0..=text.len() + 1 {
            for byte in [b'<', 0xA9] {
                if g.takes(10) {
                    same(g, &text, from, byte);
                }
            }
        }
    }
    for _ in 0..g.depth(5_000, 50_000) {
        let length = length(&mut g.random);
        let mut text = utf8(&mut g.random, length);
        if g.random.below(8) == 0 {
            damage(&mut g.random, &mut text);
        }
        let byte = match g.random.place(text.len() + 1) {
            place if place < text.len() => text[place],
            _ => g.random.next() as u8,
        };
        let from = match g.random.below(20) {
            0 => usize::MAX - g.random.place(3),
            _ => g.random.place(text.len() + 3),
        };
        let placed = Placed::new(&mut g.random, &text);
        same(g, placed.text(), from, byte);
    }
}

/// Into a buffer of each length from nothing to more than enough: what is written, and that nothing else is, be it
/// past the buffer's end.
fn digits(g: &mut Group) {
    let same = |g: &mut Group, number: u64| {
        let text = number.to_string();
        for room in [0, text.len() - 1, text.len(), text.len() + 1, 24] {
            let (mut ours, mut theirs) = ([0xEE; 48], [0xEE; 48]);
            let written = sys::text_digits(number, &mut ours[..room]);
            let expected = if room < text.len() {
                Written { refusal: 13, length: 0 }
            } else {
                theirs[..text.len()].copy_from_slice(text.as_bytes());
                Written { refusal: 0, length: text.len() }
            };
            g.same((number, room as u64), (written, ours.to_vec()), (expected, theirs.to_vec()));
        }
    };
    let powers = (0..64).map(|k| 1u64 << k).chain((0..20).map(|k| 10u64.pow(k))).chain([0, u64::MAX]);
    for power in powers {
        for near in 0..5 {
            same(g, power.wrapping_add(near).wrapping_sub(2));
        }
    }
    for number in 0..g.depth(300, 10_000) as u64 {
        same(g, number);
    }
    for _ in 0..g.depth(500, 10_000) {
        let number = g.random.number();
        same(g, number);
    }
}

/// Texts of 1 MiB, and at and above the longest that is taken.
fn long(g: &mut Group) {
    const MIB: usize = 1 << 20;
    for _ in 0..g.depth(2, 24) {
        let mut text = utf8(&mut g.random, MIB);
        g.same(&text[..], sys::text_check(&text), check(&text));
        g.same(&text[..], sys::text_trim(&text), trim(&text));
        damage(&mut g.random, &mut text);
        g.same(&text[..], sys::text_check(&text), check(&text));
        g.same(&text[..], sys::text_trim(&text), trim(&text));
    }
    for length in [LONGEST, LONGEST + 1] {
        let text = vec![b' '; length];
        one_long(g, &text);
        two_long(g, &text, b"");
        two_long(g, b"\xFF", &text);
    }
}

fn one_long(g: &mut Group, text: &[u8]) {
    g.same(text, sys::text_check(text), check(text));
    g.same(text, sys::text_trim(text), trim(text));
    g.same(text, sys::text_blank(text), blank(text));
    g.same(text, sys::text_unsigned(text), unsigned(text));
    g.same(text, sys::text_signed(text), signed(text));
    g.same(text, sys::text_find(text, 0, b'x'), found(text, 0, b'x'));
}

fn two_long(g: &mut Group, a: &[u8], b: &[u8]) {
    g.same((a, b), sys::text_same(a, b), same(a, b));
    g.same((a, b), sys::text_same_raised(a, b), same_raised(a, b));
    g.same((a, b), sys::text_order_raised(a, b), order_raised(a, b));
}

/// The wrapper's values and refusals, as a Rust program sees them.
fn wrapper(g: &mut Group) {
    let refused = |(number, place)| rust::refusal(number, place);
    use oxbreathe::text as ours;
    for _ in 0..g.depth(300, 3_000) {
        let length = g.random.place(12);
        let mut a = utf8(&mut g.random, length);
        let mut b = a.to_ascii_uppercase();
        if g.random.below(2) == 0 {
            a = g.random.number().to_string().into_bytes();
            a.splice(..0, g.random.pick(&[&b""[..], b"-"]).iter().copied());
        }
        if g.random.below(3) == 0 {
            damage(&mut g.random, &mut a);
            damage(&mut g.random, &mut b);
        }
        let (a, b) = (&a[..], &b[..]);
        let (one, two) = (rust::read([a]).map_err(refused), rust::read([a, b]).map_err(refused));
        g.same(a, ours::check(a), one.map(|[a]| a));
        g.same(a, ours::trim(a), one.map(|[a]| rust::trim(a)).map(|(start, end)| start..end));
        g.same(a, ours::blank(a), one.map(|[a]| rust::blank(a)));
        g.same(a, ours::unsigned(a), one.map(|[a]| a.parse().ok()));
        g.same(a, ours::signed(a), one.map(|[a]| a.parse().ok()));
        g.same(a, ours::find(a, 1, b'1'), one.map(|[a]| a.bytes().skip(1).position(|b| b == b'1').map(|at| at + 1)));
        g.same((a, b), ours::same(a, b), two.map(|[a, b]| a == b));
        g.same((a, b), ours::same_raised(a, b), two.map(|[a, b]| a.eq_ignore_ascii_case(b)));
        g.same((a, b), ours::order_raised(a, b), two.map(|[a, b]| rust::order_raised(a, b)));
        let (number, mut out) = (g.random.number(), [0; 12]);
        let text = number.to_string();
        let expected = if text.len() <= out.len() { Ok(text.as_bytes()) } else { Err(refused((13, 0))) };
        g.same(number, ours::digits(number, &mut out), expected);
    }
}
