//! The crate `mhz` against the original, or where its sources are not at hand against std's f64, each field of each
//! answer; and the Rust wrapper over it.

use crate::generate::{Placed, Random, WHITE, around, bounds, bytes, damage, every};
use crate::harness::{Group, Run};
use crate::rust;
#[cfg(not(original))]
use crate::rust::{hertz as mhz_string_to_hz, megahertz as hz_to_mhz_string};
#[cfg(original)]
use original::adif::{hz_to_mhz_string, mhz_string_to_hz};
use oxbreathe::sys::{self, Frequency, Written};
use oxbreathe::{LONGEST, frequency, normalize};

pub fn run(run: &mut Run) {
    run.group("mhz/short", short);
    run.group("mhz/examples", examples);
    run.group("mhz/powers", powers);
    run.group("mhz/window", window);
    run.group("mhz/decimals", decimals);
    run.group("mhz/halves", halves);
    run.group("mhz/write", write);
    run.group("mhz/survive", survive);
    run.group("mhz/texts", texts);
    run.group("mhz/wrapper", wrapper);
}

/// From this many hertz on a frequency is not written.
const TOO_HIGH: u64 = 8_589_934_592_000_000;

fn expected(text: &[u8]) -> Frequency {
    if text.len() > LONGEST {
        return Frequency { refusal: 1, ..Frequency::default() };
    }
    match std::str::from_utf8(text) {
        Err(e) => Frequency { refusal: 2, place: e.valid_up_to(), ..Frequency::default() },
        Ok(text) if rust::inexact(text) => Frequency { refusal: 15, ..Frequency::default() },
        Ok(text) => match mhz_string_to_hz(text) {
            Some(hz) => Frequency { present: true, hz, ..Frequency::default() },
            None => Frequency::default(),
        },
    }
}

fn same(g: &mut Group, text: impl AsRef<[u8]>) {
    let text = text.as_ref();
    g.same(text, sys::mhz_to_hz(text), expected(text));
}

/// Every text of up to four characters of what a number is made of.
fn short(g: &mut Group) {
    for text in every(&bytes(b"09.eE+-ni"), 4) {
        same(g, text);
    }
    for text in every(&bytes(b"05.e+-"), 6) {
        if g.takes(20) {
            same(g, text);
        }
    }
}

/// Words in each case, near words, near numbers, and white space round them.
fn examples(g: &mut Group) {
    let near = [
        "14.074",
        "-0.1",
        "1e14",
        "9007199254740993",
        "-0",
        "-0.0e9",
        "1.",
        ".5",
        "1.e5",
        "+.5e-3",
        "1_0",
        "0x1",
        "1e+",
        "1e",
        "e5",
        ".",
        "+",
        "",
        "1.2.3",
        "1e5.0",
        "1 2",
        "1f",
        "nan0",
        "0e99999999999999999999",
        "٣",
        "１",
        "000000000000000000000000000000000000000000000000000000000000000000000000000014.074",
        "0.00000000000000000000000000000000000000000000000000000000000000000000000000014074e76",
    ];
    let words = ["inf", "infinity", "nan", "in", "infi", "infinit", "infinityx", "na", "nann", "i", "n"];
    for text in near.into_iter().chain(words) {
        for sign in ["", "+", "-", "--", "+-"] {
            let text = format!("{sign}{text}");
            same(g, &text);
            for _ in 0..g.depth(4, 200) {
                let cased: String =
                    text.chars().map(|c| if g.random.below(2) == 0 { c.to_ascii_uppercase() } else { c }).collect();
                let (before, after) = (g.random.pick(&WHITE), g.random.pick(&WHITE));
                same(g, &cased);
                same(g, format!("{before}{cased}{after}"));
                same(g, format!("{cased}{after}x"));
            }
        }
    }
}

/// Every power of ten and its neighbours, written out and with an exponent.
fn powers(g: &mut Group) {
    for k in 0..=25 {
        let power = 10u128.pow(k);
        for near in power.saturating_sub(3)..=power + 3 {
            let digits = near.to_string();
            same(g, &digits);
            for point in 0..=digits.len() {
                let (whole, fraction) = digits.split_at(point);
                same(g, format!("{whole}.{fraction}"));
                for exponent in -30..=30 {
                    if g.takes(10) {
                        same(g, format!("{whole}.{fraction}e{exponent}"));
                    }
                }
            }
        }
    }
}

/// The ends of the window from both sides: of the digits, of the power of ten and of the exponent.
fn window(g: &mut Group) {
    const MOST: u64 = 1 << 53;
    let zeros = |n: usize| "0".repeat(n);
    for digits in [0, 1, 9, MOST - 2, MOST - 1, MOST, MOST + 1, MOST + 2, 10 * MOST, u64::MAX] {
        for power in -46i32..=46 {
            for fraction in 0..=24 {
                let text = format!("{digits:0width$}", width = fraction + 1);
                let (whole, after) = text.split_at(text.len() - fraction);
                let sign = g.random.pick(&["", "-", "+"]);
                if g.takes(5) {
                    same(g, format!("{sign}{whole}.{after}e{power}"));
                }
            }
        }
        for exponent in [65_534, 65_535, 65_536, 65_537, 99_999, u64::MAX] {
            for sign in ["", "-", "+"] {
                same(g, format!("{digits}e{sign}{exponent}"));
                same(g, format!("{digits}e{sign}000000000000000000000000000{exponent}"));
            }
        }
    }
    // far exponents that the fraction digits bring back
    for fraction in [65_512, 65_513, 65_534, 65_557, 65_558] {
        for exponent in [65_534, 65_535, 65_536] {
            same(g, format!("0.{}25e{exponent}", zeros(fraction - 2)));
        }
    }
}

/// A decimal of up to 25 digits, with a point and an exponent anywhere.
fn decimal(random: &mut Random) -> String {
    let mut text = random.pick(&["", "", "", "-", "+"]).to_string();
    let digits = 1 + random.place(25);
    let point = random.place(digits * 2);
    let zeros = random.below(3) == 0;
    for place in 0..digits {
        if place == point {
            text.push('.');
        }
        let digit = if zeros && random.below(2) == 0 { 0 } else { random.below(10) as u8 };
        text.push((b'0' + digit) as char);
    }
    if random.below(3) == 0 {
        let most = random.pick(&[10, 30, 70_000]);
        text += random.pick(&["e", "E", "e-", "E-", "e+"]);
        text += &random.below(most).to_string();
    }
    text
}

fn decimals(g: &mut Group) {
    for _ in 0..g.depth(30_000, 3_000_000) {
        let mut text = decimal(&mut g.random).into_bytes();
        if g.random.below(20) == 0 {
            damage(&mut g.random, &mut text);
        }
        let placed = Placed::new(&mut g.random, &text);
        same(g, placed.text());
    }
}

/// Half a hertz, and a little more and less.
fn halves(g: &mut Group) {
    for _ in 0..g.depth(10_000, 500_000) {
        let hz = g.random.number() >> 12;
        for tenths in [4, 5, 6] {
            same(g, format!("{}.{:06}{tenths}", hz / 1_000_000, hz % 1_000_000));
        }
    }
}

/// Frequencies written, and read back: at every length of the output from nothing to more than enough for few of them,
/// and with room enough for many.
fn write(g: &mut Group) {
    let same_written = |g: &mut Group, hz: u64, room: usize| {
        let text = hz_to_mhz_string(hz);
        let (mut ours, mut theirs) = ([0xEE; 40], [0xEE; 40]);
        let written = sys::hz_to_mhz(hz, &mut ours[..room]);
        let expected = if hz >= TOO_HIGH {
            Written { refusal: 14, length: 0 }
        } else if room < text.len() {
            Written { refusal: 13, length: 0 }
        } else {
            theirs[..text.len()].copy_from_slice(text.as_bytes());
            Written { refusal: 0, length: text.len() }
        };
        g.same((hz, room as u64), (written, ours), (expected, theirs));
        same(g, text);
    };
    let powers = (0..64).map(|k| 1u64 << k).chain((0..20).map(|k| 10u64.pow(k))).chain([0, TOO_HIGH, u64::MAX]);
    for power in powers {
        for near in 0..5 {
            for room in 0..=24 {
                same_written(g, power.wrapping_add(near).wrapping_sub(2), room);
            }
        }
    }
    for _ in 0..g.depth(20_000, 1_000_000) {
        let most = g.random.pick(&[u64::MAX, TOO_HIGH, TOO_HIGH, TOO_HIGH]);
        let hz = g.random.number() % most;
        same_written(g, hz, 32);
    }
}

/// Frequencies written and read back, by the library, by the original, and by each what the other wrote: up to 10^12 Hz
/// they come back as they were, and so up to 2^32 MHz. The first that does not is 11 Hz above it, in all four ways.
fn survive(g: &mut Group) {
    const PROVED: u64 = 1_000_000_000_000;
    const END: u64 = (1 << 32) * 1_000_000;
    let read = |text: &[u8]| frequency::hertz(text).expect("a number in the window");
    let trips = |hz: u64| {
        let (mut out, theirs) = ([0xEE; 17], hz_to_mhz_string(hz));
        let ours = frequency::megahertz(hz, &mut out).expect("a frequency that is not too high");
        let ours = std::str::from_utf8(ours).expect("digits and a point");
        [read(ours.as_bytes()), mhz_string_to_hz(&theirs), mhz_string_to_hz(ours), read(theirs.as_bytes())]
    };
    let same = |g: &mut Group, hz: u64| g.same(hz, trips(hz), [Some(hz); 4]);

    let bands = bounds(normalize::band_for_freq_hz);
    let powers = (0..52).map(|k| 1u64 << k).chain((0..16).map(|k| 10u64.pow(k)));
    let kilohertz = (0..=30_000).map(|khz| khz * 1_000);
    for hz in bands.into_iter().chain(powers).flat_map(around).chain(kilohertz) {
        if g.takes(20) {
            same(g, hz);
        }
    }
    for _ in 0..g.depth(20_000, 2_000_000) {
        let hz = g.random.next() % (PROVED + 1);
        same(g, hz);
    }
    for _ in 0..g.depth(5_000, 500_000) {
        let hz = PROVED + g.random.next() % (END - PROVED);
        same(g, hz);
    }
    for hz in around(END) {
        g.same(hz, trips(hz), [mhz_string_to_hz(&hz_to_mhz_string(hz)); 4]);
    }
    let first = around(END).find(|&hz| trips(hz) != [Some(hz); 4]);
    g.same(END, (first, trips(END + 11)), (Some(END + 11), [Some(END + 12); 4]));
}

/// Texts that are refused before they are read, and long ones that are not.
fn texts(g: &mut Group) {
    for _ in 0..g.depth(1_000, 50_000) {
        let mut text = decimal(&mut g.random).into_bytes();
        let place = g.random.place(text.len() + 1);
        text.insert(place, g.random.pick(b"\x80\xFF\xC3\xE2"));
        same(g, text);
    }
    for digit in ["0", "7"] {
        same(g, digit.repeat(100_000));
        same(g, format!("{}.{}e5", digit.repeat(40_000), digit.repeat(70_000)));
    }
    for length in [LONGEST, LONGEST + 1] {
        same(g, vec![b'0'; length]);
    }
}

/// The wrapper's values and refusals, as a Rust program sees them.
fn wrapper(g: &mut Group) {
    for _ in 0..g.depth(500, 5_000) {
        let text = decimal(&mut g.random);
        let read = if rust::inexact(&text) { Err(rust::refusal(15, 0)) } else { Ok(mhz_string_to_hz(&text)) };
        g.same(&text[..], frequency::hertz(text.as_bytes()), read);
        let (hz, mut out) = (g.random.number(), [0; 14]);
        let text = hz_to_mhz_string(hz);
        let written = match hz {
            TOO_HIGH.. => Err(rust::refusal(14, 0)),
            _ if text.len() > out.len() => Err(rust::refusal(13, 0)),
            _ => Ok(text.as_bytes()),
        };
        g.same(hz, frequency::megahertz(hz, &mut out), written);
    }
}
