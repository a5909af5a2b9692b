//! The crate `normalize` against the original: each field of each answer of the C functions, and the Rust wrapper.

use crate::generate::{BESIDE, Random, WHITE, around, bounds, damage, utf8};
use crate::harness::{Group, Run};
use crate::rust;
use original::normalize as theirs;
use oxbreathe::sys::{self, Classified, Place, Placed, Told};
use oxbreathe::{Refusal, normalize as ours};
use std::borrow::Cow;

pub fn run(run: &mut Run) {
    run.group("normalize/frequency", frequency);
    run.group("normalize/band", |g| {
        names(g, &band_names(), |g, text| {
            g.same(text, sys::band_canonical(text), canonical(text));
            g.same(text, sys::band_known(text), known(text));
        })
    });
    run.group("normalize/mode", modes);
    run.group("normalize/class", |g| {
        names(g, &mode_names(), |g, text| g.same(text, sys::mode_class(text), class(text, theirs::mode_class)));
        let classes: Vec<String> = theirs::ModeClass::ALL.iter().map(|c| c.as_str().to_string()).collect();
        names(g, &classes, |g, text| g.same(text, sys::class_named(text), class(text, theirs::ModeClass::parse)));
    });
    run.group("normalize/tables", tables);
}

// What the original says, in the form of the C answers.

fn band(name: Option<&str>) -> Place {
    let entry = name.map(|name| theirs::known_bands().position(|k| k == name).unwrap());
    entry.map_or(Place::default(), |k| Place { kind: 3, start: k as u32, len: 0 })
}

fn canonical(text: &[u8]) -> Placed {
    match rust::read([text]) {
        Ok([text]) => Placed { refusal: 0, place: 0, entry: band(theirs::canonical_band(text)) },
        Err((refusal, place)) => Placed { refusal, place, entry: Place::default() },
    }
}

fn known(text: &[u8]) -> Told {
    match rust::read([text]) {
        Ok([text]) => Told { refusal: 0, place: 0, yes: theirs::is_known_band(text) },
        Err((refusal, place)) => Told { refusal, place, yes: false },
    }
}

fn class(text: &[u8], of: fn(&str) -> Option<theirs::ModeClass>) -> Classified {
    match rust::read([text]).map(|[text]| of(text)) {
        Ok(Some(class)) => Classified { refusal: 0, place: 0, present: true, class: class as u32 },
        Ok(None) => Classified::default(),
        Err((refusal, place)) => Classified { refusal, place, ..Classified::default() },
    }
}

type Normal = Result<(String, Option<String>), Refusal>;

fn normal(mode: &[u8], submode: Option<&[u8]>) -> Normal {
    let read = rust::read([mode, submode.unwrap_or_default()]);
    let [m, s] = read.map_err(|(number, place)| rust::refusal(number, place))?;
    Ok(theirs::normalize_mode(m, submode.map(|_| s)))
}

fn wrapped(mode: &[u8], submode: Option<&[u8]>) -> Normal {
    let (mode, submode) = ours::normalize_mode(mode, submode)?;
    Ok((mode.into_owned(), submode.map(Cow::into_owned)))
}

// What they are compared on.

fn band_names() -> Vec<String> {
    theirs::known_bands().map(str::to_string).collect()
}

/// Classed modes, submodes and aliases.
fn mode_names() -> Vec<String> {
    let classed = theirs::ModeClass::ALL.iter().flat_map(|&c| theirs::modes_in_class(c));
    let others = "PSK31 PSK63 PSK125 QPSK31 QPSK63 FT4 JS8 JT65A JT65B JT65C USB LSB CWU CWL PKTUSB DIG DATA";
    classed.chain(others.split(' ')).map(str::to_string).collect()
}

/// Each name in every mixture of case, with white space of each kind around it, and near misses.
fn names(g: &mut Group, names: &[String], mut same: impl FnMut(&mut Group, &[u8])) {
    for name in names {
        for mixture in 0..1u32 << name.len().min(g.depth(6, 12)) {
            let mixed: String =
                name.chars().enumerate().map(|(i, c)| flipped(c, mixture >> i.min(31) & 1 == 1)).collect();
            same(g, mixed.as_bytes());
        }
        for c in WHITE.into_iter().chain(BESIDE.chars()) {
            same(g, format!("{c}{name}{c}").as_bytes());
            same(g, format!("{c}{c}{}", name.to_ascii_lowercase()).as_bytes());
            same(g, format!("{name}{c}").as_bytes());
        }
        for _ in 0..g.depth(20, 400) {
            let text = near(&mut g.random, name);
            same(g, &text);
        }
    }
    for _ in 0..g.depth(500, 20_000) {
        let length = g.random.place(14);
        let mut text = utf8(&mut g.random, length);
        if g.random.below(4) == 0 {
            damage(&mut g.random, &mut text);
        }
        same(g, &text);
    }
}

fn flipped(c: char, other: bool) -> char {
    match other {
        true if c.is_ascii_lowercase() => c.to_ascii_uppercase(),
        true => c.to_ascii_lowercase(),
        false => c,
    }
}

/// The name with white space, another case, or a little damage.
fn near(random: &mut Random, name: &str) -> Vec<u8> {
    let before: String = (0..random.below(3)).map(|_| random.pick(&WHITE)).collect();
    let after: String = (0..random.below(3)).map(|_| random.pick(&WHITE)).collect();
    let mixed: String = name.chars().map(|c| flipped(c, random.below(3) == 0)).collect();
    let mut text = format!("{before}{mixed}{after}").into_bytes();
    if random.below(3) == 0 {
        damage(random, &mut text);
    }
    text
}

/// Every bound and what stands beside it, and frequencies of any size.
fn frequency(g: &mut Group) {
    let same = |g: &mut Group, hz: u64| g.same(hz, sys::band_for_freq_hz(hz), band(theirs::band_for_freq_hz(hz)));
    for hz in bounds(theirs::band_for_freq_hz).into_iter().chain([0, u64::MAX]).flat_map(around) {
        same(g, hz);
    }
    for _ in 0..g.depth(20_000, 2_000_000) {
        let hz = match g.random.below(2) {
            0 => g.random.number(),
            _ => g.random.below(1_400_000_000),
        };
        same(g, hz);
    }
}

/// All pairs of names, each as it stands, and near misses.
fn modes(g: &mut Group) {
    let same = |g: &mut Group, mode: &[u8], submode: Option<&[u8]>| {
        g.same((mode, submode.unwrap_or(b"(none)")), wrapped(mode, submode), normal(mode, submode));
    };
    let all = mode_names();
    for mode in &all {
        same(g, mode.as_bytes(), None);
        for blank in ["", " ", "\u{3000}\t"] {
            same(g, mode.as_bytes(), Some(blank.as_bytes()));
        }
        for submode in &all {
            same(g, mode.as_bytes(), Some(submode.as_bytes()));
        }
    }
    for _ in 0..g.depth(20_000, 1_000_000) {
        let (mode, submode) = (g.random.place(all.len()), g.random.place(all.len()));
        let (mode, submode) = (near(&mut g.random, &all[mode]), near(&mut g.random, &all[submode]));
        let given = g.random.pick(&[None, Some(&submode[..])]);
        same(g, &mode, given);
        same(g, &submode, Some(&mode));
    }
    for _ in 0..g.depth(2_000, 100_000) {
        let (a, b) = (g.random.place(20), g.random.place(20));
        let (mode, submode) = (utf8(&mut g.random, a), utf8(&mut g.random, b));
        let given = g.random.pick(&[None, Some(&submode[..])]);
        same(g, &mode, given);
    }
}

/// The tables whole, by the wrapper.
fn tables(g: &mut Group) {
    let strings = |names: &[&str]| names.iter().map(|name| name.to_string()).collect::<Vec<_>>();
    g.same(0, ours::known_bands().map(ours::Band::name).collect::<Vec<_>>(), theirs::known_bands().collect());
    for (a, b) in ours::ModeClass::ALL.into_iter().zip(theirs::ModeClass::ALL) {
        g.same(0, a.name(), b.as_str());
        g.same(0, ours::modes_in_class(a).to_vec(), strings(&theirs::modes_in_class(*b)));
    }
    for hz in [7_300_000, 7_300_001] {
        g.same(hz, ours::band_for_freq_hz(hz).map(ours::Band::name), theirs::band_for_freq_hz(hz));
    }
    for class in [4, 5, u32::MAX] {
        g.same(class as u64, (sys::class_modes(class), sys::class_name(class)), Default::default());
    }
    for (kind, entry) in [(0, 0), (1, 0), (2, 0), (3, 19), (4, 31), (5, 0), (3, u32::MAX)] {
        g.same((kind as u64, entry as u64), sys::entry_name(kind, entry), Default::default());
    }
}
