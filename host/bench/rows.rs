//! The rows of the table. Both sides start from bytes, so both test for UTF-8 what the library tests.

use crate::measure::Row;
use oxbreathe::text;
use std::hint::black_box;
use std::str::from_utf8;

pub fn all() -> Vec<Row> {
    let ascii = kept(b"<CALL:4>W1AW <BAND:3>40m <EOR>\n".repeat(40_000)[..1 << 20].to_vec());
    let mixed = kept(mixed(1 << 20));
    let padded = kept((0..1_000).map(|i| format!(" \t\u{A0}{:>w$}\u{3000}\r\n", "W1AW/P", w = i % 16)).collect());
    let spelled = kept((0..1_000).map(|i| (u64::MAX >> (i % 64)).to_string()).collect());
    let numbers = kept((0..1_000).map(|i| u64::MAX >> (i % 64)).collect());
    #[allow(unused_mut)]
    let mut rows = vec![
        Row::new("utf8 check", "1 MiB of ASCII", ascii, |t| text::check(t).is_ok(), |t| from_utf8(t).is_ok()),
        Row::new("utf8 check", "1 MiB, 10% wide", mixed, |t| text::check(t).is_ok(), |t| from_utf8(t).is_ok()),
        Row::new(
            "trim",
            "1,000 texts",
            padded,
            |all| sum(all, |t: &String| text::trim(t.as_bytes()).map_or(0, |kept| kept.len() as u64)),
            |all| sum(all, |t: &String| from_utf8(t.as_bytes()).map_or(0, |t| t.trim().len() as u64)),
        ),
        Row::new(
            "unsigned",
            "1,000 numbers",
            spelled,
            |all| sum(all, |t: &String| text::unsigned(t.as_bytes()).ok().flatten().unwrap_or(0)),
            |all| sum(all, |t: &String| from_utf8(t.as_bytes()).ok().and_then(|t| t.parse().ok()).unwrap_or(0)),
        ),
        Row::new(
            "digits",
            "1,000 numbers",
            numbers,
            |all| sum(all, |&n: &u64| text::digits(n, &mut [0; 20]).map_or(0, |written| written.len() as u64)),
            |all| sum(all, |&n: &u64| n.to_string().len() as u64),
        ),
    ];
    #[cfg(original)]
    rows.extend(frequencies());
    #[cfg(original)]
    rows.extend(normalizing());
    #[cfg(original)]
    rows.extend(crate::reading::rows());
    #[cfg(original)]
    rows.extend(crate::writing::rows());
    #[cfg(original)]
    rows.extend(crate::model::rows());
    #[cfg(original)]
    rows.extend(crate::dedupe::rows());
    #[cfg(original)]
    rows.extend(crate::contacts::rows());
    #[cfg(original)]
    rows.extend(crate::plan::rows());
    rows
}

/// Bands and modes, beside the original.
#[cfg(original)]
fn normalizing() -> Vec<Row> {
    use original::normalize as theirs;
    use oxbreathe::normalize as ours;
    // from 100 kHz to 1.4 GHz, and the names as operators write them
    let dials = kept((0..1_000).map(|i| 100_000 + i * i * 1_400).collect::<Vec<u64>>());
    let bands = kept("40m 20M 2m 70cm 160m 6M 23cm 10m 40M 5m".split(' ').cycle().take(1_000).collect::<Vec<&str>>());
    let modes =
        kept("SSB USB FT8 cw FT4 RTTY psk31 LSB MFSK DIG".split(' ').cycle().take(1_000).collect::<Vec<&str>>());
    vec![
        Row::new(
            "band of Hz",
            "1,000 dials",
            dials,
            |all| sum(all, |&hz: &u64| ours::band_for_freq_hz(hz).map_or(0, |band| band.name().len() as u64)),
            |all| sum(all, |&hz: &u64| theirs::band_for_freq_hz(hz).map_or(0, |band| band.len() as u64)),
        ),
        Row::new(
            "band by name",
            "1,000 names",
            bands,
            |all| sum(all, |t: &&str| ours::canonical_band(t.as_bytes()).is_ok_and(|band| band.is_some()) as u64),
            |all| {
                sum(all, |t: &&str| from_utf8(t.as_bytes()).is_ok_and(|t| theirs::canonical_band(t).is_some()) as u64)
            },
        ),
        Row::new(
            "mode",
            "1,000 modes",
            modes,
            |all| sum(all, |t: &&str| ours::normalize_mode(t.as_bytes(), None).map_or(0, |(m, _)| m.len() as u64)),
            |all| {
                sum(all, |t: &&str| {
                    from_utf8(t.as_bytes()).map_or(0, |t| theirs::normalize_mode(t, None).0.len() as u64)
                })
            },
        ),
    ]
}

/// Frequencies of the bands from 160 m to 2 m, in steps of 100 Hz and of 1 Hz.
#[cfg(original)]
fn frequencies() -> [Row; 2] {
    use original::adif::{hz_to_mhz_string, mhz_string_to_hz};
    use oxbreathe::frequency;
    let hertz = |i: u64| [1_800_000, 7_000_000, 14_000_000, 144_000_000][i as usize % 4] + i * 100 + i % 3;
    let numbers = kept((0..1_000).map(hertz).collect());
    let spelled = kept((0..1_000).map(|i| (hertz(i) as f64 / 1e6).to_string()).collect());
    [
        Row::new(
            "mhz to hz",
            "1,000 texts",
            spelled,
            |all| sum(all, |t: &String| frequency::hertz(t.as_bytes()).ok().flatten().unwrap_or(0)),
            |all| sum(all, |t: &String| from_utf8(t.as_bytes()).ok().and_then(mhz_string_to_hz).unwrap_or(0)),
        ),
        Row::new(
            "hz to mhz",
            "1,000 numbers",
            numbers,
            |all| sum(all, |&n: &u64| frequency::megahertz(n, &mut [0; 20]).map_or(0, |written| written.len() as u64)),
            |all| sum(all, |&n: &u64| hz_to_mhz_string(n).len() as u64),
        ),
    ]
}

/// For as long as the program runs: a row's input is shared by both its sides.
pub fn kept<T>(list: Vec<T>) -> &'static [T] {
    list.leak()
}

fn sum<T>(all: &[T], of: impl Fn(&T) -> u64) -> u64 {
    all.iter().fold(0, |sum, t| sum.wrapping_add(of(black_box(t))))
}

/// One character in ten is of two bytes or of three, by turns.
fn mixed(length: usize) -> Vec<u8> {
    let ten = ["twenty me", "é", "tres, RST", "€"].concat();
    ten.repeat(length / ten.len()).into_bytes()
}
