//! What Rust's std says of texts and frequencies: the side that the library is compared with, and that the vectors record.

use oxbreathe::{Cause, LONGEST, Refusal};
use std::cmp::Ordering;

/// The refusal of this number, at a place of the text where it has one.
pub fn refusal(number: u32, place: usize) -> Refusal {
    let place = (2..=10).contains(&number).then_some(place);
    Refusal { cause: Cause::numbered(number).unwrap(), place, name_place: 0, name_length: 0, wanted: 0, left: 0 }
}

/// The places of the first byte kept and of the first one after; of a blank text both are the length.
pub fn trim(text: &str) -> (usize, usize) {
    let start = text.len() - text.trim_start().len();
    (start, start + text.trim().len())
}

pub fn blank(text: &str) -> bool {
    text.trim().is_empty()
}

pub fn order_raised(a: &str, b: &str) -> Ordering {
    a.to_ascii_uppercase().as_bytes().cmp(b.to_ascii_uppercase().as_bytes())
}

/// 0 less, 1 equal, 2 greater.
pub fn ordinal(order: Ordering) -> u32 {
    match order {
        Ordering::Less => 0,
        Ordering::Equal => 1,
        Ordering::Greater => 2,
    }
}

/// The place of the first `byte` at `from` or later, or the length.
pub fn find(text: &[u8], from: usize, byte: u8) -> usize {
    (from..text.len()).find(|&i| text[i] == byte).unwrap_or(text.len())
}

/// How far the text is UTF-8.
pub fn utf8(text: &[u8]) -> usize {
    std::str::from_utf8(text).map_or_else(|e| e.valid_up_to(), str::len)
}

/// The texts as `str`, or the refusal that every call gives before it looks further.
pub fn read<'a, const N: usize>(texts: [&'a [u8]; N]) -> Result<[&'a str; N], (u32, usize)> {
    if texts.iter().any(|t| t.len() > LONGEST) {
        return Err((1, 0));
    }
    let mut before = 0;
    let mut read = [""; N];
    for (slot, text) in read.iter_mut().zip(texts) {
        *slot = std::str::from_utf8(text).map_err(|e| (2, before + e.valid_up_to()))?;
        before += text.len();
    }
    Ok(read)
}

/// The hertz that a text of megahertz says to std's f64: none where it is no number, or one below zero.
pub fn hertz(text: &str) -> Option<u64> {
    match text.trim().parse::<f64>() {
        Ok(mhz) if mhz < 0.0 => None,
        Ok(mhz) => Some((mhz * 1e6).round() as u64),
        Err(_) => None,
    }
}

pub fn megahertz(hz: u64) -> String {
    format!("{:.6}", hz as f64 / 1e6)
}

/// Whether the text says a number outside the exact window, told from its digits alone.
pub fn inexact(text: &str) -> bool {
    let text = text.trim();
    let number = text.strip_prefix(['+', '-']).unwrap_or(text);
    if text.parse::<f64>().is_err() || !number.contains(|c: char| c.is_ascii_digit()) {
        return false;
    }
    let (mantissa, exponent) = number.split_once(['e', 'E']).unwrap_or((number, "0"));
    let (whole, fraction) = mantissa.split_once('.').unwrap_or((mantissa, ""));
    let digits = [whole, fraction].concat();
    let digits = digits.trim_start_matches('0');
    if digits.is_empty() {
        return false;
    }
    let few = digits.parse::<u128>().is_ok_and(|digits| digits <= 1 << 53);
    let exponent = match exponent.parse::<i128>() {
        Ok(exponent) if exponent.abs() <= 65_535 => exponent,
        _ => return true,
    };
    !few || (exponent - fraction.len() as i128).abs() > 22
}
