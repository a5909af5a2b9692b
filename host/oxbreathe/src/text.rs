//! What Rust's `str` gives to rigflow, on any bytes. A text above [`LONGEST`](crate::LONGEST) bytes is refused, and then
//! one that is not UTF-8.

use crate::refusal::{Answer, Refusal};
use crate::sys;
use crate::writing::written;
use std::cmp::Ordering;
use std::ops::Range;

/// The text as a `str`, as [`std::str::from_utf8`] gives it.
///
/// ```
/// use oxbreathe::{Cause, text::check};
///
/// assert_eq!(check(b"W1AW"), Ok("W1AW"));
/// assert_eq!(check(b"W1\xFF").unwrap_err().place, Some(2));
/// ```
pub fn check(text: &[u8]) -> Result<&str, Refusal> {
    sys::text_check(text).accepted()?;
    // Safe: it was accepted.
    Ok(unsafe { taken(text) })
}

/// A text that the library accepted, as a `str`. It is proved to refuse every text that is not UTF-8.
pub(crate) unsafe fn taken(text: &[u8]) -> &str {
    unsafe { std::str::from_utf8_unchecked(text) }
}

/// The part of a text that a place and a length name.
pub(crate) fn part(text: &str, place: u32, length: u32) -> Option<&str> {
    // the sum of two numbers of 32 bits
    text.get(place as usize..place as usize + length as usize)
}

/// The places that trimming keeps, as [`str::trim`]; of a blank text the empty range at its end.
///
/// ```
/// assert_eq!(oxbreathe::text::trim("\u{3000}40m \n".as_bytes()), Ok(3..6));
/// ```
pub fn trim(text: &[u8]) -> Result<Range<usize>, Refusal> {
    let kept = sys::text_trim(text).accepted()?;
    Ok(kept.start..kept.end)
}

/// Is there nothing but white space.
///
/// ```
/// assert_eq!(oxbreathe::text::blank(b" \t"), Ok(true));
/// ```
pub fn blank(text: &[u8]) -> Result<bool, Refusal> {
    Ok(sys::text_blank(text).accepted()?.yes)
}

/// Are the texts equal, byte for byte.
///
/// ```
/// assert_eq!(oxbreathe::text::same(b"40m", b"40M"), Ok(false));
/// ```
pub fn same(a: &[u8], b: &[u8]) -> Result<bool, Refusal> {
    Ok(sys::text_same(a, b).accepted()?.yes)
}

/// Are the texts equal but for the case of ASCII letters, as [`str::eq_ignore_ascii_case`].
///
/// ```
/// assert_eq!(oxbreathe::text::same_raised(b"40m", b"40M"), Ok(true));
/// ```
pub fn same_raised(a: &[u8], b: &[u8]) -> Result<bool, Refusal> {
    Ok(sys::text_same_raised(a, b).accepted()?.yes)
}

/// The byte order of the two texts in ASCII capitals.
///
/// ```
/// assert_eq!(oxbreathe::text::order_raised(b"band", b"CALL"), Ok(std::cmp::Ordering::Less));
/// ```
pub fn order_raised(a: &[u8], b: &[u8]) -> Result<Ordering, Refusal> {
    Ok(sys::text_order_raised(a, b).accepted()?.order.cmp(&1))
}

/// The place of the first `byte` at `from` or later.
///
/// ```
/// assert_eq!(oxbreathe::text::find(b"<CALL:4>", 1, b':'), Ok(Some(5)));
/// assert_eq!(oxbreathe::text::find(b"<CALL:4>", 6, b':'), Ok(None));
/// ```
pub fn find(text: &[u8], from: usize, byte: u8) -> Result<Option<usize>, Refusal> {
    let at = sys::text_find(text, from, byte).accepted()?.at;
    Ok((at < text.len()).then_some(at))
}

/// The number that the text spells, as `str::parse::<u64>`.
///
/// ```
/// assert_eq!(oxbreathe::text::unsigned(b"+020"), Ok(Some(20)));
/// assert_eq!(oxbreathe::text::unsigned(b"-20"), Ok(None));
/// ```
pub fn unsigned(text: &[u8]) -> Result<Option<u64>, Refusal> {
    let number = sys::text_unsigned(text).accepted()?;
    Ok(number.present.then_some(number.size))
}

/// The number that the text spells, as `str::parse::<i64>`.
///
/// ```
/// assert_eq!(oxbreathe::text::signed(b"-9223372036854775808"), Ok(Some(i64::MIN)));
/// ```
pub fn signed(text: &[u8]) -> Result<Option<i64>, Refusal> {
    let number = sys::text_signed(text).accepted()?;
    Ok(if number.present { with_sign(number.negative, number.size) } else { None })
}

/// A number by its sign and its size, where 64 bits hold it.
pub(crate) fn with_sign(negative: bool, size: u64) -> Option<i64> {
    if negative { 0i64.checked_sub_unsigned(size) } else { i64::try_from(size).ok() }
}

/// Writes the number in decimal to the start of `out`, and gives back the part written.
///
/// ```
/// assert_eq!(oxbreathe::text::digits(1800, &mut [0; 20]), Ok(&b"1800"[..]));
/// ```
pub fn digits(number: u64, out: &mut [u8]) -> Result<&[u8], Refusal> {
    written(sys::text_digits(number, out), out)
}
