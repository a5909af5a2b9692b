//! Frequencies: megahertz in a text, whole hertz as a number.

use crate::refusal::{Answer, Refusal};
use crate::sys;
use crate::writing::written;

/// The whole hertz of a text of megahertz, as rigflow's `mhz_string_to_hz`: none where the text is no number, or one
/// below zero. A number outside the exact window is refused ([`Cause::InexactFrequency`](crate::Cause)).
///
/// ```
/// use oxbreathe::frequency::hertz;
///
/// assert_eq!(hertz(b"14.074"), Ok(Some(14_074_000)));
/// assert_eq!(hertz(b"-0.1"), Ok(None));
/// assert_eq!(hertz(b"9007199254740993").unwrap_err().number(), 15);
/// ```
pub fn hertz(text: &[u8]) -> Result<Option<u64>, Refusal> {
    let frequency = sys::mhz_to_hz(text).accepted()?;
    Ok(frequency.present.then_some(frequency.hz))
}

/// Writes the frequency as megahertz with six decimals to the start of `out`, as rigflow's `hz_to_mhz_string`, and gives
/// back the part written. Of up to 10^12 Hz [`hertz`] reads it as the same number.
///
/// ```
/// use oxbreathe::frequency::{hertz, megahertz};
///
/// assert_eq!(megahertz(7_150_000, &mut [0; 17]), Ok(&b"7.150000"[..]));
/// assert_eq!(hertz(megahertz(14_097_087, &mut [0; 17]).unwrap()), Ok(Some(14_097_087)));
/// ```
pub fn megahertz(hz: u64, out: &mut [u8]) -> Result<&[u8], Refusal> {
    written(sys::hz_to_mhz(hz, out), out)
}
