//! The duplicate test, as rigflow's `dedupe`: moments, keys and the window.

use crate::qso::Qso;
use crate::refusal::{Answer, Refusal};
use crate::sys;

/// Seconds since the first day of year 0, of 8 digits of a date and 4 or 6 of a time of day; `None` where they name no moment.
///
/// ```
/// use oxbreathe::dedupe::moment;
///
/// assert_eq!(moment(b"00000102", b"000001"), Ok(Some(86_401)));
/// assert_eq!(moment(b"20260231", b"1200"), Ok(None));
/// ```
pub fn moment(date: &[u8], time: &[u8]) -> Result<Option<u64>, Refusal> {
    let answer = sys::parse_dt(date, time).accepted()?;
    Ok(answer.present.then_some(answer.seconds))
}

/// The tests on two contacts, each over its own text. A contact that the library gave is one of its text, so that none of
/// them is refused.
///
/// ```
/// use oxbreathe::reading::{read, table};
///
/// let text = b"<CALL:4>W1AW <QSO_DATE:8>20260301 <TIME_ON:4>1200 <BAND:3>40m <MODE:3>SSB <EOR>
///              <CALL:5>w1aw  <QSO_DATE:8>20260301 <TIME_ON:4>1230 <BAND:3>40m <MODE:3>SSB <EOR>";
/// let mut table = table(text);
/// let mut contacts = read(text, &mut table)?.records().map(|record| record.normal_qso().0);
/// let (a, b) = (contacts.next().unwrap(), contacts.next().unwrap());
/// assert_eq!((a.in_log(&b)?, a.in_file(&b)?, a.same_natural_key(&b)?), (false, true, true));
/// assert_eq!((a.within_window(&b, 1799)?, a.is_duplicate(&b, 1800)?), (false, true));
/// # Ok::<(), oxbreathe::Refusal>(())
/// ```
impl Qso<'_> {
    /// The match in the log: the untrimmed calls but for the case of letters, mode and band exactly.
    pub fn in_log(&self, other: &Qso) -> Result<bool, Refusal> {
        Ok(sys::in_log(self.text(), self.raw(), other.text(), other.raw()).accepted()?.yes)
    }

    /// The match in the file: call, mode and band trimmed.
    pub fn in_file(&self, other: &Qso) -> Result<bool, Refusal> {
        Ok(sys::in_file(self.text(), self.raw(), other.text(), other.raw()).accepted()?.yes)
    }

    /// rigflow's natural key: the other contact's call trimmed.
    pub fn same_natural_key(&self, other: &Qso) -> Result<bool, Refusal> {
        Ok(sys::same_natural_key(self.text(), self.raw(), other.text(), other.raw()).accepted()?.yes)
    }

    /// Whether both have moments, no further apart than so many seconds.
    pub fn within_window(&self, other: &Qso, seconds: i64) -> Result<bool, Refusal> {
        Ok(sys::within_window(self.text(), self.raw(), other.text(), other.raw(), seconds).accepted()?.yes)
    }

    /// The same natural key, within the window.
    pub fn is_duplicate(&self, other: &Qso, seconds: i64) -> Result<bool, Refusal> {
        Ok(sys::is_duplicate(self.text(), self.raw(), other.text(), other.raw(), seconds).accepted()?.yes)
    }
}
