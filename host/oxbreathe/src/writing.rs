//! Records to ADIF text, the headers, and a station's fields: each to the start of an output that the caller lends. A call
//! writes all or nothing, and touches no byte past what it wrote.

use crate::refusal::{Answer, Refusal};
use crate::sys::{self, Row, Written};
use crate::{Cause, LONGEST};

/// Writes rows of a text as records, as rigflow's `write_record` one after the other, names in capitals. The rows are as
/// [`read`](crate::reading::read) gives them: record numbers from 1 on, without gaps, and inside a record the names in
/// strict byte order of their capitals.
///
/// ```
/// let text = b"callW1AW";
/// let mut out = [0; 40];
/// assert_eq!(oxbreathe::writing::write(text, &[[1, 0, 4, 4, 4]], &mut out), Ok(&b"<CALL:4>W1AW <EOR>\n"[..]));
/// ```
pub fn write<'a>(text: &[u8], rows: &[Row], out: &'a mut [u8]) -> Result<&'a [u8], Refusal> {
    written(sys::write(text, rows.as_flattened(), rows.len(), out), out)
}

/// The header that rigflow's journal starts with.
///
/// ```
/// let mut out = [0; 45];
/// let header = oxbreathe::writing::journal_header(&mut out);
/// assert_eq!(header, Ok(&b"<ADIF_VER:5>3.1.6 <PROGRAMID:7>rigflow <EOH>\n"[..]));
/// ```
pub fn journal_header(out: &mut [u8]) -> Result<&[u8], Refusal> {
    written(sys::journal_header(out), out)
}

/// The header of an export, as rigflow's `export_header`: the ADIF version, the program's version, and when it was made.
///
/// ```
/// let mut out = [0; 200];
/// let header = oxbreathe::writing::export_header(b"3.1.6", b"0.1", b"20260301 120000", &mut out)?;
/// assert!(header.ends_with(b"<PROGRAMVERSION:3>0.1 <CREATED_TIMESTAMP:15>20260301 120000 <EOH>\n"));
/// # Ok::<(), oxbreathe::Refusal>(())
/// ```
pub fn export_header<'a>(
    version: &[u8],
    program: &[u8],
    created: &[u8],
    out: &'a mut [u8],
) -> Result<&'a [u8], Refusal> {
    written(sys::export_header(version, program, created, out), out)
}

/// Who transmits, and from where. What is blank gives no field.
#[derive(Clone, Copy, Debug, Default, PartialEq, Eq)]
pub struct Station<'a> {
    /// Its call, that of the operator as well.
    pub call: &'a str,
    /// Its Maidenhead square.
    pub grid: &'a str,
    /// The operator's name.
    pub name: &'a str,
    /// The state.
    pub state: &'a str,
    /// The county.
    pub county: &'a str,
    /// The CQ zone.
    pub cq_zone: &'a str,
    /// The ITU zone.
    pub itu_zone: &'a str,
}

/// The station's fields, as rigflow's `Station::my_adif_fields`, to stand in front of the fields of a record.
///
/// ```
/// use oxbreathe::writing::{Station, station_fields};
///
/// let mut out = [0; 100];
/// let fields = station_fields(&Station { call: "DL0XX", grid: " JO62 ", ..Station::default() }, &mut out);
/// assert_eq!(fields, Ok(&b"<MY_GRIDSQUARE:4>JO62 <OPERATOR:5>DL0XX <STATION_CALLSIGN:5>DL0XX "[..]));
/// ```
pub fn station_fields<'a>(station: &Station, out: &'a mut [u8]) -> Result<&'a [u8], Refusal> {
    let Station { call, grid, name, state, county, cq_zone, itu_zone } = *station;
    let [call, grid, name, state] = [call, grid, name, state].map(str::as_bytes);
    let [county, cq, itu] = [county, cq_zone, itu_zone].map(str::as_bytes);
    written(sys::station_fields(call, grid, name, state, county, cq, itu, out), out)
}

/// The part of an output that was written.
pub(crate) fn written(answer: Written, out: &[u8]) -> Result<&[u8], Refusal> {
    Ok(out.get(..answer.accepted()?.length).unwrap_or_default())
}

/// What a call writes, in an output that grows until it is long enough.
pub(crate) fn grown(mut write: impl FnMut(&mut [u8]) -> Result<usize, Refusal>) -> Result<Vec<u8>, Refusal> {
    let mut out = vec![0; 1024];
    loop {
        match write(&mut out) {
            Ok(length) => out.truncate(length),
            Err(refusal) if refusal.cause == Cause::ShortOutput && out.len() < LONGEST => {
                out.resize(out.len() * 2, 0);
                continue;
            }
            Err(refusal) => return Err(refusal),
        }
        return Ok(out);
    }
}
