//! ADIF text to records, as rigflow's `parse_adif`, into a table that the caller lends: nothing is copied but places.

use crate::refusal::{Answer, Refusal};
use crate::text::{part, taken};
use crate::{LONGEST, sys};

pub use crate::sys::Row;

/// A table that is large enough for any reading of the text: a field is a tag, and has four bytes at least.
pub fn table(text: &[u8]) -> Vec<Row> {
    vec![[0; sys::ROW]; tags(text).min(text.len() / 4)]
}

/// How many tags the text has at most, none where it is too long to be read.
pub(crate) fn tags(text: &[u8]) -> usize {
    if text.len() > LONGEST { 0 } else { text.iter().filter(|&&byte| byte == b'<').count() }
}

/// Reads a text into a table, a row a field. What the table held before does not matter; after a refusal it is zero
/// throughout.
///
/// ```
/// use oxbreathe::reading::{read, table};
///
/// let text = b"<call:4>W1AW <BAND:3>40m <EOR> <CALL:4>G4ZZ <EOR>";
/// let mut table = table(text);
/// let read = read(text, &mut table)?;
/// assert_eq!(read.len(), 2);
/// let calls: Vec<_> = read.records().filter_map(|record| record.field("CALL")).collect();
/// assert_eq!(calls, ["W1AW", "G4ZZ"]);
/// # Ok::<(), oxbreathe::Refusal>(())
/// ```
pub fn read<'a>(text: &'a [u8], table: &'a mut [Row]) -> Result<Read<'a>, Refusal> {
    let answer = sys::read(text, table.as_flattened_mut()).accepted()?;
    let rows = table.get(..answer.rows).unwrap_or_default();
    // Safe: the text was accepted.
    Ok(Read { text: unsafe { taken(text) }, rows, records: answer.records })
}

/// A text that was read.
#[derive(Clone, Copy, Debug)]
pub struct Read<'a> {
    text: &'a str,
    rows: &'a [Row],
    records: usize,
}

impl<'a> Read<'a> {
    /// What was read of a text that the library accepted, with the rows that it gave.
    pub(crate) fn new(text: &'a str, rows: &'a [Row], records: usize) -> Read<'a> {
        Read { text, rows, records }
    }

    /// How many records it has.
    pub fn len(&self) -> usize {
        self.records
    }

    /// Whether it has no record.
    pub fn is_empty(&self) -> bool {
        self.records == 0
    }

    /// The text.
    pub fn text(&self) -> &'a str {
        self.text
    }

    /// The rows of all records, as [`write`](crate::writing::write) takes them.
    pub fn rows(&self) -> &'a [Row] {
        self.rows
    }

    /// The records, in the order of the text.
    pub fn records(&self) -> impl Iterator<Item = Record<'a>> + use<'a> {
        let text = self.text;
        self.rows.chunk_by(|[one, ..], [next, ..]| one == next).map(move |rows| Record { text, rows })
    }
}

/// A record: fields, each name once.
#[derive(Clone, Copy, Debug)]
pub struct Record<'a> {
    pub(crate) text: &'a str,
    pub(crate) rows: &'a [Row],
}

/// A field of a record, its name as it stands in the text.
#[derive(Clone, Copy, Debug, PartialEq, Eq)]
pub struct Field<'a> {
    /// The name. Two that differ in the case of ASCII letters alone are the same.
    pub name: &'a str,
    /// The value, whatever it holds.
    pub value: &'a str,
}

impl<'a> Record<'a> {
    /// Its number in the text, from 1.
    pub fn number(&self) -> u32 {
        self.rows.first().map_or(0, |[number, ..]| *number)
    }

    /// The fields, in byte order of their names in capitals.
    ///
    /// ```
    /// let text = b"<call:4>W1AW <BAND:3>40m <EOR>";
    /// let mut table = oxbreathe::reading::table(text);
    /// let read = oxbreathe::reading::read(text, &mut table)?;
    /// let record = read.records().next().unwrap();
    /// let fields: Vec<_> = record.fields().map(|field| (field.name, field.value)).collect();
    /// assert_eq!(fields, [("BAND", "40m"), ("call", "W1AW")]);
    /// # Ok::<(), oxbreathe::Refusal>(())
    /// ```
    pub fn fields(&self) -> impl Iterator<Item = Field<'a>> + use<'a> {
        let text = self.text;
        self.rows.iter().map(move |&[_, name, name_length, value, value_length]| Field {
            name: part(text, name, name_length).unwrap_or_default(),
            value: part(text, value, value_length).unwrap_or_default(),
        })
    }

    /// The value of the field of this name, the case of its letters aside.
    pub fn field(&self, name: &str) -> Option<&'a str> {
        self.fields().find(|field| field.name.eq_ignore_ascii_case(name)).map(|field| field.value)
    }
}
