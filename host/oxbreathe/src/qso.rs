//! Records as contacts and back, as rigflow's `record_to_qso`, `Qso::normalize` and `qso_to_record`. A contact copies nothing: its
//! columns are places in the text that was read, and its extra fields are the record's rows.

use crate::normalize::spelled;
use crate::reading::{Field, Record};
use crate::refusal::{Answer, Refusal};
use crate::sys::{self, Row};
use crate::text::with_sign;
use crate::writing::grown;
use std::borrow::Cow;

numbered! {
    /// A column of a contact. All other fields of a record are extra.
    Column {
        Call = 0 "CALL",
        QsoDate = 1 "QSO_DATE",
        TimeOn = 2 "TIME_ON",
        Band = 3 "BAND",
        Mode = 4 "MODE",
        Submode = 5 "SUBMODE",
        Freq = 6 "FREQ",
        FreqRx = 7 "FREQ_RX",
        BandRx = 8 "BAND_RX",
        RstSent = 9 "RST_SENT",
        RstRcvd = 10 "RST_RCVD",
        Gridsquare = 11 "GRIDSQUARE",
        Dxcc = 12 "DXCC",
    }
}

impl Column {
    /// The column that a field's name names, the case of letters aside; none for an extra field.
    ///
    /// ```
    /// use oxbreathe::qso::Column;
    ///
    /// assert_eq!(Column::named(b"Time_On")?, Some(Column::TimeOn));
    /// assert_eq!(Column::named(b"NAME")?, None);
    /// assert_eq!(Column::named(b"\xFF").unwrap_err().number(), 2);
    /// # Ok::<(), oxbreathe::Refusal>(())
    /// ```
    pub fn named(name: &[u8]) -> Result<Option<Column>, Refusal> {
        Ok(Column::numbered(sys::column(name).accepted()?.column))
    }
}

/// A contact over the text and the rows of the record it comes from.
#[derive(Clone, Copy, Debug)]
pub struct Qso<'a> {
    record: Record<'a>,
    raw: sys::Qso,
}

impl<'a> Record<'a> {
    /// The record as a contact. Where a frequency is outside the exact window the contact has none, and the refusal says so
    /// ([`Cause::InexactFrequency`](crate::Cause)).
    ///
    /// ```
    /// let text = b"<CALL:4>W1AW <BAND:3>40M <FREQ:16>9007199254740993 <EOR>";
    /// let mut table = oxbreathe::reading::table(text);
    /// let read = oxbreathe::reading::read(text, &mut table)?;
    /// let (contact, refusal) = read.records().next().unwrap().qso();
    /// assert_eq!((&*contact.band(), contact.freq_hz()), ("40M", None));
    /// assert_eq!(refusal.unwrap().number(), 15);
    /// # Ok::<(), oxbreathe::Refusal>(())
    /// ```
    pub fn qso(&self) -> (Qso<'a>, Option<Refusal>) {
        self.mapped(sys::record_to_qso)
    }

    /// The record as a normalised contact: what a log keeps of it.
    ///
    /// ```
    /// let text = b"<CALL:4>W1AW <BAND:3>40M <MODE:3>usb <NAME:5>Hiram <EOR>";
    /// let mut table = oxbreathe::reading::table(text);
    /// let read = oxbreathe::reading::read(text, &mut table)?;
    /// let (contact, _) = read.records().next().unwrap().normal_qso();
    /// assert_eq!((&*contact.call(), &*contact.band(), &*contact.mode()), ("W1AW", "40m", "SSB"));
    /// # Ok::<(), oxbreathe::Refusal>(())
    /// ```
    pub fn normal_qso(&self) -> (Qso<'a>, Option<Refusal>) {
        self.mapped(sys::record_to_normal_qso)
    }

    fn mapped(&self, map: fn(&[u8], &[u32], usize, usize) -> sys::QsoAnswer) -> (Qso<'a>, Option<Refusal>) {
        let answer = map(self.text.as_bytes(), self.rows.as_flattened(), 0, self.rows.len());
        (Qso { record: *self, raw: answer.qso }, answer.refusal())
    }
}

impl<'a> Qso<'a> {
    pub(crate) fn text(&self) -> &'a [u8] {
        self.record.text.as_bytes()
    }

    pub(crate) fn raw(&self) -> sys::Qso {
        self.raw
    }

    /// The contact with mode, submode, band and band_rx normalised, and nothing else changed.
    pub fn normalize(&self) -> Result<Qso<'a>, Refusal> {
        let raw = sys::normalize_qso(self.text(), self.raw).accepted()?.qso;
        Ok(Qso { raw, ..*self })
    }

    /// The rows of the extra fields.
    fn extra_rows(&self) -> Vec<Row> {
        let rows = self.record.rows.iter().zip(self.record.fields());
        rows.filter(|(_, field)| is_extra(field)).map(|(row, _)| *row).collect()
    }

    /// Writes the contact as a record, as rigflow's `qso_to_record` and `write_record`: its columns and its extra fields, in byte
    /// order of their names. Gives back the part of `out` that was written.
    pub fn write<'b>(&self, out: &'b mut [u8]) -> Result<&'b [u8], Refusal> {
        let length = self.write_with(&self.extra_rows(), out)?;
        Ok(out.get(..length).unwrap_or_default())
    }

    /// What [`write`](Qso::write) writes.
    ///
    /// ```
    /// let text = b"<MODE:3>usb <AGE:1>7 <CALL:4>W1AW <EOR>";
    /// let mut table = oxbreathe::reading::table(text);
    /// let read = oxbreathe::reading::read(text, &mut table)?;
    /// let (contact, _) = read.records().next().unwrap().normal_qso();
    /// let written = b"<AGE:1>7 <CALL:4>W1AW <MODE:3>SSB <QSO_DATE:0> <TIME_ON:0> <EOR>\n";
    /// assert_eq!(contact.to_vec()?, written);
    /// # Ok::<(), oxbreathe::Refusal>(())
    /// ```
    pub fn to_vec(&self) -> Result<Vec<u8>, Refusal> {
        let extra = self.extra_rows();
        grown(|out| self.write_with(&extra, out))
    }

    fn write_with(&self, extra: &[Row], out: &mut [u8]) -> Result<usize, Refusal> {
        let answer = sys::write_qso(self.text(), self.raw, extra.as_flattened(), extra.len(), out);
        Ok(answer.accepted()?.length)
    }

    /// What a column says, none where it is absent.
    pub fn column(&self, column: Column) -> Option<Cow<'a, str>> {
        spelled(self.record.text, *self.raw.columns.get(column as usize)?)
    }

    /// The call, empty where it is absent, as in the next four.
    pub fn call(&self) -> Cow<'a, str> {
        self.column(Column::Call).unwrap_or_default()
    }

    /// The date.
    pub fn qso_date(&self) -> Cow<'a, str> {
        self.column(Column::QsoDate).unwrap_or_default()
    }

    /// The time of day.
    pub fn time_on(&self) -> Cow<'a, str> {
        self.column(Column::TimeOn).unwrap_or_default()
    }

    /// The band.
    pub fn band(&self) -> Cow<'a, str> {
        self.column(Column::Band).unwrap_or_default()
    }

    /// The mode.
    pub fn mode(&self) -> Cow<'a, str> {
        self.column(Column::Mode).unwrap_or_default()
    }

    /// The frequency.
    pub fn freq_hz(&self) -> Option<u64> {
        hertz(self.raw.freq)
    }

    /// The frequency of the other station.
    pub fn freq_rx_hz(&self) -> Option<u64> {
        hertz(self.raw.freq_rx)
    }

    /// The number of the DXCC entity.
    pub fn dxcc(&self) -> Option<i64> {
        let sys::Dxcc { given, negative, size } = self.raw.dxcc;
        if given == 1 { with_sign(negative == 1, size) } else { None }
    }

    /// The fields that are no columns, in byte order of their names in capitals.
    pub fn extra(&self) -> impl Iterator<Item = Field<'a>> + use<'a> {
        self.record.fields().filter(is_extra)
    }
}

fn hertz(frequency: sys::Hertz) -> Option<u64> {
    (frequency.given == 1).then_some(frequency.hz)
}

fn is_extra(field: &Field) -> bool {
    // a name that was read is a text, so it is never refused
    matches!(Column::named(field.name.as_bytes()), Ok(None))
}
