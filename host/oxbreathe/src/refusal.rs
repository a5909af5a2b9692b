//! Why a call gave no value: the library's refusals by number, and where in the text the cause stands.

use std::fmt;
use std::ops::Range;

numbered! {
    /// What a call was refused for.
    Cause {
        TooLong = 1 "a text, list or written output above 16,777,216 bytes",
        NotUtf8 = 2 "a text that is not UTF-8",
        UnterminatedTag = 3 "a tag without its >",
        MissingLength = 4 "a field without a length",
        BadLength = 5 "a length that is no number",
        TruncatedValue = 6 "a value longer than the text that is left",
        CutCharacter = 7 "a value that ends inside a character",
        TooManyNames = 8 "a 257th name in one record",
        TooManyRecords = 9 "a 65,536th record",
        TooFewRows = 10 "more rows than the table has left",
        BadRows = 11 "rows that name no part of the text, or stand out of order",
        UnwritableName = 12 "a name that cannot be written",
        ShortOutput = 13 "an output too short",
        FrequencyTooHigh = 14 "a frequency of 8,589,934,592,000,000 Hz or more",
        InexactFrequency = 15 "a frequency outside the exact window",
        ListVersion = 16 "a contact list of another version",
        MalformedList = 17 "a malformed contact list, or a contact that no list can hold",
        IdsNotRising = 18 "contact ids that do not rise",
        ShortTable = 19 "a contact index, fates or confirmations too short",
        /// Never of the library that this crate was written for.
        Unknown = 0xFFFF_FFFF "a number that this crate does not know",
    }
}

/// A call that gave no value.
///
/// ```
/// use oxbreathe::{Cause, reading};
///
/// let text = b"<CALL:4>W1AW <QTH:9>Hamburg";
/// let refusal = reading::read(text, &mut reading::table(text)).unwrap_err();
/// assert_eq!((refusal.cause, refusal.number()), (Cause::TruncatedValue, 6));
/// assert_eq!((refusal.place, refusal.at(text), refusal.name(text)), (Some(13), Some(13..17), Some("QTH")));
/// let told = "refusal 6: a value longer than the text that is left, at byte 13: 9 bytes wanted, 7 left";
/// assert_eq!(refusal.to_string(), told);
/// ```
#[derive(Clone, Copy, Debug, PartialEq, Eq, Hash)]
pub struct Refusal {
    /// What for.
    pub cause: Cause,
    /// Where in the text. With [`Cause::NotUtf8`] the first bad byte, counted through all the texts of the call as if each stood after
    /// the one before; from [`Cause::UnterminatedTag`] to [`Cause::TooManyNames`] the `<` of the tag; with [`Cause::TooManyRecords`]
    /// and [`Cause::TooFewRows`] the `<` of the tag that closed the record, or the text's length where the end or an APP_LOTW_EOF
    /// closed it. None with any other cause, and where rows are refused, not a text.
    pub place: Option<usize>,
    /// The place of the tag's name from [`Cause::MissingLength`] to [`Cause::CutCharacter`], 0 where it is empty; else 0.
    pub name_place: usize,
    /// The length of that name, else 0.
    pub name_length: usize,
    /// The length that the tag gives where the cause is [`Cause::TruncatedValue`], else 0.
    pub wanted: u64,
    /// The bytes that were left for it, else 0.
    pub left: u64,
}

impl Refusal {
    /// None for 0, as the first field of an answer tells it.
    #[inline]
    pub(crate) fn told(number: u32) -> Option<Refusal> {
        if number == 0 { None } else { Some(Refusal::numbered(number)) }
    }

    #[cold]
    fn numbered(number: u32) -> Refusal {
        let cause = Cause::numbered(number).unwrap_or(Cause::Unknown);
        Refusal { cause, place: None, name_place: 0, name_length: 0, wanted: 0, left: 0 }
    }

    /// With the place that an answer tells besides. Whether it is one goes by the number: 0 is a place too.
    pub(crate) fn placed(self, place: usize) -> Refusal {
        let is_placed = (Cause::NotUtf8..=Cause::TooFewRows).contains(&self.cause);
        Refusal { place: is_placed.then_some(place), ..self }
    }

    /// With what the answer of a reading tells besides.
    pub(crate) fn of_field(self, name_place: usize, name_length: usize, wanted: u64, left: u64) -> Refusal {
        Refusal { name_place, name_length, wanted, left, ..self }
    }

    /// The number of its cause in the C interface.
    pub fn number(&self) -> u32 {
        self.cause.number()
    }

    /// The bytes of the text that it is about: the first bad byte; of a tag the `<` and all up to the end of its name; and the
    /// empty range at the end of the text where that closed the record.
    pub fn at(&self, text: &[u8]) -> Option<Range<usize>> {
        let place = self.place?;
        let rest = text.get(place..)?;
        let end = match (self.cause, self.name_length) {
            (Cause::NotUtf8, _) => place + rest.len().min(1),
            (_, 0) => place + named(rest),
            (_, length) => self.name_place.saturating_add(length),
        };
        Some(place..end)
    }

    /// The name of the field that it is about, in the text that was read.
    pub fn name<'a>(&self, text: &'a [u8]) -> Option<&'a str> {
        let is_of_field = (Cause::MissingLength..=Cause::CutCharacter).contains(&self.cause);
        let name = text.get(self.name_place..self.name_place.checked_add(self.name_length)?)?;
        std::str::from_utf8(name).ok().filter(|_| is_of_field)
    }
}

/// How long the tag is that a text starts with, up to the end of its name: to the first `:`, `>` or line break, without the white
/// space before that.
fn named(tag: &[u8]) -> usize {
    let name = tag.split(|byte| b":>\r\n".contains(byte)).next().unwrap_or_default();
    std::str::from_utf8(name).map_or(name.len(), |name| name.trim_end().len())
}

impl fmt::Display for Refusal {
    fn fmt(&self, f: &mut fmt::Formatter<'_>) -> fmt::Result {
        write!(f, "refusal {}: {}", self.number(), self.cause.name())?;
        if let Some(place) = self.place {
            write!(f, ", at byte {place}")?;
        }
        if self.cause == Cause::TruncatedValue {
            write!(f, ": {} bytes wanted, {} left", self.wanted, self.left)?;
        }
        Ok(())
    }
}

impl std::error::Error for Refusal {}

/// An answer of the library, which may be a refusal.
pub(crate) trait Answer: Sized {
    /// Why there is no value.
    fn refusal(&self) -> Option<Refusal>;

    /// The answer, if it has a value.
    #[inline]
    fn accepted(self) -> Result<Self, Refusal> {
        self.refusal().map_or(Ok(self), Err)
    }
}
