//! A refusal, said so that one can mend the file: what it means, the field, the line and the place in it.

use crate::files::In;
use crate::html::{Excerpt, Fault};
use crate::{Failure, encoding, json, table};
use oxbreathe::{Cause, Refusal};
use serde::Serialize;
use std::ops::Range;

/// What the library refuses, and what it refuses it for.
pub struct Refused<'a> {
    pub input: &'a In,
    pub bytes: &'a [u8],
    pub why: Refusal,
}

/// A place in a text as people count: lines and characters from 1.
struct Spot {
    line: usize,
    column: usize,
    /// Whether it is the end of the text.
    at_end: bool,
    /// The line as it is shown, and what of it is meant, in characters.
    shown: String,
    meant: Range<usize>,
}

/// The most characters of a line that are shown before the place, and from it on.
const BEFORE: usize = 60;
const BEHIND: usize = 40;

impl Spot {
    /// Of some bytes of a text; of its end, behind all that is no white space.
    fn of(bytes: &[u8], meant: Range<usize>) -> Option<Spot> {
        let at_end = meant.start == bytes.len();
        let bytes = if at_end { bytes.trim_ascii_end() } else { bytes };
        let meant = if at_end { bytes.len()..bytes.len() } else { meant };
        let before = bytes.get(..meant.start)?;
        let start = before.iter().rposition(|&byte| byte == b'\n').map_or(0, |newline| newline + 1);
        let rest = bytes.get(meant.start..)?.split(|&byte| byte == b'\n').next()?;
        let end = meant.start + rest.strip_suffix(b"\r").unwrap_or(rest).len();
        let characters = |part: Range<usize>| {
            let part = String::from_utf8_lossy(bytes.get(part).unwrap_or_default());
            table::plain(&part).chars().collect::<Vec<_>>()
        };
        let (left, right) = (characters(start..meant.start), characters(meant.start..end));
        let width = characters(meant.start..meant.end.min(end)).len().clamp(1, BEHIND);
        let cut = left.len().saturating_sub(BEFORE);
        let mut shown = if cut > 0 { "…".to_string() } else { String::new() };
        shown.extend(left.iter().skip(cut));
        let at = shown.chars().count();
        shown.extend(right.iter().take(BEHIND));
        if right.len() > BEHIND {
            shown.push('…');
        }
        let line = before.iter().filter(|&&byte| byte == b'\n').count() + 1;
        Some(Spot { line, column: left.len() + 1, at_end, shown, meant: at..at + width })
    }
}

/// As JSON has it.
#[derive(Serialize)]
struct Told<'a> {
    file: String,
    refused: u32,
    meaning: &'static str,
    #[serde(skip_serializing_if = "Option::is_none")]
    field: Option<&'a str>,
    #[serde(skip_serializing_if = "Option::is_none")]
    place: Option<usize>,
    #[serde(skip_serializing_if = "Option::is_none")]
    line: Option<usize>,
    #[serde(skip_serializing_if = "Option::is_none")]
    column: Option<usize>,
    #[serde(skip_serializing_if = "Option::is_none")]
    wanted: Option<u64>,
    #[serde(skip_serializing_if = "Option::is_none")]
    left: Option<u64>,
}

impl<'a> Refused<'a> {
    fn spot(&self) -> Option<Spot> {
        Spot::of(self.bytes, self.why.at(self.bytes)?)
    }

    /// What to do about it.
    fn advice(&self) -> Vec<String> {
        let advice = match self.why.cause {
            Cause::TooLong => "Cut the file into smaller ones.",
            Cause::NotUtf8 => {
                return self.why.place.map(|place| encoding::advice(self.bytes, place)).unwrap_or_default();
            }
            Cause::UnterminatedTag => {
                "The file may have been cut off: fetch it again, or end it behind the last <EOR>."
            }
            Cause::MissingLength => {
                "A field is <NAME:LENGTH>VALUE: put the length of the value in bytes behind a colon."
            }
            Cause::BadLength => "The length must be a whole number: count the bytes of the value.",
            Cause::TruncatedValue => {
                "Count the bytes of the value and put their number into the tag, or the file was cut off."
            }
            Cause::CutCharacter => "The length counts bytes, and a letter with an accent has two or more: count again.",
            Cause::TooManyNames => "An <EOR> may be missing between two records.",
            Cause::TooManyRecords => "Cut the file into smaller ones.",
            Cause::ListVersion | Cause::MalformedList if self.bytes.contains(&b'<') => {
                "This seems to be a log in ADIF: make a list of it with ox list."
            }
            Cause::ListVersion | Cause::MalformedList | Cause::IdsNotRising => "Make the list again, with ox list.",
            _ => return Vec::new(),
        };
        vec![advice.to_string()]
    }

    fn lengths(&self) -> Option<(u64, u64)> {
        (self.why.cause == Cause::TruncatedValue).then_some((self.why.wanted, self.why.left))
    }

    /// The field, the place and the lengths, in words.
    fn facts(&self, spot: Option<&Spot>) -> String {
        let name = self.why.name(self.bytes).filter(|name| !name.is_empty());
        let field = name.map(|name| format!("field {}", table::plain(name)));
        let place = spot.map(|spot| {
            let end = if spot.at_end { ", at the end of the file" } else { "" };
            format!("line {}, column {}{end}", spot.line, spot.column)
        });
        let lengths = self.lengths().map(|(wanted, left)| format!("{wanted} bytes wanted, {left} left"));
        [field, place, lengths].into_iter().flatten().collect::<Vec<_>>().join(", ")
    }

    pub fn text(&self) -> String {
        let Refused { input, why, .. } = self;
        let mut said = format!("{input}: refused {}: {}\n", why.number(), why.cause.name());
        let spot = self.spot();
        let facts = self.facts(spot.as_ref());
        if !facts.is_empty() {
            said += &format!("  {facts}\n");
        }
        if let Some(Spot { line, shown, meant, .. }) = spot {
            let number = line.to_string();
            said += &format!("  {number} | {shown}\n");
            said += &format!("  {:1$} | ", "", number.len());
            said += &format!("{:1$}{2}\n", "", meant.start, "^".repeat(meant.len()));
        }
        said + &self.advice().iter().map(|line| format!("  {line}\n")).collect::<String>()
    }

    pub fn json(&self) -> String {
        let Refused { input, bytes, why } = self;
        let spot = self.spot();
        json::text(&Told {
            file: input.to_string(),
            refused: why.number(),
            meaning: why.cause.name(),
            field: why.name(bytes),
            place: why.place,
            line: spot.as_ref().map(|spot| spot.line),
            column: spot.as_ref().map(|spot| spot.column),
            wanted: self.lengths().map(|(wanted, _)| wanted),
            left: self.lengths().map(|(_, left)| left),
        })
    }

    /// As a page tells it.
    pub fn with_fault<T>(&self, told: impl FnOnce(&Fault) -> T) -> T {
        let spot = self.spot();
        told(&Fault {
            number: self.why.number(),
            meaning: self.why.cause.name(),
            facts: &self.facts(spot.as_ref()),
            excerpt: spot.as_ref().map(|Spot { line, shown, meant, .. }| Excerpt {
                line: *line,
                shown,
                meant: meant.clone(),
            }),
            advice: &self.advice().join("\n"),
        })
    }
}

/// What the library answers about what was read, or the refusal as a failure.
pub fn of<T>(input: &In, bytes: &[u8], answer: Result<T, Refusal>) -> Result<T, Failure> {
    answer.map_err(|why| Failure::Refused(Refused { input, bytes, why }.text()))
}

#[cfg(test)]
mod tests {
    use super::Spot;

    #[test]
    fn at_the_end() {
        for (text, line, column, shown) in [
            ("", 1, 1, ""),
            ("\n\n", 1, 1, ""),
            ("<A:0>", 1, 6, "<A:0>"),
            ("é\r\n<A:0> \r\n\n", 2, 6, "<A:0>"),
            ("<A:0>\né", 2, 2, "é"),
        ] {
            let spot = Spot::of(text.as_bytes(), text.len()..text.len()).expect("a place of the text");
            assert_eq!((spot.line, spot.column, spot.at_end, &*spot.shown), (line, column, true, shown), "{text:?}");
            assert_eq!(spot.meant, column - 1..column, "{text:?}");
        }
    }
}
