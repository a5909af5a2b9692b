//! The layout of JSON: a member of the whole on a line of its own, an element of a list on one, and all below that within the line. What a
//! terminal could take for a command is escaped.

use serde::Serialize;
use serde_json::ser::{Formatter, Serializer};
use std::io::{self, Write};

/// A value, with a newline behind it.
pub fn text(value: &impl Serialize) -> String {
    let mut out = Vec::new();
    // writing to memory fails nowhere, and the values that are written here are all of JSON's kinds
    let _ = value.serialize(&mut Serializer::with_formatter(&mut out, Lines { depth: 0, empty: true }));
    out.push(b'\n');
    String::from_utf8(out).unwrap_or_default()
}

/// How deep the value is that is being written, and whether nothing stands in its brackets yet.
struct Lines {
    depth: usize,
    empty: bool,
}

/// Down to here each value has a line of its own.
const LINES: usize = 2;

impl Lines {
    fn open<W: ?Sized + Write>(&mut self, out: &mut W, bracket: &str) -> io::Result<()> {
        self.depth += 1;
        self.empty = true;
        out.write_all(bracket.as_bytes())
    }

    fn close<W: ?Sized + Write>(&mut self, out: &mut W, bracket: &str) -> io::Result<()> {
        self.depth -= 1;
        if !self.empty && self.depth < LINES {
            self.line(out)?;
        }
        self.empty = false;
        out.write_all(bracket.as_bytes())
    }

    fn line<W: ?Sized + Write>(&self, out: &mut W) -> io::Result<()> {
        write!(out, "\n{:1$}", "", 2 * self.depth)
    }

    fn next<W: ?Sized + Write>(&mut self, out: &mut W, first: bool) -> io::Result<()> {
        self.empty = false;
        match (first, self.depth <= LINES) {
            (true, false) => Ok(()),
            (false, false) => out.write_all(b", "),
            (true, true) => self.line(out),
            (false, true) => out.write_all(b",").and_then(|()| self.line(out)),
        }
    }
}

impl Formatter for Lines {
    fn begin_object<W: ?Sized + Write>(&mut self, out: &mut W) -> io::Result<()> {
        // an object below the whole stands within its line, whatever is in it
        self.depth += LINES * usize::from(self.depth > 0);
        self.open(out, "{")
    }

    fn end_object<W: ?Sized + Write>(&mut self, out: &mut W) -> io::Result<()> {
        self.close(out, "}")?;
        self.depth = self.depth.saturating_sub(LINES);
        Ok(())
    }

    fn begin_array<W: ?Sized + Write>(&mut self, out: &mut W) -> io::Result<()> {
        self.open(out, "[")
    }

    fn end_array<W: ?Sized + Write>(&mut self, out: &mut W) -> io::Result<()> {
        self.close(out, "]")
    }

    fn begin_array_value<W: ?Sized + Write>(&mut self, out: &mut W, first: bool) -> io::Result<()> {
        self.next(out, first)
    }

    fn begin_object_key<W: ?Sized + Write>(&mut self, out: &mut W, first: bool) -> io::Result<()> {
        self.next(out, first)
    }

    fn begin_object_value<W: ?Sized + Write>(&mut self, out: &mut W) -> io::Result<()> {
        out.write_all(b": ")
    }

    fn write_string_fragment<W: ?Sized + Write>(&mut self, out: &mut W, fragment: &str) -> io::Result<()> {
        for part in fragment.split_inclusive(char::is_control) {
            let plain = part.trim_end_matches(char::is_control);
            out.write_all(plain.as_bytes())?;
            for control in part.chars().filter(|c| c.is_control()) {
                write!(out, "\\u{:04x}", u32::from(control))?;
            }
        }
        Ok(())
    }
}

#[cfg(test)]
mod tests {
    use serde_json::{Value, json};

    #[test]
    fn laid_out() {
        let value =
            json!({"a": 1, "b": {"c": [1, 2], "d": {}}, "e": [{"f": [], "g": "x"}, {"f": [3]}], "h": [], "i": {}});
        let text = super::text(&value);
        let lines = [
            "{",
            r#"  "a": 1,"#,
            r#"  "b": {"c": [1, 2], "d": {}},"#,
            r#"  "e": ["#,
            r#"    {"f": [], "g": "x"},"#,
            r#"    {"f": [3]}"#,
            "  ],",
            r#"  "h": [],"#,
            r#"  "i": {}"#,
            "}",
            "",
        ];
        assert_eq!(text, lines.join("\n"));
        assert_eq!(serde_json::from_str::<Value>(&text).ok(), Some(value));
    }

    #[test]
    fn controls_are_escaped() {
        let text = super::text(&"a\u{1b}[31m\u{9b}\u{7f}\"\\\nz");
        assert_eq!(text, "\"a\\u001b[31m\\u009b\\u007f\\\"\\\\\\nz\"\n");
        assert_eq!(serde_json::from_str::<String>(&text).ok().as_deref(), Some("a\u{1b}[31m\u{9b}\u{7f}\"\\\nz"));
    }
}
