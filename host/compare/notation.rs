//! How a vector is written: `OPERATION ARG.. = ANSWER`, a text in bars, a number in decimal.

/// A text in bars: a visible ASCII byte other than `|` and `%` stands for itself, any other byte is `%XX`.
pub fn bars(text: &[u8]) -> String {
    let mut shown = String::from("|");
    for &b in text {
        match b {
            b'|' | b'%' => shown += &format!("%{b:02X}"),
            0x21..=0x7E => shown.push(b as char),
            _ => shown += &format!("%{b:02X}"),
        }
    }
    shown + "|"
}

#[derive(Clone, Debug, PartialEq, Eq)]
pub enum Argument {
    Text(Vec<u8>),
    Number(u64),
}

impl Argument {
    pub fn show(&self) -> String {
        match self {
            Argument::Text(text) => bars(text),
            Argument::Number(number) => number.to_string(),
        }
    }

    pub fn read(shown: &str) -> Option<Argument> {
        let Some(inside) = shown.strip_prefix('|') else {
            return shown.parse().ok().map(Argument::Number);
        };
        let mut text = Vec::new();
        let mut rest = inside.strip_suffix('|')?.bytes();
        while let Some(b) = rest.next() {
            text.push(if b == b'%' { digit(rest.next()?)? * 16 + digit(rest.next()?)? } else { b });
        }
        Some(Argument::Text(text))
    }

    pub fn text(&self) -> &[u8] {
        match self {
            Argument::Text(text) => text,
            Argument::Number(_) => panic!("a number where a text is to stand"),
        }
    }

    pub fn number(&self) -> u64 {
        match self {
            Argument::Number(number) => *number,
            Argument::Text(_) => panic!("a text where a number is to stand"),
        }
    }
}

fn digit(hex: u8) -> Option<u8> {
    (hex as char).to_digit(16).map(|d| d as u8)
}
