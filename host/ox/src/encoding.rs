//! What a file that is not UTF-8 most likely is, told by the first bad byte and its neighbours, and what to do about it. A guess, and said as
//! one. Advice must not damage: saved as UTF-8 by an editor, a letter grows to two bytes, the length in its tag is then too short, and the
//! end of the value is lost without a word.

/// Windows-1252 from 80 to 9F, where it is not Latin-1; U+FFFD has no character.
const WINDOWS: &str = "€\u{fffd}‚ƒ„…†‡ˆ‰Š‹Œ\u{fffd}Ž\u{fffd}\u{fffd}‘’“”•–—˜™š›œ\u{fffd}žŸ";

/// The letters of the DOS code page 850 from 80 on, where 437 mostly has the same ones.
const DOS: &str = "ÇüéâäàåçêëèïîìÄÅÉæÆôöòûùÿÖÜø£Ø";

/// Letters with marks, each before the plain letter that is nearest.
const PLAIN: [&str; 16] = [
    "ÀÁÂÃÄÅÆA", "àáâãäåæa", "ÇC", "çc", "ÈÉÊËE", "èéêëe", "ÌÍÎÏI", "ìíîïi", "ÑN", "ñn", "ÒÓÔÕÖØŒO", "òóôõöøœo",
    "ÙÚÛÜU", "ùúûüu", "ÝŸYŠSŽZÐD", "ýÿyšsžzðdßs",
];

/// What a byte would be, and where.
struct Guess {
    character: char,
    encoding: &'static str,
}

/// The advice for a file that is not UTF-8 from `at` on.
pub fn advice(bytes: &[u8], at: usize) -> Vec<String> {
    if let [0xff, 0xfe, ..] | [0xfe, 0xff, ..] = bytes {
        return vec!["The file is in UTF-16, by its first two bytes.".to_string(), format!("{AGAIN}.")];
    }
    let rest = bytes.get(at..).unwrap_or_default();
    let is_cut = std::str::from_utf8(rest).is_err_and(|error| error.valid_up_to() == 0 && error.error_len().is_none());
    let Some((byte, guess)) = rest.first().map(|&byte| (byte, guess(bytes, at, byte))) else { return Vec::new() };
    if is_cut && guess.as_ref().is_none_or(|guess| !is_letter(bytes.get(..at).and_then(|before| before.last()), guess))
    {
        return vec!["The file ends inside a character: it was cut off. Fetch it again.".to_string()];
    }
    let such = bytes.utf8_chunks().map(|chunk| chunk.invalid().len()).sum::<usize>();
    let bytes_alike =
        if such == 1 { "no other byte is bad".to_string() } else { format!("{such} bytes of the file are bad") };
    let near = near(bytes, at);
    let Some(Guess { character, encoding }) = guess else {
        return vec![
            format!("Byte {byte:02X}{near} is of no encoding that is known here; {bytes_alike}."),
            format!("{AGAIN}."),
        ];
    };
    let instead = plain(character);
    vec![
        format!("Byte {byte:02X}{near} is {character} in {encoding}, very likely; {bytes_alike}."),
        format!(
            "Do not just save it as UTF-8: {character} has {} bytes there, so its length would be too short and the end of the value lost.",
            character.len_utf8()
        ),
        format!("{AGAIN}."),
        format!(
            "Or put one plain letter in the place of each such byte ({instead} for {character}): every length then stays right."
        ),
    ]
}

const AGAIN: &str =
    "Have the program that wrote it export it again in UTF-8 or in plain ASCII, which counts the lengths anew";

/// By the byte: from A0 on Windows-1252 and Latin-1 agree. Below, DOS has letters and Windows-1252 mostly signs: a letter between letters
/// is the likelier.
fn guess(bytes: &[u8], at: usize, byte: u8) -> Option<Guess> {
    let before = at.checked_sub(1).and_then(|at| bytes.get(at));
    let in_word = before.is_some_and(u8::is_ascii_alphabetic) || bytes.get(at + 1).is_some_and(u8::is_ascii_lowercase);
    let nth = |table: &str| table.chars().nth(usize::from(byte.checked_sub(0x80)?)).filter(|&c| c != '\u{fffd}');
    let (windows, dos) = if byte < 0xa0 { (nth(WINDOWS), nth(DOS)) } else { (Some(char::from(byte)), None) };
    let latin = if byte < 0xa0 { "Windows-1252" } else { "Windows-1252 or Latin-1" };
    match (windows, dos) {
        (Some(character), _) if character.is_alphabetic() || !in_word => Some(Guess { character, encoding: latin }),
        (_, Some(character)) => Some(Guess { character, encoding: "the DOS code page 850 or 437" }),
        (windows, _) => windows.map(|character| Guess { character, encoding: latin }),
    }
}

/// Whether a byte at the end of a file may be a letter of a word, and not the first half of a character.
fn is_letter(before: Option<&u8>, guess: &Guess) -> bool {
    guess.character.is_lowercase() && before.is_some_and(u8::is_ascii_alphabetic)
}

/// The word that it stands in, as far as it is ASCII.
fn near(bytes: &[u8], at: usize) -> String {
    let of_word = |byte: &&u8| byte.is_ascii_alphanumeric();
    let mut before: Vec<u8> = bytes.iter().take(at).rev().take(12).take_while(of_word).copied().collect();
    before.reverse();
    let behind: Vec<u8> = bytes.iter().skip(at + 1).take(12).take_while(of_word).copied().collect();
    let [before, behind] = [before, behind].map(|part| String::from_utf8(part).unwrap_or_default());
    match (before.is_empty(), behind.is_empty()) {
        (false, false) => format!(" between {before} and {behind}"),
        (false, true) => format!(" behind {before}"),
        (true, false) => format!(" before {behind}"),
        (true, true) => String::new(),
    }
}

/// A plain letter for one with a mark; a question mark for a sign.
fn plain(character: char) -> char {
    let of = |letters: &&str| {
        let mut rest = letters.chars().skip_while(|&c| c != character);
        rest.find(char::is_ascii_alphabetic)
    };
    PLAIN.iter().find_map(of).unwrap_or('?')
}

#[cfg(test)]
mod tests {
    use super::advice;

    fn first(bytes: &[u8]) -> String {
        let at = std::str::from_utf8(bytes).map_or_else(|error| error.valid_up_to(), str::len);
        advice(bytes, at).into_iter().next().unwrap_or_default()
    }

    #[test]
    fn by_the_byte_and_its_neighbours() {
        assert_eq!(
            first(b"<QTH:7>N\xe9vache"),
            "Byte E9 between N and vache is \u{e9} in Windows-1252 or Latin-1, very likely; no other byte is bad."
        );
        assert_eq!(
            first(b"<NAME:4>Zo\x89 \xe9"),
            "Byte 89 behind Zo is \u{eb} in the DOS code page 850 or 437, very likely; 2 bytes of the file are bad."
        );
        assert_eq!(first(b"5 \x80 "), "Byte 80 is \u{20ac} in Windows-1252, very likely; no other byte is bad.");
        assert_eq!(
            first(b"<A:3>\x9aek"),
            "Byte 9A before ek is \u{161} in Windows-1252, very likely; no other byte is bad."
        );
        assert_eq!(first(b"\xff\xfe<\0"), "The file is in UTF-16, by its first two bytes.");
        assert_eq!(first(b"<A:3> \xe2\x82"), "The file ends inside a character: it was cut off. Fetch it again.");
        assert_eq!(
            first(b"x \x81"),
            "Byte 81 is \u{fc} in the DOS code page 850 or 437, very likely; no other byte is bad."
        );
    }

    #[test]
    fn one_for_one() {
        for (character, letter) in
            [('\u{e9}', 'e'), ('\u{d8}', 'O'), ('\u{df}', 's'), ('\u{b0}', '?'), ('\u{178}', 'Y'), ('\u{fd}', 'y')]
        {
            assert_eq!(super::plain(character), letter, "{character}");
        }
    }

    #[test]
    fn every_byte_has_advice() {
        for byte in 0x80..=0xff {
            let told = advice(&[b'a', byte, b'b'], 1);
            assert!(!told.is_empty() && told.iter().all(|line| !line.contains('\u{fffd}')), "{byte:02X}");
        }
    }
}
