//! Inputs: every short one over an alphabet, random ones, and damaged ones. A seed gives the same inputs everywhere.

/// Marsaglia's xorshift64.
pub struct Random(u64);

impl Random {
    pub fn new(seed: u64) -> Random {
        // spread by splitmix64's step, since xorshift starts slowly from a seed of few bits and never from 0
        let mut z = seed.wrapping_add(0x9E37_79B9_7F4A_7C15);
        z = (z ^ (z >> 30)).wrapping_mul(0xBF58_476D_1CE4_E5B9);
        z = (z ^ (z >> 27)).wrapping_mul(0x94D0_49BB_1331_11EB);
        Random((z ^ (z >> 31)).max(1))
    }

    pub fn next(&mut self) -> u64 {
        self.0 ^= self.0 << 13;
        self.0 ^= self.0 >> 7;
        self.0 ^= self.0 << 17;
        self.0
    }

    pub fn below(&mut self, n: u64) -> u64 {
        // the high half: the low bits of an xorshift are the weaker ones
        (self.next() >> 32) % n
    }

    pub fn place(&mut self, length: usize) -> usize {
        self.below(length as u64) as usize
    }

    pub fn pick<T: Copy>(&mut self, of: &[T]) -> T {
        of[self.place(of.len())]
    }

    /// A number of any size, each number of bits as likely as the others.
    pub fn number(&mut self) -> u64 {
        let bits = self.below(65);
        if bits == 0 { 0 } else { self.next() >> (64 - bits) }
    }
}

/// Every number from 1,100 below to 1,100 above.
pub fn around(number: u64) -> impl Iterator<Item = u64> {
    number.saturating_sub(1_100)..=number.saturating_add(1_100)
}

/// The lowest and the highest frequency of each band, found by going through the kilohertz.
pub fn bounds<Band: PartialEq>(band: impl Fn(u64) -> Option<Band>) -> Vec<u64> {
    let mut bounds = Vec::new();
    for hz in (0..1_400_000_000).step_by(1_000) {
        let (here, next) = (band(hz), band(hz + 1_000));
        if here != next {
            bounds.extend(here.map(|_| hz).into_iter().chain(next.map(|_| hz + 1_000)));
        }
    }
    bounds
}

/// Every run of up to `most` parts, the shortest first.
pub fn every<'a>(parts: &'a [&'a [u8]], most: u32) -> impl Iterator<Item = Vec<u8>> + 'a {
    (0..=most).flat_map(move |count| {
        (0..parts.len().pow(count)).map(move |mut number| {
            let mut text = Vec::new();
            for _ in 0..count {
                text.extend_from_slice(parts[number % parts.len()]);
                number /= parts.len();
            }
            text
        })
    })
}

/// Each byte as a part of its own.
pub fn bytes(alphabet: &[u8]) -> Vec<&[u8]> {
    alphabet.chunks(1).collect()
}

/// Where a library that looks at blocks could go wrong.
pub const BORDERS: [usize; 8] = [8, 16, 32, 64, 128, 256, 512, 1024];

/// A length up to 300, or one near a border.
pub fn length(random: &mut Random) -> usize {
    match random.below(3) {
        0 => (random.pick(&BORDERS) + random.place(5)).saturating_sub(2),
        _ => random.place(301),
    }
}

/// UTF-8 of exactly `length` bytes: by turns all ASCII, with a rare other character, mixed, or rich in white space.
pub fn utf8(random: &mut Random, length: usize) -> Vec<u8> {
    let wide = random.pick(&[0, 5, 50, 50]);
    let blank = random.pick(&[0, 10, 60]);
    let mut text = String::new();
    while text.len() < length {
        let c = character(random, wide, blank);
        if text.len() + c.len_utf8() <= length {
            text.push(c);
        } else {
            text.push((b'a' + random.below(26) as u8) as char);
        }
    }
    text.into_bytes()
}

/// `wide` and `blank` are the percentages of characters beyond ASCII and of white space.
fn character(random: &mut Random, wide: u64, blank: u64) -> char {
    if random.below(100) < blank {
        let most = if wide > 0 { WHITE.len() } else { 6 };
        return WHITE[random.place(most)];
    }
    if random.below(100) < wide {
        let (low, high) = random.pick(&[(0x80, 0x7FF), (0x800, 0xD7FF), (0xE000, 0xFFFF), (0x1_0000, 0x10_FFFF)]);
        return char::from_u32(low + random.below((high - low + 1) as u64) as u32).unwrap();
    }
    (0x21 + random.below(0x7F - 0x21) as u8) as char
}

/// Unicode's White_Space, the ASCII ones first.
pub const WHITE: [char; 25] = [
    '\t', '\n', '\u{0B}', '\u{0C}', '\r', ' ', '\u{85}', '\u{A0}', '\u{1680}', '\u{2000}', '\u{2001}', '\u{2002}',
    '\u{2003}', '\u{2004}', '\u{2005}', '\u{2006}', '\u{2007}', '\u{2008}', '\u{2009}', '\u{200A}', '\u{2028}',
    '\u{2029}', '\u{202F}', '\u{205F}', '\u{3000}',
];

/// Characters that a careless test takes for white space: its neighbours, and those that other lists have.
pub const BESIDE: &str = "\0\u{8}\u{E}\u{1F}!\u{7F}\u{84}\u{86}\u{9F}\u{A1}\u{167F}\u{1681}\u{180E}\u{1FFF}\u{200B}\
    \u{2027}\u{202A}\u{202E}\u{2030}\u{205E}\u{2060}\u{2FFF}\u{3001}\u{FEFF}";

/// Cuts, flips, inserts or deletes, once or a few times.
pub fn damage(random: &mut Random, text: &mut Vec<u8>) {
    for _ in 0..=random.below(3) {
        let place = random.place(text.len() + 1);
        match random.below(4) {
            0 => text.truncate(place),
            1 if place < text.len() => text[place] ^= 1 << random.below(8),
            2 if place < text.len() => _ = text.remove(place),
            _ => text.insert(place, random.next() as u8),
        }
    }
}

/// The text in the midst of other bytes, at a random alignment, so that an answer that depends on what stands before
/// or after it shows.
pub struct Placed {
    all: Vec<u8>,
    start: usize,
    end: usize,
}

impl Placed {
    pub fn new(random: &mut Random, text: &[u8]) -> Placed {
        let start = random.place(16);
        let mut all = vec![random.pick(b" \x80\xC37"); start];
        all.extend_from_slice(text);
        all.extend_from_slice(random.pick(&[b" 9\x80\x80", b"\x80\x80\xA09", b"7   ", b"aA\xC2\xA0"]));
        Placed { all, start, end: start + text.len() }
    }

    pub fn text(&self) -> &[u8] {
        &self.all[self.start..self.end]
    }
}
