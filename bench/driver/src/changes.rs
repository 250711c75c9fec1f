//! Random patterns, and random changes of them.

use crate::numbers::Numbers;
use crate::pattern::{Cut, Part, Pattern, Repeated};
use encoding_rs::{Encoding, ISO_2022_JP, UTF_16BE, UTF_16LE};

/// Blocks of code points: the first and the number of each.
const BLOCKS: [(u32, u64); 16] = [
    (0x20, 0x5F), (0x80, 0x80), (0x370, 0x60), (0x400, 0x60), (0xE00, 0x60), (0x2000, 0x700), (0x3000, 0x100), (0x3400, 0x19B0),
    (0x4E00, 0x5200), (0xAC00, 0x2BA4), (0xD800, 0x800), (0xE000, 0x1900), (0xF900, 0x200), (0xFF00, 0xF0), (0x1F600, 0x50), (0x20000, 0xA6D0),
];

/// Bytes that have a rule of their own in some decoder.
const BYTES: [u8; 12] = [0x0E, 0x1B, 0x30, 0x40, 0x5C, 0x7E, 0x80, 0x8E, 0x8F, 0xA0, 0xFD, 0xFF];

/// Escapes of ISO-2022-JP.
const ESCAPES: [&[u8]; 5] = [b"\x1B$B", b"\x1B(B", b"\x1B(J", b"\x1B(I", b"\x1B$@"];

/// Lengths of pieces from 8 on, as `Changes` picks them.
const PIECES: [usize; 10] = [8, 15, 17, 24, 33, 64, 79, 100, 250, 1000];

/// The most parts of a pattern, and the most repetitions of a part.
const MOST_PARTS: usize = 6;
const MOST_COUNT: usize = 4096;

/// What makes random patterns for a decoder or an encoder.
pub struct Changes {
    encoding: &'static Encoding,
    decodes: bool,
    numbers: Numbers,
}

impl Changes {
    pub fn new(encoding: &'static Encoding, decodes: bool, numbers: Numbers) -> Changes {
        Changes { encoding, decodes, numbers }
    }

    fn code_point(&mut self) -> u32 {
        let (first, count) = self.numbers.one_of(&BLOCKS);
        first + self.numbers.below(count) as u32
    }

    /// Returns the bytes of a random code point that the encoding has, or random bytes.
    fn encoded(&mut self) -> Vec<u8> {
        for _ in 0..8 {
            let code = self.code_point();
            let Some(c) = char::from_u32(code) else { continue };
            let mut units = [0; 2];
            let units = c.encode_utf16(&mut units).iter();
            if self.encoding == UTF_16LE {
                return units.flat_map(|unit| unit.to_le_bytes()).collect();
            }
            if self.encoding == UTF_16BE {
                return units.flat_map(|unit| unit.to_be_bytes()).collect();
            }
            let text = c.to_string();
            let (bytes, _, is_unmappable) = self.encoding.encode(&text);
            if !is_unmappable {
                return bytes.to_vec();
            }
        }
        vec![self.numbers.below(256) as u8]
    }

    fn bytes(&mut self) -> Vec<u8> {
        match self.numbers.below(10) {
            0 => vec![0x20 + self.numbers.below(0x5F) as u8],
            1 => vec![self.numbers.one_of(&BYTES)],
            2 => (0..=self.numbers.below(3)).map(|_| 0x80 + self.numbers.below(128) as u8).collect(),
            3 | 4 => vec![0x81 + self.numbers.below(126) as u8, 0x40 + self.numbers.below(191) as u8],
            5 => (0..2).flat_map(|_| [0x81 + self.numbers.below(126) as u8, b'0' + self.numbers.below(10) as u8]).collect(),
            6 if self.encoding == ISO_2022_JP => self.numbers.one_of(&ESCAPES).to_vec(),
            6 => vec![0x8F, 0xA1 + self.numbers.below(94) as u8, 0xA1 + self.numbers.below(94) as u8],
            _ => self.encoded(),
        }
    }

    fn count(&mut self) -> usize {
        match self.numbers.below(6) {
            0..=2 => 1,
            3 => 1 + self.numbers.place(16),
            4 => 1 + self.numbers.place(128),
            _ => 1 << self.numbers.below(11),
        }
    }

    fn part(&mut self) -> Part {
        let repeated = match self.numbers.below(8) {
            0 => Repeated::Ascii,
            1 => Repeated::Text,
            _ if self.decodes => Repeated::Bytes(self.bytes()),
            _ => Repeated::CodePoints((0..=self.numbers.below(2)).map(|_| self.code_point()).collect()),
        };
        Part { repeated, count: self.count() }
    }

    /// Returns a random pattern: whole, in long pieces or in short ones.
    pub fn pattern(&mut self) -> Pattern {
        let cut = match self.numbers.below(4) {
            0 => Cut::Pieces(self.numbers.one_of(&PIECES)),
            1 => Cut::Pieces(1 + self.numbers.place(7)),
            _ => Cut::Whole,
        };
        let parts = (0..=self.numbers.below(3)).map(|_| self.part()).collect();
        Pattern { parts, cut }
    }

    /// Returns another cut of the same kind.
    fn cut(&mut self, cut: Cut) -> Cut {
        match cut {
            Cut::Pieces(piece) if piece < 8 => Cut::Pieces(1 + self.numbers.place(7)),
            Cut::Pieces(_) => Cut::Pieces(self.numbers.one_of(&PIECES)),
            Cut::Whole | Cut::Lines => cut,
        }
    }

    fn change_count(&mut self, count: usize) -> usize {
        let changed = match self.numbers.below(5) {
            0 => count * 2,
            1 => count / 2,
            2 => count + 1,
            3 => count - 1,
            _ => self.count(),
        };
        changed.clamp(1, MOST_COUNT)
    }

    /// Changes a byte or a code point, or replaces a part of text.
    fn change_repeated(&mut self, part: &mut Part) {
        let by = self.numbers.one_of(&[1, 16, 0x55, 0x80, 0xF0, 0xFF]);
        match &mut part.repeated {
            Repeated::Bytes(bytes) if !bytes.is_empty() => {
                let at = self.numbers.place(bytes.len());
                bytes[at] = bytes[at].wrapping_add(by);
            }
            Repeated::CodePoints(codes) if !codes.is_empty() => {
                let (at, code) = (self.numbers.place(codes.len()), self.code_point());
                codes[at] = if self.numbers.below(2) == 0 { code } else { codes[at] ^ u32::from(by & 0x1F) };
            }
            _ => *part = self.part(),
        }
    }

    /// Returns the pattern with one change.
    pub fn changed(&mut self, pattern: &Pattern) -> Pattern {
        let mut changed = pattern.clone();
        let at = self.numbers.place(changed.parts.len());
        match self.numbers.below(9) {
            0 if changed.parts.len() > 1 => drop(changed.parts.remove(at)),
            1 if changed.parts.len() < MOST_PARTS => changed.parts.insert(at, self.part()),
            2 => changed.parts[at] = self.part(),
            3 | 4 => changed.parts[at].count = self.change_count(changed.parts[at].count),
            5 => changed.cut = self.cut(changed.cut),
            6 => {
                let other = self.numbers.place(changed.parts.len());
                changed.parts.swap(at, other);
            }
            _ => self.change_repeated(&mut changed.parts[at]),
        }
        changed
    }
}

/// Returns the patterns that are simpler by one step, the simplest first.
pub fn simpler(pattern: &Pattern) -> Vec<Pattern> {
    let mut all = Vec::new();
    for at in 0..pattern.parts.len() {
        if pattern.parts.len() > 1 {
            let mut without = pattern.clone();
            without.parts.remove(at);
            all.push(without);
        }
        for count in [1, pattern.parts[at].count / 2] {
            if (1..pattern.parts[at].count).contains(&count) {
                let mut fewer = pattern.clone();
                fewer.parts[at].count = count;
                all.push(fewer);
            }
        }
    }
    all
}
