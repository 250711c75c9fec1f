//! Sources: bytes and texts, both hostile and common ones.

use crate::codec::Codec;
use crate::model::{self, Pointers};
use crate::numbers::Numbers;
use crate::ours::Calls;
use crate::tables::Tables;

/// The greatest length of a text in code units. Over flat tables an encoder searches for each character.
const LONGEST: usize = 600;

/// The most parts that random bytes have.
const PARTS: usize = 400;

const ESCAPES: [&[u8]; 8] = [b"\x1B$B", b"\x1B(B", b"\x1B(J", b"\x1B(I", b"\x1B$@", b"\x1B", b"\x1B$", b"\x1B("];

/// Adds bytes that mean something to some codec, more often than random ones would.
fn part(numbers: &mut Numbers, bytes: &mut Vec<u8>) {
    match numbers.below(9) {
        0 => bytes.extend(numbers.of(&ESCAPES)),
        1 => {
            for _ in 0..numbers.within(1, 2) {
                bytes.extend([numbers.within(0x81, 0xFE) as u8, numbers.within(0x30, 0x39) as u8]);
            }
        }
        2 => bytes.extend((0..numbers.below(20)).map(|_| numbers.below(128) as u8)),
        3 => bytes.extend((0..numbers.below(20)).map(|_| numbers.within(0x21, 0x7E) as u8)),
        4 => bytes.extend((0..numbers.below(20)).map(|_| numbers.within(0x80, 0xFF) as u8)),
        5 => {
            let lead = numbers.of(&[0x8E, 0x8F, 0xA1, 0x81, 0x80, 0xFE, 0xFF, 0xD8, 0xDC]);
            bytes.extend([lead, numbers.byte()]);
        }
        6 => bytes.extend([numbers.of(&[0x87, 0x88]), numbers.of(&[0x62, 0x64, 0xA3, 0xA5, 0x66])]),
        7 => bytes.extend(numbers.of(&[0xD83D_u16, 0xD800, 0xDFFF, 0xDCA9, 0x4E00, 0]).to_le_bytes()),
        _ => bytes.extend((0..numbers.below(20)).map(|_| numbers.byte())),
    }
}

/// Returns random bytes.
pub fn any_bytes(numbers: &mut Numbers) -> Vec<u8> {
    let mut bytes = Vec::new();
    for _ in 0..numbers.length(PARTS) {
        part(numbers, &mut bytes);
    }
    bytes
}

/// Returns UTF-16 code units of a text: mostly scalars that the codec has, others, ASCII, pairs and unpaired surrogates.
pub fn any_text(numbers: &mut Numbers, scalars: &[char]) -> Vec<u16> {
    let blocks: [(usize, usize); 10] = [
        (0x0000, 0x80),
        (0x0080, 0x500),
        (0x2000, 0x700),
        (0x3000, 0x200),
        (0x4E00, 0x5200),
        (0xAC00, 0x2BA4),
        (0xD800, 0x800),
        (0xE000, 0x1900),
        (0xF900, 0x700),
        (0xF780, 0x80),
    ];
    let special = ['\u{A5}', '\u{203E}', '\u{2212}', '\u{FF61}', '\u{20AC}', '\u{E5E5}', '\u{E7C7}', '\u{E843}', '\u{2550}', '\u{80}', '\\', '~', '\u{1B}', '\u{FFFD}', '\u{10FFFF}'];
    let mut units = Vec::new();
    let length = numbers.length(LONGEST);
    while units.len() < length {
        let count = numbers.below(20);
        match numbers.below(8) {
            0 => units.extend((0..count).map(|_| numbers.below(0x80) as u16)),
            1 => {
                let (first, size) = numbers.of(&blocks);
                units.extend((0..count).map(|_| (first + numbers.below(size)) as u16));
            }
            2 => units.extend([numbers.within(0xD800, 0xDBFF) as u16, numbers.within(0xDC00, 0xDFFF) as u16]),
            3 => units.extend(numbers.of(&special).encode_utf16(&mut [0; 2]).iter()),
            _ if scalars.is_empty() => units.push(numbers.within(0x20, 0x7E) as u16),
            _ => (0..count).for_each(|_| units.extend(numbers.of(scalars).encode_utf16(&mut [0; 2]).iter())),
        }
    }
    units
}

/// Returns the text of the units, with U+FFFD for each unpaired surrogate.
pub fn text_of(units: &[u16]) -> Vec<char> {
    char::decode_utf16(units.iter().copied()).map(|unit| unit.unwrap_or('\u{FFFD}')).collect()
}

/// Returns bytes for a decoder: random ones, or a text of the codec, whole or with some bytes changed.
pub fn bytes(codec: Codec, tables: &Tables, pointers: &Pointers, scalars: &[char], numbers: &mut Numbers) -> Vec<u8> {
    if numbers.once_in(3) {
        return any_bytes(numbers);
    }
    let units = any_text(numbers, scalars);
    let mut bytes: Vec<u8> = match codec {
        Codec::Utf16Be => units.iter().flat_map(|unit| unit.to_be_bytes()).collect(),
        Codec::Utf16Le => units.iter().flat_map(|unit| unit.to_le_bytes()).collect(),
        _ => model::encoders::encode(codec, tables, pointers, &text_of(&units), Calls::Raw),
    };
    if numbers.once_in(2) && !bytes.is_empty() {
        for _ in 0..numbers.within(1, 4) {
            let place = numbers.below(bytes.len());
            match numbers.below(3) {
                0 => bytes[place] = numbers.byte(),
                1 => bytes.insert(place, numbers.byte()),
                _ => bytes.truncate(place.max(1)),
            }
        }
    }
    bytes
}
