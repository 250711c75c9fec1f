//! The encoders of the Standard, with a question mark or a reference for each unmappable scalar.

use super::{range_pointer, side_table, Pointers};
use crate::codec::Codec;
use crate::ours::Calls;
use crate::tables::Tables;

/// Returns what is written for an unmappable scalar.
fn stand_in(calls: Calls, scalar: char) -> Vec<u8> {
    match calls {
        Calls::Raw => vec![0x3F],
        Calls::Replacing => format!("&#{};", u32::from(scalar)).into_bytes(),
    }
}

/// Returns the lead and the trail of a pointer.
///
/// A row has `row` pointers, the first lead is `lead`, and `trail` adds the gaps of the codec's trails.
fn pair(pointer: usize, row: usize, lead: usize, trail: impl Fn(usize) -> usize) -> Vec<u8> {
    vec![(pointer / row + lead) as u8, trail(pointer % row) as u8]
}

/// Returns the scalar that the Japanese encoders look up: for the minus sign the full-width hyphen-minus.
fn folded(scalar: char) -> char {
    if scalar == '\u{2212}' { '\u{FF0D}' } else { scalar }
}

/// Returns the position of a half-width katakana among them.
fn half_width(scalar: char) -> Option<usize> {
    ('\u{FF61}'..='\u{FF9F}').contains(&scalar).then(|| scalar as usize - 0xFF61)
}

fn euc_jp(pointers: &Pointers, scalar: char) -> Option<Vec<u8>> {
    match (scalar, half_width(scalar)) {
        ('\u{A5}', _) => Some(vec![0x5C]),
        ('\u{203E}', _) => Some(vec![0x7E]),
        (_, Some(place)) => Some(vec![0x8E, (place + 0xA1) as u8]),
        _ => pointers.get(&folded(scalar)).map(|pointer| pair(*pointer, 94, 0xA1, |trail| trail + 0xA1)),
    }
}

fn shift_jis(pointers: &Pointers, scalar: char) -> Option<Vec<u8>> {
    match (scalar, half_width(scalar)) {
        ('\u{80}', _) => Some(vec![0x80]),
        ('\u{A5}', _) => Some(vec![0x5C]),
        ('\u{203E}', _) => Some(vec![0x7E]),
        (_, Some(place)) => Some(vec![(place + 0xA1) as u8]),
        _ => pointers.get(&folded(scalar)).map(|pointer| {
            let lead = if pointer / 188 < 0x1F { 0x81 } else { 0xC1 };
            pair(*pointer, 188, lead, |trail| trail + if trail < 0x3F { 0x40 } else { 0x41 })
        }),
    }
}

fn gb18030(tables: &Tables, pointers: &Pointers, is_gbk: bool, scalar: char) -> Option<Vec<u8>> {
    if scalar == '\u{E5E5}' {
        return None;
    }
    if is_gbk && scalar == '\u{20AC}' {
        return Some(vec![0x80]);
    }
    if let Some(bytes) = side_table(scalar) {
        return Some(bytes.to_vec());
    }
    if let Some(pointer) = pointers.get(&scalar) {
        return Some(pair(*pointer, 190, 0x81, |trail| trail + if trail < 0x3F { 0x40 } else { 0x41 }));
    }
    if is_gbk {
        return None;
    }
    let pointer = range_pointer(tables, scalar)?;
    let digits = [(12_600, 126, 0x81), (1260, 10, 0x30), (10, 126, 0x81), (1, 10, 0x30)];
    Some(digits.iter().map(|(times, count, first)| (pointer / times % count + first) as u8).collect())
}

/// Returns the bytes of a scalar past ASCII in a codec without modes.
fn code(codec: Codec, tables: &Tables, pointers: &Pointers, scalar: char) -> Option<Vec<u8>> {
    let pointer = || pointers.get(&scalar).copied();
    match codec {
        Codec::SingleByte => pointer().map(|place| vec![(place + 0x80) as u8]),
        Codec::UserDefined => ('\u{F780}'..='\u{F7FF}').contains(&scalar).then(|| vec![(scalar as u32 - 0xF700) as u8]),
        Codec::Gbk | Codec::Gb18030 => gb18030(tables, pointers, codec == Codec::Gbk, scalar),
        Codec::Big5 => pointer().map(|pointer| pair(pointer, 157, 0x81, |trail| trail + if trail < 0x3F { 0x40 } else { 0x62 })),
        Codec::EucKr => pointer().map(|pointer| pair(pointer, 190, 0x81, |trail| trail + 0x41)),
        Codec::EucJp => euc_jp(pointers, scalar),
        Codec::ShiftJis => shift_jis(pointers, scalar),
        _ => None,
    }
}

/// The modes of ISO-2022-JP's encoder.
#[derive(Clone, Copy, PartialEq, Eq)]
enum Mode {
    Ascii,
    Roman,
    Jis0208,
}

/// ISO-2022-JP's encoder: its output and its mode.
struct Iso2022Jp<'a> {
    tables: &'a Tables,
    pointers: &'a Pointers,
    calls: Calls,
    bytes: Vec<u8>,
    mode: Mode,
}

impl Iso2022Jp<'_> {
    fn switch(&mut self, mode: Mode) {
        if self.mode != mode {
            self.bytes.extend(match mode {
                Mode::Ascii => b"\x1B(B",
                Mode::Roman => b"\x1B(J",
                Mode::Jis0208 => b"\x1B$B",
            });
            self.mode = mode;
        }
    }

    /// Returns the pointer of a scalar past ASCII. A half-width katakana goes through the katakana index.
    fn pointer(&self, scalar: char) -> Option<usize> {
        let looked_up = match half_width(scalar) {
            Some(place) => char::from_u32(u32::from(*self.tables.katakana.get(place)?))?,
            None => folded(scalar),
        };
        self.pointers.get(&looked_up).copied()
    }

    /// Handles an unmappable scalar: the replacement is written in the current mode, but never in two-byte mode.
    fn replace(&mut self, scalar: char) {
        if self.mode == Mode::Jis0208 {
            self.switch(Mode::Ascii);
        }
        self.bytes.extend(stand_in(self.calls, scalar));
    }

    fn encode(&mut self, scalar: char) {
        let is_same_in_roman = scalar.is_ascii() && !matches!(scalar, '\\' | '~');
        match scalar {
            '\u{E}' | '\u{F}' | '\u{1B}' => self.replace('\u{FFFD}'),
            _ if scalar.is_ascii() => {
                if self.mode != Mode::Roman || !is_same_in_roman {
                    self.switch(Mode::Ascii);
                }
                self.bytes.push(scalar as u8);
            }
            '\u{A5}' | '\u{203E}' => {
                self.switch(Mode::Roman);
                self.bytes.push(if scalar == '\u{A5}' { 0x5C } else { 0x7E });
            }
            _ => match self.pointer(scalar) {
                Some(pointer) => {
                    self.switch(Mode::Jis0208);
                    self.bytes.extend(pair(pointer, 94, 0x21, |trail| trail + 0x21));
                }
                None => self.replace(scalar),
            },
        }
    }
}

/// Encodes the text, with a question mark for each unmappable scalar, or a reference by calls with replacement.
pub fn encode(codec: Codec, tables: &Tables, pointers: &Pointers, text: &[char], calls: Calls) -> Vec<u8> {
    if codec == Codec::Iso2022Jp {
        let mut encoder = Iso2022Jp { tables, pointers, calls, bytes: Vec::new(), mode: Mode::Ascii };
        text.iter().for_each(|scalar| encoder.encode(*scalar));
        encoder.switch(Mode::Ascii);
        return encoder.bytes;
    }
    let mut bytes = Vec::new();
    for scalar in text {
        match code(codec, tables, pointers, *scalar) {
            _ if scalar.is_ascii() => bytes.push(*scalar as u8),
            Some(code) => bytes.extend(code),
            None => bytes.extend(stand_in(calls, *scalar)),
        }
    }
    bytes
}
