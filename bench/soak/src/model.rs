//! The decoders and the encoders as the Standard describes them, one byte or scalar at a time, over any tables.
//!
//! They are slow and share no code with the library.

use crate::codec::Codec;
use crate::tables::Tables;
use std::collections::HashMap;

pub mod decoders;
pub mod encoders;

/// U+FFFD, which is written for a malformed sequence.
const REPLACEMENT: char = '\u{FFFD}';

/// The rows of the side table of the Standard's encoder ("gb18030 encoder").
const SIDE_TABLE: [(char, [u8; 2]); 18] = [
    ('\u{E78D}', [0xA6, 0xD9]),
    ('\u{E78E}', [0xA6, 0xDA]),
    ('\u{E78F}', [0xA6, 0xDB]),
    ('\u{E790}', [0xA6, 0xDC]),
    ('\u{E791}', [0xA6, 0xDD]),
    ('\u{E792}', [0xA6, 0xDE]),
    ('\u{E793}', [0xA6, 0xDF]),
    ('\u{E794}', [0xA6, 0xEC]),
    ('\u{E795}', [0xA6, 0xED]),
    ('\u{E796}', [0xA6, 0xF3]),
    ('\u{E81E}', [0xFE, 0x59]),
    ('\u{E826}', [0xFE, 0x61]),
    ('\u{E82B}', [0xFE, 0x66]),
    ('\u{E82C}', [0xFE, 0x67]),
    ('\u{E832}', [0xFE, 0x6D]),
    ('\u{E843}', [0xFE, 0x7E]),
    ('\u{E854}', [0xFE, 0x90]),
    ('\u{E864}', [0xFE, 0xA0]),
];

/// Returns the bytes of the scalar in the side table.
pub fn side_table(scalar: char) -> Option<[u8; 2]> {
    SIDE_TABLE.iter().find(|(of, _)| *of == scalar).map(|(_, bytes)| *bytes)
}

/// Returns the scalar of a pointer in an index ("index code point").
fn scalar_at<T: Copy + Into<u32>>(index: &[T], pointer: usize) -> Option<char> {
    let entry: u32 = (*index.get(pointer)?).into();
    if entry == 0 { None } else { char::from_u32(entry) }
}

/// Returns the scalar of a four-byte pointer ("index gb18030 ranges code point").
fn range_scalar(tables: &Tables, pointer: usize) -> Option<char> {
    match pointer {
        39_420..=188_999 | 1_237_576.. => None,
        7457 => Some('\u{E7C7}'),
        189_000.. => char::from_u32((pointer - 189_000 + 0x1_0000) as u32),
        _ => {
            let range = tables.ranges.iter().rev().find(|range| usize::from(range.pointer) <= pointer)?;
            char::from_u32(u32::from(range.scalar) + (pointer - usize::from(range.pointer)) as u32)
        }
    }
}

/// The pointers that an encoder uses, by their scalars.
pub type Pointers = HashMap<char, usize>;

/// Returns the first pointer of each scalar in an index, of those pointers that the encoder uses.
fn first_pointers<T: Copy + Into<u32>>(index: &[T], is_written: impl Fn(usize) -> bool) -> Pointers {
    let mut pointers = Pointers::new();
    for pointer in (0..index.len()).filter(|pointer| is_written(*pointer)) {
        if let Some(scalar) = scalar_at(index, pointer) {
            pointers.entry(scalar).or_insert(pointer);
        }
    }
    pointers
}

/// Returns the pointers of Big5 ("index Big5 pointer"): the first of each scalar, but the last for six scalars.
fn big5_pointers(index: &[u32]) -> Pointers {
    let mut pointers = first_pointers(index, |pointer| pointer >= (0xA1 - 0x81) * 157);
    for scalar in ['\u{2550}', '\u{255E}', '\u{2561}', '\u{256A}', '\u{5341}', '\u{5345}'] {
        if let Some(pointer) = pointers.get_mut(&scalar) {
            *pointer = index.iter().rposition(|entry| *entry == scalar as u32).expect("it has one");
        }
    }
    pointers
}

/// Returns the pointer of four bytes ("index gb18030 ranges pointer").
fn range_pointer(tables: &Tables, scalar: char) -> Option<usize> {
    let number = scalar as usize;
    if number >= 0x1_0000 {
        return Some(number - 0x1_0000 + 189_000);
    }
    if scalar == '\u{E7C7}' {
        return Some(7457);
    }
    let range = tables.ranges.iter().rev().find(|range| usize::from(range.scalar) <= number)?;
    let pointer = usize::from(range.pointer) + number - usize::from(range.scalar);
    (range_scalar(tables, pointer) == Some(scalar)).then_some(pointer)
}

/// Returns the pointers that the codec's encoder uses.
pub fn pointers(codec: Codec, tables: &Tables) -> Pointers {
    match codec {
        Codec::Big5 => big5_pointers(&tables.big5),
        Codec::EucKr => first_pointers(&tables.euc_kr, |_| true),
        Codec::Gbk | Codec::Gb18030 => first_pointers(&tables.gb18030, |_| true),
        Codec::ShiftJis => first_pointers(&tables.jis0208, |pointer| !(8272..=8835).contains(&pointer)),
        Codec::EucJp | Codec::Iso2022Jp => first_pointers(&tables.jis0208, |pointer| pointer < 94 * 94),
        Codec::SingleByte => first_pointers(&tables.single_byte, |_| true),
        _ => Pointers::new(),
    }
}
