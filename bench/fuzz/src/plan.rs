//! The plan of an input of the fuzzer: some bytes that choose, and then the source.

use crate::guard::Side;
use crate::patches::Patch;
use soak::codec::{Codec, CODECS};
use soak::ours::Calls;

/// How tables are kept.
#[derive(Clone, Copy, Debug, PartialEq, Eq)]
pub enum Kept {
    Flat,
    Packed,
    /// Flat indexes that are written from packed ones into lent memory.
    Unpacked,
    /// Packed, and encoders of pairs list them.
    Ahead,
}

/// Which tables.
#[derive(Clone, Copy, Debug, PartialEq, Eq, Hash)]
pub enum Choice {
    /// The Standard's; of a single-byte codec those of the encoding of this number.
    Standard(u8),
    /// Others, by a seed.
    Odd(u8),
}

/// The number of bytes before the patches and the source.
pub const HEAD: usize = 15;

/// The number of bytes of a patch.
pub const PATCH: usize = 6;

/// The flags of the head's second byte.
pub mod flags {
    pub const ENCODES: u8 = 1;
    pub const IS_WIDE: u8 = 2;
    pub const REPLACES: u8 = 4;
    pub const KEPT: u8 = 8;
    pub const AT_START: u8 = 32;
    pub const IS_ODD: u8 = 64;
    pub const IS_PATCHED: u8 = 128;
}

/// The flags of the head's sixth byte, after the number of times.
pub mod ways {
    pub const QUERIES: u8 = 4;
    pub const AGAIN: u8 = 8;
    pub const UNITS: u8 = 16;
    pub const ANY_UTF8: u8 = 32;
    pub const EXPORTED: u8 = 64;
}

/// The plan of an input.
#[derive(Clone, Debug)]
pub struct Plan {
    pub codec: Codec,
    /// Whether a text is encoded. Otherwise bytes are decoded.
    pub encodes: bool,
    /// Whether the text is UTF-16. Otherwise it is UTF-8.
    pub is_wide: bool,
    pub calls: Calls,
    pub kept: Kept,
    /// The side of the slices that is at a page that nothing may touch.
    pub side: Side,
    pub choice: Choice,
    /// The changes of tables, or `None` if they are not changed.
    pub patches: Option<Vec<Patch>>,
    /// The length of a piece for functions of the header, or 0 for all.
    pub piece: usize,
    /// The length of the output for them. From 200 on it is near the length of the right output.
    pub room: u8,
    /// The number of times for them.
    pub times: usize,
    /// Whether outputs have the lengths that queries give.
    pub queries: bool,
    /// Whether the source is converted a second time by the same decoder or encoder.
    pub again: bool,
    /// Whether a text is made of UTF-16 code units, and may have unpaired surrogates.
    pub by_units: bool,
    /// Whether a text in UTF-8 may be malformed.
    pub any_utf8: bool,
    /// Whether the functions of the header are called.
    pub is_exported: bool,
    /// The lengths of pieces and of outputs, in turn. 255 stands for all, and for an ample length.
    pub cuts: [u8; 4],
    pub outs: [u8; 4],
    pub source: Vec<u8>,
}

impl Plan {
    /// Returns the plan of an input, or `None` if it is too short.
    pub fn of(input: &[u8]) -> Option<Plan> {
        let (head, rest) = input.split_at_checked(HEAD)?;
        let has = |flag: u8| head[1] & flag != 0;
        let way = |flag: u8| head[5] & flag != 0;
        let kept = [Kept::Flat, Kept::Packed, Kept::Unpacked, Kept::Ahead][usize::from(head[1] / flags::KEPT % 4)];
        let count = if has(flags::IS_PATCHED) { usize::from(head[14] % 8).min(rest.len() / PATCH) } else { 0 };
        let (patches, source) = rest.split_at(count * PATCH);
        Some(Plan {
            codec: CODECS[usize::from(head[0]) % CODECS.len()],
            encodes: has(flags::ENCODES),
            is_wide: has(flags::IS_WIDE),
            calls: if has(flags::REPLACES) { Calls::Replacing } else { Calls::Raw },
            kept,
            side: if has(flags::AT_START) { Side::Start } else { Side::End },
            choice: if has(flags::IS_ODD) { Choice::Odd(head[2] % 8) } else { Choice::Standard(head[2] % 28) },
            patches: has(flags::IS_PATCHED).then(|| patches.chunks(PATCH).map(Patch::of).collect()),
            piece: usize::from(head[3]),
            room: head[4],
            times: usize::from(head[5] % 4),
            queries: way(ways::QUERIES),
            again: way(ways::AGAIN),
            by_units: way(ways::UNITS),
            any_utf8: way(ways::ANY_UTF8),
            is_exported: way(ways::EXPORTED) || cfg!(not(feature = "plain")),
            cuts: [head[6], head[7], head[8], head[9]],
            outs: [head[10], head[11], head[12], head[13]],
            source: source.to_vec(),
        })
    }

    /// Returns the code units of the text to encode.
    pub fn units(&self) -> Vec<u16> {
        if self.by_units {
            return self.source.chunks_exact(2).map(|pair| u16::from_le_bytes([pair[0], pair[1]])).collect();
        }
        String::from_utf8_lossy(&self.source).encode_utf16().collect()
    }
}
