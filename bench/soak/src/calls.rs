//! Calls of the static library into outputs past which nothing may be written.
//!
//! They are made over flat and packed tables, and with cached pairs.

use crate::codec::Codec;
use crate::ours::{numbers, Calls, Kept, Ours};
use crate::tables::Tables;

/// The number that the header gives the codec.
pub fn number(codec: Codec) -> u32 {
    match codec {
        Codec::SingleByte => numbers::LEGACY_SINGLE_BYTE,
        Codec::Gbk => numbers::LEGACY_GBK,
        Codec::Gb18030 => numbers::LEGACY_GB18030,
        Codec::Big5 => numbers::LEGACY_BIG5,
        Codec::EucJp => numbers::LEGACY_EUC_JP,
        Codec::Iso2022Jp => numbers::LEGACY_ISO_2022_JP,
        Codec::ShiftJis => numbers::LEGACY_SHIFT_JIS,
        Codec::EucKr => numbers::LEGACY_EUC_KR,
        Codec::Replacement => numbers::LEGACY_REPLACEMENT,
        Codec::Utf16Be => numbers::LEGACY_UTF_16BE,
        Codec::Utf16Le => numbers::LEGACY_UTF_16LE,
        Codec::UserDefined => numbers::LEGACY_X_USER_DEFINED,
    }
}

/// How a source is converted: by which calls, in what pieces, and into how much of the output.
#[derive(Clone, Copy, Debug)]
pub struct Cut {
    pub kept: Kept,
    pub calls: Calls,
    /// The number of code units of a piece; 0: all in one.
    pub piece: usize,
    /// The number of code units of the output that are passed.
    pub room: usize,
}

/// The number of code units after the passed output. Nothing may be written there.
const GUARD: usize = 8;

/// Returns what a function wrote, or `None` if it refused the tables.
///
/// It is an error if the function reports more than the room, or writes past the end of the output.
fn called<W: Copy + PartialEq>(room: usize, blank: W, function: impl FnOnce(&mut [W]) -> usize) -> Result<Option<Vec<W>>, String> {
    let mut output = vec![blank; room + GUARD];
    let written = function(&mut output[..room]);
    if output[room..].iter().any(|unit| *unit != blank) {
        return Err(format!("wrote past the output of {room} code units"));
    }
    if written == usize::MAX {
        return Ok(None);
    }
    if written > room {
        return Err(format!("says that it wrote {written} code units into {room}"));
    }
    output.truncate(written);
    Ok(Some(output))
}

/// A codec of the library over flat tables, over packed ones, and over packed ones with cached pairs.
pub struct Library {
    flat: Ours,
    packed: Ours,
    ahead: Ours,
}

impl Library {
    pub fn new(codec: Codec, tables: &Tables) -> Library {
        let with = |kept| Ours::with(number(codec), tables.clone(), kept);
        Library { flat: with(Kept::Flat), packed: with(Kept::Packed), ahead: with(Kept::Ahead) }
    }

    /// Returns the library over packed tables.
    pub fn packed(&mut self) -> &mut Ours {
        &mut self.packed
    }

    fn ours(&self, cut: Cut) -> &Ours {
        match cut.kept {
            Kept::Flat => &self.flat,
            Kept::Packed => &self.packed,
            Kept::Ahead => &self.ahead,
        }
    }

    pub fn to_utf8(&self, source: &[u8], cut: Cut) -> Result<Option<Vec<u8>>, String> {
        called(cut.room, 0xAA, |output| self.ours(cut).to_utf8(cut.calls, source, output, cut.piece, 1))
    }

    pub fn to_utf16(&self, source: &[u8], cut: Cut) -> Result<Option<Vec<u16>>, String> {
        called(cut.room, 0xAAAA, |output| self.ours(cut).to_utf16(cut.calls, source, output, cut.piece, 1))
    }

    pub fn from_utf8(&self, source: &[u8], cut: Cut) -> Result<Option<Vec<u8>>, String> {
        called(cut.room, 0xAA, |output| self.ours(cut).from_utf8(cut.calls, source, output, cut.piece, 1))
    }

    pub fn from_utf16(&self, source: &[u16], cut: Cut) -> Result<Option<Vec<u8>>, String> {
        called(cut.room, 0xAA, |output| self.ours(cut).from_utf16(cut.calls, source, output, cut.piece, 1))
    }
}
