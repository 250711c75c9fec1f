//! The ends of the pieces of a source.

/// The length of a small piece in code units.
pub const PIECE: usize = 64;

/// A code unit of a text.
pub trait Unit: Copy + PartialEq + Default {
    /// The end of a line.
    const LINE_END: Self;

    /// Checks whether the position is between two characters.
    fn is_between(text: &[Self], place: usize) -> bool;

    /// Returns the number of letters and digits of the text, by the standard library.
    fn letters(text: &[Self]) -> usize;
}

impl Unit for u8 {
    const LINE_END: u8 = b'\n';

    fn is_between(text: &[u8], place: usize) -> bool {
        text.get(place).is_none_or(|byte| byte & 0xC0 != 0x80)
    }

    fn letters(text: &[u8]) -> usize {
        String::from_utf8_lossy(text).chars().filter(|c| c.is_alphanumeric()).count()
    }
}

impl Unit for u16 {
    const LINE_END: u16 = b'\n' as u16;

    fn is_between(text: &[u16], place: usize) -> bool {
        let is = |at: usize, first: u16| text.get(at).is_some_and(|unit| unit & 0xFC00 == first);
        place == 0 || !is(place - 1, 0xD800) || !is(place, 0xDC00)
    }

    fn letters(text: &[u16]) -> usize {
        char::decode_utf16(text.iter().copied()).flatten().filter(|c| c.is_alphanumeric()).count()
    }
}

/// Returns the end of a piece of `piece` code units, or of all that is left if `piece` is 0.
pub fn piece_end(read: usize, len: usize, piece: usize) -> usize {
    if piece == 0 {
        len
    } else {
        read + piece.min(len - read)
    }
}

/// Returns the end of such a piece, moved up to the next position between two characters.
pub fn end_of_piece<U: Unit>(text: &[U], read: usize, piece: usize) -> usize {
    let mut end = piece_end(read, text.len(), piece);
    while !U::is_between(text, end) {
        end += 1;
    }
    end
}
