//! Calls of encoding_rs in the same way as those of the static library: piece by piece, raw or with replacement.

use crate::pieces::{end_of_piece, piece_end};
use encoding_rs::{CoderResult, DecoderResult, Encoding};

macro_rules! decode {
    ($name:ident, $unit:ty, $call:ident, $replacement:expr) => {
        /// Decodes the source `rounds` times, with U+FFFD for each malformed sequence, in pieces of `piece` bytes (0:
        /// in one). Returns the number of code units written the last time.
        pub fn $name(encoding: &'static Encoding, src: &[u8], dst: &mut [$unit], piece: usize, rounds: usize) -> usize {
            let mut written = 0;
            for _ in 0..rounds {
                let mut decoder = encoding.new_decoder_without_bom_handling();
                let (mut read, mut end) = (0, piece_end(0, src.len(), piece));
                written = 0;
                loop {
                    let last = end == src.len();
                    let (answer, more, units) = decoder.$call(&src[read..end], &mut dst[written..], last);
                    read += more;
                    written += units;
                    match answer {
                        DecoderResult::InputEmpty if last => break,
                        DecoderResult::InputEmpty => end = piece_end(read, src.len(), piece),
                        DecoderResult::OutputFull => break,
                        DecoderResult::Malformed(_, _) => {
                            dst[written..written + $replacement.len()].copy_from_slice(&$replacement);
                            written += $replacement.len();
                        }
                    }
                }
            }
            written
        }
    };
}

decode!(to_utf8, u8, decode_to_utf8_without_replacement, [0xEFu8, 0xBF, 0xBD]);
decode!(to_utf16, u16, decode_to_utf16_without_replacement, [0xFFFDu16]);

macro_rules! decode_replacing {
    ($name:ident, $unit:ty, $call:ident) => {
        /// Decodes likewise by calls with replacement.
        pub fn $name(encoding: &'static Encoding, src: &[u8], dst: &mut [$unit], piece: usize, rounds: usize) -> usize {
            let mut written = 0;
            for _ in 0..rounds {
                let mut decoder = encoding.new_decoder_without_bom_handling();
                let (mut read, mut end) = (0, piece_end(0, src.len(), piece));
                written = 0;
                loop {
                    let last = end == src.len();
                    let (answer, more, units, _) = decoder.$call(&src[read..end], &mut dst[written..], last);
                    read += more;
                    written += units;
                    match answer {
                        CoderResult::InputEmpty if last => break,
                        CoderResult::InputEmpty => end = piece_end(read, src.len(), piece),
                        CoderResult::OutputFull => break,
                    }
                }
            }
            written
        }
    };
}

decode_replacing!(replacing_to_utf8, u8, decode_to_utf8);
decode_replacing!(replacing_to_utf16, u16, decode_to_utf16);

/// Returns these bytes, which come from a string, as text.
fn as_text(src: &[u8]) -> &str {
    unsafe { std::str::from_utf8_unchecked(src) }
}

/// Returns the code units unchanged.
fn as_units(src: &[u16]) -> &[u16] {
    src
}

macro_rules! encode {
    ($name:ident, $library:ident, $unit:ty, $call:ident, $as_source:ident) => {
        /// Encodes the text `rounds` times, with a question mark for each unmappable character.
        ///
        /// A piece has `piece` code units, up to the next position between two characters (0: in one). Returns the
        /// number of bytes written the last time.
        pub fn $name(encoding: &'static $library::Encoding, src: &[$unit], dst: &mut [u8], piece: usize, rounds: usize) -> usize {
            let mut written = 0;
            for _ in 0..rounds {
                let mut encoder = encoding.new_encoder();
                let (mut read, mut end) = (0, end_of_piece(src, 0, piece));
                written = 0;
                loop {
                    let last = end == src.len();
                    let (answer, more, bytes) = encoder.$call($as_source(&src[read..end]), &mut dst[written..], last);
                    read += more;
                    written += bytes;
                    match answer {
                        $library::EncoderResult::InputEmpty if last => break,
                        $library::EncoderResult::InputEmpty => end = end_of_piece(src, read, piece),
                        $library::EncoderResult::OutputFull => break,
                        $library::EncoderResult::Unmappable(_) => {
                            dst[written] = b'?';
                            written += 1;
                        }
                    }
                }
            }
            written
        }
    };
}

encode!(from_utf8, encoding_rs, u8, encode_from_utf8_without_replacement, as_text);
encode!(from_utf16, encoding_rs, u16, encode_from_utf16_without_replacement, as_units);
encode!(fast_from_utf8, encoding_rs_fast, u8, encode_from_utf8_without_replacement, as_text);
encode!(fast_from_utf16, encoding_rs_fast, u16, encode_from_utf16_without_replacement, as_units);

macro_rules! encode_replacing {
    ($name:ident, $library:ident, $unit:ty, $call:ident, $as_source:ident) => {
        /// Encodes likewise by calls with replacement, which write references.
        pub fn $name(encoding: &'static $library::Encoding, src: &[$unit], dst: &mut [u8], piece: usize, rounds: usize) -> usize {
            let mut written = 0;
            for _ in 0..rounds {
                let mut encoder = encoding.new_encoder();
                let (mut read, mut end) = (0, end_of_piece(src, 0, piece));
                written = 0;
                loop {
                    let last = end == src.len();
                    let (answer, more, bytes, _) = encoder.$call($as_source(&src[read..end]), &mut dst[written..], last);
                    read += more;
                    written += bytes;
                    match answer {
                        $library::CoderResult::InputEmpty if last => break,
                        $library::CoderResult::InputEmpty => end = end_of_piece(src, read, piece),
                        $library::CoderResult::OutputFull => break,
                    }
                }
            }
            written
        }
    };
}

encode_replacing!(replacing_from_utf8, encoding_rs, u8, encode_from_utf8, as_text);
encode_replacing!(replacing_from_utf16, encoding_rs, u16, encode_from_utf16, as_units);
encode_replacing!(fast_replacing_from_utf8, encoding_rs_fast, u8, encode_from_utf8, as_text);
encode_replacing!(fast_replacing_from_utf16, encoding_rs_fast, u16, encode_from_utf16, as_units);
