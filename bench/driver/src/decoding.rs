//! The decoders' tables: over flat tables, and over packed ones, beside encoding_rs.

use crate::measure::{best_times, is_same, ratio_cell, speed, speed_cell, without, written, Call};
use crate::ours::{Calls, Ours};
use crate::pieces::PIECE;
use crate::rounds::measured;
use crate::theirs;
use encoding_rs::Encoding;

/// An encoding form of the output, with both libraries' calls that write it.
pub trait Into {
    const NAME: &'static str;
    type Written: Copy + PartialEq + Default;
    fn ours(ours: &Ours, calls: Calls, src: &[u8], dst: &mut [Self::Written], piece: usize, rounds: usize) -> usize;
    fn theirs(encoding: &'static Encoding, calls: Calls, src: &[u8], dst: &mut [Self::Written], piece: usize, rounds: usize) -> usize;
}

pub struct ToUtf8;
pub struct ToUtf16;

impl Into for ToUtf8 {
    const NAME: &'static str = "to UTF-8";
    type Written = u8;

    fn ours(ours: &Ours, calls: Calls, src: &[u8], dst: &mut [u8], piece: usize, rounds: usize) -> usize {
        ours.to_utf8(calls, src, dst, piece, rounds)
    }

    fn theirs(encoding: &'static Encoding, calls: Calls, src: &[u8], dst: &mut [u8], piece: usize, rounds: usize) -> usize {
        match calls {
            Calls::Raw => theirs::to_utf8(encoding, src, dst, piece, rounds),
            Calls::Replacing => theirs::replacing_to_utf8(encoding, src, dst, piece, rounds),
        }
    }
}

impl Into for ToUtf16 {
    const NAME: &'static str = "to UTF-16";
    type Written = u16;

    fn ours(ours: &Ours, calls: Calls, src: &[u8], dst: &mut [u16], piece: usize, rounds: usize) -> usize {
        ours.to_utf16(calls, src, dst, piece, rounds)
    }

    fn theirs(encoding: &'static Encoding, calls: Calls, src: &[u8], dst: &mut [u16], piece: usize, rounds: usize) -> usize {
        match calls {
            Calls::Raw => theirs::to_utf16(encoding, src, dst, piece, rounds),
            Calls::Replacing => theirs::replacing_to_utf16(encoding, src, dst, piece, rounds),
        }
    }
}

/// Returns a call of ours.
pub fn ours<'a, D: Into>(ours: &'a Ours, calls: Calls, src: &'a [u8], piece: usize, rounds: usize) -> Call<'a, D::Written> {
    Box::new(move |dst: &mut [D::Written]| D::ours(ours, calls, src, dst, piece, rounds))
}

/// Returns a call of encoding_rs.
pub fn theirs<'a, D: Into>(encoding: &'static Encoding, calls: Calls, src: &'a [u8], piece: usize, rounds: usize) -> Call<'a, D::Written> {
    Box::new(move |dst: &mut [D::Written]| D::theirs(encoding, calls, src, dst, piece, rounds))
}

/// Returns room for the decoded source.
pub fn room<D: Into>(src: &[u8]) -> Vec<D::Written> {
    vec![D::Written::default(); src.len() * 3 + 64]
}

/// Compares the outputs of both libraries, whole and in pieces.
pub fn compare<D: Into>(codec: &Ours, encoding: &'static Encoding, calls: Calls, src: &[u8]) -> Result<(), String> {
    let mut dst = room::<D>(src);
    let wanted = written(&theirs::<D>(encoding, calls, src, 0, 1), &mut dst);
    for piece in [0, 1, 7, PIECE] {
        is_same(&wanted, &ours::<D>(codec, calls, src, piece, 1), &mut dst)
            .map_err(|error| format!("{} in pieces of {piece}: {error}", D::NAME))?;
    }
    Ok(())
}

/// A codec over flat tables, and over other ones if it can have them.
///
/// Over packed ones if its index can be packed, and with cached pairs if it is a codec of pairs.
pub struct Codec {
    pub encoding: &'static Encoding,
    pub flat: Ours,
    pub packed: Option<Ours>,
    pub ahead: Option<Ours>,
}

/// Returns a heading with these columns after the names of a line.
fn heading_of(columns: &str) -> String {
    let names = format!("| corpus | encoding | decoding | {columns} |");
    let rule = "---|".repeat(names.matches('|').count() - 1);
    format!("{names}\n|{rule}")
}

/// Returns the heading of the table over flat tables.
pub fn heading() -> String {
    let columns: Vec<String> =
        ["3 MB", "short", "pieces of 64"].iter().map(|source| format!("encoding_rs MB/s, {source} | ours | ratio to encoding_rs")).collect();
    heading_of(&columns.join(" | "))
}

/// Returns the cells of one source.
fn cells<D: Into>(codec: &Codec, src: &[u8], piece: usize, rounds: usize, times: usize) -> String {
    let calls = [
        Some(theirs::<D>(codec.encoding, Calls::Raw, src, piece, rounds)),
        Some(ours::<D>(&codec.flat, Calls::Raw, src, piece, rounds)),
        Some(ours::<D>(&codec.flat, Calls::Raw, src, piece, 0)),
    ];
    let best = best_times(&calls, src, &mut room::<D>(src), times);
    let bytes = src.len() * rounds;
    let (theirs, ours) = (speed(bytes, best[0]), speed(bytes, without(best[1], best[2])));
    speed_cell(theirs) + &speed_cell(ours) + &ratio_cell(ours, theirs)
}

fn line<D: Into>(corpus: &str, codec: &Codec, long: &[u8], short: &[u8], times: usize) -> Result<(), String> {
    for src in [long, short] {
        compare::<D>(&codec.flat, codec.encoding, Calls::Raw, src).map_err(|error| format!("{corpus} {}: {error}", codec.encoding.name()))?;
    }
    print!("| {corpus} | {} | {} |", codec.encoding.name(), D::NAME);
    for (src, piece, rounds) in measured(corpus, long, short) {
        print!("{}", cells::<D>(codec, src, piece, rounds, times));
    }
    println!();
    Ok(())
}

/// Prints the two lines of a decoder.
pub fn lines(corpus: &str, codec: &Codec, long: &[u8], short: &[u8], times: usize) -> Result<(), String> {
    line::<ToUtf8>(corpus, codec, long, short, times)?;
    line::<ToUtf16>(corpus, codec, long, short, times)
}

/// Returns the heading of the table over packed tables.
pub fn packed_heading() -> String {
    heading_of("encoding_rs MB/s, short | packed tables | flat tables | ratio to encoding_rs | ratio to flat tables")
}

fn packed_line<D: Into>(corpus: &str, codec: &Codec, packed: &Ours, src: &[u8], times: usize) -> Result<(), String> {
    let name = codec.encoding.name();
    compare::<D>(packed, codec.encoding, Calls::Raw, src).map_err(|error| format!("{corpus} {name}, packed: {error}"))?;
    let calls = [
        Some(theirs::<D>(codec.encoding, Calls::Raw, src, 0, 1)),
        Some(ours::<D>(packed, Calls::Raw, src, 0, 1)),
        Some(ours::<D>(packed, Calls::Raw, src, 0, 0)),
        Some(ours::<D>(&codec.flat, Calls::Raw, src, 0, 1)),
        Some(ours::<D>(&codec.flat, Calls::Raw, src, 0, 0)),
    ];
    let best = best_times(&calls, src, &mut room::<D>(src), times);
    let length = src.len();
    let (theirs, packed, flat) = (speed(length, best[0]), speed(length, without(best[1], best[2])), speed(length, without(best[3], best[4])));
    let cells = speed_cell(theirs) + &speed_cell(packed) + &speed_cell(flat) + &ratio_cell(packed, theirs) + &ratio_cell(packed, flat);
    println!("| {corpus} | {name} | {} |{cells}", D::NAME);
    Ok(())
}

/// Prints the two lines of a decoder over packed tables, if the codec can have them. It searches these byte by byte.
pub fn packed_lines(corpus: &str, codec: &Codec, short: &[u8], times: usize) -> Result<(), String> {
    let Some(packed) = &codec.packed else { return Ok(()) };
    packed_line::<ToUtf8>(corpus, codec, packed, short, times)?;
    packed_line::<ToUtf16>(corpus, codec, packed, short, times)
}
