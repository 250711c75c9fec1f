//! The table of calls with replacement.
//!
//! Clean text is timed beside raw calls, and text with many malformed sequences beside encoding_rs's calls with replacement.

use crate::decoding::{self, Codec, Into, ToUtf16, ToUtf8};
use crate::encoding::{self, fast_encoding, From, FromUtf16, FromUtf8};
use crate::measure::{best_times, ratio_cell, speed, speed_cell, without, Call};
use crate::ours::{Calls, Ours};
use crate::rounds::measured;
use encoding_rs::{Encoding, BIG5};
use std::time::Duration;

/// The replacement of every other character: of the legacy encodings only gb18030 has it.
const LACKING: char = '\u{1F4A9}';

/// The length of the bytes that are all malformed.
const LENGTH: usize = 3_000_000;

/// Returns the long and the short source whose bytes are all malformed.
pub fn all_malformed() -> [Vec<u8>; 2] {
    [vec![0xFF; LENGTH], vec![0xFF; LENGTH / 20]]
}

pub fn heading() -> String {
    let columns: Vec<String> = ["3 MB", "short", "pieces of 64"]
        .iter()
        .map(|source| format!("encoding_rs MB/s, {source} | raw calls | with replacement | ratio to encoding_rs | ratio to raw calls"))
        .collect();
    format!("| corpus | encoding | calls | {} |\n|{}", columns.join(" | "), "---|".repeat(18))
}

/// Returns the cells of one source.
///
/// The times are those of encoding_rs, of raw calls, of calls with replacement, and of both without anything to
/// convert.
fn cells(bytes: usize, best: &[Option<Duration>]) -> String {
    let theirs = speed(bytes, best[0]);
    let raw = speed(bytes, without(best[1], best[3]));
    let replacing = speed(bytes, without(best[2], best[4]));
    speed_cell(theirs) + &speed_cell(raw) + &speed_cell(replacing) + &ratio_cell(replacing, theirs) + &ratio_cell(replacing, raw)
}

fn decode_line<D: Into>(corpus: &str, codec: &Ours, encoding: &'static Encoding, long: &[u8], short: &[u8], times: usize) -> Result<(), String> {
    for src in [long, short] {
        decoding::compare::<D>(codec, encoding, Calls::Replacing, src).map_err(|error| format!("{corpus} {}: {error}", encoding.name()))?;
    }
    print!("| {corpus} | {} | {} |", encoding.name(), D::NAME);
    for (src, piece, rounds) in measured(corpus, long, short) {
        let ours = |calls, rounds| Some(decoding::ours::<D>(codec, calls, src, piece, rounds));
        let theirs = Some(decoding::theirs::<D>(encoding, Calls::Replacing, src, piece, rounds));
        let calls: [Option<Call<'_, D::Written>>; 5] =
            [theirs, ours(Calls::Raw, rounds), ours(Calls::Replacing, rounds), ours(Calls::Raw, 0), ours(Calls::Replacing, 0)];
        let best = best_times(&calls, src, &mut decoding::room::<D>(src), times);
        print!("{}", cells(src.len() * rounds, &best));
    }
    println!();
    Ok(())
}

fn encode_line<D: From>(corpus: &str, codec: &Ours, encoding: &'static Encoding, long: &str, short: &str, times: usize) -> Result<(), String> {
    let (long, short, fast) = (D::units(long), D::units(short), fast_encoding(encoding)?);
    for src in [&long, &short] {
        encoding::compare::<D>(codec, encoding, Calls::Replacing, src).map_err(|error| format!("{corpus} {}: {error}", encoding.name()))?;
    }
    print!("| {corpus} | {} | {} |", encoding.name(), D::NAME);
    for (src, piece, rounds) in measured(corpus, &long, &short) {
        let ours = |calls, rounds| Some(encoding::ours::<D>(codec, calls, src, piece, rounds));
        let theirs = Some(encoding::fast::<D>(fast, Calls::Replacing, src, piece, rounds));
        let calls = [theirs, ours(Calls::Raw, rounds), ours(Calls::Replacing, rounds), ours(Calls::Raw, 0), ours(Calls::Replacing, 0)];
        let best = best_times(&calls, src, &mut encoding::room(src), times);
        print!("{}", cells(size_of_val(src) * rounds, &best));
    }
    println!();
    Ok(())
}

/// Prints the lines of clean text.
pub fn lines(corpus: &str, codec: &Codec, long: &[u8], short: &[u8], times: usize) -> Result<(), String> {
    let encoding = codec.encoding;
    decode_line::<ToUtf8>(corpus, &codec.flat, encoding, long, short, times)?;
    decode_line::<ToUtf16>(corpus, &codec.flat, encoding, long, short, times)?;
    if encoding.output_encoding() != encoding {
        return Ok(());
    }
    let packed = codec.packed.as_ref().unwrap_or(&codec.flat);
    let (long, short) = (encoding::decoded(encoding, long), encoding::decoded(encoding, short));
    encode_line::<FromUtf8>(corpus, packed, encoding, &long, &short, times)?;
    encode_line::<FromUtf16>(corpus, packed, encoding, &long, &short, times)
}

/// Encodes the text, with a malformed byte in place of each character whose place divided by `each` leaves 1.
pub fn with_malformed(encoding: &'static Encoding, text: &str, each: usize) -> Vec<u8> {
    let encoded = |c: char| encoding.encode(c.encode_utf8(&mut [0; 4])).0.into_owned();
    text.chars().enumerate().flat_map(|(at, c)| if at % each == 1 { vec![0xFF] } else { encoded(c) }).collect()
}

/// Returns the text with every other character replaced by one that the encoding lacks.
fn half_lacking(text: &str) -> String {
    text.chars().enumerate().map(|(at, c)| if at % 2 == 0 { c } else { LACKING }).collect()
}

/// Prints the lines of a text in which every other character is malformed or unmappable.
pub fn faulty_lines(corpus: &str, codec: &Codec, long: &[u8], short: &[u8], times: usize) -> Result<(), String> {
    let (encoding, corpus) = (codec.encoding, format!("{corpus}, half of it faults"));
    let (long, short) = (encoding::decoded(encoding, long), encoding::decoded(encoding, short));
    let (bad_long, bad_short) = (with_malformed(encoding, &long, 2), with_malformed(encoding, &short, 2));
    decode_line::<ToUtf8>(&corpus, &codec.flat, encoding, &bad_long, &bad_short, times)?;
    decode_line::<ToUtf16>(&corpus, &codec.flat, encoding, &bad_long, &bad_short, times)?;
    let packed = codec.packed.as_ref().unwrap_or(&codec.flat);
    let (long, short) = (half_lacking(&long), half_lacking(&short));
    encode_line::<FromUtf8>(&corpus, packed, encoding, &long, &short, times)?;
    encode_line::<FromUtf16>(&corpus, packed, encoding, &long, &short, times)
}

/// Prints the lines of Big5 over bytes FF, each of which is malformed.
pub fn ff_lines(codec: &Ours, times: usize) -> Result<(), String> {
    let [long, short] = all_malformed();
    decode_line::<ToUtf8>("bytes FF", codec, BIG5, &long, &short, times)?;
    decode_line::<ToUtf16>("bytes FF", codec, BIG5, &long, &short, times)
}
