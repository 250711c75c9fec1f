//! Compares the speed of two builds of this library in one process.
//!
//! The two are called in turn, so both meet the same load of the machine. Between two runs that load moves times by
//! more than most changes do.

use crate::decoding::{self, Codec, ToUtf16, ToUtf8};
use crate::encoding::{self, decoded, From, FromUtf16, FromUtf8};
use crate::loaded::Loaded;
use crate::measure::{best_times, ratio_cell, speed, speed_cell, without, Call};
use crate::medians::median;
use crate::ours::{Export, Header, Ours};
use crate::pieces::Unit;
use crate::replacing::{all_malformed, with_malformed};
use crate::rounds::measured;
use std::ffi::c_void;

/// Two builds, as shared libraries.
pub struct Builds {
    older: Loaded,
    newer: Loaded,
}

/// The same function of both builds.
struct Both<R, W> {
    older: Export<R, W>,
    newer: Export<R, W>,
}

impl Builds {
    pub fn open(older: &str, newer: &str) -> Result<Builds, String> {
        let open = |path: &str| Loaded::open(path).ok_or_else(|| format!("{path}: cannot be opened"));
        Ok(Builds { older: open(older)?, newer: open(newer)? })
    }

    /// Finds a function of the header, if both builds have it.
    fn find<R, W>(&self, name: &str) -> Option<Both<R, W>> {
        let function = |library: Loaded| Some(unsafe { std::mem::transmute::<*mut c_void, Export<R, W>>(library.find(name)?) });
        Some(Both { older: function(self.older)?, newer: function(self.newer)? })
    }
}

/// Returns the header by which the older build takes the tables, or `None` if it refuses them.
fn older_header<R, W>(both: &Both<R, W>, ours: &Ours, src: &[R], dst: &mut [W]) -> Option<Header> {
    [Header::Own, Header::Older].into_iter().find(|header| ours.call(*header, both.older, src, dst, 0, 0) != usize::MAX)
}

/// Compares the outputs of both.
fn same_output<R, W: Copy + PartialEq + Default>(header: Header, both: &Both<R, W>, ours: &Ours, src: &[R], dst: &mut [W]) -> Result<(), String> {
    let length = ours.call(header, both.older, src, dst, 0, 1);
    let wanted = dst.get(..length).ok_or("the older build refuses the source")?.to_vec();
    dst.fill(W::default());
    let is_same = ours.call(Header::Own, both.newer, src, dst, 0, 1) == length && dst[..length] == wanted[..];
    if is_same { Ok(()) } else { Err("the two builds write different things".to_string()) }
}

/// The ratios of a line: with 3 MB, with short inputs, and in pieces.
pub type Ratios = [f64; 3];

/// Prints a line if both builds can make it.
fn line<R: Unit, W: Copy + PartialEq + Default>(
    name: &str,
    both: Option<Both<R, W>>,
    ours: &Ours,
    sources: [&[R]; 2],
    dst: &mut [W],
    times: usize,
) -> Result<Option<Ratios>, String> {
    let Some(both) = both else { return Ok(None) };
    let Some(header) = older_header(&both, ours, sources[1], dst) else { return Ok(None) };
    for src in sources {
        same_output(header, &both, ours, src, dst).map_err(|error| format!("{name}: {error}"))?;
    }
    let mut ratios = Ratios::default();
    print!("| {name} |");
    for (at, (src, piece, rounds)) in measured(name, sources[0], sources[1]).into_iter().enumerate() {
        let call = |header: Header, export: Export<R, W>, rounds: usize| -> Option<Call<'_, W>> {
            Some(Box::new(move |dst: &mut [W]| ours.call(header, export, src, dst, piece, rounds)))
        };
        let older = |rounds: usize| call(header, both.older, rounds);
        let newer = |rounds: usize| call(Header::Own, both.newer, rounds);
        let calls = [older(rounds), older(0), newer(rounds), newer(0)];
        let best = best_times(&calls, src, dst, times);
        let bytes = size_of_val(src) * rounds;
        let (older, newer) = (speed(bytes, without(best[0], best[1])), speed(bytes, without(best[2], best[3])));
        print!("{}{}{}", speed_cell(older), speed_cell(newer), ratio_cell(newer, older));
        ratios[at] = newer.unwrap_or_default() / older.unwrap_or(1.0);
    }
    println!();
    Ok(Some(ratios))
}

pub fn heading() -> String {
    let columns: Vec<String> = ["3 MB", "short", "pieces of 64"].iter().map(|source| format!("older MB/s, {source} | newer | ratio")).collect();
    format!("| corpus | encoding | tables | direction | {} |\n|{}", columns.join(" | "), "---|".repeat(13))
}

/// The functions of raw calls to UTF-8 and UTF-16.
const RAW: [&str; 2] = ["legacy_decode_to_utf8", "legacy_decode_to_utf16"];

/// The functions of calls with replacement.
const REPLACING: [&str; 2] = ["legacy_decode_replacing_to_utf8", "legacy_decode_replacing_to_utf16"];

/// Prints the lines of two functions of a decoder, to UTF-8 and to UTF-16.
fn both_lines(builds: &Builds, name: &str, functions: [&str; 2], ours: &Ours, sources: [&[u8]; 2], times: usize) -> Result<Vec<Ratios>, String> {
    let name = |direction: &str| format!("{name} | {direction}");
    let mut narrow = decoding::room::<ToUtf8>(sources[0]);
    let to_utf8 = line(&name("to UTF-8"), builds.find(functions[0]), ours, sources, &mut narrow, times)?;
    let mut wide = decoding::room::<ToUtf16>(sources[0]);
    let to_utf16 = line(&name("to UTF-16"), builds.find(functions[1]), ours, sources, &mut wide, times)?;
    Ok([to_utf8, to_utf16].into_iter().flatten().collect())
}

/// Prints the lines of a decoder over tables of one kind.
pub fn decoder_lines(builds: &Builds, name: &str, ours: &Ours, long: &[u8], short: &[u8], times: usize) -> Result<Vec<Ratios>, String> {
    both_lines(builds, name, RAW, ours, [long, short], times)
}

/// Prints the lines of a decoder over text in which one of two, four or sixteen characters is malformed, and over bytes FF.
pub fn malformed_lines(builds: &Builds, name: &str, codec: &Codec, long: &[u8], short: &[u8], times: usize) -> Result<(), String> {
    let (encoding, ours) = (codec.encoding, &codec.flat);
    let texts = [decoded(encoding, long), decoded(encoding, short)];
    let mut sources: Vec<(String, [Vec<u8>; 2])> = vec![("bytes FF".to_string(), all_malformed())];
    for each in [2, 4, 16] {
        let malformed = texts.each_ref().map(|text| with_malformed(encoding, text, each));
        sources.push((format!("one of {each} malformed"), malformed));
    }
    for (what, [long, short]) in &sources {
        both_lines(builds, &format!("{name}, {what}"), RAW, ours, [long, short], times)?;
        both_lines(builds, &format!("{name}, {what}, with replacement"), REPLACING, ours, [long, short], times)?;
    }
    Ok(())
}

/// Prints the lines of an encoder, which encodes the output of the decoder.
pub fn encoder_lines(builds: &Builds, name: &str, codec: &Codec, ours: &Ours, long: &[u8], short: &[u8], times: usize) -> Result<Vec<Ratios>, String> {
    if codec.encoding.output_encoding() != codec.encoding {
        return Ok(Vec::new());
    }
    let (long, short) = (decoded(codec.encoding, long), decoded(codec.encoding, short));
    let mut dst = encoding::room(long.as_bytes());
    let name = |direction: &str| format!("{name} | {direction}");
    let texts = [long.as_bytes(), short.as_bytes()];
    let from_utf8 = line(&name(FromUtf8::NAME), builds.find("legacy_encode_from_utf8"), ours, texts, &mut dst, times)?;
    let units = [FromUtf16::units(&long), FromUtf16::units(&short)];
    let from_utf16 = line(&name(FromUtf16::NAME), builds.find("legacy_encode_from_utf16"), ours, [&units[0], &units[1]], &mut dst, times)?;
    Ok([from_utf8, from_utf16].into_iter().flatten().collect())
}

/// Prints the medians of the ratios of all lines over tables of one kind.
pub fn print_medians(tables: &str, lines: &[Ratios]) {
    if lines.is_empty() {
        return;
    }
    let of = |at: usize| median(&mut lines.iter().map(|ratios| ratios[at]).collect::<Vec<f64>>());
    println!("Medians of the {} ratios, {tables}: {:.2} with 3 MB, {:.2} with short inputs, {:.2} in pieces of 64.", lines.len(), of(0), of(1), of(2));
}
