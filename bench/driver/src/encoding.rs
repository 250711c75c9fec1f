//! The encoders' tables: over packed tables and with cached pairs, beside other libraries.
//!
//! These are encoding_rs with its default tables and with its fast ones, ICU and iconv.

use crate::decoding::Codec;
use crate::measure::{best_times, is_same, ratio_cell, speed, speed_cell, without, written, Call};
use crate::ours::{Calls, Ours};
use crate::peers::{self, Peer};
use crate::pieces::{Unit, PIECE};
use crate::rounds::measured;
use crate::theirs;
use encoding_rs::Encoding;
use std::collections::HashMap;

/// encoding_rs with its fast tables.
pub type FastEncoding = encoding_rs_fast::Encoding;

/// An encoding form of the input, with all libraries' calls that read it.
pub trait From {
    const NAME: &'static str;
    type Read: Unit;
    fn units(text: &str) -> Vec<Self::Read>;
    /// Returns the code units of code points. A surrogate is U+FFFD in UTF-8.
    fn of_code_points(codes: &[u32]) -> Vec<Self::Read>;
    fn ours(ours: &Ours, calls: Calls, src: &[Self::Read], dst: &mut [u8], piece: usize, rounds: usize) -> usize;
    fn theirs(encoding: &'static Encoding, calls: Calls, src: &[Self::Read], dst: &mut [u8], piece: usize, rounds: usize) -> usize;
    fn fast(encoding: &'static FastEncoding, calls: Calls, src: &[Self::Read], dst: &mut [u8], piece: usize, rounds: usize) -> usize;
    fn peer(peer: &dyn Peer, src: &[Self::Read], dst: &mut [u8], piece: usize, rounds: usize) -> usize;
}

pub struct FromUtf8;
pub struct FromUtf16;

impl From for FromUtf8 {
    const NAME: &'static str = "from UTF-8";
    type Read = u8;

    fn units(text: &str) -> Vec<u8> {
        text.as_bytes().to_vec()
    }

    fn of_code_points(codes: &[u32]) -> Vec<u8> {
        let text: String = codes.iter().map(|code| char::from_u32(*code).unwrap_or(char::REPLACEMENT_CHARACTER)).collect();
        text.into_bytes()
    }

    fn ours(ours: &Ours, calls: Calls, src: &[u8], dst: &mut [u8], piece: usize, rounds: usize) -> usize {
        ours.from_utf8(calls, src, dst, piece, rounds)
    }

    fn theirs(encoding: &'static Encoding, calls: Calls, src: &[u8], dst: &mut [u8], piece: usize, rounds: usize) -> usize {
        match calls {
            Calls::Raw => theirs::from_utf8(encoding, src, dst, piece, rounds),
            Calls::Replacing => theirs::replacing_from_utf8(encoding, src, dst, piece, rounds),
        }
    }

    fn fast(encoding: &'static FastEncoding, calls: Calls, src: &[u8], dst: &mut [u8], piece: usize, rounds: usize) -> usize {
        match calls {
            Calls::Raw => theirs::fast_from_utf8(encoding, src, dst, piece, rounds),
            Calls::Replacing => theirs::fast_replacing_from_utf8(encoding, src, dst, piece, rounds),
        }
    }

    fn peer(peer: &dyn Peer, src: &[u8], dst: &mut [u8], piece: usize, rounds: usize) -> usize {
        peer.from_utf8(src, dst, piece, rounds)
    }
}

impl From for FromUtf16 {
    const NAME: &'static str = "from UTF-16";
    type Read = u16;

    fn units(text: &str) -> Vec<u16> {
        text.encode_utf16().collect()
    }

    fn of_code_points(codes: &[u32]) -> Vec<u16> {
        let mut units = Vec::new();
        for code in codes {
            match char::from_u32(*code) {
                Some(c) => units.extend_from_slice(c.encode_utf16(&mut [0; 2])),
                None => units.push(*code as u16),
            }
        }
        units
    }

    fn ours(ours: &Ours, calls: Calls, src: &[u16], dst: &mut [u8], piece: usize, rounds: usize) -> usize {
        ours.from_utf16(calls, src, dst, piece, rounds)
    }

    fn theirs(encoding: &'static Encoding, calls: Calls, src: &[u16], dst: &mut [u8], piece: usize, rounds: usize) -> usize {
        match calls {
            Calls::Raw => theirs::from_utf16(encoding, src, dst, piece, rounds),
            Calls::Replacing => theirs::replacing_from_utf16(encoding, src, dst, piece, rounds),
        }
    }

    fn fast(encoding: &'static FastEncoding, calls: Calls, src: &[u16], dst: &mut [u8], piece: usize, rounds: usize) -> usize {
        match calls {
            Calls::Raw => theirs::fast_from_utf16(encoding, src, dst, piece, rounds),
            Calls::Replacing => theirs::fast_replacing_from_utf16(encoding, src, dst, piece, rounds),
        }
    }

    fn peer(peer: &dyn Peer, src: &[u16], dst: &mut [u8], piece: usize, rounds: usize) -> usize {
        peer.from_utf16(src, dst, piece, rounds)
    }
}

/// Returns a call of ours.
pub fn ours<'a, D: From>(ours: &'a Ours, calls: Calls, src: &'a [D::Read], piece: usize, rounds: usize) -> Call<'a, u8> {
    Box::new(move |dst: &mut [u8]| D::ours(ours, calls, src, dst, piece, rounds))
}

/// Returns a raw call of encoding_rs with its default tables.
pub fn theirs<'a, D: From>(encoding: &'static Encoding, src: &'a [D::Read], piece: usize, rounds: usize) -> Call<'a, u8> {
    Box::new(move |dst: &mut [u8]| D::theirs(encoding, Calls::Raw, src, dst, piece, rounds))
}

/// Returns a call of encoding_rs with its fast tables.
pub fn fast<'a, D: From>(encoding: &'static FastEncoding, calls: Calls, src: &'a [D::Read], piece: usize, rounds: usize) -> Call<'a, u8> {
    Box::new(move |dst: &mut [u8]| D::fast(encoding, calls, src, dst, piece, rounds))
}

fn peer<'a, D: From>(peer: &'a dyn Peer, src: &'a [D::Read], piece: usize, rounds: usize) -> Call<'a, u8> {
    Box::new(move |dst: &mut [u8]| D::peer(peer, src, dst, piece, rounds))
}

/// Returns room for the encoded text: a reference has at most ten bytes.
pub fn room<U>(src: &[U]) -> Vec<u8> {
    vec![0; src.len() * 10 + 64]
}

/// Returns the encoding of the same name with fast tables.
pub fn fast_encoding(encoding: &'static Encoding) -> Result<&'static FastEncoding, String> {
    FastEncoding::for_label(encoding.name().as_bytes()).ok_or_else(|| format!("no {}", encoding.name()))
}

/// Compares our output with that of encoding_rs, whole and in pieces.
pub fn compare<D: From>(codec: &Ours, encoding: &'static Encoding, calls: Calls, src: &[D::Read]) -> Result<(), String> {
    let mut dst = room(src);
    let wanted = match calls {
        Calls::Raw => written(&theirs::<D>(encoding, src, 0, 1), &mut dst),
        Calls::Replacing => written(&fast::<D>(fast_encoding(encoding)?, calls, src, 0, 1), &mut dst),
    };
    for piece in [0, 1, 7, PIECE] {
        is_same(&wanted, &ours::<D>(codec, calls, src, piece, 1), &mut dst)
            .map_err(|error| format!("{} in pieces of {piece}: {error}", D::NAME))?;
    }
    Ok(())
}

/// All encoders that write a line's text.
struct Writers<'a> {
    codec: &'a Codec,
    ours: &'a Ours,
    fast: &'static FastEncoding,
    icu: Option<Box<dyn Peer>>,
    iconv: Option<Box<dyn Peer>>,
}

impl<'a> Writers<'a> {
    fn new(codec: &'a Codec, ours: &'a Ours) -> Result<Writers<'a>, String> {
        let name = codec.encoding.name();
        Ok(Writers { codec, ours, fast: fast_encoding(codec.encoding)?, icu: peers::icu(name), iconv: peers::glibc(name) })
    }

    /// Returns the text without the characters for which another library has other bytes, so that all write the same.
    fn alike(&self, text: &str) -> String {
        let mut known: HashMap<char, bool> = HashMap::new();
        let mut is_alike = |c: &char| *known.entry(*c).or_insert_with(|| self.is_alike(*c));
        text.chars().filter(|c| is_alike(c)).collect()
    }

    fn is_alike(&self, c: char) -> bool {
        let text = c.to_string();
        let mut dst = [0; 64];
        let wanted = self.codec.encoding.encode(&text).0;
        [&self.icu, &self.iconv].into_iter().flatten().all(|peer| {
            [peer.from_utf8(text.as_bytes(), &mut dst, 0, 1), peer.from_utf16(&FromUtf16::units(&text), &mut dst, 0, 1)]
                .iter()
                .all(|length| dst[..*length] == *wanted)
        })
    }

    /// Compares all outputs, and drops a library that writes something else.
    fn compare<D: From>(&mut self, src: &[D::Read]) -> Result<(), String> {
        let encoding = self.codec.encoding;
        compare::<D>(self.ours, encoding, Calls::Raw, src)?;
        let mut dst = room(src);
        let wanted = written(&fast::<D>(self.fast, Calls::Raw, src, 0, 1), &mut dst);
        is_same(&wanted, &theirs::<D>(encoding, src, 0, 1), &mut dst).map_err(|error| format!("encoding_rs's two builds: {error}"))?;
        for (name, library) in [("ICU", &mut self.icu), ("iconv", &mut self.iconv)] {
            let Some(other) = library.as_deref() else { continue };
            let mut same = |piece| is_same(&wanted, &peer::<D>(other, src, piece, 1), &mut dst);
            if let Err(error) = same(0).and_then(|()| same(PIECE)) {
                eprintln!("{name} is left out of {} {}: {error}", encoding.name(), D::NAME);
                *library = None;
            }
        }
        Ok(())
    }

    /// Returns the cells of one source, with or without those of the default tables.
    fn cells<D: From>(&self, src: &[D::Read], piece: usize, rounds: usize, times: usize, with_default: bool) -> String {
        let calls = [
            with_default.then(|| theirs::<D>(self.codec.encoding, src, piece, rounds)),
            Some(fast::<D>(self.fast, Calls::Raw, src, piece, rounds)),
            self.icu.as_deref().map(|icu| peer::<D>(icu, src, piece, rounds)),
            self.iconv.as_deref().map(|iconv| peer::<D>(iconv, src, piece, rounds)),
            Some(ours::<D>(self.ours, Calls::Raw, src, piece, rounds)),
            Some(ours::<D>(self.ours, Calls::Raw, src, piece, 0)),
        ];
        let best = best_times(&calls, src, &mut room(src), times);
        let bytes = size_of_val(src) * rounds;
        let others: Vec<Option<f64>> = best[..4].iter().map(|time| speed(bytes, *time)).collect();
        let ours = speed(bytes, without(best[4], best[5]));
        let first = others.iter().flatten().copied().fold(None, |most: Option<f64>, speed| Some(most.map_or(speed, |most| most.max(speed))));
        let mut cells = String::new();
        if with_default {
            cells += &speed_cell(others[0]);
        }
        for other in &others[1..] {
            cells += &speed_cell(*other);
        }
        cells += &speed_cell(ours);
        if with_default {
            cells += &ratio_cell(ours, others[0]);
        }
        cells + &ratio_cell(ours, others[1]) + &ratio_cell(ours, first)
    }

    fn line<D: From>(&mut self, corpus: &str, long: &str, short: &str, times: usize) -> Result<(), String> {
        let name = self.codec.encoding.name();
        let (long, short) = (D::units(long), D::units(short));
        for src in [&long, &short] {
            self.compare::<D>(src).map_err(|error| format!("{corpus} {name}: {error}"))?;
        }
        print!("| {corpus} | {name} | {} |", D::NAME);
        for (at, (src, piece, rounds)) in measured(corpus, &long, &short).into_iter().enumerate() {
            print!("{}", self.cells::<D>(src, piece, rounds, times, at == 0));
        }
        println!();
        Ok(())
    }
}

pub fn heading() -> String {
    let others = "ICU | iconv | ours";
    let columns = [
        format!("encoding_rs MB/s, 3 MB | its fast tables | {others} | ratio to encoding_rs | ratio to fast tables | ratio to the fastest"),
        format!("fast tables, short | {others} | ratio to fast tables | ratio to the fastest"),
        format!("fast tables, pieces of 64 | {others} | ratio to fast tables | ratio to the fastest"),
    ];
    format!("| corpus | encoding | encoding | {} |\n|{}", columns.join(" | "), "---|".repeat(23))
}

/// Decodes the bytes, without a character that is cut off at the end.
pub fn decoded(encoding: &'static Encoding, bytes: &[u8]) -> String {
    let text = encoding.decode_without_bom_handling(bytes).0;
    text.trim_end_matches('\u{FFFD}').to_string()
}

/// Prints the two lines of an encoder, if the encoding has one. It encodes the output of the decoder.
pub fn lines(corpus: &str, codec: &Codec, ours: &Ours, long: &[u8], short: &[u8], times: usize) -> Result<(), String> {
    let encoding = codec.encoding;
    if encoding.output_encoding() != encoding {
        return Ok(());
    }
    let text = |bytes: &[u8]| -> Result<String, String> { Ok(Writers::new(codec, ours)?.alike(&decoded(encoding, bytes))) };
    let (long, short) = (text(long)?, text(short)?);
    Writers::new(codec, ours)?.line::<FromUtf8>(corpus, &long, &short, times)?;
    Writers::new(codec, ours)?.line::<FromUtf16>(corpus, &long, &short, times)
}

/// Returns the heading of the table of encoders over flat tables.
pub fn flat_heading() -> String {
    format!("| corpus | encoding | encoding | encoding_rs MB/s, short | flat tables | packed tables | ratio of flat tables to encoding_rs |\n|{}", "---|".repeat(7))
}

fn flat_line<D: From>(corpus: &str, codec: &Codec, packed: &Ours, text: &str, times: usize) -> Result<(), String> {
    let src = D::units(text);
    compare::<D>(&codec.flat, codec.encoding, Calls::Raw, &src)?;
    let calls = [
        Some(theirs::<D>(codec.encoding, &src, 0, 1)),
        Some(ours::<D>(&codec.flat, Calls::Raw, &src, 0, 1)),
        Some(ours::<D>(&codec.flat, Calls::Raw, &src, 0, 0)),
        Some(ours::<D>(packed, Calls::Raw, &src, 0, 1)),
        Some(ours::<D>(packed, Calls::Raw, &src, 0, 0)),
    ];
    let best = best_times(&calls, &src, &mut room(&src), times);
    let bytes = size_of_val(src.as_slice());
    let (theirs, flat, packed) = (speed(bytes, best[0]), speed(bytes, without(best[1], best[2])), speed(bytes, without(best[3], best[4])));
    let cells = speed_cell(theirs) + &speed_cell(flat) + &speed_cell(packed) + &ratio_cell(flat, theirs);
    println!("| {corpus} | {} | {} |{cells}", codec.encoding.name(), D::NAME);
    Ok(())
}

/// Prints the two lines of an encoder over flat tables, if the codec can have packed ones. Over flat ones it searches.
pub fn flat_lines(corpus: &str, codec: &Codec, short: &[u8], times: usize) -> Result<(), String> {
    let Some(packed) = &codec.packed else { return Ok(()) };
    let text = decoded(codec.encoding, short);
    flat_line::<FromUtf8>(corpus, codec, packed, &text, times)?;
    flat_line::<FromUtf16>(corpus, codec, packed, &text, times)
}
