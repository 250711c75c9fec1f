//! Patterns: short inputs that are repeated to a source.
//!
//! A pattern is written as parts with blanks between them, each with the number of its repetitions, as
//! `A440*4 957B` or `U+0E01 ascii*16`:
//!
//! - bytes in hexadecimal, for a decoder;
//! - `U+` and code points in hexadecimal with commas between them, for an encoder, surrogates among them;
//! - `ascii`, `text` and `html`, whose repetitions are characters of an ASCII text, of the corpus of the encoding, and of
//!   its corpus with tags.

use crate::encoding::decoded;
use crate::{corpora, Language, CORPORA};
use encoding_rs::{Encoding, UTF_16BE, UTF_16LE};
use std::fmt::{self, Display, Formatter};
use std::str::FromStr;

/// The text of the parts `ascii`.
const ASCII: &str = "The quick brown fox jumps over 13 lazy dogs, and they sleep on; who would wake them (at 7:45)? ";

/// The number of characters of a corpus that patterns have.
const TEXT_LENGTH: usize = 120_000;

/// What a part repeats.
#[derive(Clone, PartialEq, Eq)]
pub enum Repeated {
    Bytes(Vec<u8>),
    CodePoints(Vec<u32>),
    Ascii,
    Text,
    Html,
}

/// A part of a pattern.
#[derive(Clone, PartialEq, Eq)]
pub struct Part {
    pub repeated: Repeated,
    pub count: usize,
}

/// How a source is cut into calls.
#[derive(Clone, Copy, PartialEq, Eq)]
pub enum Cut {
    Whole,
    Pieces(usize),
    Lines,
}

/// A pattern.
#[derive(Clone, PartialEq, Eq)]
pub struct Pattern {
    pub parts: Vec<Part>,
    pub cut: Cut,
}

/// The texts that patterns contain.
pub struct Texts {
    text: Vec<char>,
    html: Vec<char>,
}

impl Texts {
    /// Returns the corpora of a language, as the encoding has them.
    pub fn of(encoding: &'static Encoding, language: &Language) -> Result<Texts, String> {
        let (folder, _, share, _) = language;
        let pages = corpora::html(folder).map_err(|error| format!("{folder}: {error}"))?;
        let kept = |text: &str| {
            let front: String = text.chars().take(TEXT_LENGTH).collect();
            decoded(encoding, &corpora::encode_once(encoding, &front)).chars().collect()
        };
        Ok(Texts { text: kept(&corpora::text(&pages, *share)), html: kept(&pages) })
    }
}

/// Returns the language of the patterns of an encoding: the last one with it, Chinese for UTF-16, and French for those
/// without one.
pub fn language_of(label: &str) -> Option<&'static Language> {
    let wanted = match label {
        "UTF-16LE" | "UTF-16BE" => "gb18030",
        _ => label,
    };
    let last = |label: &str| CORPORA.iter().rev().find(|(_, _, _, encodings)| encodings.contains(&label));
    last(wanted).or_else(|| last("windows-1252"))
}

/// Returns the first characters of a text, which is repeated if it has too few.
fn front(text: &[char], count: usize) -> impl Iterator<Item = u32> + '_ {
    text.iter().cycle().take(count).map(|c| u32::from(*c))
}

/// Checks whether the encoding is a form of UTF-16.
fn is_utf16(encoding: &'static Encoding) -> bool {
    encoding == UTF_16LE || encoding == UTF_16BE
}

/// Returns the bytes of a text that the encoding has.
fn encoded(encoding: &'static Encoding, text: &str) -> Vec<u8> {
    if is_utf16(encoding) { corpora::encode_once(encoding, text) } else { encoding.encode(text).0.into_owned() }
}

impl Pattern {
    /// Returns the code points of one repetition of a pattern for an encoder.
    pub fn code_points_once(&self, texts: &Texts) -> Vec<u32> {
        let mut codes = Vec::new();
        for Part { repeated, count } in &self.parts {
            match repeated {
                Repeated::Bytes(_) => {}
                Repeated::CodePoints(some) => codes.extend(some.repeat(*count)),
                Repeated::Ascii => codes.extend(ASCII.chars().cycle().take(*count).map(u32::from)),
                Repeated::Text => codes.extend(front(&texts.text, *count)),
                Repeated::Html => codes.extend(front(&texts.html, *count)),
            }
        }
        codes
    }

    /// Returns one repetition of a pattern for a decoder.
    pub fn bytes_once(&self, encoding: &'static Encoding, texts: &Texts) -> Vec<u8> {
        let mut once = Vec::new();
        for part in &self.parts {
            match &part.repeated {
                Repeated::Bytes(bytes) => once.extend(bytes.repeat(part.count)),
                _ => {
                    let text = Pattern { parts: vec![part.clone()], cut: self.cut }.code_points_once(texts);
                    let text: String = text.into_iter().filter_map(char::from_u32).collect();
                    once.extend(encoded(encoding, &text));
                }
            }
        }
        once
    }
}

/// Returns a source of at least this length by repeating a pattern.
pub fn repeated<U: Copy>(once: &[U], length: usize) -> Vec<U> {
    once.repeat(length.div_ceil(once.len().max(1)))
}

/// Returns the lines of a decoder's source, each with its end.
pub fn byte_lines(encoding: &'static Encoding, src: &[u8]) -> Vec<Vec<u8>> {
    let end = encoded(encoding, "\n");
    let mut lines = vec![Vec::new()];
    for unit in src.chunks(end.len()) {
        if let Some(line) = lines.last_mut() {
            line.extend(unit);
        }
        if *unit == end {
            lines.push(Vec::new());
        }
    }
    lines.retain(|line| !line.is_empty());
    lines
}

impl FromStr for Part {
    type Err = String;

    fn from_str(word: &str) -> Result<Part, String> {
        let (what, count) = word.split_once('*').unwrap_or((word, "1"));
        let count = count.parse().map_err(|_| format!("{word}: no number"))?;
        let hex = |digits: &str| u32::from_str_radix(digits, 16).map_err(|_| format!("{word}: not hexadecimal"));
        let repeated = match (what, what.strip_prefix("U+")) {
            ("ascii", _) => Repeated::Ascii,
            ("text", _) => Repeated::Text,
            ("html", _) => Repeated::Html,
            (_, Some(codes)) => Repeated::CodePoints(codes.split(',').map(hex).collect::<Result<_, _>>()?),
            _ => {
                let digits = what.as_bytes().chunks(2).map(|two| hex(&String::from_utf8_lossy(two)));
                Repeated::Bytes(digits.map(|byte| byte.map(|byte| byte as u8)).collect::<Result<_, _>>()?)
            }
        };
        Ok(Part { repeated, count })
    }
}

impl FromStr for Pattern {
    type Err = String;

    /// Parses a cut and parts, as `whole A440*4 957B`, `8 ascii*8` or `lines html*100000`.
    fn from_str(line: &str) -> Result<Pattern, String> {
        let mut words = line.split_whitespace();
        let cut = match words.next() {
            Some("whole") => Cut::Whole,
            Some("lines") => Cut::Lines,
            Some(piece) => Cut::Pieces(piece.parse().map_err(|_| format!("{line}: no cut"))?),
            None => return Err("an empty pattern".to_string()),
        };
        Ok(Pattern { parts: words.map(str::parse).collect::<Result<_, _>>()?, cut })
    }
}

impl Display for Part {
    fn fmt(&self, f: &mut Formatter<'_>) -> fmt::Result {
        match &self.repeated {
            Repeated::Bytes(bytes) => bytes.iter().try_for_each(|byte| write!(f, "{byte:02X}"))?,
            Repeated::CodePoints(codes) => {
                let codes: Vec<String> = codes.iter().map(|code| format!("{code:04X}")).collect();
                write!(f, "U+{}", codes.join(","))?;
            }
            Repeated::Ascii => write!(f, "ascii")?,
            Repeated::Text => write!(f, "text")?,
            Repeated::Html => write!(f, "html")?,
        }
        if self.count == 1 { Ok(()) } else { write!(f, "*{}", self.count) }
    }
}

impl Display for Cut {
    fn fmt(&self, f: &mut Formatter<'_>) -> fmt::Result {
        match self {
            Cut::Whole => write!(f, "whole"),
            Cut::Lines => write!(f, "lines"),
            Cut::Pieces(piece) => write!(f, "{piece}"),
        }
    }
}

impl Display for Pattern {
    fn fmt(&self, f: &mut Formatter<'_>) -> fmt::Result {
        write!(f, "{}", self.cut)?;
        self.parts.iter().try_for_each(|part| write!(f, " {part}"))
    }
}
