//! The ways in which a pattern is converted, and our speed divided by encoding_rs's in each.

use crate::decoding::{self, Into, ToUtf16, ToUtf8};
use crate::encoding::{self, fast_encoding, FastEncoding, From, FromUtf16, FromUtf8};
use crate::measure::thread_time;
use crate::ours::{Calls, Kept, Ours};
use crate::pattern::{byte_lines, language_of, repeated, Cut, Pattern, Texts};
use crate::pieces::Unit;
use crate::{Language, PACKED};
use encoding_rs::Encoding;
use std::collections::BTreeMap;
use std::hint::black_box;
use std::time::{Duration, Instant};

/// What converts a pattern.
#[derive(Clone, Copy, PartialEq, Eq)]
pub enum Converter {
    /// The decoder over flat tables.
    Decoder,
    /// The encoder, with a list of pairs if it can have one.
    Encoder,
    /// The encoder over flat tables, which it searches.
    Searcher,
}

impl Converter {
    pub const ALL: [Converter; 3] = [Converter::Decoder, Converter::Encoder, Converter::Searcher];

    /// Returns the word for it in lines of patterns.
    pub fn word(self) -> &'static str {
        match self {
            Converter::Decoder => "decoder",
            Converter::Encoder => "encoder",
            Converter::Searcher => "searcher",
        }
    }

    /// Returns the least length of its sources in bytes or code points. A search takes long.
    fn length(self) -> usize {
        match self {
            Converter::Decoder => 8192,
            Converter::Encoder => 2048,
            Converter::Searcher => 256,
        }
    }
}

/// The form of the text, and the kind of the calls.
#[derive(Clone, Copy, PartialEq, Eq)]
pub struct Way {
    pub is_utf16: bool,
    pub calls: Calls,
}

impl Way {
    /// All ways, in the order of the columns of a table.
    pub const ALL: [Way; 4] = [
        Way { is_utf16: false, calls: Calls::Raw },
        Way { is_utf16: false, calls: Calls::Replacing },
        Way { is_utf16: true, calls: Calls::Raw },
        Way { is_utf16: true, calls: Calls::Replacing },
    ];

    pub fn name(self) -> &'static str {
        match (self.is_utf16, self.calls) {
            (false, Calls::Raw) => "UTF-8",
            (false, Calls::Replacing) => "UTF-8, replacing",
            (true, Calls::Raw) => "UTF-16",
            (true, Calls::Replacing) => "UTF-16, replacing",
        }
    }
}

/// How long a pattern is timed.
#[derive(Clone, Copy)]
pub struct Effort {
    /// How often each call is made, in turn with the others.
    pub turns: usize,
    /// About how long a call takes.
    pub span: Duration,
    /// After how long no further turn is begun.
    pub most: Duration,
    /// Whether the build of encoding_rs with fast tables is timed too.
    pub with_fast: bool,
}

/// A conversion that is made a number of times, to an output.
type Conversion<'a, W> = Box<dyn Fn(&mut [W], usize) -> usize + 'a>;

/// Returns the time of one round of each conversion: the best time of a call less that of a call without rounds.
///
/// A call has so many rounds that they take most of its time.
fn times<W>(conversions: &[Conversion<'_, W>], dst: &mut [W], effort: Effort) -> Vec<f64> {
    let mut time = |conversion: &Conversion<'_, W>, rounds: usize| {
        let start = thread_time();
        black_box(conversion(dst, rounds));
        thread_time() - start
    };
    let mut rounds_of = |conversion: &Conversion<'_, W>| {
        let none = time(conversion, 0).min(time(conversion, 0));
        let (span, mut rounds) = (effort.span.max(none * 2), 1);
        while time(conversion, rounds).saturating_sub(none) < span {
            rounds *= 2;
        }
        rounds
    };
    let rounds: Vec<usize> = conversions.iter().map(&mut rounds_of).collect();
    let mut least = vec![(Duration::MAX, Duration::MAX); conversions.len()];
    let end = Instant::now() + effort.most;
    for turn in 0..effort.turns {
        if turn > 0 && Instant::now() > end {
            break;
        }
        for ((conversion, rounds), (none, all)) in conversions.iter().zip(&rounds).zip(&mut least) {
            *none = time(conversion, 0).min(*none);
            *all = time(conversion, *rounds).min(*all);
        }
    }
    least.iter().zip(rounds).map(|((none, all), rounds)| all.saturating_sub(*none).as_secs_f64().max(1e-12) / rounds as f64).collect()
}

/// Our speed divided by that of encoding_rs, and by that of its build with fast tables if that is timed.
#[derive(Clone, Copy)]
pub struct Ratios {
    pub default: f64,
    pub fast: f64,
}

/// Sources, each with the length of its pieces.
type Batches<U> = Vec<(Vec<U>, usize)>;

/// Returns lines as sources whose pieces are lines: one for each length.
fn by_length<U: Unit>(lines: Vec<Vec<U>>) -> Batches<U> {
    let mut lengths: BTreeMap<usize, Vec<U>> = BTreeMap::new();
    for line in lines {
        lengths.entry(line.len()).or_default().extend(line);
    }
    lengths.into_iter().map(|(length, lines)| (lines, length)).collect()
}

/// Returns the sources of a pattern that are cut likewise.
fn batches<U: Unit>(cut: Cut, src: Vec<U>, lines: impl Fn(&[U]) -> Vec<Vec<U>>) -> Batches<U> {
    match cut {
        Cut::Whole => vec![(src, 0)],
        Cut::Pieces(piece) => vec![(src, piece)],
        Cut::Lines => by_length(lines(&src)),
    }
}

/// Returns a conversion of all sources by a function of source, output, length of pieces and rounds.
fn conversion<'a, U, W>(sources: &'a Batches<U>, convert: impl Fn(&[U], &mut [W], usize, usize) -> usize + 'a) -> Conversion<'a, W> {
    Box::new(move |dst, rounds| sources.iter().map(|(src, piece)| convert(src, dst, *piece, rounds)).sum())
}

/// Returns how long the output must be for each source.
fn longest<U>(sources: &Batches<U>) -> usize {
    sources.iter().map(|(src, _)| src.len()).max().unwrap_or(0)
}

/// Checks that conversions of each source write the same.
fn check<U, W: Copy + PartialEq + Default>(
    sources: &Batches<U>,
    dst: &mut [W],
    wanted: impl Fn(&[U], &mut [W], usize) -> usize,
    given: impl Fn(&[U], &mut [W], usize) -> usize,
) -> Result<(), String> {
    for (src, piece) in sources {
        let length = wanted(src, dst, *piece);
        let wanted = dst[..length].to_vec();
        dst[..length].fill(W::default());
        let length = given(src, dst, *piece);
        if dst.get(..length) != Some(&wanted) {
            let place = (0..wanted.len()).find(|at| dst[*at] != wanted[*at]);
            return Err(format!("{length} units, not {}; first difference at {place:?}", wanted.len()));
        }
    }
    Ok(())
}

/// An encoding with our codecs, and the texts of its patterns.
pub struct Subject {
    pub encoding: &'static Encoding,
    fast: &'static FastEncoding,
    flat: Ours,
    listed: Option<Ours>,
    pub texts: Texts,
}

impl Subject {
    /// Returns the codecs of an encoding, with the texts of the language that patterns have in it.
    pub fn new(label: &str) -> Result<Subject, String> {
        Subject::over(label, language_of(label).ok_or("no corpus")?)
    }

    /// Returns the codecs of an encoding, with the texts of a language.
    pub fn over(label: &str, language: &Language) -> Result<Subject, String> {
        let encoding = Encoding::for_label(label.as_bytes()).ok_or_else(|| format!("{label}: no such encoding"))?;
        let listed = PACKED.contains(&encoding.name()).then(|| Ours::new(encoding, Kept::Flat).with_list());
        let (fast, flat, texts) = (fast_encoding(encoding)?, Ours::new(encoding, Kept::Flat), Texts::of(encoding, language)?);
        Ok(Subject { encoding, fast, flat, listed, texts })
    }

    /// Checks whether the encoding has such a converter of its own.
    pub fn has(&self, converter: Converter) -> bool {
        match converter {
            Converter::Decoder => true,
            Converter::Encoder => self.encoding.output_encoding() == self.encoding,
            Converter::Searcher => self.listed.is_some(),
        }
    }

    fn decoder_ratios<D: Into>(&self, calls: Calls, pattern: &Pattern, effort: Effort) -> Result<Ratios, String> {
        let encoding = self.encoding;
        let src = repeated(&pattern.bytes_once(encoding, &self.texts), Converter::Decoder.length());
        let sources = batches(pattern.cut, src, |src| byte_lines(encoding, src));
        let mut dst = vec![D::Written::default(); longest(&sources) * 3 + 64];
        let theirs = |src: &[u8], dst: &mut [D::Written], piece, rounds| D::theirs(encoding, calls, src, dst, piece, rounds);
        let ours = |src: &[u8], dst: &mut [D::Written], piece, rounds| D::ours(&self.flat, calls, src, dst, piece, rounds);
        check(&sources, &mut dst, |src, dst, _| theirs(src, dst, 0, 1), |src, dst, piece| ours(src, dst, piece, 1))?;
        let times = times(&[conversion(&sources, theirs), conversion(&sources, ours)], &mut dst, effort);
        Ok(Ratios { default: times[0] / times[1], fast: times[0] / times[1] })
    }

    fn encoder_ratios<D: From>(&self, (ours, length): (&Ours, usize), calls: Calls, pattern: &Pattern, effort: Effort) -> Result<Ratios, String> {
        let (encoding, fast) = (self.encoding, self.fast);
        let src = D::of_code_points(&repeated(&pattern.code_points_once(&self.texts), length));
        let sources = batches(pattern.cut, src, |src| src.split_inclusive(|unit| *unit == D::Read::LINE_END).map(<[D::Read]>::to_vec).collect());
        let mut dst = vec![0; longest(&sources) * 10 + 64];
        let theirs = |src: &[D::Read], dst: &mut [u8], piece, rounds| D::theirs(encoding, calls, src, dst, piece, rounds);
        let fast = |src: &[D::Read], dst: &mut [u8], piece, rounds| D::fast(fast, calls, src, dst, piece, rounds);
        let ours = |src: &[D::Read], dst: &mut [u8], piece, rounds| D::ours(ours, calls, src, dst, piece, rounds);
        check(&sources, &mut dst, |src, dst, _| theirs(src, dst, 0, 1), |src, dst, piece| ours(src, dst, piece, 1))?;
        let mut conversions = vec![conversion(&sources, ours), conversion(&sources, theirs)];
        if effort.with_fast {
            conversions.push(conversion(&sources, fast));
        }
        let times = times(&conversions, &mut dst, effort);
        Ok(Ratios { default: times[1] / times[0], fast: times.last().unwrap_or(&0.0) / times[0] })
    }

    /// Compares the outputs of both libraries for a pattern, and returns our speed divided by that of encoding_rs.
    pub fn ratios(&self, converter: Converter, way: Way, pattern: &Pattern, effort: Effort) -> Result<Ratios, String> {
        let encoder = match converter {
            Converter::Decoder => None,
            Converter::Encoder => Some((self.listed.as_ref().unwrap_or(&self.flat), converter.length())),
            Converter::Searcher => Some((&self.flat, converter.length())),
        };
        let ratios = match (encoder, way.is_utf16) {
            (None, false) => self.decoder_ratios::<ToUtf8>(way.calls, pattern, effort),
            (None, true) => self.decoder_ratios::<ToUtf16>(way.calls, pattern, effort),
            (Some(ours), false) => self.encoder_ratios::<FromUtf8>(ours, way.calls, pattern, effort),
            (Some(ours), true) => self.encoder_ratios::<FromUtf16>(ours, way.calls, pattern, effort),
        };
        ratios.map_err(|error| format!("{} {} {pattern}, {}: {error}", converter.word(), self.encoding.name(), way.name()))
    }
}
