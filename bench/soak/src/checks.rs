//! The comparisons of a round.

use crate::calls::{Cut, Library};
use crate::codec::Codec;
use crate::model::{self, Pointers};
use crate::numbers::Numbers;
use crate::ours::{Calls, Kept};
use crate::sources;
use crate::tables::Tables;
use encoding_rs::{CoderResult, DecoderResult, EncoderResult, Encoding};
use std::fmt;

/// How much was tried.
#[derive(Clone, Copy, Default)]
pub struct Count {
    pub standard_rounds: u64,
    pub odd_rounds: u64,
    pub spoiled: u64,
    decoded: u64,
    bytes: u64,
    encoded: u64,
    units: u64,
    calls: u64,
    over_packed: u64,
    ahead: u64,
    with_replacement: u64,
}

impl Count {
    pub fn add(&mut self, other: &Count) {
        self.standard_rounds += other.standard_rounds;
        self.odd_rounds += other.odd_rounds;
        self.spoiled += other.spoiled;
        self.decoded += other.decoded;
        self.bytes += other.bytes;
        self.encoded += other.encoded;
        self.units += other.units;
        self.calls += other.calls;
        self.over_packed += other.over_packed;
        self.ahead += other.ahead;
        self.with_replacement += other.with_replacement;
    }

    fn add_call(&mut self, cut: Cut) {
        self.calls += 1;
        self.over_packed += u64::from(cut.kept != Kept::Flat);
        self.ahead += u64::from(cut.kept == Kept::Ahead);
        self.with_replacement += u64::from(cut.calls == Calls::Replacing);
    }
}

impl fmt::Display for Count {
    fn fmt(&self, f: &mut fmt::Formatter) -> fmt::Result {
        let Count { standard_rounds, odd_rounds, spoiled, decoded, bytes, encoded, units, calls, .. } = self;
        write!(f, " {standard_rounds} | {odd_rounds} | {spoiled} | {decoded} | {bytes} | {encoded} | {units} | {calls} |")?;
        write!(f, " {} | {} | {} |", self.over_packed, self.ahead, self.with_replacement)
    }
}

/// The ways to keep tables, and to cache pairs.
const KEPT: [Kept; 3] = [Kept::Flat, Kept::Packed, Kept::Ahead];

/// The kinds of calls.
const CALLS: [Calls; 2] = [Calls::Raw, Calls::Replacing];

/// Checks that the codec's functions refuse the tables if they are kept in these ways.
pub fn refuses(codec: Codec, library: &Library, kept: &[Kept]) -> Result<(), String> {
    for (kept, calls) in kept.iter().flat_map(|kept| CALLS.map(|calls| (*kept, calls))) {
        let cut = Cut { kept, calls, piece: 0, room: 16 };
        if library.to_utf8(b"a", cut)?.is_some() || library.to_utf16(b"a", cut)?.is_some() {
            return Err(format!("the decoder took it: {cut:?}"));
        }
        let looks = codec.has_encoder();
        if looks && library.from_utf8(b"a", cut)?.is_some() || looks && library.from_utf16(&[0x61], cut)?.is_some() {
            return Err(format!("the encoder took it: {cut:?}"));
        }
    }
    Ok(())
}

/// The most room that the next write may need.
///
/// It is four bytes of UTF-8 or of an encoder's output, and two code units of UTF-16. A call with replacement may need
/// ten more bytes, for a reference.
pub const ROOM_IN_BYTES: usize = 4;
pub const ROOM_IN_UNITS: usize = 2;
pub const ROOM_WITH_REFERENCE: usize = 14;

/// Returns cuts to try by these calls, each over tables of some kind.
///
/// They are the whole source, pieces, and outputs that are too small.
fn cuts(numbers: &mut Numbers, calls: Calls, source: usize, output: usize) -> Vec<Cut> {
    let ample = output + 16;
    let small = |numbers: &mut Numbers| numbers.below(output + 4);
    let mut cuts = vec![
        (0, ample),
        (numbers.within(1, source.clamp(1, 40)), ample),
        (0, small(numbers)),
        (numbers.within(1, 9), small(numbers)),
    ];
    if numbers.once_in(4) {
        cuts.push((1, ample));
    }
    let mut cut = |(piece, room)| Cut { kept: numbers.of(&KEPT), calls, piece, room };
    cuts.into_iter().map(&mut cut).collect()
}

/// Checks that the output is all of the wanted one, or a prefix of it.
///
/// A prefix must end between two characters, with no room for more.
pub fn is_front<U: Copy + PartialEq + fmt::Debug>(
    came: &[U],
    wanted: &[U],
    cut: Cut,
    room: usize,
    is_between: impl Fn(&[U], usize) -> bool,
) -> Result<(), String> {
    let place = came.iter().zip(wanted).position(|(came, wanted)| came != wanted);
    if let Some(place) = place {
        let around = |units: &[U]| format!("{:X?}", &units[place.saturating_sub(4)..units.len().min(place + 8)]);
        return Err(format!("{cut:?}: at {place} came {}, wanted {}", around(came), around(wanted)));
    }
    if came.len() > wanted.len() {
        return Err(format!("{cut:?}: {} code units came, {} are wanted", came.len(), wanted.len()));
    }
    if came.len() < wanted.len() && cut.room - came.len() >= room {
        return Err(format!("{cut:?}: it stopped at {} of {} with room for more", came.len(), wanted.len()));
    }
    if !is_between(wanted, came.len()) {
        return Err(format!("{cut:?}: it stopped at {} within a character", came.len()));
    }
    Ok(())
}

/// Checks whether the place in a text in UTF-8 is between two characters.
pub fn is_between_bytes(text: &[u8], place: usize) -> bool {
    text.get(place).is_none_or(|byte| byte & 0xC0 != 0x80)
}

/// Checks whether the place in a text in UTF-16 is between two characters.
pub fn is_between_units(units: &[u16], place: usize) -> bool {
    units.get(place).is_none_or(|unit| unit & 0xFC00 != 0xDC00)
}

/// A codec, its tables, and the encoding of encoding_rs if the tables are that encoding's own.
pub struct Round<'a> {
    library: Library,
    codec: Codec,
    tables: &'a Tables,
    theirs: Option<&'static Encoding>,
    pointers: Pointers,
    scalars: Vec<char>,
}

impl<'a> Round<'a> {
    pub fn new(codec: Codec, tables: &'a Tables, theirs: Option<&'static Encoding>) -> Round<'a> {
        let pointers = model::pointers(codec, tables);
        let mut scalars: Vec<char> = pointers.keys().copied().collect();
        scalars.sort_unstable();
        Round { library: Library::new(codec, tables), codec, tables, theirs, pointers, scalars }
    }

    /// Decodes a source to UTF-8 and to UTF-16 in several cuts.
    pub fn decodes(&self, numbers: &mut Numbers, count: &mut Count) -> Result<(), String> {
        let source = sources::bytes(self.codec, self.tables, &self.pointers, &self.scalars, numbers);
        let text: String = model::decoders::decode(self.codec, self.tables, &source).into_iter().collect();
        let units: Vec<u16> = text.encode_utf16().collect();
        let failed = |error| format!("{error}\nsource: {source:02X?}");
        if let Some(encoding) = self.theirs {
            let theirs = decoded_by_theirs(encoding, &source);
            if theirs != text {
                return Err(failed(format!("encoding_rs and the model differ: {theirs:?}, {text:?}")));
            }
        }
        let calls = numbers.of(&CALLS);
        for cut in cuts(numbers, calls, source.len(), text.len()) {
            let came = self.library.to_utf8(&source, cut).map_err(failed)?.ok_or("refused")?;
            is_front(&came, text.as_bytes(), cut, ROOM_IN_BYTES, is_between_bytes).map_err(|error| failed(format!("to UTF-8, {error}")))?;
            count.add_call(cut);
        }
        let calls = numbers.of(&CALLS);
        for cut in cuts(numbers, calls, source.len(), units.len()) {
            let came = self.library.to_utf16(&source, cut).map_err(failed)?.ok_or("refused")?;
            is_front(&came, &units, cut, ROOM_IN_UNITS, is_between_units).map_err(|error| failed(format!("to UTF-16, {error}")))?;
            count.add_call(cut);
        }
        count.decoded += 1;
        count.bytes += source.len() as u64;
        Ok(())
    }

    /// Encodes a text from UTF-8 and from UTF-16 in several cuts, and decodes the result.
    pub fn encodes(&self, numbers: &mut Numbers, count: &mut Count) -> Result<(), String> {
        let units = sources::any_text(numbers, &self.scalars);
        let scalars = sources::text_of(&units);
        let text: String = scalars.iter().collect();
        let failed = |error| format!("{error}\nunits: {units:04X?}");
        let with_marks = self.wanted(&scalars, Calls::Raw).map_err(failed)?;
        let with_references = self.wanted(&scalars, Calls::Replacing).map_err(failed)?;
        let wanted = |calls| match calls {
            Calls::Raw => (&with_marks, ROOM_IN_BYTES),
            Calls::Replacing => (&with_references, ROOM_WITH_REFERENCE),
        };
        let any = |_: &[u8], _: usize| true;
        let calls = numbers.of(&CALLS);
        let (bytes, room) = wanted(calls);
        for cut in cuts(numbers, calls, text.len(), bytes.len()) {
            let came = self.library.from_utf8(text.as_bytes(), cut).map_err(failed)?.ok_or("refused")?;
            is_front(&came, bytes, cut, room, any).map_err(|error| failed(format!("from UTF-8, {error}")))?;
            count.add_call(cut);
        }
        let calls = numbers.of(&CALLS);
        let (bytes, room) = wanted(calls);
        for cut in cuts(numbers, calls, units.len(), bytes.len()) {
            let came = self.library.from_utf16(&units, cut).map_err(failed)?.ok_or("refused")?;
            is_front(&came, bytes, cut, room, any).map_err(|error| failed(format!("from UTF-16, {error}")))?;
            count.add_call(cut);
        }
        self.decodes_back(&scalars, &with_marks, count).map_err(failed)?;
        count.encoded += 1;
        count.units += units.len() as u64;
        Ok(())
    }

    /// Returns what such calls must write for the scalars, by the model. encoding_rs must agree with it.
    fn wanted(&self, scalars: &[char], calls: Calls) -> Result<Vec<u8>, String> {
        let wanted = model::encoders::encode(self.codec, self.tables, &self.pointers, scalars, calls);
        if let Some(encoding) = self.theirs {
            let theirs = encoded_by_theirs(encoding, &scalars.iter().collect::<String>(), calls);
            if theirs != wanted {
                return Err(format!("encoding_rs and the model differ: {calls:?}: {theirs:02X?}, {wanted:02X?}"));
            }
        }
        Ok(wanted)
    }

    /// Checks that the encoded bytes decode to one scalar for each scalar of the text.
    ///
    /// It is the scalar itself, a question mark if that is unmappable, or the scalar with whose bytes it is encoded.
    fn decodes_back(&self, scalars: &[char], encoded: &[u8], count: &mut Count) -> Result<(), String> {
        let is_gb18030 = matches!(self.codec, Codec::Gbk | Codec::Gb18030);
        if is_gb18030 && scalars.iter().any(|scalar| model::side_table(*scalar).is_some()) {
            // The bytes of a row of the side table are decoded by the index, which may have no entry there.
            return Ok(());
        }
        let cut = Cut { kept: Kept::Packed, calls: Calls::Raw, piece: 0, room: scalars.len() * 4 + 16 };
        let back = self.library.to_utf8(encoded, cut)?.ok_or("refused")?;
        count.add_call(cut);
        let back = std::str::from_utf8(&back).map_err(|error| format!("no UTF-8: {error}"))?;
        let back: Vec<char> = back.chars().collect();
        if back.len() != scalars.len() {
            return Err(format!("{} scalars were encoded, and {} come back", scalars.len(), back.len()));
        }
        let differs = |(came, scalar): &(&char, &char)| came != scalar && **came != '?' && !is_fold(**scalar);
        match back.iter().zip(scalars).find(differs) {
            Some((came, scalar)) => Err(format!("{scalar:?} was encoded, and {came:?} comes back")),
            None => Ok(()),
        }
    }
}

/// Checks whether some codec encodes the scalar with the bytes of another.
pub fn is_fold(scalar: char) -> bool {
    matches!(scalar, '\u{2212}' | '\u{A5}' | '\u{203E}' | '\u{FF61}'..='\u{FF9F}')
}

/// Decodes the bytes by encoding_rs.
pub fn decoded_by_theirs(encoding: &'static Encoding, source: &[u8]) -> String {
    let mut decoder = encoding.new_decoder_without_bom_handling();
    let mut text = String::new();
    let mut read = 0;
    loop {
        text.reserve(source.len() * 3 + 64);
        let (answer, more) = decoder.decode_to_string_without_replacement(&source[read..], &mut text, true);
        read += more;
        match answer {
            DecoderResult::InputEmpty => return text,
            DecoderResult::OutputFull => {}
            DecoderResult::Malformed(_, _) => text.push('\u{FFFD}'),
        }
    }
}

/// Encodes the text by encoding_rs.
pub fn encoded_by_theirs(encoding: &'static Encoding, text: &str, calls: Calls) -> Vec<u8> {
    let mut encoder = encoding.new_encoder();
    let mut bytes = Vec::new();
    let mut read = 0;
    loop {
        bytes.reserve((text.len() - read) * 3 + 64);
        let rest = &text[read..];
        let (is_read, more) = match calls {
            Calls::Replacing => {
                let (answer, more, _) = encoder.encode_from_utf8_to_vec(rest, &mut bytes, true);
                (answer == CoderResult::InputEmpty, more)
            }
            Calls::Raw => {
                let (answer, more) = encoder.encode_from_utf8_to_vec_without_replacement(rest, &mut bytes, true);
                bytes.extend(matches!(answer, EncoderResult::Unmappable(_)).then_some(b'?'));
                (answer == EncoderResult::InputEmpty, more)
            }
        };
        read += more;
        if is_read {
            return bytes;
        }
    }
}
