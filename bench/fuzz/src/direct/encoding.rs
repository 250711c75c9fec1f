//! Calls of encoders. Each result is checked by its own rule, and all together against the model and encoding_rs.

use super::Job;
use crate::exported::Rooms;
use crate::plan::Plan;
use crate::text;
use encoding_rs::{EncoderResult as Theirs, Encoding};
use legacy_codecs::{encode_replacing_utf16, encode_replacing_utf8, CoderResult, EncoderResult, RawEncoder};
use soak::checks::{ROOM_IN_BYTES, ROOM_WITH_REFERENCE};
use soak::ours::Calls;
use soak::sources;

/// A piece of a text, in either form.
enum Piece {
    Utf8(String),
    Utf16(Vec<u16>),
}

impl Piece {
    fn length(&self) -> usize {
        match self {
            Piece::Utf8(text) => text.len(),
            Piece::Utf16(units) => units.len(),
        }
    }

    fn scalars(&self) -> Vec<char> {
        match self {
            Piece::Utf8(text) => text.chars().collect(),
            Piece::Utf16(units) => sources::text_of(units),
        }
    }

    /// Checks whether the place is between two characters.
    fn is_between(&self, place: usize) -> bool {
        match self {
            Piece::Utf8(text) => text.is_char_boundary(place),
            Piece::Utf16(units) => {
                let is_parted = |pair: &[u16]| pair[0] & 0xFC00 == 0xD800 && pair[1] & 0xFC00 == 0xDC00;
                place == 0 || place >= units.len() || !is_parted(&units[place - 1..=place])
            }
        }
    }
}

/// Returns the pieces of a text in UTF-8, which end between two characters.
fn utf8_pieces(mut text: &str, lengths: [u8; 4]) -> Vec<Piece> {
    let mut pieces = Vec::new();
    for turn in 0.. {
        let length = usize::from(lengths[turn % 4]);
        let mut end = if length == 255 || lengths == [0; 4] { text.len() } else { length.min(text.len()) };
        while !text.is_char_boundary(end) {
            end += 1;
        }
        pieces.push(Piece::Utf8(text[..end].to_string()));
        text = &text[end..];
        if text.is_empty() {
            break;
        }
    }
    pieces
}

/// Returns the pieces of a text in UTF-16, which may end inside a surrogate pair.
fn utf16_pieces(mut units: &[u16], lengths: [u8; 4]) -> Vec<Piece> {
    let mut pieces = Vec::new();
    for turn in 0.. {
        let length = usize::from(lengths[turn % 4]);
        let end = if length == 255 || lengths == [0; 4] { units.len() } else { length.min(units.len()) };
        pieces.push(Piece::Utf16(units[..end].to_vec()));
        units = &units[end..];
        if units.is_empty() {
            break;
        }
    }
    pieces
}

/// How calls are made.
#[derive(Clone, Copy)]
struct Cuts {
    calls: Calls,
    outs: [u8; 4],
    queries: bool,
}

/// The result of a call of either kind.
struct Answer {
    result: EncoderResult,
    read: usize,
    written: usize,
    replaced: bool,
}

/// Returns a call with replacement as a raw one without unmappable scalars.
fn replacing(call: (CoderResult, usize, usize, bool)) -> Answer {
    let result = match call.0 {
        CoderResult::InputEmpty => EncoderResult::InputEmpty,
        CoderResult::OutputFull => EncoderResult::OutputFull,
    };
    Answer { result, read: call.1, written: call.2, replaced: call.3 }
}

fn raw(call: (EncoderResult, usize, usize)) -> Answer {
    Answer { result: call.0, read: call.1, written: call.2, replaced: false }
}

/// A run over pieces.
struct Run {
    cuts: Cuts,
    turn: usize,
    idle: usize,
    bytes: Vec<u8>,
    unmappable: Vec<char>,
    replaced: bool,
}

impl Run {
    fn new(cuts: Cuts) -> Run {
        Run { cuts, turn: 0, idle: 0, bytes: Vec::new(), unmappable: Vec::new(), replaced: false }
    }

    /// Returns the length of the next output, for `length` units of a piece.
    fn room<E: RawEncoder>(&self, encoder: &E, piece: &Piece, length: usize) -> Result<usize, String> {
        if self.cuts.queries {
            let answer = match piece {
                Piece::Utf8(_) => encoder.max_buffer_length_from_utf8_without_replacement(length),
                Piece::Utf16(_) => encoder.max_buffer_length_from_utf16_without_replacement(length),
            };
            let more = if self.cuts.calls == Calls::Replacing { 10 } else { 0 };
            return answer.map(|room| room + more).ok_or("a query has no answer".to_string());
        }
        let out = self.cuts.outs[(self.turn + self.idle) % 4];
        Ok(if out == 255 || self.idle > 4 { length * 10 + 32 } else { usize::from(out) })
    }

    fn answer<E: RawEncoder>(&self, encoder: &mut E, piece: &Piece, read: usize, last: bool, plan: &Plan, rooms: &mut Rooms, room: usize) -> Answer {
        let output = rooms.output.slice(room, 0xAA_u8, plan.side);
        match piece {
            Piece::Utf8(text) => {
                let source = rooms.source.copy(&text.as_bytes()[read..], plan.side);
                let source = std::str::from_utf8(source).expect("it was cut between two characters");
                match self.cuts.calls {
                    Calls::Raw => raw(encoder.encode_from_utf8_raw(source, output, last)),
                    Calls::Replacing => replacing(encode_replacing_utf8(encoder, source, output, last)),
                }
            }
            Piece::Utf16(units) => {
                let source = rooms.source.copy(&units[read..], plan.side);
                match self.cuts.calls {
                    Calls::Raw => raw(encoder.encode_from_utf16_raw(source, output, last)),
                    Calls::Replacing => replacing(encode_replacing_utf16(encoder, source, output, last)),
                }
            }
        }
    }

    /// Checks whether `OutputFull` was right.
    fn is_full(&self, free: usize, replaced: bool) -> Result<(), String> {
        let most = if self.cuts.calls == Calls::Raw { ROOM_IN_BYTES } else { ROOM_WITH_REFERENCE };
        if free >= most {
            return Err(format!("output full with {free} bytes free"));
        }
        if self.cuts.queries && !replaced {
            return Err("output full in an output of the queried length".to_string());
        }
        if self.idle > 8 {
            return Err("no call goes on".to_string());
        }
        Ok(())
    }

    /// Makes all calls of a piece.
    fn piece<E: RawEncoder>(&mut self, encoder: &mut E, piece: &Piece, last: bool, plan: &Plan, rooms: &mut Rooms) -> Result<(), String> {
        let mut read = 0;
        loop {
            let length = piece.length() - read;
            let room = self.room(encoder, piece, length)?;
            let answer = self.answer(encoder, piece, read, last, plan, rooms, room);
            if answer.read > length || answer.written > room || !piece.is_between(read + answer.read) {
                return Err(format!("a call says that it read {} of {length} and wrote {} into {room}", answer.read, answer.written));
            }
            self.turn += 1;
            self.idle = if answer.read == 0 && answer.written == 0 { self.idle + 1 } else { 0 };
            let output = rooms.output.written::<u8>(room, plan.side);
            self.bytes.extend(&output[..answer.written]);
            self.replaced |= answer.replaced;
            read += answer.read;
            match answer.result {
                EncoderResult::InputEmpty if answer.read == length => return Ok(()),
                EncoderResult::InputEmpty => return Err(format!("input empty, and {} of {length} units are read", answer.read)),
                EncoderResult::OutputFull => self.is_full(room - answer.written, answer.replaced)?,
                EncoderResult::Unmappable(scalar) => {
                    self.unmappable.push(scalar);
                    self.bytes.push(b'?');
                }
            }
        }
    }

    /// Makes all calls of all pieces.
    fn all<E: RawEncoder>(mut self, encoder: &mut E, pieces: &[Piece], plan: &Plan, rooms: &mut Rooms) -> Result<Run, String> {
        let is_end_apart = plan.piece % 2 == 1;
        for (at, piece) in pieces.iter().enumerate() {
            self.piece(encoder, piece, at + 1 == pieces.len() && !is_end_apart, plan, rooms)?;
        }
        if is_end_apart {
            let end = if plan.is_wide { Piece::Utf16(Vec::new()) } else { Piece::Utf8(String::new()) };
            self.piece(encoder, &end, true, plan, rooms)?;
        }
        Ok(self)
    }
}

/// Returns the scalars for which encoding_rs has no bytes.
fn unmappable_by_theirs(encoding: &'static Encoding, text: &str) -> Vec<char> {
    let mut encoder = encoding.new_encoder();
    let mut output = vec![0; text.len() * 8 + 64];
    let (mut unmappable, mut read) = (Vec::new(), 0);
    loop {
        let (answer, more, _) = encoder.encode_from_utf8_without_replacement(&text[read..], &mut output, true);
        read += more;
        match answer {
            Theirs::InputEmpty => return unmappable,
            Theirs::OutputFull => unreachable!("the output is ample"),
            Theirs::Unmappable(scalar) => unmappable.push(scalar),
        }
    }
}

/// Encodes the plan's source, twice if it asks for that. After the end of a text an encoder begins anew.
pub fn tried<E: RawEncoder>(job: &mut Job, encoder: &mut E) -> Result<(), String> {
    let Job { plan, prepared, rooms } = job;
    let units = plan.units();
    let pieces = match plan.is_wide {
        true => utf16_pieces(&units, plan.cuts),
        false => utf8_pieces(&sources::text_of(&units).iter().collect::<String>(), plan.cuts),
    };
    let scalars: Vec<char> = pieces.iter().flat_map(Piece::scalars).collect();
    let wanted = text::encoded(plan, prepared, &scalars)?;
    let cuts = Cuts { calls: plan.calls, outs: plan.outs, queries: plan.queries };
    let ample = Cuts { calls: plan.calls, outs: [255; 4], queries: false };
    for (cuts, is_asked) in [(ample, true), (cuts, true), (cuts, plan.again)] {
        if !is_asked {
            continue;
        }
        let run = Run::new(cuts).all(encoder, &pieces, plan, rooms)?;
        if run.bytes != wanted {
            return Err(format!("came {:02X?}, wanted {wanted:02X?}", run.bytes));
        }
        let Some(encoding) = prepared.theirs else { continue };
        let theirs = unmappable_by_theirs(encoding, &scalars.iter().collect::<String>());
        if plan.calls == Calls::Raw && theirs != run.unmappable {
            return Err(format!("unmappable are {:?}, by encoding_rs {theirs:?}", run.unmappable));
        }
        if plan.calls == Calls::Replacing && run.replaced == theirs.is_empty() {
            return Err(format!("replaced: {}, unmappable are {theirs:?}", run.replaced));
        }
    }
    Ok(())
}
