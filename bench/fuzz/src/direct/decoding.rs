//! Calls of decoders. Each result is checked by its own rule, and all together against the model, encoding_rs and one
//! call.

use super::Job;
use crate::exported::Rooms;
use crate::plan::Plan;
use crate::text;
use encoding_rs::{DecoderResult as Theirs, Encoding};
use legacy_codecs::{decode_replacing_utf16, decode_replacing_utf8, CoderResult, DecoderResult, RawDecoder};
use soak::codec::Codec;
use soak::ours::Calls;
use std::fmt::Debug;

/// A code unit of an output.
trait Unit: Copy + PartialEq + Debug + 'static {
    const BLANK: Self;
    /// U+FFFD.
    const MARK: &'static [Self];
    /// The maximum number of units of one act.
    const MOST: usize;
    fn raw<D: RawDecoder>(decoder: &mut D, source: &[u8], output: &mut [Self], last: bool) -> (DecoderResult, usize, usize);
    fn replacing<D: RawDecoder>(decoder: &mut D, source: &[u8], output: &mut [Self], last: bool) -> (CoderResult, usize, usize, bool);
    fn query<D: RawDecoder>(decoder: &D, calls: Calls, length: usize) -> Option<usize>;
    fn of(text: &str) -> Vec<Self>;
    fn is_whole(units: &[Self]) -> bool;
}

impl Unit for u8 {
    const BLANK: u8 = 0xAA;
    const MARK: &'static [u8] = &[0xEF, 0xBF, 0xBD];
    const MOST: usize = 4;

    fn raw<D: RawDecoder>(decoder: &mut D, source: &[u8], output: &mut [u8], last: bool) -> (DecoderResult, usize, usize) {
        decoder.decode_to_utf8_raw(source, output, last)
    }

    fn replacing<D: RawDecoder>(decoder: &mut D, source: &[u8], output: &mut [u8], last: bool) -> (CoderResult, usize, usize, bool) {
        decode_replacing_utf8(decoder, source, output, last)
    }

    fn query<D: RawDecoder>(decoder: &D, calls: Calls, length: usize) -> Option<usize> {
        match calls {
            Calls::Raw => decoder.max_utf8_buffer_length_without_replacement(length),
            Calls::Replacing => decoder.max_utf8_buffer_length(length),
        }
    }

    fn of(text: &str) -> Vec<u8> {
        text.as_bytes().to_vec()
    }

    fn is_whole(units: &[u8]) -> bool {
        std::str::from_utf8(units).is_ok()
    }
}

impl Unit for u16 {
    const BLANK: u16 = 0xAAAA;
    const MARK: &'static [u16] = &[0xFFFD];
    const MOST: usize = 2;

    fn raw<D: RawDecoder>(decoder: &mut D, source: &[u8], output: &mut [u16], last: bool) -> (DecoderResult, usize, usize) {
        decoder.decode_to_utf16_raw(source, output, last)
    }

    fn replacing<D: RawDecoder>(decoder: &mut D, source: &[u8], output: &mut [u16], last: bool) -> (CoderResult, usize, usize, bool) {
        decode_replacing_utf16(decoder, source, output, last)
    }

    fn query<D: RawDecoder>(decoder: &D, _calls: Calls, length: usize) -> Option<usize> {
        decoder.max_utf16_buffer_length(length)
    }

    fn of(text: &str) -> Vec<u16> {
        text.encode_utf16().collect()
    }

    fn is_whole(units: &[u16]) -> bool {
        char::decode_utf16(units.iter().copied()).all(|unit| unit.is_ok())
    }
}

/// A place and a length of a malformed sequence.
type Bad = (usize, usize);

/// How pieces and outputs are split.
#[derive(Clone, Copy)]
struct Cuts {
    calls: Calls,
    pieces: [u8; 4],
    outs: [u8; 4],
    queries: bool,
    /// Whether the last call has an empty slice of its own.
    is_end_apart: bool,
}

impl Cuts {
    fn of(plan: &Plan) -> Cuts {
        let Plan { calls, cuts, outs, queries, .. } = *plan;
        Cuts { calls, pieces: cuts, outs, queries, is_end_apart: plan.piece % 2 == 1 }
    }

    /// Returns all in one call.
    fn whole() -> Cuts {
        Cuts { calls: Calls::Raw, pieces: [255; 4], outs: [255; 4], queries: false, is_end_apart: false }
    }
}

/// A run over a source.
struct Run<'a, U> {
    source: &'a [u8],
    cuts: Cuts,
    read: usize,
    /// The most bytes that the decoder may hold back from a run before.
    held: usize,
    end: usize,
    turn: usize,
    /// The number of calls in a row that did nothing.
    idle: usize,
    is_ending: bool,
    units: Vec<U>,
    bad: Vec<Bad>,
    replaced: bool,
}

impl<'a, U: Unit> Run<'a, U> {
    fn new(source: &'a [u8], cuts: Cuts) -> Run<'a, U> {
        let mut run = Run { source, cuts, read: 0, held: 0, end: 0, turn: 0, idle: 0, is_ending: false, units: Vec::new(), bad: Vec::new(), replaced: false };
        run.next_piece();
        run
    }

    /// Moves to the next piece, or to the end.
    fn next_piece(&mut self) {
        if self.end == self.source.len() && self.turn > 0 {
            self.is_ending = true;
        }
        let piece = usize::from(self.cuts.pieces[self.turn % 4]);
        let length = if piece == 255 || self.cuts.pieces == [0; 4] { self.source.len() } else { piece };
        self.end = self.source.len().min(self.read + length);
        self.turn += 1;
        if self.end == self.source.len() && !self.cuts.is_end_apart {
            self.is_ending = true;
        }
    }

    /// Returns the length of the next output.
    fn room<D: RawDecoder>(&self, decoder: &D) -> Result<usize, String> {
        let length = self.end - self.read;
        if self.cuts.queries {
            return U::query(decoder, self.cuts.calls, length).ok_or("a query has no answer".to_string());
        }
        let out = self.cuts.outs[(self.turn + self.idle) % 4];
        Ok(if out == 255 || self.idle > 4 { length * 3 + 16 } else { usize::from(out) })
    }

    /// Checks the numbers that a call returned.
    fn is_counted(&self, (read, written): (usize, usize), output: &[U]) -> Result<(), String> {
        if read > self.end - self.read || written > output.len() {
            return Err(format!("a call says that it read {read} of {} and wrote {written} into {}", self.end - self.read, output.len()));
        }
        if !U::is_whole(&output[..written]) {
            return Err(format!("a call wrote {:02X?}", &output[..written]));
        }
        Ok(())
    }

    /// Adds what a call read and wrote.
    fn takes(&mut self, (read, written): (usize, usize), output: &[U]) {
        self.read += read;
        self.units.extend(&output[..written]);
        self.idle = if read == 0 && written == 0 { self.idle + 1 } else { 0 };
    }

    /// Handles `InputEmpty`, and returns whether the run is at its end.
    fn is_read(&mut self) -> Result<bool, String> {
        if self.read != self.end {
            return Err(format!("input empty, and {} of {} bytes are read", self.read, self.end));
        }
        if self.is_ending {
            return Ok(true);
        }
        self.next_piece();
        Ok(false)
    }

    /// Handles `OutputFull`.
    fn is_full(&self, free: usize) -> Result<(), String> {
        if free >= U::MOST {
            return Err(format!("output full with {free} units free"));
        }
        if self.cuts.queries {
            return Err("output full in an output of the queried length".to_string());
        }
        if self.idle > 8 {
            return Err("no call goes on".to_string());
        }
        Ok(())
    }

    /// Handles `Malformed`.
    fn is_malformed(&mut self, length: u8, back: u8, free: usize) -> Result<(), String> {
        let (length, back) = (usize::from(length), usize::from(back));
        if !(1..=4).contains(&length) || back > 3 || length + back > self.read + self.held {
            return Err(format!("malformed {length} {back} after {} bytes", self.read));
        }
        if free < U::MARK.len() {
            return Err(format!("malformed with {free} units free"));
        }
        self.bad.push((self.read.saturating_sub(back + length), length));
        self.units.extend(U::MARK);
        self.idle = 0;
        Ok(())
    }

    /// Tries the bytes that the decoder counts as malformed by themselves.
    fn skips_lone<D: RawDecoder>(&mut self, decoder: &mut D) -> Result<(), String> {
        let piece = &self.source[self.read..self.end];
        let count = decoder.malformed_bytes(piece);
        if count > piece.len() {
            return Err(format!("{count} of {} bytes are malformed by themselves", piece.len()));
        }
        // The last byte is left, so that this does not make the last slice empty.
        for byte in &piece[..count.saturating_sub(1)] {
            let mut output = [U::BLANK; 8];
            let answer = U::raw(decoder, &[*byte], &mut output, false);
            if answer != (DecoderResult::Malformed(1, 0), 1, 0) {
                return Err(format!("{byte:02X} is not malformed by itself: {answer:?}"));
            }
            self.read += 1;
            self.is_malformed(1, 0, output.len())?;
        }
        Ok(())
    }

    /// Makes a call, and returns whether the run is at its end.
    fn call<D: RawDecoder>(&mut self, decoder: &mut D, plan: &Plan, rooms: &mut Rooms) -> Result<bool, String> {
        if self.cuts.queries && self.cuts.calls == Calls::Raw {
            self.skips_lone(decoder)?;
        }
        let room = self.room(decoder)?;
        let source = rooms.source.copy(&self.source[self.read..self.end], plan.side);
        let output = rooms.output.slice(room, U::BLANK, plan.side);
        if self.cuts.calls == Calls::Replacing {
            let (answer, read, written, replaced) = U::replacing(decoder, source, output, self.is_ending);
            self.is_counted((read, written), output)?;
            self.takes((read, written), output);
            self.replaced |= replaced;
            return match answer {
                CoderResult::InputEmpty => self.is_read(),
                CoderResult::OutputFull => self.is_full(room - written).map(|()| false),
            };
        }
        let (answer, read, written) = U::raw(decoder, source, output, self.is_ending);
        self.is_counted((read, written), output)?;
        self.takes((read, written), output);
        match answer {
            DecoderResult::InputEmpty => self.is_read(),
            DecoderResult::OutputFull => self.is_full(room - written).map(|()| false),
            DecoderResult::Malformed(length, back) => self.is_malformed(length, back, room - written).map(|()| false),
        }
    }

    /// Makes all calls of a run.
    fn all<D: RawDecoder>(mut self, decoder: &mut D, plan: &Plan, rooms: &mut Rooms) -> Result<Run<'a, U>, String> {
        while !self.call(decoder, plan, rooms)? {}
        Ok(self)
    }
}

/// Returns the malformed sequences that encoding_rs finds.
fn bad_by_theirs(encoding: &'static Encoding, source: &[u8]) -> Vec<Bad> {
    let mut decoder = encoding.new_decoder_without_bom_handling();
    let mut output = vec![0; source.len() * 2 + 64];
    let (mut bad, mut read) = (Vec::new(), 0);
    loop {
        let (answer, more, _) = decoder.decode_to_utf16_without_replacement(&source[read..], &mut output, true);
        read += more;
        match answer {
            Theirs::InputEmpty => return bad,
            Theirs::OutputFull => unreachable!("the output is ample"),
            Theirs::Malformed(length, back) => {
                let (length, back) = (usize::from(length), usize::from(back));
                bad.push((read - back - length, length));
            }
        }
    }
}

fn tried_as<U: Unit, D: RawDecoder>(job: &mut Job, make: &impl Fn() -> D) -> Result<(), String> {
    let Job { plan, prepared, rooms } = job;
    let (once, again) = text::decoded(plan, prepared, 2)?;
    let whole = Run::<U>::new(&plan.source, Cuts::whole()).all(&mut make(), plan, rooms)?;
    if whole.units != U::of(&once) {
        return Err(format!("in one call came {:02X?}, wanted {once:?}", whole.units));
    }
    if let Some(encoding) = prepared.theirs.filter(|_| plan.codec != Codec::Iso2022Jp) {
        let theirs = bad_by_theirs(encoding, &plan.source);
        if theirs != whole.bad {
            return Err(format!("malformed are {:?}, by encoding_rs {theirs:?}", whole.bad));
        }
    }
    let mut decoder = make();
    let cut = Run::<U>::new(&plan.source, Cuts::of(plan)).all(&mut decoder, plan, rooms)?;
    if cut.units != whole.units {
        return Err(format!("in pieces came {:02X?}, wanted {once:?}", cut.units));
    }
    if plan.calls == Calls::Raw && cut.bad != whole.bad {
        return Err(format!("in pieces malformed are {:?}, in one {:?}", cut.bad, whole.bad));
    }
    if plan.calls == Calls::Replacing && cut.replaced == whole.bad.is_empty() {
        return Err(format!("replaced: {}, malformed are {:?}", cut.replaced, whole.bad));
    }
    if plan.again {
        // ISO-2022-JP holds back an escape at the end, and it is malformed before another one.
        let second = Run::<U> { held: 3, ..Run::new(&plan.source, Cuts::of(plan)) }.all(&mut decoder, plan, rooms)?;
        if second.units != U::of(&again) {
            return Err(format!("a second time came {:02X?}, wanted {again:?}", second.units));
        }
    }
    Ok(())
}

/// Decodes the plan's source.
pub fn tried<D: RawDecoder>(job: &mut Job, make: impl Fn() -> D) -> Result<(), String> {
    if job.plan.is_wide {
        tried_as::<u16, D>(job, &make)
    } else {
        tried_as::<u8, D>(job, &make)
    }
}
