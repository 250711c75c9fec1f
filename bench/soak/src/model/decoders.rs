//! The decoders of the Standard: each is a handler of one byte, or of the end, that may restore bytes.

use super::{range_scalar, scalar_at, REPLACEMENT};
use crate::codec::Codec;
use crate::tables::Tables;

/// What a handler returns.
enum Answer {
    Continue,
    Scalar(char),
    Two([char; 2]),
    Error,
    Finished,
}

use Answer::{Continue, Error, Finished, Scalar, Two};

/// The bytes to come, in reverse order, to which a handler may restore bytes.
struct Input(Vec<u8>);

impl Input {
    /// Restores these bytes, so that the first of them is read next.
    fn restore(&mut self, bytes: &[u8]) {
        self.0.extend(bytes.iter().rev());
    }
}

/// A decoder's handler: it takes the next byte, or `None` at the end.
trait Handler {
    fn handle(&mut self, tables: &Tables, input: &mut Input, byte: Option<u8>) -> Answer;
}

/// Returns all that a handler gives for the bytes, with U+FFFD for each error.
fn run(handler: &mut dyn Handler, tables: &Tables, bytes: &[u8]) -> Vec<char> {
    let mut input = Input(Vec::new());
    input.restore(bytes);
    let mut text = Vec::new();
    loop {
        let byte = input.0.pop();
        match handler.handle(tables, &mut input, byte) {
            Continue => {}
            Scalar(scalar) => text.push(scalar),
            Two(scalars) => text.extend(scalars),
            Error => text.push(REPLACEMENT),
            Finished => return text,
        }
    }
}

/// Returns the scalar, or an error if there is none. After an error the byte is restored if it is ASCII.
fn found(scalar: Option<char>, input: &mut Input, byte: u8) -> Answer {
    if let Some(scalar) = scalar {
        return Scalar(scalar);
    }
    if byte < 0x80 {
        input.restore(&[byte]);
    }
    Error
}

/// The lead byte that a decoder holds back, or none.
#[derive(Default)]
struct Lead(Option<u8>);

struct Big5(Lead);

impl Handler for Big5 {
    fn handle(&mut self, tables: &Tables, input: &mut Input, byte: Option<u8>) -> Answer {
        let Some(byte) = byte else {
            return if self.0 .0.take().is_some() { Error } else { Finished };
        };
        if let Some(lead) = self.0 .0.take() {
            let offset = if byte < 0x7F { 0x40 } else { 0x62 };
            let is_trail = matches!(byte, 0x40..=0x7E | 0xA1..=0xFE);
            let pointer = is_trail.then(|| (usize::from(lead) - 0x81) * 157 + usize::from(byte) - offset);
            return match pointer {
                Some(1133) => Two(['\u{CA}', '\u{304}']),
                Some(1135) => Two(['\u{CA}', '\u{30C}']),
                Some(1164) => Two(['\u{EA}', '\u{304}']),
                Some(1166) => Two(['\u{EA}', '\u{30C}']),
                _ => found(pointer.and_then(|pointer| scalar_at(&tables.big5, pointer)), input, byte),
            };
        }
        match byte {
            0..=0x7F => Scalar(char::from(byte)),
            0x81..=0xFE => {
                self.0 = Lead(Some(byte));
                Continue
            }
            _ => Error,
        }
    }
}

struct EucKr(Lead);

impl Handler for EucKr {
    fn handle(&mut self, tables: &Tables, input: &mut Input, byte: Option<u8>) -> Answer {
        let Some(byte) = byte else {
            return if self.0 .0.take().is_some() { Error } else { Finished };
        };
        if let Some(lead) = self.0 .0.take() {
            let pointer = matches!(byte, 0x41..=0xFE).then(|| (usize::from(lead) - 0x81) * 190 + usize::from(byte) - 0x41);
            return found(pointer.and_then(|pointer| scalar_at(&tables.euc_kr, pointer)), input, byte);
        }
        match byte {
            0..=0x7F => Scalar(char::from(byte)),
            0x81..=0xFE => {
                self.0 = Lead(Some(byte));
                Continue
            }
            _ => Error,
        }
    }
}

struct ShiftJis(Lead);

impl Handler for ShiftJis {
    fn handle(&mut self, tables: &Tables, input: &mut Input, byte: Option<u8>) -> Answer {
        let Some(byte) = byte else {
            return if self.0 .0.take().is_some() { Error } else { Finished };
        };
        if let Some(lead) = self.0 .0.take() {
            let offset = if byte < 0x7F { 0x40 } else { 0x41 };
            let lead_offset = if lead < 0xA0 { 0x81 } else { 0xC1 };
            let is_trail = matches!(byte, 0x40..=0x7E | 0x80..=0xFC);
            let pointer = is_trail.then(|| usize::from(lead - lead_offset) * 188 + usize::from(byte) - offset);
            let scalar = match pointer {
                Some(pointer @ 8836..=10_715) => char::from_u32(0xE000 - 8836 + pointer as u32),
                _ => pointer.and_then(|pointer| scalar_at(&tables.jis0208, pointer)),
            };
            return found(scalar, input, byte);
        }
        match byte {
            0..=0x80 => Scalar(char::from(byte)),
            0xA1..=0xDF => found(char::from_u32(0xFF61 - 0xA1 + u32::from(byte)), input, byte),
            0x81..=0x9F | 0xE0..=0xFC => {
                self.0 = Lead(Some(byte));
                Continue
            }
            _ => Error,
        }
    }
}

#[derive(Default)]
struct EucJp {
    lead: u8,
    is_jis0212: bool,
}

impl Handler for EucJp {
    fn handle(&mut self, tables: &Tables, input: &mut Input, byte: Option<u8>) -> Answer {
        let Some(byte) = byte else {
            let has_lead = self.lead != 0;
            self.lead = 0;
            return if has_lead { Error } else { Finished };
        };
        if self.lead == 0x8E && matches!(byte, 0xA1..=0xDF) {
            self.lead = 0;
            return found(char::from_u32(0xFF61 - 0xA1 + u32::from(byte)), input, byte);
        }
        if self.lead == 0x8F && matches!(byte, 0xA1..=0xFE) {
            self.is_jis0212 = true;
            self.lead = byte;
            return Continue;
        }
        if self.lead != 0 {
            let lead = self.lead;
            self.lead = 0;
            let is_pair = matches!(lead, 0xA1..=0xFE) && matches!(byte, 0xA1..=0xFE);
            let index = if self.is_jis0212 { &tables.jis0212 } else { &tables.jis0208 };
            self.is_jis0212 = false;
            let pointer = is_pair.then(|| (usize::from(lead) - 0xA1) * 94 + usize::from(byte) - 0xA1);
            return found(pointer.and_then(|pointer| scalar_at(index, pointer)), input, byte);
        }
        match byte {
            0..=0x7F => Scalar(char::from(byte)),
            0x8E | 0x8F | 0xA1..=0xFE => {
                self.lead = byte;
                Continue
            }
            _ => Error,
        }
    }
}

#[derive(Default)]
struct Gb18030 {
    first: u8,
    second: u8,
    third: u8,
}

impl Handler for Gb18030 {
    fn handle(&mut self, tables: &Tables, input: &mut Input, byte: Option<u8>) -> Answer {
        let Gb18030 { first, second, third } = *self;
        let Some(byte) = byte else {
            *self = Gb18030::default();
            return if first == 0 { Finished } else { Error };
        };
        if third != 0 {
            *self = Gb18030::default();
            if !byte.is_ascii_digit() {
                input.restore(&[second, third, byte]);
                return Error;
            }
            let places = [(first, 0x81, 12_600), (second, 0x30, 1260), (third, 0x81, 10), (byte, 0x30, 1)];
            let pointer = places.iter().map(|(byte, least, times)| usize::from(byte - least) * times).sum();
            return range_scalar(tables, pointer).map_or(Error, Scalar);
        }
        if second != 0 {
            if matches!(byte, 0x81..=0xFE) {
                self.third = byte;
                return Continue;
            }
            *self = Gb18030::default();
            input.restore(&[second, byte]);
            return Error;
        }
        if first != 0 {
            if byte.is_ascii_digit() {
                self.second = byte;
                return Continue;
            }
            self.first = 0;
            let offset = if byte < 0x7F { 0x40 } else { 0x41 };
            let is_trail = matches!(byte, 0x40..=0x7E | 0x80..=0xFE);
            let pointer = is_trail.then(|| (usize::from(first) - 0x81) * 190 + usize::from(byte) - offset);
            return found(pointer.and_then(|pointer| scalar_at(&tables.gb18030, pointer)), input, byte);
        }
        match byte {
            0..=0x7F => Scalar(char::from(byte)),
            0x80 => Scalar('\u{20AC}'),
            0x81..=0xFE => {
                self.first = byte;
                Continue
            }
            _ => Error,
        }
    }
}

#[derive(Clone, Copy)]
enum State {
    Ascii,
    Roman,
    Katakana,
    LeadByte,
    TrailByte,
    EscapeStart,
    Escape,
}

struct Iso2022Jp {
    state: State,
    output_state: State,
    lead: u8,
    output: bool,
}

impl Iso2022Jp {
    fn new() -> Iso2022Jp {
        Iso2022Jp { state: State::Ascii, output_state: State::Ascii, lead: 0, output: false }
    }

    /// Handles a byte in a single-byte mode, or a byte where a lead is expected in the two-byte mode.
    fn single(&mut self, byte: u8) -> Answer {
        if byte == 0x1B {
            self.state = State::EscapeStart;
            return Continue;
        }
        self.output = false;
        let is_plain = matches!(byte, 0..=0x7F) && !matches!(byte, 0x0E | 0x0F);
        match (self.state, byte) {
            (State::Roman, 0x5C) => Scalar('\u{A5}'),
            (State::Roman, 0x7E) => Scalar('\u{203E}'),
            (State::Ascii | State::Roman, _) if is_plain => Scalar(char::from(byte)),
            (State::Katakana, 0x21..=0x5F) => char::from_u32(0xFF61 - 0x21 + u32::from(byte)).map_or(Error, Scalar),
            (State::LeadByte, 0x21..=0x7E) => {
                self.lead = byte;
                self.state = State::TrailByte;
                Continue
            }
            _ => Error,
        }
    }

    fn trail(&mut self, tables: &Tables, byte: Option<u8>) -> Answer {
        if byte == Some(0x1B) {
            self.state = State::EscapeStart;
            return Error;
        }
        self.state = State::LeadByte;
        match byte {
            Some(byte @ 0x21..=0x7E) => {
                let pointer = (usize::from(self.lead) - 0x21) * 94 + usize::from(byte) - 0x21;
                scalar_at(&tables.jis0208, pointer).map_or(Error, Scalar)
            }
            _ => Error,
        }
    }

    fn escape(&mut self, input: &mut Input, byte: Option<u8>) -> Answer {
        let state = match (self.lead, byte) {
            (0x28, Some(0x42)) => State::Ascii,
            (0x28, Some(0x4A)) => State::Roman,
            (0x28, Some(0x49)) => State::Katakana,
            (0x24, Some(0x40 | 0x42)) => State::LeadByte,
            _ => {
                input.restore(byte.as_slice());
                input.restore(&[self.lead]);
                self.output = false;
                self.state = self.output_state;
                return Error;
            }
        };
        self.state = state;
        self.output_state = state;
        let is_second = self.output;
        self.output = true;
        if is_second { Error } else { Continue }
    }
}

impl Handler for Iso2022Jp {
    fn handle(&mut self, tables: &Tables, input: &mut Input, byte: Option<u8>) -> Answer {
        match self.state {
            State::TrailByte => self.trail(tables, byte),
            State::Escape => self.escape(input, byte),
            State::EscapeStart => {
                if let Some(lead @ (0x24 | 0x28)) = byte {
                    self.lead = lead;
                    self.state = State::Escape;
                    return Continue;
                }
                input.restore(byte.as_slice());
                self.output = false;
                self.state = self.output_state;
                Error
            }
            _ => byte.map_or(Finished, |byte| self.single(byte)),
        }
    }
}

#[derive(Default)]
struct Utf16 {
    big_endian: bool,
    lead_byte: Option<u8>,
    lead_surrogate: Option<u16>,
}

impl Handler for Utf16 {
    fn handle(&mut self, _tables: &Tables, input: &mut Input, byte: Option<u8>) -> Answer {
        let Some(byte) = byte else {
            let is_broken = self.lead_byte.is_some() || self.lead_surrogate.is_some();
            (self.lead_byte, self.lead_surrogate) = (None, None);
            return if is_broken { Error } else { Finished };
        };
        let Some(lead) = self.lead_byte.take() else {
            self.lead_byte = Some(byte);
            return Continue;
        };
        let unit = if self.big_endian { u16::from_be_bytes([lead, byte]) } else { u16::from_le_bytes([lead, byte]) };
        if let Some(high) = self.lead_surrogate.take() {
            if matches!(unit, 0xDC00..=0xDFFF) {
                let scalar = 0x1_0000 + ((u32::from(high) - 0xD800) << 10) + u32::from(unit) - 0xDC00;
                return char::from_u32(scalar).map_or(Error, Scalar);
            }
            input.restore(&[lead, byte]);
            return Error;
        }
        match unit {
            0xD800..=0xDBFF => {
                self.lead_surrogate = Some(unit);
                Continue
            }
            _ => char::from_u32(u32::from(unit)).map_or(Error, Scalar),
        }
    }
}

/// A codec in which each byte is a scalar or an error.
struct Bytes(Codec);

impl Handler for Bytes {
    fn handle(&mut self, tables: &Tables, _input: &mut Input, byte: Option<u8>) -> Answer {
        match (self.0, byte) {
            (_, None) => Finished,
            (_, Some(byte @ 0..=0x7F)) => Scalar(char::from(byte)),
            (Codec::UserDefined, Some(byte)) => char::from_u32(0xF780 - 0x80 + u32::from(byte)).map_or(Error, Scalar),
            (_, Some(byte)) => scalar_at(&tables.single_byte, usize::from(byte) - 0x80).map_or(Error, Scalar),
        }
    }
}

/// The decoder of replacement, and whether it has reported its error.
struct Replacement(bool);

impl Handler for Replacement {
    fn handle(&mut self, _tables: &Tables, _input: &mut Input, byte: Option<u8>) -> Answer {
        if byte.is_none() || self.0 {
            return Finished;
        }
        self.0 = true;
        Error
    }
}

/// The codec's handler before its first byte.
fn handler(codec: Codec) -> Box<dyn Handler> {
    match codec {
        Codec::SingleByte | Codec::UserDefined => Box::new(Bytes(codec)),
        Codec::Gbk | Codec::Gb18030 => Box::new(Gb18030::default()),
        Codec::Big5 => Box::new(Big5(Lead::default())),
        Codec::EucJp => Box::new(EucJp::default()),
        Codec::Iso2022Jp => Box::new(Iso2022Jp::new()),
        Codec::ShiftJis => Box::new(ShiftJis(Lead::default())),
        Codec::EucKr => Box::new(EucKr(Lead::default())),
        Codec::Replacement => Box::new(Replacement(false)),
        Codec::Utf16Be | Codec::Utf16Le => Box::new(Utf16 { big_endian: codec == Codec::Utf16Be, ..Utf16::default() }),
    }
}

/// Returns the text of the bytes, with U+FFFD for each malformed sequence.
pub fn decode(codec: Codec, tables: &Tables, bytes: &[u8]) -> Vec<char> {
    decode_last(codec, tables, bytes, 1)
}

/// Returns the text of the bytes that one decoder gives the last of `times` times that it reads them.
pub fn decode_last(codec: Codec, tables: &Tables, bytes: &[u8], times: usize) -> Vec<char> {
    let mut handler = handler(codec);
    (0..times).map(|_| run(handler.as_mut(), tables, bytes)).last().unwrap_or_default()
}
