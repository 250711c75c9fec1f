//! The calls of the library's own traits, one by one, over its crates as plain Rust.

mod decoding;
mod encoding;
mod kinds;

use crate::exported::Rooms;
use crate::guard::{with_guards, Side};
use crate::plan::{Kept, Plan};
use crate::prepared::Prepared;
use kinds::{Kinds, Made, Parts};
use legacy_codecs::{
    Big5Decoder, Big5Encoder, CachedEncoder, CachedIso2022JpEncoder, EncodesPairs, EucJpDecoder, EucJpEncoder, EucKrDecoder,
    EucKrEncoder, Gb18030Decoder, Gb18030Encoder, Iso2022JpDecoder, Iso2022JpEncoder, ReplacementDecoder, ShiftJisDecoder,
    ShiftJisEncoder, SingleByteDecoder, SingleByteEncoder, SingleByteTable, Tables, UserDefinedDecoder, UserDefinedEncoder,
    Utf16Decoder, PAIR_ROOM,
};
use soak::codec::Codec;
use std::cell::RefCell;
use std::collections::HashMap;

thread_local! {
    /// The tables of each choice.
    static MADE: RefCell<HashMap<usize, &'static Made<'static>>> = RefCell::new(HashMap::new());
    /// Room for the list of pairs.
    static PAIRS: RefCell<Vec<u16>> = RefCell::new(vec![0xA5A5; PAIR_ROOM]);
}

/// Returns the tables of a choice, which are made once.
fn kept(prepared: &Prepared) -> Result<&'static Made<'static>, String> {
    let key = prepared as *const Prepared as usize;
    if let Some(made) = MADE.with_borrow(|made| made.get(&key).copied()) {
        return Ok(made);
    }
    // A prepared choice is never freed.
    let prepared: &'static Prepared = unsafe { &*(prepared as *const Prepared) };
    let parts: &'static Parts = Box::leak(Box::new(with_guards(Side::End, || Parts::of(prepared))));
    let lent = Box::leak(Box::new(kinds::Lent::default()));
    let made: &'static Made = Box::leak(Box::new(with_guards(Side::End, || Kinds::new(prepared, parts).made(lent))?));
    MADE.with_borrow_mut(|all| all.insert(key, made));
    Ok(made)
}

/// Returns the table of a single-byte codec, if it is accepted.
fn single_byte(prepared: &Prepared) -> Result<Option<SingleByteTable>, String> {
    let Ok(entries) = <&[u16; 128]>::try_from(prepared.tables.single_byte.as_slice()) else { return Ok(None) };
    let wanted = crate::faults::single_byte_fault(entries);
    match SingleByteTable::new(entries) {
        Ok(table) if wanted.is_none() => Ok(Some(table)),
        Err(fault) if wanted == Some(format!("{fault:?}")) => Ok(None),
        Ok(_) => Err(format!("the table was taken, and has {wanted:?}")),
        Err(fault) => Err(format!("the table is told to have {fault:?}, and has {wanted:?}")),
    }
}

/// What encodes and decodes by tables of any kind.
struct Job<'a> {
    plan: &'a Plan,
    prepared: &'a Prepared,
    rooms: &'a mut Rooms,
}

impl Job<'_> {
    fn decodes(&mut self, tables: &Tables) -> Result<(), String> {
        match self.plan.codec {
            Codec::SingleByte => match single_byte(self.prepared)? {
                Some(table) => decoding::tried(self, || SingleByteDecoder::new(&table)),
                None => Ok(()),
            },
            Codec::Gbk | Codec::Gb18030 => decoding::tried(self, || Gb18030Decoder::new(tables)),
            Codec::Big5 => decoding::tried(self, || Big5Decoder::new(tables)),
            Codec::EucJp => decoding::tried(self, || EucJpDecoder::new(tables)),
            Codec::Iso2022Jp => decoding::tried(self, || Iso2022JpDecoder::new(tables)),
            Codec::ShiftJis => decoding::tried(self, || ShiftJisDecoder::new(tables)),
            Codec::EucKr => decoding::tried(self, || EucKrDecoder::new(tables)),
            Codec::Replacement => decoding::tried(self, ReplacementDecoder::new),
            Codec::Utf16Be => decoding::tried(self, || Utf16Decoder::new(true)),
            Codec::Utf16Le => decoding::tried(self, || Utf16Decoder::new(false)),
            Codec::UserDefined => decoding::tried(self, UserDefinedDecoder::new),
        }
    }

    fn encodes_single_byte(&mut self) -> Result<(), String> {
        let Some(table) = single_byte(self.prepared)? else { return Ok(()) };
        let run = self.prepared.tables.single_byte_run;
        let wanted = crate::faults::run_fault(&self.prepared.tables.single_byte, run);
        match SingleByteEncoder::new(&table, run.scalar, run.start, run.length) {
            Ok(mut encoder) if wanted.is_none() => {
                encoding::tried(self, &mut SingleByteEncoder::with_longest_run(&table))?;
                encoding::tried(self, &mut encoder)
            }
            Err(fault) if wanted == Some(format!("{fault:?}")) => Ok(()),
            Ok(_) => Err(format!("the run was taken, and has {wanted:?}")),
            Err(fault) => Err(format!("the run is told to have {fault:?}, and has {wanted:?}")),
        }
    }

    /// Encodes by an encoder of pairs, with a list of them if the plan asks for that.
    fn encodes_pairs<E: EncodesPairs>(&mut self, mut encoder: E) -> Result<(), String> {
        if self.plan.kept != Kept::Ahead {
            return encoding::tried(self, &mut encoder);
        }
        PAIRS.with_borrow_mut(|room| {
            if CachedEncoder::new(&encoder, &mut room[1..]).is_some() {
                return Err("it took too small a room".to_string());
            }
            // The room has the list of another encoder.
            let mut cached = CachedEncoder::new(&encoder, room).ok_or("it refused the room")?;
            encoding::tried(self, &mut cached)
        })
    }

    fn encodes_modes(&mut self, mut encoder: Iso2022JpEncoder) -> Result<(), String> {
        if self.plan.kept != Kept::Ahead {
            return encoding::tried(self, &mut encoder);
        }
        PAIRS.with_borrow_mut(|room| {
            let mut cached = CachedIso2022JpEncoder::new(&encoder, room).ok_or("it refused the room")?;
            encoding::tried(self, &mut cached)
        })
    }

    fn encodes(&mut self, tables: &Tables) -> Result<(), String> {
        match self.plan.codec {
            Codec::SingleByte => self.encodes_single_byte(),
            Codec::Gbk => self.encodes_pairs(Gb18030Encoder::new(tables, false)),
            Codec::Gb18030 => self.encodes_pairs(Gb18030Encoder::new(tables, true)),
            Codec::Big5 => self.encodes_pairs(Big5Encoder::new(tables)),
            Codec::EucJp => self.encodes_pairs(EucJpEncoder::new(tables)),
            Codec::Iso2022Jp => self.encodes_modes(Iso2022JpEncoder::new(tables)),
            Codec::ShiftJis => self.encodes_pairs(ShiftJisEncoder::new(tables)),
            Codec::EucKr => self.encodes_pairs(EucKrEncoder::new(tables)),
            Codec::UserDefined => encoding::tried(self, &mut UserDefinedEncoder::new()),
            Codec::Replacement | Codec::Utf16Be | Codec::Utf16Le => Ok(()),
        }
    }

    fn runs(&mut self, tables: &Tables) -> Result<(), String> {
        if self.plan.encodes {
            self.encodes(tables)
        } else {
            self.decodes(tables)
        }
    }
}

/// Makes the calls that the plan asks for, over tables that are kept or made for it.
pub fn call(plan: &Plan, prepared: &Prepared, is_kept: bool, rooms: &mut Rooms) -> Result<(), String> {
    let mut job = Job { plan, prepared, rooms };
    if is_kept {
        return job.runs(kept(prepared)?.tables(plan.kept));
    }
    let parts = Parts::of(prepared);
    let kinds = Kinds::new(prepared, &parts);
    let Some(tables) = kinds.tables(plan.kept)? else { return Ok(()) };
    job.runs(&tables)
}
