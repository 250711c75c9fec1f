//! The functions of the header beside the model and encoding_rs.

use crate::guard::Room;
use crate::plan::{Kept, Plan};
use crate::prepared::Prepared;
use crate::text;
use soak::calls::Cut;
use soak::checks::{self, ROOM_IN_BYTES, ROOM_IN_UNITS, ROOM_WITH_REFERENCE};
use soak::ours::{self, Calls};
use std::fmt::Debug;

/// Guarded memory for a source and for an output.
pub struct Rooms {
    pub source: Room,
    pub output: Room,
}

/// The output of a function, or `None` if it refused.
type Came<U> = Option<Vec<U>>;

/// Returns the cut of the plan, into an output of `room` units.
fn cut_of(plan: &Plan, room: usize) -> Cut {
    let kept = match plan.kept {
        Kept::Flat => ours::Kept::Flat,
        Kept::Packed | Kept::Unpacked => ours::Kept::Packed,
        Kept::Ahead => ours::Kept::Ahead,
    };
    Cut { kept, calls: plan.calls, piece: plan.piece, room }
}

/// Returns the length of the output in units, for `wanted` units.
fn room_of(plan: &Plan, wanted: usize) -> usize {
    match plan.room {
        255 => wanted + 16,
        near @ 200.. => (wanted + 27).saturating_sub(usize::from(near - 200)),
        few => usize::from(few).min(wanted + 64),
    }
}

/// Returns what was written, if the function stayed inside the output and was right to refuse or take the source.
fn taken<U: Copy>(output: &[U], written: usize, refuses: Option<String>) -> Result<Came<U>, String> {
    match (written, refuses) {
        (usize::MAX, Some(_)) => Ok(None),
        (usize::MAX, None) => Err("it refused what is to be taken".to_string()),
        (_, Some(fault)) => Err(format!("it took what is to be refused: {fault}")),
        _ if written > output.len() => Err(format!("it says that it wrote {written} units into {}", output.len())),
        _ => Ok(Some(output[..written].to_vec())),
    }
}

/// Compares what a function wrote the last time with what is wanted. No time needs more than `most` units.
fn compared<U: Copy + PartialEq + Debug>(
    plan: &Plan,
    came: Came<U>,
    wanted: &[U],
    most: usize,
    (room, least): (usize, usize),
    is_between: impl Fn(&[U], usize) -> bool,
) -> Result<(), String> {
    let Some(came) = came else { return Ok(()) };
    if plan.times == 0 {
        return if came.is_empty() { Ok(()) } else { Err("it wrote without being asked to".to_string()) };
    }
    if plan.times > 1 && room < most + 16 {
        // A text for which the output is too short is left half read, and the next one begins in that state.
        return Ok(());
    }
    checks::is_front(&came, wanted, cut_of(plan, room), least, is_between)
}

/// Decodes the source.
fn decodes(plan: &Plan, prepared: &Prepared, rooms: &mut Rooms) -> Result<(), String> {
    let fault = prepared.fault(plan.kept).or_else(|| prepared.single_byte_fault());
    let (once, wanted) = match fault {
        Some(_) => (String::new(), String::new()),
        None => text::decoded(plan, prepared, plan.times)?,
    };
    let longest = once.len().max(wanted.len());
    let source = rooms.source.copy(&plan.source, plan.side);
    let ours = prepared.ours(plan.kept);
    if plan.is_wide {
        let units: Vec<u16> = wanted.encode_utf16().collect();
        let room = room_of(plan, longest);
        let output = rooms.output.slice(room, 0xAAAA_u16, plan.side);
        let written = ours.to_utf16(plan.calls, source, output, plan.piece, plan.times);
        let came = taken(output, written, fault)?;
        return compared(plan, came, &units, longest, (room, ROOM_IN_UNITS), checks::is_between_units);
    }
    let room = room_of(plan, longest);
    let output = rooms.output.slice(room, 0xAA_u8, plan.side);
    let written = ours.to_utf8(plan.calls, source, output, plan.piece, plan.times);
    let came = taken(output, written, fault)?;
    compared(plan, came, wanted.as_bytes(), longest, (room, ROOM_IN_BYTES), checks::is_between_bytes)
}

/// Returns why an encoder must refuse, or `None`.
fn encoder_fault(plan: &Plan, prepared: &Prepared, is_text: bool) -> Option<String> {
    if !plan.codec.has_encoder() {
        return Some("a codec without an encoder".to_string());
    }
    if !is_text {
        return Some("a source that is no UTF-8".to_string());
    }
    prepared.fault(plan.kept).or_else(|| prepared.single_byte_fault())
}

/// Encodes the source.
fn encodes(plan: &Plan, prepared: &Prepared, rooms: &mut Rooms) -> Result<(), String> {
    let units = plan.units();
    let raw_bytes = plan.any_utf8 && !plan.is_wide;
    let scalars: Vec<char> = match std::str::from_utf8(&plan.source) {
        Ok(text) if raw_bytes => text.chars().collect(),
        _ => soak::sources::text_of(&units),
    };
    let bytes: Vec<u8> = if raw_bytes { plan.source.clone() } else { scalars.iter().collect::<String>().into_bytes() };
    let is_text = plan.is_wide || std::str::from_utf8(&bytes).is_ok();
    let fault = encoder_fault(plan, prepared, is_text);
    let wanted = if fault.is_none() { text::encoded(plan, prepared, &scalars)? } else { Vec::new() };
    let room = room_of(plan, wanted.len());
    let output = rooms.output.slice(room, 0xAA_u8, plan.side);
    let ours = prepared.ours(plan.kept);
    let written = if plan.is_wide {
        ours.from_utf16(plan.calls, rooms.source.copy(&units, plan.side), output, plan.piece, plan.times)
    } else {
        ours.from_utf8(plan.calls, rooms.source.copy(&bytes, plan.side), output, plan.piece, plan.times)
    };
    let least = if plan.calls == Calls::Raw { ROOM_IN_BYTES } else { ROOM_WITH_REFERENCE };
    compared(plan, taken(output, written, fault)?, &wanted, wanted.len(), (room, least), |_, _| true)
}

/// Calls the function of the header that the plan asks for.
pub fn call(plan: &Plan, prepared: &Prepared, rooms: &mut Rooms) -> Result<(), String> {
    if plan.encodes {
        encodes(plan, prepared, rooms)
    } else {
        decodes(plan, prepared, rooms)
    }
}
