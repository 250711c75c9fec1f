//! Inputs around the places where a block of 64 units ends: each form of a codec at each place near a multiple of 64,
//! between units of one kind, with ends near it.

use crate::guard::Side;
use crate::plan::{Choice, Kept, Plan};
use soak::codec::{Codec, CODECS};
use soak::ours::Calls;

/// Forms in bytes, whole ones, cut ones and malformed ones.
fn forms(codec: Codec) -> Vec<&'static [u8]> {
    match codec {
        Codec::Gbk | Codec::Gb18030 => vec![
            b"\xC4\xE3", b"\x81\x30\x81\x30", b"\x81\x30\x81\x30\x94\x39\xDA\x33", b"\x81\x30\x81", b"\x81\x30", b"\x81", b"\x80", b"\xFF",
            b"\xFE\x39\xFE\x39", b"\x81\x30\x81\x41", b"\x81\x30\xC4\xE3", b"\xA2\xE3\x84\x31\xA4\x37", b"\x81\x7F",
            b"\x81\x35\xF4\x36\x81\x35\xF4\x37", b"\x84\x31\xA4\x39", b"\x84\x31\xA5\x30", b"\x90\x30\x81\x30", b"\xE3\x32\x9A\x35", b"\xE3\x32\x9A\x36",
        ],
        Codec::Big5 => vec![b"\xA4\xA4", b"\x88\x62", b"\x88\xA3", b"\x88\x64", b"\x88\xA5", b"\x88\x63", b"\x81", b"\x80", b"\xFF", b"\x81\x40", b"\xFE\xFE", b"\x87\x40", b"\xA4\x7F"],
        Codec::EucJp => vec![b"\xB0\xA1", b"\x8E\xB1", b"\x8F\xB0\xA1", b"\x8F\xB0", b"\x8F", b"\x8E", b"\x8E\x41", b"\x8F\xB0\x41", b"\xFF", b"\xA0", b"\xB0", b"\xB0\x41", b"\xFE\xFE"],
        Codec::Iso2022Jp => vec![
            b"\x1B$B", b"\x1B(B", b"\x1B(J", b"\x1B(I", b"\x1B$@", b"\x1B", b"\x1B$", b"\x1B(", b"\x1B$B0!0!\x1B(B", b"\x1B$B0", b"\x1B$B0\x1B(B", b"\x1B(B\x1B(B",
            b"\x0E", b"\x80", b"\x1B$A", b"\x1B(J\\~\x1B(B", b"\x1B(I1\x1B(B", b"\x1B$\x1B(B",
        ],
        Codec::ShiftJis => vec![b"\x88\x9F", b"\xB1", b"\xF0\x40", b"\xF9\xFC", b"\x81", b"\x80", b"\xA0", b"\xFD", b"\x81\x7F", b"\xFC\xFC", b"\x82\xA0\x82\xA2"],
        Codec::EucKr => vec![b"\xB0\xA1", b"\x81\x41", b"\xC6\x52", b"\xC9\xA1", b"\x81", b"\x80", b"\xFF", b"\xB0\x40", b"\xFE\xFE", b"\xB0\x7F"],
        Codec::Utf16Be => vec![b"\xD8\x3D\xDC\xA9", b"\xD8\x3D", b"\xDC\xA9", b"\xD8", b"\xD8\x3D\xD8\x3D\xDC\xA9", b"\xD8\x3D\x00\x61", b"\x4E\x00", b"\x00", b"\xD8\x3D\xDC", b"\xFF\xFD"],
        Codec::Utf16Le => vec![b"\x3D\xD8\xA9\xDC", b"\x3D\xD8", b"\xA9\xDC", b"\x3D", b"\x3D\xD8\x3D\xD8\xA9\xDC", b"\x3D\xD8\x61\x00", b"\x00\x4E", b"\x00", b"\x3D\xD8\xA9", b"\xFD\xFF"],
        _ => vec![b"\x80", b"\xFF", b"\xA0", b"\xE0\xF0", b"\x81", b"\x00"],
    }
}

/// Returns what fills a source before and after a form.
fn fills(codec: Codec) -> Vec<&'static [u8]> {
    match codec {
        Codec::Gbk | Codec::Gb18030 => vec![b"a", b"\xC4\xE3", b"\x81\x30\x81\x30"],
        Codec::Big5 => vec![b"a", b"\xA4\xA4"],
        Codec::EucJp => vec![b"a", b"\xB0\xA1", b"\x8E\xB1", b"\x8F\xB0\xA1"],
        Codec::Iso2022Jp => vec![b"a", b"0!"],
        Codec::ShiftJis => vec![b"a", b"\x88\x9F", b"\xB1"],
        Codec::EucKr => vec![b"a", b"\xB0\xA1"],
        Codec::Utf16Be => vec![b"\x00a", b"\x4E\x00", b"\xD8\x3D\xDC\xA9"],
        Codec::Utf16Le => vec![b"a\x00", b"\x00\x4E", b"\x3D\xD8\xA9\xDC"],
        _ => vec![b"a", b"\xE4"],
    }
}

/// Texts in UTF-16: forms and what fills them.
const TEXTS: [&[u16]; 14] = [
    &[0x61], &[0x4E00], &[0xAC00], &[0x3042], &[0xD83D, 0xDCA9], &[0xD83D], &[0xDCA9], &[0xA5], &[0x2212], &[0xFF71], &[0xE7C7], &[0x20AC],
    &[0x0E], &[0x416],
];
const TEXT_FILLS: [&[u16]; 5] = [&[0x61], &[0x4E00], &[0xD55C], &[0x3042], &[0x416]];

/// The longest of these sources in units.
const LONGEST: usize = 200;

/// The longest of these sources of a decoder of pairs in bytes: after some blocks of 64 it reads several at once.
const LONGEST_OF_PAIRS: usize = 1100;

/// The greatest distance of a form's beginning from a multiple of 64.
const AROUND: usize = 5;

/// Returns a source of `length` units: a form at a place, among what fills the rest.
fn source<T: Copy>(fill: &[T], form: &[T], place: usize, length: usize) -> Vec<T> {
    let mut units: Vec<T> = fill.iter().copied().cycle().take(place).collect();
    units.extend(form);
    units.extend(fill.iter().cycle().take(length.saturating_sub(units.len())));
    units
}

/// Returns the places near the end of a block of 64.
fn near(block: usize) -> std::ops::Range<usize> {
    block * 64 - AROUND..block * 64 + AROUND - 2
}

/// Returns places near multiples of 64, and lengths near them and after the form.
fn places() -> impl Iterator<Item = (usize, usize)> {
    (1..=3).flat_map(near).flat_map(|place| [place + 3, place.next_multiple_of(64), LONGEST].map(|length| (place, length)))
}

/// Returns places in long sources, and lengths near them and after the form.
fn far_places() -> impl Iterator<Item = (usize, usize)> {
    (4..=13).flat_map(near).flat_map(|place| [place.next_multiple_of(64), LONGEST_OF_PAIRS].map(|length| (place, length)))
}

fn is_of_pairs(codec: Codec) -> bool {
    matches!(codec, Codec::Gbk | Codec::Gb18030 | Codec::Big5 | Codec::EucJp | Codec::ShiftJis | Codec::EucKr)
}

/// Returns a plan over the Standard's tables that nothing cuts.
fn whole(codec: Codec, encodes: bool, source: Vec<u8>) -> Plan {
    Plan {
        codec,
        encodes,
        is_wide: false,
        calls: Calls::Raw,
        kept: Kept::Flat,
        side: Side::End,
        choice: Choice::Standard(if encodes { 4 } else { 19 }),
        patches: None,
        piece: 0,
        room: 255,
        times: 1,
        queries: false,
        again: false,
        by_units: true,
        any_utf8: false,
        is_exported: true,
        cuts: [255; 4],
        outs: [255; 4],
        source,
    }
}

/// Returns the ways in which a source is converted.
fn ways(plan: &Plan, number: usize) -> Vec<Plan> {
    let mut plans = Vec::new();
    for is_wide in [false, true] {
        let turn = number + plans.len();
        let side = if turn % 3 == 0 { Side::Start } else { Side::End };
        let kept = [Kept::Flat, Kept::Packed, Kept::Unpacked, Kept::Ahead][turn % 4];
        let calls = [Calls::Raw, Calls::Replacing][turn / 4 % 2];
        let (piece, room) = [(0, 255), (1, 255), (63, 255), (64, 255), (0, 200), (7, 227), (0, 40), (65, 100)][turn / 3 % 8];
        let cuts = [[255; 4], [64, 1, 63, 2], [1; 4], [32, 0, 32, 5]][turn / 5 % 4];
        let outs = [[255; 4], [64, 3, 255, 1], [4; 4], [0, 63, 65, 7]][turn / 7 % 4];
        let plan = Plan { is_wide, side, kept, calls, piece, room, cuts, outs, queries: turn % 11 == 0, again: turn % 13 == 0, ..plan.clone() };
        if cfg!(feature = "plain") {
            plans.push(Plan { is_exported: false, ..plan.clone() });
        }
        plans.push(plan);
    }
    plans
}

/// Returns all plans of a codec.
pub fn plans(codec: Codec) -> Vec<Plan> {
    let mut plans = Vec::new();
    for (place, length) in places() {
        for (form, fill) in forms(codec).iter().flat_map(|form| fills(codec).into_iter().map(move |fill| (form, fill))) {
            plans.extend(ways(&whole(codec, false, source(fill, form, place, length)), plans.len()));
        }
        if codec.has_encoder() {
            for (form, fill) in TEXTS.iter().flat_map(|form| TEXT_FILLS.map(|fill| (form, fill))) {
                let units = source(fill, form, place, length);
                let bytes = units.iter().flat_map(|unit| unit.to_le_bytes()).collect();
                plans.extend(ways(&whole(codec, true, bytes), plans.len()));
            }
        }
    }
    if is_of_pairs(codec) {
        for (place, length) in far_places() {
            for (form, fill) in forms(codec).iter().flat_map(|form| fills(codec).into_iter().skip(1).map(move |fill| (form, fill))) {
                plans.extend(ways(&whole(codec, false, source(fill, form, place, length)), plans.len()));
            }
        }
    }
    plans
}

/// Returns the plans of all codecs.
pub fn all() -> impl Iterator<Item = Plan> {
    CODECS.into_iter().flat_map(plans)
}
