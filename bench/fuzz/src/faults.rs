//! Which tables are accepted, and the first fault that the library must return for others.
//!
//! This was written from the documentation of its tables, without its code.

use soak::ours::{ByteRun, Packed, Range, Run};
use soak::tables::Tables;
use std::collections::BTreeMap;

/// Checks whether an entry is past ASCII and at most U+FFFF.
fn is_narrow(entry: u32) -> bool {
    (0x80..=0xFFFF).contains(&entry) && !(0xD800..=0xDFFF).contains(&entry)
}

/// Returns the first fault of an index of this name and at most `most` entries.
fn index_fault<T: Copy + Into<u32>>(name: &str, most: usize, index: &[T]) -> Option<String> {
    if index.len() > most {
        return Some(format!("TooLong({name})"));
    }
    index.iter().enumerate().find_map(|(pointer, entry)| {
        let entry: u32 = (*entry).into();
        let is_wide = name == "Big5" && entry >> 16 == 2;
        let stays_empty = match name {
            "Big5" => [1133, 1135, 1164, 1166].contains(&pointer),
            "Jis0208" => (8836..10_716).contains(&pointer),
            _ => false,
        };
        match entry {
            0 => None,
            _ if !is_narrow(entry) && !is_wide => Some(format!("BadEntry({name}, {pointer})")),
            _ if stays_empty => Some(format!("NotEmpty({name}, {pointer})")),
            _ => None,
        }
    })
}

fn katakana_fault(katakana: &[u16]) -> Option<String> {
    match katakana.len() {
        0 | 63 => index_fault("Katakana", 63, katakana),
        _ => Some("KatakanaLength".to_string()),
    }
}

fn ranges_fault(ranges: &[Range]) -> Option<String> {
    let wide = |range: &Range| (u32::from(range.pointer), u32::from(range.scalar));
    for (at, range) in ranges.iter().enumerate() {
        let (pointer, scalar) = wide(range);
        let follows = at == 0 || {
            let (before, first) = wide(&ranges[at - 1]);
            pointer > before && scalar >= first + (pointer - before)
        };
        if pointer > 39_419 || !follows {
            return Some(format!("RangeOrder({at})"));
        }
    }
    for (at, range) in ranges.iter().enumerate() {
        let (pointer, scalar) = wide(range);
        let end = ranges.get(at + 1).map_or(39_420, |next| u32::from(next.pointer));
        let scalars = scalar..scalar + (end - pointer);
        let holds_surrogates = scalars.start < 0xE000 && scalars.end > 0xD800;
        if scalar < 0x80 || scalars.end > 0x1_0000 || holds_surrogates {
            return Some(format!("RangeValue({at})"));
        }
    }
    None
}

/// Returns the first fault of flat indexes.
pub fn flat_fault(tables: &Tables) -> Option<String> {
    index_fault("Big5", 19_782, &tables.big5)
        .or_else(|| index_fault("EucKr", 23_940, &tables.euc_kr))
        .or_else(|| index_fault("Jis0208", 11_280, &tables.jis0208))
        .or_else(|| index_fault("Jis0212", 8836, &tables.jis0212))
        .or_else(|| index_fault("Gb18030", 23_940, &tables.gb18030))
        .or_else(|| katakana_fault(&tables.katakana))
        .or_else(|| ranges_fault(&tables.ranges))
}

/// Returns the flat index as numbers.
fn numbers<T: Copy + Into<u32>>(index: &[T]) -> Vec<u32> {
    index.iter().map(|entry| (*entry).into()).collect()
}

/// Returns the first fault of runs of at most `most` pointers beside a flat index.
fn runs_fault<T: Copy + Into<u32>>(part: &str, most: usize, runs: &[Run], index: &[T]) -> Option<String> {
    let mut end = 0;
    for (at, run) in runs.iter().enumerate() {
        let (pointer, length) = (usize::from(run.pointer), usize::from(run.length));
        let is_in_order = length > 0 && pointer >= end && pointer + length <= most;
        if !is_in_order || u64::from(run.scalar) + length as u64 > 0x11_0000 {
            return Some(format!("PackedOrder({part}, {at})"));
        }
        end = pointer + length;
    }
    // U+0000 and the number of a surrogate are given too, and no flat index has them.
    let mut given = vec![None; most];
    for run in runs {
        for place in 0..run.length {
            given[usize::from(run.pointer + place)] = Some(run.scalar + u32::from(place));
        }
    }
    let flat = numbers(index);
    let differs = |pointer: &usize| {
        flat.get(*pointer).copied().filter(|entry| *entry != 0) != given[*pointer]
    };
    (0..most).find(differs).map(|pointer| format!("PackedDiffers({part}, {pointer})"))
}

/// The scalars for which Big5's encoder uses the last pointer.
const LAST_OF_BIG5: [u32; 6] = [0x2550, 0x255E, 0x2561, 0x256A, 0x5341, 0x5345];

/// Checks whether the encoder of an order may use the pointer.
fn may_use(part: &str, pointer: usize) -> bool {
    match part {
        "Big5Order" => pointer >= 5024,
        "ShiftJisOrder" => !(8272..=8835).contains(&pointer),
        "EucJpOrder" => pointer < 8836,
        _ => true,
    }
}

/// Returns the first fault of an order beside a flat index.
fn order_fault<T: Copy + Into<u32>>(part: &str, order: &[u16], index: &[T]) -> Option<String> {
    let flat = numbers(index);
    let mut above = 0;
    for (at, pointer) in order.iter().enumerate() {
        let pointer = usize::from(*pointer);
        let scalar = flat.get(pointer).copied().unwrap_or(0);
        if !may_use(part, pointer) || scalar <= above {
            return Some(format!("PackedOrder({part}, {at})"));
        }
        above = scalar;
    }
    let mut taken = BTreeMap::new();
    for (pointer, scalar) in flat.iter().enumerate().filter(|(pointer, scalar)| **scalar != 0 && may_use(part, *pointer)) {
        if part == "Big5Order" && LAST_OF_BIG5.contains(scalar) {
            taken.insert(*scalar, pointer);
        } else {
            taken.entry(*scalar).or_insert(pointer);
        }
    }
    let held: BTreeMap<u32, usize> = order.iter().map(|pointer| (flat[usize::from(*pointer)], usize::from(*pointer))).collect();
    let is_lacking = |(pointer, scalar): &(usize, &u32)| {
        **scalar != 0 && may_use(part, *pointer) && held.get(*scalar) != taken.get(*scalar)
    };
    let lacking = flat.iter().enumerate().find(is_lacking);
    lacking.map(|(pointer, _)| format!("PackedDiffers({part}, {pointer})"))
}

/// Returns the first fault of packed indexes beside flat ones, which have none.
fn parts_fault(tables: &Tables, packed: &Packed) -> Option<String> {
    runs_fault("Big5", 19_782, &packed.big5, &tables.big5)
        .or_else(|| runs_fault("EucKr", 23_940, &packed.euc_kr, &tables.euc_kr))
        .or_else(|| runs_fault("Jis0208", 11_280, &packed.jis0208, &tables.jis0208))
        .or_else(|| runs_fault("Jis0212", 8836, &packed.jis0212, &tables.jis0212))
        .or_else(|| runs_fault("Gb18030", 23_940, &packed.gb18030, &tables.gb18030))
        .or_else(|| order_fault("Big5Order", &packed.big5_order, &tables.big5))
        .or_else(|| order_fault("EucKrOrder", &packed.euc_kr_order, &tables.euc_kr))
        .or_else(|| order_fault("ShiftJisOrder", &packed.shift_jis_order, &tables.jis0208))
        .or_else(|| order_fault("EucJpOrder", &packed.euc_jp_order, &tables.jis0208))
        .or_else(|| order_fault("Gb18030Order", &packed.gb18030_order, &tables.gb18030))
}

/// Returns the first fault of packed tables: of the flat indexes, and then of the parts.
pub fn packed_fault(tables: &Tables, packed: &Packed) -> Option<String> {
    flat_fault(tables).or_else(|| parts_fault(tables, packed))
}

/// Returns the first fault of the 128 entries of a single-byte encoding.
pub fn single_byte_fault(entries: &[u16]) -> Option<String> {
    entries.iter().enumerate().find_map(|(at, entry)| match *entry {
        0 => None,
        0xFFFD => Some(format!("BadByteEntry({at})")),
        entry if !is_narrow(u32::from(entry)) => Some(format!("BadByteEntry({at})")),
        entry if entries[..at].contains(&entry) => Some(format!("Repeated({at})")),
        _ => None,
    })
}

/// Returns the first fault of the run of a single-byte encoder.
pub fn run_fault(entries: &[u16], run: ByteRun) -> Option<String> {
    let (start, length) = (usize::from(run.start), usize::from(run.length));
    if start < 32 {
        return Some("RunStart".to_string());
    }
    if start + length > 128 {
        return Some("RunPastEnd".to_string());
    }
    let differs = |at: &usize| usize::from(entries[*at]) != usize::from(run.scalar) + (at - start);
    (start..start + length).find(differs).map(|at| format!("RunMismatch({at})"))
}
