//! Tables: those of the Standard, as encoding_rs has them, odd ones, and invalid ones, which must be refused.

use crate::codec::{encoding, Codec, SINGLE_BYTE};
use crate::indexes;
use crate::numbers::Numbers;
use crate::ours::{ByteRun, Packed, Range, Run};
use std::collections::HashSet;

/// The indexes that a codec reads.
pub use crate::ours::Indexes as Tables;

/// Returns tables without an entry.
fn none() -> Tables {
    Tables { single_byte: vec![0; 128], ..Tables::default() }
}

/// The Standard's indexes of all codecs, found once.
pub struct Standard {
    all: Tables,
    single_byte: Vec<Vec<u16>>,
}

impl Default for Standard {
    fn default() -> Standard {
        Standard::new()
    }
}

impl Standard {
    pub fn new() -> Standard {
        Standard {
            all: Tables {
                big5: indexes::big5(),
                euc_kr: indexes::euc_kr(),
                jis0208: indexes::jis0208(),
                jis0212: indexes::jis0212(),
                gb18030: indexes::gb18030(),
                katakana: indexes::katakana(),
                ranges: indexes::ranges(),
                ..none()
            },
            single_byte: SINGLE_BYTE.iter().map(|name| indexes::single_byte(encoding(name))).collect(),
        }
    }

    /// Returns the Standard's tables that the codec reads, and the name of the encoding.
    pub fn tables(&self, codec: Codec, numbers: &mut Numbers) -> (Tables, &'static str) {
        let which = if codec == Codec::SingleByte { numbers.below(SINGLE_BYTE.len()) } else { 0 };
        self.tables_of(codec, which, numbers)
    }

    /// The same, of the single-byte encoding of this number.
    pub fn tables_of(&self, codec: Codec, which: usize, numbers: &mut Numbers) -> (Tables, &'static str) {
        let none = none();
        let all = &self.all;
        let tables = match codec {
            Codec::SingleByte => {
                let mut tables = Tables { single_byte: self.single_byte[which].clone(), ..none };
                tables.single_byte_run = any_run(&tables.single_byte, numbers);
                return (tables, SINGLE_BYTE[which]);
            }
            Codec::Gbk | Codec::Gb18030 => Tables { gb18030: all.gb18030.clone(), ranges: all.ranges.clone(), ..none },
            Codec::Big5 => Tables { big5: all.big5.clone(), ..none },
            Codec::EucJp => Tables { jis0208: all.jis0208.clone(), jis0212: all.jis0212.clone(), ..none },
            Codec::Iso2022Jp => Tables { jis0208: all.jis0208.clone(), katakana: all.katakana.clone(), ..none },
            Codec::ShiftJis => Tables { jis0208: all.jis0208.clone(), ..none },
            Codec::EucKr => Tables { euc_kr: all.euc_kr.clone(), ..none },
            _ => none,
        };
        (tables, codec.name())
    }
}

/// Returns a run of the entries: from some position on, as long as it may be, or shorter.
fn any_run(entries: &[u16], numbers: &mut Numbers) -> ByteRun {
    let start = numbers.within(32, 127);
    let first = entries[start];
    let follows = |(at, entry): &(usize, &u16)| usize::from(**entry) == usize::from(first) + at;
    let longest = entries[start..].iter().enumerate().take_while(follows).count();
    let length = numbers.within(0, longest);
    ByteRun { scalar: first, start: start as u8, length: length as u8 }
}

/// Returns a scalar up to U+FFFF that an index may have, but never U+FFFD, which marks malformed sequences.
fn narrow(numbers: &mut Numbers) -> u16 {
    let first = numbers.of(&[0x80, 0x80, 0x2010, 0x2200, 0x2540, 0x3000, 0x4E00, 0xAC00, 0xE000, 0xFEC0]);
    match first + numbers.below(0x140) as u16 {
        scalar @ 0xFFFD => scalar - 1,
        scalar => scalar,
    }
}

/// Returns at most `most` entries of an index, of which a few or most are not 0.
fn entries<T: Default + Clone>(numbers: &mut Numbers, most: usize, mut any: impl FnMut(&mut Numbers) -> T) -> Vec<T> {
    let length = match numbers.below(4) {
        0 => numbers.below(300),
        1 => most,
        _ => numbers.within(0, most),
    };
    let mut entries = vec![T::default(); length];
    if numbers.once_in(3) {
        for _ in 0..length.min(60) {
            entries[numbers.below(length)] = any(numbers);
        }
        return entries;
    }
    let share = numbers.within(2, 20);
    for entry in &mut entries {
        if !numbers.once_in(share) {
            *entry = any(numbers);
        }
    }
    entries
}

/// Returns ranges by rising pointers and scalars.
fn ranges(numbers: &mut Numbers) -> Vec<Range> {
    let mut ranges: Vec<Range> = Vec::new();
    let (mut pointer, mut scalar) = (numbers.of(&[0, 0, 7, 7000, 39000]), numbers.of(&[0x80, 0x80, 0x452, 0x2E81]));
    for _ in 0..numbers.below(200) {
        let length = numbers.length(3000).max(1);
        // The last pointer is 39419, and a range contains no surrogate: no range reaches past U+D7FF.
        if pointer > 39_419 || scalar + 39_420 - pointer > 0xD800 {
            break;
        }
        ranges.push(Range { pointer: pointer as u16, scalar: scalar as u16 });
        pointer += length;
        scalar += length + numbers.length(100);
    }
    ranges
}

/// Returns single-byte entries, of which no two are the same.
fn single_byte(numbers: &mut Numbers) -> Vec<u16> {
    let mut seen = HashSet::new();
    let mut next = narrow(numbers);
    let dense = numbers.within(1, 20);
    (0..128)
        .map(|_| {
            next = if numbers.once_in(6) { narrow(numbers) } else { next.saturating_add(1) };
            let is_scalar = (0x80..0xD800).contains(&next) || (0xE000..0xFFFD).contains(&next);
            if is_scalar && !numbers.once_in(dense + 1) && seen.insert(next) { next } else { 0 }
        })
        .collect()
}

/// The scalars for which Big5's encoder uses the last pointer.
const LAST_IN_BIG5: [u32; 6] = [0x2550, 0x255E, 0x2561, 0x256A, 0x5341, 0x5345];

fn wide(numbers: &mut Numbers) -> u32 {
    match numbers.below(10) {
        0 | 1 => 0x2_0000 + numbers.below(0x300) as u32,
        2 => numbers.of(&LAST_IN_BIG5),
        _ => u32::from(narrow(numbers)),
    }
}

/// Returns tables that are accepted, and that no encoding has.
pub fn odd(codec: Codec, numbers: &mut Numbers) -> Tables {
    let none = none();
    let mut tables = match codec {
        Codec::SingleByte => Tables { single_byte: single_byte(numbers), ..none },
        Codec::Gbk | Codec::Gb18030 => Tables { gb18030: entries(numbers, 23_940, narrow), ranges: ranges(numbers), ..none },
        Codec::Big5 => Tables { big5: entries(numbers, 19_782, wide), ..none },
        Codec::EucKr => Tables { euc_kr: entries(numbers, 23_940, narrow), ..none },
        Codec::EucJp => Tables { jis0208: entries(numbers, 11_280, narrow), jis0212: entries(numbers, 8_836, narrow), ..none },
        Codec::ShiftJis | Codec::Iso2022Jp => Tables { jis0208: entries(numbers, 11_280, narrow), ..none },
        _ => none,
    };
    let user_defined = 8_836.min(tables.jis0208.len())..10_716.min(tables.jis0208.len());
    tables.jis0208[user_defined].fill(0);
    for pointer in [1133, 1135, 1164, 1166] {
        if let Some(entry) = tables.big5.get_mut(pointer) {
            *entry = 0;
        }
    }
    if codec == Codec::Iso2022Jp && numbers.once_in(2) {
        let some = tables.jis0208.clone();
        let of_index = |numbers: &mut Numbers| if some.is_empty() { 0 } else { numbers.of(&some) };
        tables.katakana = (0..63).map(|_| if numbers.once_in(4) { narrow(numbers) } else { of_index(numbers) }).collect();
    }
    tables.single_byte_run = any_run(&tables.single_byte, numbers);
    tables
}

/// Spoils one of the indexes that the codec reads. The tables must be refused after that.
pub fn spoil(tables: &mut Tables, numbers: &mut Numbers) -> &'static str {
    let bad = numbers.of(&[0x7F, 0x01, 0xD800, 0xDFFF]);
    let mut spoil_narrow = |entries: &mut Vec<u16>, most: usize| {
        if numbers.once_in(2) {
            entries.resize(most + 1, 0);
        } else {
            entries.push(0);
            entries.truncate(most);
            let place = numbers.below(entries.len());
            entries[place] = bad;
        }
    };
    match bad % 3 {
        0 => spoil_narrow(&mut tables.euc_kr, 23_940),
        1 => spoil_narrow(&mut tables.gb18030, 23_940),
        _ => spoil_narrow(&mut tables.jis0212, 8_836),
    }
    match numbers.below(8) {
        0 => tables.katakana = vec![0; 62],
        1 => tables.ranges = vec![Range { pointer: 0, scalar: 0x7F }],
        2 => tables.ranges = vec![Range { pointer: 39_420, scalar: 0x80 }],
        3 => tables.ranges = vec![Range { pointer: 0, scalar: 0x80 }, Range { pointer: 36, scalar: 0xA3 }],
        4 => tables.big5 = vec![0, 0x1_0000],
        5 => tables.big5 = vec![0x3000; 1134],
        6 => tables.jis0208 = vec![0x3000; 8837],
        _ => return "an index that is too long or has a bad entry",
    }
    "an index that breaks a rule of its own"
}

/// Spoils runs or an order of accepted indexes, which must be refused after that. Returns `None` if they are empty.
pub fn spoil_packed(packed: &mut Packed, numbers: &mut Numbers) -> Option<&'static str> {
    let Packed { big5, euc_kr, jis0208, jis0212, gb18030, .. } = packed;
    let mut runs: Vec<&mut Vec<Run>> = vec![big5, euc_kr, jis0208, jis0212, gb18030];
    runs.retain(|runs| !runs.is_empty());
    let Packed { big5_order, euc_kr_order, shift_jis_order, euc_jp_order, gb18030_order, .. } = packed;
    let mut orders: Vec<&mut Vec<u16>> = vec![big5_order, euc_kr_order, shift_jis_order, euc_jp_order, gb18030_order];
    orders.retain(|order| order.len() > 1);
    if runs.is_empty() || orders.is_empty() {
        return None;
    }
    let which = numbers.below(runs.len());
    let runs = &mut runs[which];
    let run = numbers.below(runs.len());
    let which = numbers.below(orders.len());
    let order = &mut orders[which];
    let place = numbers.within(1, order.len() - 1);
    match numbers.below(6) {
        0 => drop(runs.remove(run)),
        1 => runs[run].scalar += 1,
        2 => runs[run].length += 1,
        3 => drop(order.remove(place)),
        4 => order.swap(place - 1, place),
        _ => order[place] = order[place - 1],
    }
    Some("runs or an order that are not those of the indexes")
}
