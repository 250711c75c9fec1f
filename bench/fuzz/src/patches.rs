//! Changes of tables: each is a kind, a place and a value. `faults` says whether the tables are then accepted.

use soak::ours::{ByteRun, Packed, Range, Run};
use soak::tables::Tables;

/// A change of tables.
#[derive(Clone, Copy, Debug)]
pub struct Patch {
    kind: u8,
    place: usize,
    value: u16,
    high: u8,
}

/// The length of the indexes that are changed, so that a change is made and checked quickly.
const SHORT: usize = 400;

impl Patch {
    /// The patch of six bytes.
    pub fn of(bytes: &[u8]) -> Patch {
        let two = |at: usize| u16::from_le_bytes([bytes[at], bytes[at + 1]]);
        Patch { kind: bytes[0], place: usize::from(two(1)), value: two(3), high: bytes[5] }
    }

    /// Changes the flat indexes.
    pub fn change(self, tables: &mut Tables) {
        match self.kind % 24 {
            0 => self.change_narrow(&mut tables.euc_kr),
            1 => self.change_narrow(&mut tables.jis0208),
            2 => self.change_narrow(&mut tables.jis0212),
            3 => self.change_narrow(&mut tables.gb18030),
            4 => self.change_narrow(&mut tables.katakana),
            5 => self.change_narrow(&mut tables.single_byte),
            6 => change_entry(&mut tables.big5, self.place, u32::from(self.value) | u32::from(self.high) << 16),
            7 => tables.ranges.insert(self.place % (tables.ranges.len() + 1), self.range()),
            8 => change_entry(&mut tables.ranges, self.place, self.range()),
            9 => tables.ranges.resize(self.place % 300, self.range()),
            10 => tables.euc_kr.resize(self.place, self.value),
            11 => tables.jis0208.resize(self.place, self.value),
            12 => tables.jis0212.resize(self.place, self.value),
            13 => tables.gb18030.resize(self.place, self.value),
            14 => tables.big5.resize(self.place, u32::from(self.value)),
            15 => tables.katakana.resize(self.place % 128, self.value),
            16 => tables.single_byte.resize(self.place % 256, self.value),
            17 => tables.single_byte_run = ByteRun { scalar: self.value, start: self.place as u8, length: self.high },
            _ => {}
        }
    }

    /// Changes what packed tables are made of.
    pub fn change_packed(self, packed: &mut Packed) {
        match self.kind % 24 {
            18 => self.change_runs(packed),
            19 => change_entry(self.order(packed), self.place, self.value),
            20 => self.order(packed).insert(0, self.value),
            21 if !self.order(packed).is_empty() => {
                let (at, order) = (self.place, self.order(packed));
                order.remove(at % order.len());
            }
            22 => self.order(packed).sort_unstable(),
            _ => {}
        }
    }

    fn change_narrow(self, entries: &mut Vec<u16>) {
        change_entry(entries, self.place, self.value);
    }

    fn range(self) -> Range {
        Range { pointer: self.place as u16, scalar: self.value }
    }

    fn change_runs(self, packed: &mut Packed) {
        let runs = match self.high % 5 {
            0 => &mut packed.big5,
            1 => &mut packed.euc_kr,
            2 => &mut packed.jis0208,
            3 => &mut packed.jis0212,
            _ => &mut packed.gb18030,
        };
        let at = self.place % (runs.len() + 1);
        let run = Run { scalar: u32::from(self.value), pointer: self.place as u16, length: u16::from(self.high) };
        match runs.get_mut(at) {
            None => runs.push(run),
            Some(old) => match self.value % 4 {
                0 => old.length = old.length.wrapping_add(u16::from(self.high)),
                1 => old.pointer = old.pointer.wrapping_add(u16::from(self.high)),
                2 => old.scalar = old.scalar.wrapping_add(u32::from(self.high) << 16),
                _ => runs.insert(at, run),
            },
        }
    }

    fn order(self, packed: &mut Packed) -> &mut Vec<u16> {
        match self.high % 5 {
            0 => &mut packed.big5_order,
            1 => &mut packed.euc_kr_order,
            2 => &mut packed.shift_jis_order,
            3 => &mut packed.euc_jp_order,
            _ => &mut packed.gb18030_order,
        }
    }
}

/// Sets the entry of a place, up to which the entries are made longer.
fn change_entry<T: Copy + Default>(entries: &mut Vec<T>, place: usize, value: T) {
    if place >= entries.len() {
        entries.resize(place + 1, T::default());
    }
    entries[place] = value;
}

/// The front of the tables.
pub fn shortened(tables: &Tables) -> Tables {
    let mut tables = tables.clone();
    tables.big5.truncate(SHORT);
    for narrow in [&mut tables.euc_kr, &mut tables.jis0208, &mut tables.jis0212, &mut tables.gb18030] {
        narrow.truncate(SHORT);
    }
    tables
}
