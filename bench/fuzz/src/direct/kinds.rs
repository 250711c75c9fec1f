//! The library's tables in each way in which they are kept, and whether it takes and refuses the right ones.

use crate::plan::Kept;
use crate::prepared::Prepared;
use legacy_codecs::{IndexName, Indexes, Packed, Run, TableError, Tables, GB18030_2022_PUA};
use soak::ours;

/// The tables in the library's own form.
pub struct Parts {
    ranges: Vec<(u16, u16)>,
    big5: Vec<Run>,
    euc_kr: Vec<Run>,
    jis0208: Vec<Run>,
    jis0212: Vec<Run>,
    gb18030: Vec<Run>,
}

fn runs(runs: &[ours::Run]) -> Vec<Run> {
    runs.iter().map(|run| Run { scalar: run.scalar, pointer: run.pointer, length: run.length }).collect()
}

impl Parts {
    pub fn of(prepared: &Prepared) -> Parts {
        let packed = prepared.packed();
        Parts {
            ranges: prepared.tables.ranges.iter().map(|range| (range.pointer, range.scalar)).collect(),
            big5: runs(&packed.big5),
            euc_kr: runs(&packed.euc_kr),
            jis0208: runs(&packed.jis0208),
            jis0212: runs(&packed.jis0212),
            gb18030: runs(&packed.gb18030),
        }
    }
}

/// Accepted tables, in each way.
pub struct Made<'a> {
    flat: Tables<'a>,
    packed: Tables<'a>,
    unpacked: Tables<'a>,
}

impl<'a> Made<'a> {
    pub fn tables(&self, kept: Kept) -> &Tables<'a> {
        match kept {
            Kept::Flat => &self.flat,
            Kept::Packed | Kept::Ahead => &self.packed,
            Kept::Unpacked => &self.unpacked,
        }
    }
}

/// Memory for unpacked indexes.
#[derive(Default)]
pub struct Lent {
    big5: Vec<u32>,
    narrow: [Vec<u16>; 4],
}

/// The parts of tables.
pub struct Kinds<'a> {
    prepared: &'a Prepared,
    indexes: Indexes<'a>,
    packed: Packed<'a>,
}

/// Returns the tables that were made, or `None` if they were rightly refused.
fn judged<'a>(came: Result<Tables<'a>, TableError>, wanted: Option<String>) -> Result<Option<Tables<'a>>, String> {
    match (came, wanted) {
        (Ok(tables), None) => Ok(Some(tables)),
        (Err(fault), Some(wanted)) if format!("{fault:?}") == wanted => Ok(None),
        (Ok(_), Some(wanted)) => Err(format!("tables with {wanted} were taken")),
        (Err(fault), wanted) => Err(format!("tables with {wanted:?} were refused with {fault:?}")),
    }
}

/// Checks whether the entries that the library wrote are the flat ones, except for zeros at the end.
fn is_unpacked<T: Copy + Default + PartialEq>(came: &[T], flat: &[T]) -> bool {
    flat.starts_with(came) && flat[came.len()..].iter().all(|entry| *entry == T::default())
}

impl<'a> Kinds<'a> {
    pub fn new(prepared: &'a Prepared, parts: &'a Parts) -> Kinds<'a> {
        let flat = &prepared.ours(Kept::Flat).indexes;
        let packed = prepared.packed();
        let indexes = Indexes {
            big5: &flat.big5,
            euc_kr: &flat.euc_kr,
            jis0208: &flat.jis0208,
            jis0212: &flat.jis0212,
            gb18030: &flat.gb18030,
            katakana: &flat.katakana,
            ranges: &parts.ranges,
            gb18030_pua: &GB18030_2022_PUA,
        };
        let packed = Packed {
            big5: &parts.big5,
            euc_kr: &parts.euc_kr,
            jis0208: &parts.jis0208,
            jis0212: &parts.jis0212,
            gb18030: &parts.gb18030,
            big5_order: &packed.big5_order,
            euc_kr_order: &packed.euc_kr_order,
            shift_jis_order: &packed.shift_jis_order,
            euc_jp_order: &packed.euc_jp_order,
            gb18030_order: &packed.gb18030_order,
        };
        Kinds { prepared, indexes, packed }
    }

    /// Returns tables of one kind, or `None` if they are rightly refused. Unpacked ones are packed here.
    pub fn tables(&self, kept: Kept) -> Result<Option<Tables<'a>>, String> {
        let flat = judged(Tables::new(&self.indexes), self.prepared.fault(Kept::Flat))?;
        if kept == Kept::Flat {
            return Ok(flat);
        }
        judged(Tables::packed_of(&self.indexes, &self.packed), self.prepared.fault(Kept::Packed))
    }

    /// Returns tables of each kind.
    pub fn made(&self, lent: &'a mut Lent) -> Result<Made<'a>, String> {
        let none = || "the tables were refused".to_string();
        let flat = self.tables(Kept::Flat)?.ok_or_else(none)?;
        let packed = self.tables(Kept::Packed)?.ok_or_else(none)?;
        let unpacked = self.unpacked(&packed, lent)?;
        Ok(Made { flat, packed, unpacked })
    }

    /// Returns flat tables, which the library writes from packed ones into lent memory of just enough entries.
    fn unpacked(&self, packed: &Tables, lent: &'a mut Lent) -> Result<Tables<'a>, String> {
        let too_small = || "a room was too small".to_string();
        let flat = &self.indexes;
        lent.big5.resize(flat.big5.len(), 0xA5A5);
        let big5 = packed.unpack_big5(&mut lent.big5).ok_or_else(too_small)?;
        let wanted = [(IndexName::EucKr, flat.euc_kr), (IndexName::Jis0208, flat.jis0208), (IndexName::Jis0212, flat.jis0212), (IndexName::Gb18030, flat.gb18030)];
        let mut came: Vec<&'a [u16]> = Vec::new();
        for ((name, flat), room) in wanted.into_iter().zip(&mut lent.narrow) {
            room.resize(flat.len(), 0xA5A5);
            let narrow = packed.unpack(name, room).ok_or_else(too_small)?;
            if !is_unpacked(narrow, flat) || !narrow.is_empty() && packed.unpack(name, &mut vec![0; narrow.len() - 1]).is_some() {
                return Err(format!("index {name:?} is unpacked otherwise"));
            }
            came.push(narrow);
        }
        if !is_unpacked(big5, flat.big5) {
            return Err("index Big5 is unpacked otherwise".to_string());
        }
        let unpacked = Indexes {
            big5,
            euc_kr: came[0],
            jis0208: came[1],
            jis0212: came[2],
            gb18030: came[3],
            katakana: flat.katakana,
            ranges: flat.ranges,
            gb18030_pua: flat.gb18030_pua,
        };
        Tables::new(&unpacked).map_err(|fault| format!("unpacked tables were refused with {fault:?}"))
    }
}
