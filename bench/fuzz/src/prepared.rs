//! Tables in each way in which they are kept, made once for each choice.

use crate::faults;
use crate::guard::{with_guards, Side};
use crate::patches::{shortened, Patch};
use crate::plan::{Choice, Kept, Plan};
use encoding_rs::Encoding;
use soak::calls::number;
use soak::codec::{encoding, Codec};
use soak::model::{self, Pointers};
use soak::numbers::Numbers;
use soak::ours::{self, Ours, Packed};
use soak::tables::{self, Standard, Tables};
use std::cell::OnceCell;
use std::collections::HashMap;

/// A codec over tables.
pub struct Prepared {
    pub codec: Codec,
    pub tables: Tables,
    /// The encoding of encoding_rs, if the tables are its own.
    pub theirs: Option<&'static Encoding>,
    pub pointers: Pointers,
    /// The same tables as functions of the header take them, in guarded memory.
    flat: Ours,
    packed: Ours,
    ahead: Ours,
    /// The first faults, which are looked for once.
    flat_fault: OnceCell<Option<String>>,
    packed_fault: OnceCell<Option<String>>,
}

impl Prepared {
    /// Returns the codec over these tables, which are in guarded memory if a side is given.
    fn new(codec: Codec, tables: Tables, theirs: Option<&'static Encoding>, side: Option<Side>) -> Prepared {
        let with = |kept| match (Ours::with(number(codec), tables.clone(), kept), side) {
            (ours, Some(side)) => guarded(ours, side),
            (ours, None) => ours,
        };
        Prepared {
            codec,
            theirs,
            pointers: model::pointers(codec, &tables),
            flat: with(ours::Kept::Flat),
            packed: with(ours::Kept::Packed),
            ahead: with(ours::Kept::Ahead),
            tables,
            flat_fault: OnceCell::new(),
            packed_fault: OnceCell::new(),
        }
    }

    /// Returns the tables as functions of the header take them.
    pub fn ours(&self, kept: Kept) -> &Ours {
        match kept {
            Kept::Flat => &self.flat,
            Kept::Packed | Kept::Unpacked => &self.packed,
            Kept::Ahead => &self.ahead,
        }
    }

    /// Returns the parts of packed tables.
    pub fn packed(&self) -> &Packed {
        self.packed.packed.as_ref().expect("packed tables have it")
    }

    /// Returns the first fault of the tables, if they are kept in this way.
    pub fn fault(&self, kept: Kept) -> Option<String> {
        match kept {
            Kept::Flat => self.flat_fault.get_or_init(|| faults::flat_fault(&self.tables)).clone(),
            _ => self.packed_fault.get_or_init(|| faults::packed_fault(&self.tables, self.packed())).clone(),
        }
    }

    /// Returns the first fault of the tables of a single-byte codec.
    pub fn single_byte_fault(&self) -> Option<String> {
        let entries = &self.tables.single_byte;
        if self.codec != Codec::SingleByte {
            return None;
        }
        if entries.len() != 128 {
            return Some("the length".to_string());
        }
        faults::single_byte_fault(entries)
    }

    /// Returns changed tables.
    fn patched(&self, patches: &[Patch], side: Side) -> Prepared {
        let mut tables = shortened(&self.tables);
        patches.iter().for_each(|patch| patch.change(&mut tables));
        // Plain Rust tests each index, and pages are slow.
        let side = (!cfg!(feature = "plain")).then_some(side);
        let mut prepared = Prepared::new(self.codec, tables, None, side);
        for packed in [&mut prepared.packed, &mut prepared.ahead] {
            let packed = packed.packed.as_mut().expect("packed tables have it");
            patches.iter().for_each(|patch| patch.change_packed(packed));
        }
        prepared
    }
}

/// Returns the same tables in guarded memory.
fn guarded(mut ours: Ours, side: Side) -> Ours {
    (ours.indexes, ours.packed) = with_guards(side, || (ours.indexes.clone(), ours.packed.clone()));
    ours
}

/// All tables that were made for a plan.
pub struct Shelf {
    standard: Standard,
    made: HashMap<(Codec, Choice, bool), &'static Prepared>,
}

impl Shelf {
    pub fn new() -> Shelf {
        Shelf { standard: Standard::new(), made: HashMap::new() }
    }

    /// Returns the tables of a plan, without its patches.
    pub fn unpatched(&mut self, plan: &Plan) -> &'static Prepared {
        let choice = match plan.choice {
            Choice::Standard(_) if plan.codec != Codec::SingleByte => Choice::Standard(0),
            Choice::Odd(_) if !plan.codec.has_tables() => Choice::Standard(0),
            choice => choice,
        };
        let (codec, side, standard) = (plan.codec, plan.side, &self.standard);
        let make = || {
            let (tables, theirs) = match choice {
                Choice::Odd(seed) => (tables::odd(codec, &mut Numbers::new(u64::from(seed))), None),
                Choice::Standard(which) => {
                    let (tables, name) = standard.tables_of(codec, usize::from(which), &mut Numbers::new(u64::from(which)));
                    (tables, Some(encoding(name)))
                }
            };
            &*Box::leak(Box::new(Prepared::new(codec, tables, theirs, Some(side))))
        };
        self.made.entry((codec, choice, side == Side::Start)).or_insert_with(make)
    }

    /// Returns the changed tables of a plan.
    pub fn patched(&mut self, plan: &Plan, patches: &[Patch]) -> Prepared {
        self.unpatched(plan).patched(patches, plan.side)
    }
}

impl Default for Shelf {
    fn default() -> Shelf {
        Shelf::new()
    }
}
