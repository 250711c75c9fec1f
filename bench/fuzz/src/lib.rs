//! The fuzzer: an input chooses the codec, tables, cuts and calls, and has the source.
//!
//! The results are compared with the soak's model of the Standard and with encoding_rs.

#[cfg(feature = "plain")]
pub mod direct;
pub mod boundaries;
pub mod exported;
pub mod faults;
pub mod guard;
pub mod pack;
pub mod patches;
pub mod plan;
pub mod prepared;
pub mod seeds;
pub mod text;

use exported::Rooms;
use guard::{Guards, Room};
use plan::Plan;
use prepared::{Prepared, Shelf};

#[cfg(feature = "plain")]
extern crate legacy_exports as _;

#[global_allocator]
static GUARDS: Guards = Guards;

/// The longest source in bytes.
pub const LONGEST: usize = 4096;

/// All tables, and memory for the calls.
pub struct Bench {
    shelf: Shelf,
    rooms: Rooms,
    /// The number of inputs that were tried by functions of the header, and by direct calls.
    pub exported: u64,
    pub direct: u64,
}

impl Bench {
    pub fn new() -> Bench {
        let rooms = Rooms { source: Room::new(16 * LONGEST), output: Room::new(64 * LONGEST) };
        Bench { shelf: Shelf::new(), rooms, exported: 0, direct: 0 }
    }

    /// Tries an input, and returns what differs.
    pub fn tries(&mut self, input: &[u8]) -> Result<(), String> {
        match Plan::of(input) {
            Some(plan) if plan.source.len() <= LONGEST => self.follows(&plan).map_err(|error| format!("{error}\n{plan:02X?}")),
            _ => Ok(()),
        }
    }

    /// Tries a plan, and returns what differs.
    pub fn follows(&mut self, plan: &Plan) -> Result<(), String> {
        match &plan.patches {
            None => {
                let prepared = self.shelf.unpatched(plan);
                self.calls(plan, prepared, true)
            }
            Some(patches) => {
                let prepared = self.shelf.patched(plan, patches);
                self.calls(plan, &prepared, false)
            }
        }
    }

    #[cfg(feature = "plain")]
    fn calls(&mut self, plan: &Plan, prepared: &Prepared, is_kept: bool) -> Result<(), String> {
        if plan.is_exported {
            self.exported += 1;
            return exported::call(plan, prepared, &mut self.rooms);
        }
        self.direct += 1;
        direct::call(plan, prepared, is_kept, &mut self.rooms)
    }

    #[cfg(not(feature = "plain"))]
    fn calls(&mut self, plan: &Plan, prepared: &Prepared, _is_kept: bool) -> Result<(), String> {
        self.exported += 1;
        exported::call(plan, prepared, &mut self.rooms)
    }
}

impl Default for Bench {
    fn default() -> Bench {
        Bench::new()
    }
}
