//! What the soak and the fuzzer share: the model of the Standard, tables of any kind, sources, and the calls of the
//! static library.

pub mod calls;
pub mod checks;
pub mod codec;
#[path = "../../driver/src/indexes.rs"]
pub mod indexes;
pub mod model;
pub mod numbers;
// The bench takes codecs by their encodings.
#[allow(dead_code)]
#[path = "../../driver/src/ours.rs"]
pub mod ours;
#[path = "../../driver/src/packing.rs"]
pub mod packing;
pub mod sources;
pub mod tables;
