//! Inputs to begin with: the soak's bytes and texts of each codec, in each way.

use crate::plan::{flags, ways, HEAD};
use soak::codec::CODECS;
use soak::model;
use soak::numbers::Numbers;
use soak::sources;
use soak::tables::Standard;

/// The longest source of a seed.
const LONGEST: usize = 160;

/// The number of seeds of a codec in each direction.
const COUNT: usize = 24;

/// Returns a random head for one codec and one direction.
fn head(codec: usize, encodes: bool, numbers: &mut Numbers) -> Vec<u8> {
    let mut head: Vec<u8> = (0..HEAD).map(|_| numbers.byte()).collect();
    head[0] = codec as u8;
    head[1] &= !(flags::ENCODES | flags::IS_PATCHED);
    head[1] |= if encodes { flags::ENCODES } else { 0 };
    head[3] = numbers.of(&[0, 0, 1, 7, 64]);
    head[4] = numbers.of(&[255, 255, 227, 40]);
    head[5] |= ways::UNITS;
    head[5] &= !ways::ANY_UTF8;
    for cut in &mut head[6..14] {
        *cut = numbers.of(&[255, 1, 3, 16, 63, 64, 65]);
    }
    head
}

/// Returns all seeds.
pub fn all() -> Vec<Vec<u8>> {
    let mut numbers = Numbers::new(47);
    let standard = Standard::new();
    let mut seeds = Vec::new();
    for (at, codec) in CODECS.into_iter().enumerate() {
        let (tables, _) = standard.tables_of(codec, 4, &mut numbers);
        let pointers = model::pointers(codec, &tables);
        let mut scalars: Vec<char> = pointers.keys().copied().collect();
        scalars.sort_unstable();
        for _ in 0..COUNT {
            let mut seed = head(at, false, &mut numbers);
            let mut bytes = sources::bytes(codec, &tables, &pointers, &scalars, &mut numbers);
            bytes.truncate(LONGEST);
            seed.extend(bytes);
            seeds.push(seed);
            if codec.has_encoder() {
                let mut seed = head(at, true, &mut numbers);
                let units = sources::any_text(&mut numbers, &scalars);
                seed.extend(units.iter().take(LONGEST / 2).flat_map(|unit| unit.to_le_bytes()));
                seeds.push(seed);
            }
        }
    }
    seeds
}
