//! Times the checks of tables: of flat indexes, and of packed ones beside them.

use crate::decoding::{ours, ToUtf8};
use crate::measure::{best_times, Call};
use crate::ours::{Calls, Kept, Ours};
use encoding_rs::{Encoding, BIG5, EUC_JP, EUC_KR, GB18030};
use std::time::Duration;

/// The least number of times that the checks are timed.
const TIMES: usize = 100;

/// Returns the times of the checks of the flat and of the packed indexes.
fn times(flat: &Ours, packed: &Ours) -> Option<(Duration, Duration)> {
    let calls: Vec<Option<Call<'_, u8>>> =
        [flat, packed].into_iter().map(|codec| Some(ours::<ToUtf8>(codec, Calls::Raw, &[], 0, 0))).collect();
    let best = best_times(&calls, &[0u8; 0], &mut [0; 1], TIMES);
    Some((best[0]?, best[1]?))
}

fn line(name: &str, flat: &Ours, packed: &Ours) -> Result<(), String> {
    let (flat, packed) = times(flat, packed).ok_or("a check was not timed")?;
    let micros = |time: Duration| time.as_secs_f64() * 1e6;
    println!("| {name} | {:.1} | {:.1} | {:.2} |", micros(flat), micros(packed), micros(packed) / micros(flat));
    Ok(())
}

/// Prints the table of the checks: of all indexes together, and of those of some codecs.
pub fn table() -> Result<(), String> {
    println!("| indexes | microseconds of Tables::new | of Tables::packed_of | ratio of the times |\n|---|---|---|---|");
    line("all of the standard", &Ours::of_all_indexes(Kept::Flat), &Ours::of_all_indexes(Kept::Packed))?;
    let codecs: [(&str, &'static Encoding); 4] =
        [("Big5", BIG5), ("EUC-KR", EUC_KR), ("jis0208 and jis0212", EUC_JP), ("gb18030 and its ranges", GB18030)];
    for (name, encoding) in codecs {
        line(name, &Ours::new(encoding, Kept::Flat), &Ours::new(encoding, Kept::Packed))?;
    }
    Ok(())
}
