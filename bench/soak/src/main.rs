//! Soaks the static library for some seconds: every codec converts random bytes and texts over random tables.
//!
//! Sources are converted whole, in pieces and into small outputs, over flat and packed tables, by raw calls and with
//! replacement. The results are compared with a slow model of the Standard, and with encoding_rs if the tables are the
//! Standard's.
//!
//! Arguments: the seconds, and a seed (none: the clock's). Each round has a seed of its own, which is printed if
//! something differs. With it as the seed that round is the first.

use soak::calls::Library;
use soak::checks::{self, Count, Round};
use soak::codec::{self, Codec, CODECS};
use soak::numbers::Numbers;
use soak::ours::Kept;
use soak::tables::{self, Standard, Tables};
use std::time::{Duration, Instant, SystemTime};

/// The ways to keep tables.
const KEPT: [Kept; 2] = [Kept::Flat, Kept::Packed];

/// The number of sources of each direction that a round has over its tables.
const SOURCES: usize = 6;

/// Checks that a pack is refused if it is not that of its indexes.
fn spoiled_pack(codec: Codec, tables: &Tables, numbers: &mut Numbers, count: &mut Count) -> Result<(), String> {
    let mut library = Library::new(codec, tables);
    let fault = library.packed().packed.as_mut().and_then(|packed| tables::spoil_packed(packed, numbers));
    let Some(fault) = fault else { return Ok(()) };
    count.spoiled += 1;
    checks::refuses(codec, &library, &[Kept::Packed]).map_err(|error| format!("{codec:?} over {fault}: {error}"))
}

/// Makes one round: tables, and sources for the decoder and the encoder over them.
fn round(standard: &Standard, codec: Codec, seed: u64, count: &mut Count) -> Result<(), String> {
    let mut numbers = Numbers::new(seed);
    let is_odd = codec.has_tables() && numbers.once_in(2);
    let (mut tables, name) = if is_odd { (tables::odd(codec, &mut numbers), "odd") } else { standard.tables(codec, &mut numbers) };
    if codec.has_tables() && numbers.once_in(50) {
        let fault = tables::spoil(&mut tables, &mut numbers);
        count.spoiled += 1;
        return checks::refuses(codec, &Library::new(codec, &tables), &KEPT).map_err(|error| format!("{codec:?} over {fault}: {error}"));
    }
    if codec.has_tables() && numbers.once_in(50) {
        return spoiled_pack(codec, &tables, &mut numbers, count);
    }
    let round = Round::new(codec, &tables, (!is_odd).then(|| codec::encoding(name)));
    for _ in 0..SOURCES {
        round.decodes(&mut numbers, count).map_err(|error| format!("{codec:?}, decoding, {name} tables: {error}"))?;
        if codec.has_encoder() {
            round.encodes(&mut numbers, count).map_err(|error| format!("{codec:?}, encoding, {name} tables: {error}"))?;
        }
    }
    if is_odd {
        count.odd_rounds += 1;
    } else {
        count.standard_rounds += 1;
    }
    Ok(())
}

/// Returns the seed of the round after the one of this seed.
fn seed_after(seed: u64) -> u64 {
    Numbers::new(seed ^ 0x5DEE_CE66).next()
}

fn report(counts: &[Count], seconds: u64) {
    println!("| codec | rounds, standard tables | rounds, odd tables | refused tables | sources decoded | bytes | sources encoded | code units | calls | of them over packed tables | with pairs looked up ahead | with replacement |");
    println!("|---|---|---|---|---|---|---|---|---|---|---|---|");
    let mut total = Count::default();
    for (codec, count) in CODECS.iter().zip(counts) {
        println!("| {} |{count}", codec.name());
        total.add(count);
    }
    println!("| all |{total}");
    println!("{seconds} seconds, and no difference");
}

fn main() -> Result<(), String> {
    let numbers: Result<Vec<u64>, _> = std::env::args().skip(1).map(|word| word.parse::<u64>()).collect();
    let numbers = numbers.map_err(|_| "usage: soak SECONDS [SEED]".to_string())?;
    let seconds = numbers.first().copied().ok_or("usage: soak SECONDS [SEED]")?;
    let clock = SystemTime::now().duration_since(SystemTime::UNIX_EPOCH).map_or(0, |time| time.as_nanos() as u64);
    let first = numbers.get(1).copied().unwrap_or(clock);
    println!("seed {first}");

    let standard = Standard::new();
    let start = Instant::now();
    let mut counts = [Count::default(); CODECS.len()];
    let mut seed = first;
    loop {
        let which = (seed % CODECS.len() as u64) as usize;
        if let Err(error) = round(&standard, CODECS[which], seed, &mut counts[which]) {
            return Err(format!("{error}\nbench/soak/run 0 {seed} repeats it"));
        }
        if start.elapsed() >= Duration::from_secs(seconds) {
            break;
        }
        seed = seed_after(seed);
    }
    report(&counts, seconds);
    Ok(())
}
