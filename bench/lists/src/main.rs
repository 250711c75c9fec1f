//! Times the lists of pairs and `unpack` over the Standard's indexes, flat and packed.

#[path = "../../driver/src/indexes.rs"]
mod indexes;
mod ours;
#[path = "../../driver/src/packing.rs"]
mod packing;

use legacy_codecs::{
    Big5Encoder, CachedEncoder, CachedIso2022JpEncoder, EncodesPairs, EucJpEncoder, EucKrEncoder, Gb18030Encoder,
    Iso2022JpEncoder, ShiftJisEncoder, PAIR_ROOM,
};
use legacy_tables::{IndexName, Indexes, Packed, Run, Tables, GB18030_2022_PUA};
use std::hint::black_box;
use std::time::Instant;

/// The least time of many calls, in microseconds.
fn least(mut call: impl FnMut() -> bool) -> f64 {
    let mut least = f64::MAX;
    for _ in 0..400 {
        let start = Instant::now();
        assert!(black_box(call()));
        least = least.min(start.elapsed().as_secs_f64() * 1e6);
    }
    least
}

/// The time of a list of pairs.
fn listed<E: EncodesPairs>(encoder: &E, room: &mut [u16]) -> f64 {
    least(|| CachedEncoder::new(black_box(encoder), room).is_some())
}

/// The times over these tables, each with its name.
fn times(tables: &Tables<'_>) -> Vec<(&'static str, f64)> {
    let (mut room, mut wide) = (vec![0; PAIR_ROOM], vec![0; 19782]);
    let iso_2022_jp = Iso2022JpEncoder::new(tables);
    let mut times = vec![
        ("list of Big5", listed(&Big5Encoder::new(tables), &mut room)),
        ("list of EUC-KR", listed(&EucKrEncoder::new(tables), &mut room)),
        ("list of Shift_JIS", listed(&ShiftJisEncoder::new(tables), &mut room)),
        ("list of EUC-JP", listed(&EucJpEncoder::new(tables), &mut room)),
        ("list of ISO-2022-JP", least(|| CachedIso2022JpEncoder::new(black_box(&iso_2022_jp), &mut room).is_some())),
        ("list of GBK", listed(&Gb18030Encoder::new(tables, false), &mut room)),
        ("list of gb18030", listed(&Gb18030Encoder::new(tables, true), &mut room)),
        ("unpack of Big5", least(|| tables.unpack_big5(black_box(&mut wide)).is_some())),
    ];
    for (word, name) in [
        ("unpack of EUC-KR", IndexName::EucKr),
        ("unpack of jis0208", IndexName::Jis0208),
        ("unpack of jis0212", IndexName::Jis0212),
        ("unpack of gb18030", IndexName::Gb18030),
    ] {
        times.push((word, least(|| tables.unpack(name, black_box(&mut room)).is_some())));
    }
    times
}

fn main() {
    let (big5, euc_kr, gb18030) = (indexes::big5(), indexes::euc_kr(), indexes::gb18030());
    let (jis0208, jis0212, katakana) = (indexes::jis0208(), indexes::jis0212(), indexes::katakana());
    let ranges: Vec<(u16, u16)> = indexes::ranges().iter().map(|range| (range.pointer, range.scalar)).collect();
    let indexes = Indexes {
        big5: &big5,
        euc_kr: &euc_kr,
        jis0208: &jis0208,
        jis0212: &jis0212,
        gb18030: &gb18030,
        katakana: &katakana,
        ranges: &ranges,
        gb18030_pua: &GB18030_2022_PUA,
    };
    let run = |it: &ours::Run| Run { pointer: it.pointer, scalar: it.scalar, length: it.length };
    let runs = |index: &[u16]| -> Vec<Run> { packing::runs(index).iter().map(run).collect() };
    let big5_runs: Vec<Run> = packing::runs(&big5).iter().map(run).collect();
    let packed = Packed {
        big5: &big5_runs,
        euc_kr: &runs(&euc_kr),
        jis0208: &runs(&jis0208),
        jis0212: &runs(&jis0212),
        gb18030: &runs(&gb18030),
        big5_order: &packing::big5_order(&big5),
        euc_kr_order: &packing::first_order(&euc_kr),
        shift_jis_order: &packing::shift_jis_order(&jis0208),
        euc_jp_order: &packing::euc_jp_order(&jis0208),
        gb18030_order: &packing::first_order(&gb18030),
    };
    let (Ok(flat), Ok(packed)) = (Tables::new(&indexes), Tables::packed_of(&indexes, &packed)) else {
        panic!("the indexes are refused")
    };
    println!("| what | microseconds over flat tables | over packed tables |\n|---|---|---|");
    for ((word, flat), (_, packed)) in times(&flat).into_iter().zip(times(&packed)) {
        println!("| {word} | {flat:.1} | {packed:.1} |");
    }
}
