//! Single calls over more than 2^32 code units, and queries at the greatest lengths: both have to go on as at small ones.
//!
//! Words are names of codecs, for these alone. A source is a block again and again, by mappings of the same memory, and then something malformed or unmappable. So is
//! an output. The indexes have one scalar at all pointers.

use legacy_codecs::*;
use std::fmt::Debug;
use std::slice;

/// The number of bytes that are mapped again and again. A source has so many code units, times `SEGMENTS`.
const SEGMENT: usize = 48 << 20;
const SEGMENTS: usize = 90;

extern "C" {
    fn memfd_create(name: *const u8, flags: u32) -> i32;
    fn ftruncate(file: i32, length: i64) -> i32;
    fn mmap(place: *mut u8, length: usize, protection: i32, flags: i32, file: i32, offset: i64) -> *mut u8;
    fn munmap(place: *mut u8, length: usize) -> i32;
    fn close(file: i32) -> i32;
}

const READ_WRITE: i32 = 3;
const SHARED: i32 = 1;
const PRIVATE: i32 = 2;
const FIXED: i32 = 0x10;
const ANONYMOUS: i32 = 0x20;
const NO_RESERVE: i32 = 0x4000;

/// Code units in memory that is one segment again and again, and a last one of its own.
struct Mapped<T: 'static> {
    units: &'static mut [T],
    place: *mut u8,
    length: usize,
}

impl<T: Copy + 'static> Mapped<T> {
    /// Maps the segment `count` times.
    fn new(count: usize) -> Mapped<T> {
        let length = SEGMENT * (count + 1);
        let place = unsafe { mmap(std::ptr::null_mut(), length, READ_WRITE, PRIVATE | ANONYMOUS | NO_RESERVE, -1, 0) };
        let file = unsafe { memfd_create(c"segment".as_ptr().cast(), 0) };
        assert!(place as isize > 0 && file > 0 && unsafe { ftruncate(file, SEGMENT as i64) } == 0, "memory");
        for at in 0..count {
            let mapped = unsafe { mmap(place.add(at * SEGMENT), SEGMENT, READ_WRITE, SHARED | FIXED, file, 0) };
            assert!(mapped as isize > 0, "memory");
        }
        unsafe { close(file) };
        Mapped { units: unsafe { slice::from_raw_parts_mut(place.cast(), length / size_of::<T>()) }, place, length }
    }

    /// Makes a source of a block and an end. Returns it with the number of blocks.
    fn source(block: &[T], end: &[T]) -> (Mapped<T>, usize) {
        let mut mapped = Mapped::new(SEGMENTS * size_of::<T>());
        for part in mapped.units[..SEGMENT / size_of::<T>()].chunks_exact_mut(block.len()) {
            part.copy_from_slice(block);
        }
        let length = SEGMENT * SEGMENTS;
        mapped.units[length..][..end.len()].copy_from_slice(end);
        mapped.units = &mut std::mem::take(&mut mapped.units)[..length + end.len()];
        (mapped, length / block.len())
    }
}

impl<T: 'static> Drop for Mapped<T> {
    fn drop(&mut self) {
        unsafe { munmap(self.place, self.length) };
    }
}

/// Checks that a result is the wanted one, and prints a line.
fn check<T: PartialEq + Debug>(name: &str, came: T, wanted: T) {
    assert!(came == wanted, "{name}: {came:?}, not {wanted:?}");
    println!("| {name} | {came:?} |");
}

/// Whether the codec is one of the words, or there is no word.
fn is_wanted(name: &str) -> bool {
    let mut words = std::env::args().skip(1).peekable();
    words.peek().is_none() || words.any(|word| word == name)
}

/// What is tried of the codecs.
#[derive(Clone, Copy, PartialEq)]
enum Part {
    Queries,
    Calls,
}

/// A decoder's block, what it gives of it in UTF-8 and in UTF-16, and a malformed sequence.
struct Bytes(&'static [u8], [usize; 2], &'static [u8]);

fn decode<D: RawDecoder>(part: Part, name: &str, make: impl Fn() -> D, Bytes(block, units, end): Bytes) {
    if !is_wanted(name) {
        return;
    }
    if part == Part::Queries {
        limits(&format!("{name}, UTF-16"), |length| make().max_utf16_buffer_length(length));
        limits(&format!("{name}, bare UTF-8"), |length| make().max_utf8_buffer_length_without_replacement(length));
        return limits(&format!("{name}, UTF-8"), |length| make().max_utf8_buffer_length(length));
    }
    let (source, count) = Mapped::source(block, end);
    let room = |units: usize| count * units / SEGMENT + 2;
    let malformed = |written| match end {
        [] => (DecoderResult::InputEmpty, source.units.len(), written),
        _ => (DecoderResult::Malformed(end.len() as u8, 0), source.units.len(), written),
    };
    let output = Mapped::<u8>::new(room(units[0]));
    check(&format!("{name} to UTF-8"), make().decode_to_utf8_raw(source.units, output.units, true), malformed(count * units[0]));
    let output = Mapped::<u16>::new(room(units[1] * 2));
    check(&format!("{name} to UTF-16"), make().decode_to_utf16_raw(source.units, output.units, true), malformed(count * units[1]));
}

/// An encoder's block, the number of bytes that it gives, and what is unmappable.
struct Text(&'static str, usize, &'static str);

fn encode<E: RawEncoder>(part: Part, name: &str, make: impl Fn() -> E, Text(block, bytes, end): Text) {
    if !is_wanted(name) {
        return;
    }
    if part == Part::Queries {
        limits(&format!("{name}, from UTF-16"), |length| make().max_buffer_length_from_utf16_without_replacement(length));
        return limits(&format!("{name}, from UTF-8"), |length| make().max_buffer_length_from_utf8_without_replacement(length));
    }
    let answer = |read, written| (end.chars().next().map_or(EncoderResult::InputEmpty, EncoderResult::Unmappable), read, written);
    let (source, count) = Mapped::source(block.as_bytes(), end.as_bytes());
    let output = Mapped::<u8>::new(count * bytes / SEGMENT + 2);
    let text = unsafe { std::str::from_utf8_unchecked(source.units) };
    check(&format!("{name} from UTF-8"), make().encode_from_utf8_raw(text, output.units, true), answer(text.len(), count * bytes));
    let units = |text: &str| text.encode_utf16().collect::<Vec<u16>>();
    let (source, count) = Mapped::source(&units(block), &units(end));
    let output = Mapped::<u8>::new(count * bytes / SEGMENT + 2);
    check(&format!("{name} from UTF-16"), make().encode_from_utf16_raw(source.units, output.units, true), answer(source.units.len(), count * bytes));
}

/// The greatest length that meets the test, which holds up to some length.
fn greatest(meets: impl Fn(usize) -> bool) -> usize {
    (0..64).rev().fold(0, |so_far, bit| if meets(so_far | 1 << bit) { so_far | 1 << bit } else { so_far })
}

/// Checks that a query goes on to the greatest lengths as it does to 2520.
///
/// It prints the greatest length with an answer, and the greatest for which the number would be below 2^64. The first may
/// be less, since a query is `None` if a step of its formula exceeds `usize::MAX`.
fn limits(name: &str, query: impl Fn(usize) -> Option<usize>) {
    const PERIOD: usize = 2520;
    let small = |length: usize| query(length).expect("a small length has an answer") as u128;
    let step = small(2 * PERIOD) - small(PERIOD);
    let wanted = |length: usize| {
        let (periods, rest) = (length / PERIOD, length % PERIOD);
        let bound = if periods == 0 { small(length) } else { small(PERIOD + rest) + step * (periods as u128 - 1) };
        usize::try_from(bound).ok()
    };
    let (last, bound) = (greatest(|length| query(length).is_some()), greatest(|length| wanted(length).is_some()));
    let near = |place: usize| (0..2 * PERIOD).flat_map(move |by| [place.saturating_sub(by), place.saturating_add(by)]);
    for length in [PERIOD, 1 << 32, usize::MAX / 2, usize::MAX / 3, last, bound, usize::MAX].into_iter().flat_map(near) {
        let wanted = wanted(length).filter(|_| length <= last);
        assert!(query(length) == wanted, "{name}: {length}: {:?}, not {wanted:?}", query(length));
    }
    println!("| {name} | {:?} for {last}, of {bound} |", query(last));
}

const EVEN: &[u8] = b"ab\xb0\xa1\xb0\xa1\xb0\xa1\xb0\xa1\xb0\xa1\xb0\xa1\xb0\xa1";

fn decoders(part: Part, tables: &Tables, table: &SingleByteTable) {
    let pairs = || Bytes(EVEN, [23, 9], b"\xff");
    decode(part, "EUC-KR", || EucKrDecoder::new(tables), pairs());
    decode(part, "EUC-JP", || EucJpDecoder::new(tables), pairs());
    decode(part, "Big5", || Big5Decoder::new(tables), pairs());
    decode(part, "gb18030", || Gb18030Decoder::new(tables), pairs());
    decode(part, "Shift_JIS", || ShiftJisDecoder::new(tables), Bytes(EVEN, [44, 16], b"\xff"));
    decode(part, "ISO-2022-JP", || Iso2022JpDecoder::new(tables), Bytes(b"abababababababab", [16, 16], b"\xff"));
    decode(part, "single-byte", || SingleByteDecoder::new(table), Bytes(EVEN, [30, 16], b"\xff"));
    decode(part, "x-user-defined", UserDefinedDecoder::new, Bytes(EVEN, [44, 16], b""));
    decode(part, "UTF-16LE", || Utf16Decoder::new(false), Bytes(EVEN, [24, 8], b"\x00\xdc"));
    decode(part, "UTF-16BE", || Utf16Decoder::new(true), Bytes(EVEN, [24, 8], b"\xdc\x00"));
}

fn encoders(part: Part, tables: &Tables, table: &SingleByteTable) {
    let text = || Text("ab\u{3042}\u{3042}\u{3042}\u{3042}\u{3042}\u{3042}\u{3042}\u{3042}\u{3042}\u{3042}", 22, "\u{1F4A9}");
    encode(part, "EUC-KR", || EucKrEncoder::new(tables), text());
    encode(part, "EUC-JP", || EucJpEncoder::new(tables), text());
    encode(part, "Big5", || Big5Encoder::new(tables), text());
    encode(part, "GBK", || Gb18030Encoder::new(tables, false), text());
    encode(part, "Shift_JIS", || ShiftJisEncoder::new(tables), text());
    encode(part, "ISO-2022-JP", || Iso2022JpEncoder::new(tables), Text("abababababababab", 16, "\u{1F4A9}"));
    encode(part, "single-byte", || SingleByteEncoder::with_longest_run(table), Text("ab\u{e9}", 3, "\u{1F4A9}"));
    encode(part, "x-user-defined", UserDefinedEncoder::new, Text("abababababababab", 16, "\u{1F4A9}"));
}

fn main() {
    let (mut wide, narrow) = (vec![0x3042u32; 19782], vec![0x3042u16; 23940]);
    let mut jis0208 = narrow[..11280].to_vec();
    // These have no entry: the decoders know what they are.
    [1133, 1135, 1164, 1166].map(|pointer| wide[pointer] = 0);
    jis0208[8836..=10715].fill(0);
    let flat = Indexes {
        big5: &wide,
        euc_kr: &narrow,
        jis0208: &jis0208,
        jis0212: &narrow[..8836],
        gb18030: &narrow,
        katakana: &[],
        ranges: &[(0, 0x80)],
        gb18030_pua: &GB18030_2022_PUA,
    };
    let tables = Tables::new(&flat).expect("the indexes are accepted");
    let mut entries = [0; 128];
    (entries[0xB0 - 0x80], entries[0xA1 - 0x80]) = (0xE9, 0xE8);
    let table = SingleByteTable::new(&entries).expect("the table is accepted");
    println!("| what | came |\n|---|---|");
    for part in [Part::Queries, Part::Calls] {
        decoders(part, &tables, &table);
        encoders(part, &tables, &table);
    }
}
