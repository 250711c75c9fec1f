//! Checks that all codecs write what encoding_rs writes, on real text and on random bytes and characters.

use crate::decoding::{self, ToUtf16, ToUtf8};
use crate::encoding::{self, From, FromUtf16, FromUtf8};
use crate::numbers::Numbers;
use crate::ours::{Calls, Kept, Ours};
use crate::{corpora, pointers, CORPORA, PACKED};
use encoding_rs::{Encoding, REPLACEMENT};

/// The names of the encodings.
pub const ENCODINGS: [&str; 39] = [
    "IBM866", "ISO-8859-2", "ISO-8859-3", "ISO-8859-4", "ISO-8859-5", "ISO-8859-6", "ISO-8859-7", "ISO-8859-8",
    "ISO-8859-8-I", "ISO-8859-10", "ISO-8859-13", "ISO-8859-14", "ISO-8859-15", "ISO-8859-16", "KOI8-R", "KOI8-U",
    "macintosh", "windows-874", "windows-1250", "windows-1251", "windows-1252", "windows-1253", "windows-1254",
    "windows-1255", "windows-1256", "windows-1257", "windows-1258", "x-mac-cyrillic", "GBK", "gb18030", "Big5",
    "EUC-JP", "ISO-2022-JP", "Shift_JIS", "EUC-KR", "replacement", "UTF-16BE", "UTF-16LE", "x-user-defined",
];

/// The number of bytes of each kind that are compared.
const LENGTH: usize = 60_000;

/// Returns random bytes that include escapes of ISO-2022-JP, four-byte sequences of GB18030, and ASCII.
fn any_bytes() -> Vec<u8> {
    let mut numbers = Numbers::new(0x9E37_79B9_7F4A_7C15);
    let escapes: [&[u8]; 5] = [b"\x1B$B", b"\x1B(B", b"\x1B(J", b"\x1B(I", b"\x1B$@"];
    let mut bytes = Vec::new();
    while bytes.len() < LENGTH {
        match numbers.below(8) {
            0 => bytes.extend(escapes[numbers.below(5) as usize]),
            1 => {
                for _ in 0..2 {
                    bytes.push(0x81 + numbers.below(126) as u8);
                    bytes.push(b'0' + numbers.below(10) as u8);
                }
            }
            2 => bytes.extend((0..numbers.below(20)).map(|_| numbers.below(128) as u8)),
            3 => bytes.extend((0..numbers.below(20)).map(|_| numbers.below(94) as u8 + 0x21)),
            _ => bytes.extend((0..numbers.below(20)).map(|_| numbers.below(256) as u8)),
        }
    }
    bytes
}

/// Returns the start of the text of each language.
fn texts() -> Result<Vec<(&'static str, String)>, String> {
    CORPORA
        .iter()
        .map(|(language, name, share, _)| {
            let pages = corpora::html(language).map_err(|error| format!("{language}: {error}"))?;
            Ok((*name, corpora::text(&pages, *share).chars().take(LENGTH / 3).collect()))
        })
        .collect()
}

/// Compares the outputs of both libraries for these bytes, in UTF-8 and UTF-16, by raw calls and with replacement.
fn agree(codecs: &[Ours], encoding: &'static Encoding, bytes: &[u8], what: &str) -> Result<(), String> {
    let failed = |error| format!("{what} in {}: {error}", encoding.name());
    for ours in codecs {
        for calls in [Calls::Raw, Calls::Replacing] {
            decoding::compare::<ToUtf8>(ours, encoding, calls, bytes).map_err(failed)?;
            decoding::compare::<ToUtf16>(ours, encoding, calls, bytes).map_err(failed)?;
        }
    }
    Ok(())
}

/// Returns random code units that include surrogates, ASCII, kana, ideographs, Hangul and private-use characters.
fn any_units() -> Vec<u16> {
    let mut numbers = Numbers::new(0xD1B5_4A32_D192_ED03);
    let blocks: [(u16, u64); 9] = [
        (0x0000, 0x80),
        (0x0080, 0x500),
        (0x2000, 0x700),
        (0x3000, 0x200),
        (0x4E00, 0x5200),
        (0xAC00, 0x2BA4),
        (0xD800, 0x800),
        (0xE000, 0x1900),
        (0xF900, 0x700),
    ];
    let mut units = Vec::new();
    while units.len() < LENGTH / 2 {
        let (first, count) = blocks[numbers.below(9) as usize];
        units.extend((0..numbers.below(20)).map(|_| first + numbers.below(count) as u16));
        if numbers.below(8) == 0 {
            units.extend([0xD800 + numbers.below(0x400) as u16, 0xDC00 + numbers.below(0x400) as u16]);
        }
    }
    units
}

/// The factor by which a text is shortened if its encoder searches flat tables for each character.
///
/// That is so over flat tables of a codec that can have packed ones.
const FLAT_SHARE: usize = 10;

/// Compares the outputs of both libraries for this text, from UTF-8 and UTF-16, by raw calls and with replacement.
fn agree_back(codecs: &[Ours], encoding: &'static Encoding, units: &[u16], what: &str) -> Result<(), String> {
    let failed = |error| format!("{what} in {}: {error}", encoding.name());
    for (at, ours) in codecs.iter().enumerate() {
        let is_searched = at == 0 && codecs.len() > 1;
        let units = if is_searched { &units[..units.len() / FLAT_SHARE] } else { units };
        let text = FromUtf8::units(&String::from_utf16_lossy(units));
        for calls in [Calls::Raw, Calls::Replacing] {
            encoding::compare::<FromUtf8>(ours, encoding, calls, &text).map_err(failed)?;
            encoding::compare::<FromUtf16>(ours, encoding, calls, units).map_err(failed)?;
        }
    }
    Ok(())
}

/// Returns the codec over flat tables. A codec of pairs is returned over packed tables and with cached pairs as well.
fn codecs(encoding: &'static Encoding) -> Vec<Ours> {
    let mut codecs = vec![Ours::new(encoding, Kept::Flat)];
    if PACKED.contains(&encoding.name()) {
        codecs.push(Ours::new(encoding, Kept::Packed));
        codecs.push(Ours::new(encoding, Kept::Ahead));
    }
    codecs
}

/// Compares all codecs, and prints the number of encodings. Also checks the indexes (`pointers`).
pub fn report() -> Result<(), String> {
    pointers::check()?;
    let texts = texts()?;
    let any = any_bytes();
    let units = any_units();
    for name in ENCODINGS {
        let encoding = Encoding::for_label(name.as_bytes()).ok_or("no such encoding")?;
        let ours = codecs(encoding);
        agree(&ours, encoding, &any, "bytes")?;
        if encoding.output_encoding() == encoding {
            agree_back(&ours, encoding, &units, "any units")?;
            for (language, text) in &texts {
                agree_back(&ours, encoding, &text.encode_utf16().collect::<Vec<u16>>(), language)?;
            }
        }
        for (language, text) in &texts {
            if encoding != REPLACEMENT {
                agree(&ours, encoding, &corpora::encode_once(encoding, text), language)?;
            }
        }
    }
    println!("{} encodings: the same as encoding_rs", ENCODINGS.len());
    println!("the indexes have the pointers of the encoders' law");
    Ok(())
}
