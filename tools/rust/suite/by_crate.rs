//! The tables, and what each of the replaced files defines: a coder of the crate, by the calls that its callers make.

use legacy_codecs as legacy;
use std::collections::BTreeMap;
use std::sync::{Mutex, OnceLock};

/// Returns the tables, which are checked once.
pub fn tables() -> &'static legacy::Tables<'static> {
    static TABLES: OnceLock<legacy::Tables<'static>> = OnceLock::new();
    TABLES.get_or_init(|| {
        // The tables of this version of the crate have no private-use rows.
        let indexes = legacy::Indexes { gb18030_pua: &[], ..crate::index_data::INDEXES };
        legacy::Tables::new(&indexes).expect("the indexes pass the check")
    })
}

/// Returns the checked table of a single-byte encoding with these entries, which is made once.
pub fn single_byte(entries: &'static [u16; 128]) -> &'static legacy::SingleByteTable {
    static TABLES: Mutex<BTreeMap<usize, &'static legacy::SingleByteTable>> = Mutex::new(BTreeMap::new());
    let make = || {
        let table = legacy::SingleByteTable::new(entries).expect("the table passes the check");
        &*Box::leak(Box::new(table))
    };
    TABLES.lock().unwrap().entry(entries.as_ptr() as usize).or_insert_with(make)
}

/// Returns memory for a list of pairs.
pub fn room() -> &'static mut [u16] {
    vec![0; legacy::PAIR_ROOM].leak()
}

/// Returns an encoder with a list of its pairs.
pub fn listed<E: legacy::EncodesPairs>(encoder: E) -> legacy::CachedEncoder<'static, E> {
    legacy::CachedEncoder::new(Box::leak(Box::new(encoder)), room()).expect("the room has the length")
}

/// Returns the result of a decoder's call by the types of this crate.
pub fn decoded((result, read, written): (legacy::DecoderResult, usize, usize)) -> (crate::DecoderResult, usize, usize) {
    let result = match result {
        legacy::DecoderResult::InputEmpty => crate::DecoderResult::InputEmpty,
        legacy::DecoderResult::OutputFull => crate::DecoderResult::OutputFull,
        legacy::DecoderResult::Malformed(length, back) => crate::DecoderResult::Malformed(length, back),
    };
    (result, read, written)
}

/// Returns the result of an encoder's call by the types of this crate.
pub fn encoded((result, read, written): (legacy::EncoderResult, usize, usize)) -> (crate::EncoderResult, usize, usize) {
    let result = match result {
        legacy::EncoderResult::InputEmpty => crate::EncoderResult::InputEmpty,
        legacy::EncoderResult::OutputFull => crate::EncoderResult::OutputFull,
        legacy::EncoderResult::Unmappable(scalar) => crate::EncoderResult::Unmappable(scalar),
    };
    (result, read, written)
}

/// Defines a decoder: its variant, the crate's type, how it is made, and more queries.
macro_rules! decoder {
    ($name:ident, $variant:ident, $coder:ty, ($($given:ident: $type:ty)?) $new:expr, { $($more:tt)* }) => {
        pub struct $name($coder);

        impl $name {
            pub fn new($($given: $type)?) -> VariantDecoder {
                VariantDecoder::$variant($name($new))
            }

            pub fn max_utf16_buffer_length(&self, count: usize) -> Option<usize> {
                legacy_codecs::RawDecoder::max_utf16_buffer_length(&self.0, count)
            }

            pub fn max_utf8_buffer_length_without_replacement(&self, count: usize) -> Option<usize> {
                legacy_codecs::RawDecoder::max_utf8_buffer_length_without_replacement(&self.0, count)
            }

            pub fn max_utf8_buffer_length(&self, count: usize) -> Option<usize> {
                legacy_codecs::RawDecoder::max_utf8_buffer_length(&self.0, count)
            }

            pub fn decode_to_utf16_raw(&mut self, src: &[u8], dst: &mut [u16], last: bool) -> (DecoderResult, usize, usize) {
                by_crate::decoded(legacy_codecs::RawDecoder::decode_to_utf16_raw(&mut self.0, src, dst, last))
            }

            pub fn decode_to_utf8_raw(&mut self, src: &[u8], dst: &mut [u8], last: bool) -> (DecoderResult, usize, usize) {
                by_crate::decoded(legacy_codecs::RawDecoder::decode_to_utf8_raw(&mut self.0, src, dst, last))
            }

            $($more)*
        }
    };
}

/// Defines an encoder: its variant, the crate's type, how it is made, and more queries.
macro_rules! encoder {
    ($name:ident, $variant:ident, $coder:ty, ($($given:ident: $type:ty),*) $new:expr, { $($more:tt)* }) => {
        pub struct $name($coder);

        impl $name {
            pub fn new(encoding: &'static Encoding $(, $given: $type)*) -> Encoder {
                Encoder::new(encoding, VariantEncoder::$variant($name($new)))
            }

            pub fn max_buffer_length_from_utf16_without_replacement(&self, count: usize) -> Option<usize> {
                legacy_codecs::RawEncoder::max_buffer_length_from_utf16_without_replacement(&self.0, count)
            }

            pub fn max_buffer_length_from_utf8_without_replacement(&self, count: usize) -> Option<usize> {
                legacy_codecs::RawEncoder::max_buffer_length_from_utf8_without_replacement(&self.0, count)
            }

            pub fn encode_from_utf16_raw(&mut self, src: &[u16], dst: &mut [u8], last: bool) -> (EncoderResult, usize, usize) {
                by_crate::encoded(legacy_codecs::RawEncoder::encode_from_utf16_raw(&mut self.0, src, dst, last))
            }

            pub fn encode_from_utf8_raw(&mut self, src: &str, dst: &mut [u8], last: bool) -> (EncoderResult, usize, usize) {
                by_crate::encoded(legacy_codecs::RawEncoder::encode_from_utf8_raw(&mut self.0, src, dst, last))
            }

            $($more)*
        }
    };
}

/// The type of an encoder with a list of its pairs, and the encoder, of which the list is made once.
macro_rules! with_list {
    ($coder:ident, $new:expr) => {{
        static LISTED: std::sync::OnceLock<Listed<legacy_codecs::$coder<'static>>> = std::sync::OnceLock::new();
        *LISTED.get_or_init(|| by_crate::listed($new))
    }};
}

/// An encoder with a list of its pairs.
pub type Listed<E> = legacy::CachedEncoder<'static, E>;

pub(crate) use {decoder, encoder, with_list};
