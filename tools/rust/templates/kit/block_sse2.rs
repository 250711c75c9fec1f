//! Sixteen bytes in a register of x86-64, as bytes or as eight units.
//!
//! The unsafe blocks of the crate are all in this file. They call instructions of SSE2, which every such processor has,
//! and the shuffle of SSSE3 after a test, and take sixteen bytes for a register.
#![allow(unsafe_code)]

use super::super::processor::has_shuffles;
use core::arch::x86_64::*;

/// Sixteen bytes.
#[derive(Clone, Copy)]
pub struct Block(__m128i);

/// Defines operations of two blocks, each by instructions of SSE2.
macro_rules! operations {
    ($($name:ident($a:ident, $b:ident) = $value:expr;)*) => {
        impl Block {
            $(#[inline(always)]
            pub fn $name(self, other: Block) -> Block {
                let ($a, $b) = (self.0, other.0);
                // SAFETY: every x86-64 has SSE2.
                Block(unsafe { $value })
            })*
        }
    };
}

operations! {
    and(a, b) = _mm_and_si128(a, b);
    or(a, b) = _mm_or_si128(a, b);
    xor(a, b) = _mm_xor_si128(a, b);
    add8(a, b) = _mm_add_epi8(a, b);
    sub8(a, b) = _mm_sub_epi8(a, b);
    saturating_add8(a, b) = _mm_adds_epu8(a, b);
    saturating_sub8(a, b) = _mm_subs_epu8(a, b);
    ge8(a, b) = _mm_cmpeq_epi8(_mm_max_epu8(a, b), a);
    eq8(a, b) = _mm_cmpeq_epi8(a, b);
    min8(a, b) = _mm_min_epu8(a, b);
    max8(a, b) = _mm_max_epu8(a, b);
    add16(a, b) = _mm_add_epi16(a, b);
    sub16(a, b) = _mm_sub_epi16(a, b);
    mul16(a, b) = _mm_mullo_epi16(a, b);
    saturating_add16(a, b) = _mm_adds_epu16(a, b);
    saturating_sub16(a, b) = _mm_subs_epu16(a, b);
    ge16(a, b) = _mm_cmpeq_epi16(_mm_subs_epu16(b, a), _mm_setzero_si128());
    eq16(a, b) = _mm_cmpeq_epi16(a, b);
    min16(a, b) = _mm_sub_epi16(a, _mm_subs_epu16(a, b));
    max16(a, b) = _mm_add_epi16(b, _mm_subs_epu16(a, b));
}

impl Block {
    #[inline(always)]
    pub fn of_bytes(bytes: [u8; 16]) -> Block {
        // SAFETY: both types have sixteen bytes, and all bytes are values of either.
        Block(unsafe { core::mem::transmute::<[u8; 16], __m128i>(bytes) })
    }

    #[inline(always)]
    pub fn bytes(self) -> [u8; 16] {
        // SAFETY: as in `of_bytes`.
        unsafe { core::mem::transmute::<__m128i, [u8; 16]>(self.0) }
    }

    #[inline(always)]
    pub fn of_units(units: [u16; 8]) -> Block {
        // SAFETY: as in `of_bytes`.
        Block(unsafe { core::mem::transmute::<[u16; 8], __m128i>(units) })
    }

    #[inline(always)]
    pub fn units(self) -> [u16; 8] {
        // SAFETY: as in `of_bytes`.
        unsafe { core::mem::transmute::<__m128i, [u16; 8]>(self.0) }
    }

    #[inline(always)]
    pub fn splat8(byte: u8) -> Block {
        // SAFETY: every x86-64 has SSE2.
        Block(unsafe { _mm_set1_epi8(byte as i8) })
    }

    #[inline(always)]
    pub fn splat16(unit: u16) -> Block {
        // SAFETY: every x86-64 has SSE2.
        Block(unsafe { _mm_set1_epi16(unit as i16) })
    }

    /// Returns the bits of one block where this one's are set, and of the other elsewhere.
    #[inline(always)]
    pub fn select(self, one: Block, other: Block) -> Block {
        // SAFETY: every x86-64 has SSE2.
        Block(unsafe { _mm_or_si128(_mm_and_si128(self.0, one.0), _mm_andnot_si128(self.0, other.0)) })
    }

    /// Returns the greatest bit of each byte.
    #[inline(always)]
    pub fn byte_bits(self) -> u16 {
        // SAFETY: every x86-64 has SSE2.
        unsafe { _mm_movemask_epi8(self.0) as u16 }
    }

    /// Returns a bit for each unit of a mask.
    #[inline(always)]
    pub fn unit_bits(self) -> u8 {
        // SAFETY: every x86-64 has SSE2.
        unsafe { _mm_movemask_epi8(_mm_packs_epi16(self.0, _mm_setzero_si128())) as u8 }
    }

    /// Returns the units with their bytes in the order of memory, which are those of a little-endian processor.
    #[inline(always)]
    pub fn to_little_endian(self) -> Block {
        self
    }

    #[inline(always)]
    pub fn interleave8(self, other: Block) -> (Block, Block) {
        // SAFETY: every x86-64 has SSE2.
        unsafe { (Block(_mm_unpacklo_epi8(self.0, other.0)), Block(_mm_unpackhi_epi8(self.0, other.0))) }
    }

    #[inline(always)]
    pub fn interleave16(self, other: Block) -> (Block, Block) {
        // SAFETY: every x86-64 has SSE2.
        unsafe { (Block(_mm_unpacklo_epi16(self.0, other.0)), Block(_mm_unpackhi_epi16(self.0, other.0))) }
    }

    /// Returns the number of places by which all units are moved, if it is one: that is known when the code is compiled.
    #[inline(always)]
    fn one_count(self) -> Option<__m128i> {
        let units = self.units().map(|unit| unit & 15);
        if units != [units[0]; 8] {
            return None;
        }
        // SAFETY: every x86-64 has SSE2.
        Some(unsafe { _mm_cvtsi32_si128(i32::from(units[0])) })
    }

    #[inline(always)]
    pub fn left16(self, counts: Block) -> Block {
        match counts.one_count() {
            // SAFETY: every x86-64 has SSE2.
            Some(count) => Block(unsafe { _mm_sll_epi16(self.0, count) }),
            None => self.by_units(counts, |unit, count| unit << (count & 15)),
        }
    }

    #[inline(always)]
    pub fn right16(self, counts: Block) -> Block {
        match counts.one_count() {
            // SAFETY: every x86-64 has SSE2.
            Some(count) => Block(unsafe { _mm_srl_epi16(self.0, count) }),
            None => self.by_units(counts, |unit, count| unit >> (count & 15)),
        }
    }

    fn by_units(self, other: Block, act: impl Fn(u16, u16) -> u16) -> Block {
        let (a, b) = (self.units(), other.units());
        Block::of_units(core::array::from_fn(|k| act(a[k], b[k])))
    }

    /// Returns the bytes at these places, and 0 for each place past 15.
    #[inline(always)]
    pub fn shuffled(self, places: Block) -> Block {
        if has_shuffles() {
            // SAFETY: the processor has the instruction.
            return unsafe { shuffled_by_one(self, places) };
        }
        shuffled_by_bytes(self, places)
    }
}

#[inline]
#[target_feature(enable = "ssse3")]
fn shuffled_by_one(block: Block, places: Block) -> Block {
    // A place past 127 gives 0 by itself, and one from 16 on gets that bit.
    Block(_mm_shuffle_epi8(block.0, _mm_adds_epu8(places.0, _mm_set1_epi8(0x70))))
}

#[cold]
fn shuffled_by_bytes(block: Block, places: Block) -> Block {
    let (bytes, places) = (block.bytes(), places.bytes());
    Block::of_bytes(core::array::from_fn(|k| {
        let byte = bytes[usize::from(places[k] & 15)];
        if places[k] < 16 { byte } else { 0 }
    }))
}
