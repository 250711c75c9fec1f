//! Short vectors by the names of `std::simd`, which is not stable. A vector is blocks of sixteen bytes.
//!
//! On x86-64 each operation is an instruction of SSE2, which every such processor has. Elsewhere it is a loop over an array.
#![allow(non_camel_case_types)]

#[cfg(not(target_arch = "x86_64"))]
#[path = "block_arrays.rs"]
mod block;
#[cfg(target_arch = "x86_64")]
#[path = "block_sse2.rs"]
mod block;

use block::Block;
use core::array::from_fn;
use core::ops::{Add, BitAnd, BitOr, BitXor, Mul, Not, Shl, Shr, Sub};

/// Defines a vector of an item, its mask, and what both can do with each block.
macro_rules! vector {
    ($vector:ident, $mask:ident, $item:ident, $each:literal, $of:ident, $items:ident, $splat:ident,
        $ge:ident $eq:ident $min:ident $max:ident $add:ident $sub:ident $saturating_add:ident $saturating_sub:ident) => {
        /// A vector of blocks.
        #[derive(Clone, Copy)]
        pub struct $vector<const B: usize>([Block; B]);

        /// For each lane of a vector all bits, or none.
        #[derive(Clone, Copy)]
        pub struct $mask<const B: usize>([Block; B]);

        impl<const B: usize> $vector<B> {
            /// The number of lanes.
            pub const LEN: usize = B * $each;

            #[inline(always)]
            fn with(self, other: Self, act: impl Fn(Block, Block) -> Block) -> [Block; B] {
                from_fn(|k| act(self.0[k], other.0[k]))
            }

            /// Returns a vector with this item in each lane.
            #[inline(always)]
            pub fn splat(item: $item) -> Self {
                $vector([Block::$splat(item); B])
            }

            /// Returns the first items of a slice, which must have as many.
            #[inline(always)]
            pub fn from_slice(items: &[$item]) -> Self {
                let items = &items[..Self::LEN];
                $vector(from_fn(|k| {
                    Block::$of(from_fn(|lane| items[$each * k + lane]))
                }))
            }

            /// Stores the lanes at the front of a slice, which must have as many items.
            #[inline(always)]
            pub fn copy_to_slice(self, items: &mut [$item]) {
                let items = &mut items[..Self::LEN];
                for k in 0..B {
                    items[$each * k..$each * (k + 1)].copy_from_slice(&self.0[k].$items());
                }
            }

            #[inline(always)]
            pub fn simd_ge(self, other: Self) -> $mask<B> {
                $mask(self.with(other, Block::$ge))
            }

            #[inline(always)]
            pub fn simd_le(self, other: Self) -> $mask<B> {
                other.simd_ge(self)
            }

            #[inline(always)]
            pub fn simd_lt(self, other: Self) -> $mask<B> {
                !self.simd_ge(other)
            }

            #[inline(always)]
            pub fn simd_gt(self, other: Self) -> $mask<B> {
                !other.simd_ge(self)
            }

            #[inline(always)]
            pub fn simd_eq(self, other: Self) -> $mask<B> {
                $mask(self.with(other, Block::$eq))
            }

            #[inline(always)]
            pub fn simd_ne(self, other: Self) -> $mask<B> {
                !self.simd_eq(other)
            }

            #[inline(always)]
            pub fn simd_min(self, other: Self) -> Self {
                $vector(self.with(other, Block::$min))
            }

            #[inline(always)]
            pub fn simd_max(self, other: Self) -> Self {
                $vector(self.with(other, Block::$max))
            }

            #[inline(always)]
            pub fn saturating_add(self, other: Self) -> Self {
                $vector(self.with(other, Block::$saturating_add))
            }

            #[inline(always)]
            pub fn saturating_sub(self, other: Self) -> Self {
                $vector(self.with(other, Block::$saturating_sub))
            }
        }

        impl<const B: usize> $mask<B> {
            /// Returns the lanes of one vector where the mask is set, and of the other elsewhere.
            #[inline(always)]
            pub fn select(self, one: $vector<B>, other: $vector<B>) -> $vector<B> {
                $vector(from_fn(|k| self.0[k].select(one.0[k], other.0[k])))
            }

            #[inline(always)]
            pub fn all(self) -> bool {
                self.0.iter().all(|block| block.byte_bits() == 0xFFFF)
            }

            #[inline(always)]
            pub fn any(self) -> bool {
                self.0.iter().any(|block| block.byte_bits() != 0)
            }
        }

        vector!(@binary $vector, Add add $add, Sub sub $sub, BitAnd bitand and, BitOr bitor or, BitXor bitxor xor);
        vector!(@binary $mask, BitAnd bitand and, BitOr bitor or, BitXor bitxor xor);
        vector!(@not $vector, $mask);
    };
    (@binary $name:ident, $($trait:ident $call:ident $act:ident),*) => {
        $(impl<const B: usize> $trait for $name<B> {
            type Output = Self;
            #[inline(always)]
            fn $call(self, other: Self) -> Self {
                $name(from_fn(|k| self.0[k].$act(other.0[k])))
            }
        })*
    };
    (@not $($name:ident),*) => {
        $(impl<const B: usize> Not for $name<B> {
            type Output = Self;
            #[inline(always)]
            fn not(self) -> Self {
                $name(from_fn(|k| self.0[k].xor(Block::splat8(0xFF))))
            }
        })*
    };
}

vector!(Bytes, ByteMask, u8, 16, of_bytes, bytes, splat8, ge8 eq8 min8 max8 add8 sub8 saturating_add8 saturating_sub8);
vector!(Units, UnitMask, u16, 8, of_units, units, splat16, ge16 eq16 min16 max16 add16 sub16 saturating_add16 saturating_sub16);

pub type u8x16 = Bytes<1>;
pub type u8x32 = Bytes<2>;
pub type u8x64 = Bytes<4>;
pub type u16x8 = Units<1>;
pub type u16x16 = Units<2>;

impl<const B: usize> ByteMask<B> {
    /// Returns a bit for each lane, the first lane's lowest.
    #[inline(always)]
    pub fn to_bitmask(self) -> u64 {
        self.0.iter().rev().fold(0, |bits, block| bits << 16 | u64::from(block.byte_bits()))
    }
}

impl<const B: usize> UnitMask<B> {
    /// Returns a bit for each lane, the first lane's lowest.
    #[inline(always)]
    pub fn to_bitmask(self) -> u64 {
        self.0.iter().rev().fold(0, |bits, block| bits << 8 | u64::from(block.unit_bits()))
    }
}

impl<const B: usize> Mul for Units<B> {
    type Output = Self;
    #[inline(always)]
    fn mul(self, other: Self) -> Self {
        Units(self.with(other, Block::mul16))
    }
}

impl<const B: usize> Shl for Units<B> {
    type Output = Self;
    #[inline(always)]
    fn shl(self, other: Self) -> Self {
        Units(self.with(other, Block::left16))
    }
}

impl<const B: usize> Shr for Units<B> {
    type Output = Self;
    #[inline(always)]
    fn shr(self, other: Self) -> Self {
        Units(self.with(other, Block::right16))
    }
}

impl<const B: usize> Units<B> {
    #[inline(always)]
    pub fn from_le_bytes(bytes: Bytes<B>) -> Self {
        Units(bytes.0.map(Block::to_little_endian))
    }

    #[inline(always)]
    pub fn to_le_bytes(self) -> Bytes<B> {
        Bytes(self.0.map(Block::to_little_endian))
    }
}

impl u16x8 {
    #[inline(always)]
    pub fn from_array(units: [u16; 8]) -> u16x8 {
        Units([Block::of_units(units)])
    }

    #[inline(always)]
    pub fn to_array(self) -> [u16; 8] {
        self.0[0].units()
    }

    /// Returns the lanes of both in turn.
    #[inline(always)]
    pub fn interleave(self, other: u16x8) -> (u16x8, u16x8) {
        let (front, back) = self.0[0].interleave16(other.0[0]);
        (Units([front]), Units([back]))
    }
}

impl u16x16 {
    #[inline(always)]
    pub fn to_array(self) -> [u16; 16] {
        let halves = self.0.map(Block::units);
        from_fn(|k| halves[k / 8][k % 8])
    }
}

impl u8x16 {
    #[inline(always)]
    pub fn from_array(bytes: [u8; 16]) -> u8x16 {
        Bytes([Block::of_bytes(bytes)])
    }

    #[inline(always)]
    pub fn to_array(self) -> [u8; 16] {
        self.0[0].bytes()
    }

    /// Returns the lanes of both in turn.
    #[inline(always)]
    pub fn interleave(self, other: u8x16) -> (u8x16, u8x16) {
        let (front, back) = self.0[0].interleave8(other.0[0]);
        (Bytes([front]), Bytes([back]))
    }

    /// Returns the bytes at these places, and 0 for each place past 15.
    #[inline(always)]
    pub fn swizzle_dyn(self, places: u8x16) -> u8x16 {
        Bytes([self.0[0].shuffled(places.0[0])])
    }
}

impl<const B: usize> Bytes<B> {
    /// Returns the bytes at these places, which are as many as the lanes.
    #[inline(always)]
    pub fn swizzle<const N: usize>(self, places: [usize; N]) -> Self {
        const { assert!(N == B * 16) };
        let byte = |place: usize| self.0[place / 16].bytes()[place % 16];
        Bytes(from_fn(|k| Block::of_bytes(from_fn(|lane| byte(places[16 * k + lane])))))
    }
}

/// Lanes of another width.
#[derive(Clone, Copy)]
pub struct Lanes<T, const N: usize>([T; N]);

impl<T: Copy, const N: usize> Lanes<T, N> {
    #[inline(always)]
    pub fn to_array(self) -> [T; N] {
        self.0
    }

    /// Stores the lanes at the front of a slice, which must have as many items.
    #[inline(always)]
    pub fn copy_to_slice(self, items: &mut [T]) {
        items[..N].copy_from_slice(&self.0);
    }
}

/// Defines the lanes of a vector as wider numbers.
macro_rules! casts {
    ($($vector:ident $item:ident $each:literal $count:literal $items:ident),*) => {
        $(impl $vector {
            /// Returns the lanes as wider numbers.
            #[inline(always)]
            pub fn cast<T: From<$item> + Copy>(self) -> Lanes<T, $count> {
                let blocks = self.0.map(Block::$items);
                Lanes(from_fn(|k| T::from(blocks[k / $each][k % $each])))
            }
        })*
    };
}

casts!(u8x16 u8 16 16 bytes, u8x32 u8 16 32 bytes, u8x64 u8 16 64 bytes, u16x8 u16 8 8 units, u16x16 u16 8 16 units);

/// A vector of fewer than sixteen bytes.
#[derive(Clone, Copy)]
pub struct Few<const N: usize>([u8; N]);

/// For each lane of a vector all bits, or none.
#[derive(Clone, Copy)]
pub struct FewMask<const N: usize>([u8; N]);

pub type u8x4 = Few<4>;
pub type u8x8 = Few<8>;

impl<const N: usize> Few<N> {
    #[inline(always)]
    pub fn splat(byte: u8) -> Self {
        Few([byte; N])
    }

    #[inline(always)]
    pub fn from_array(bytes: [u8; N]) -> Self {
        Few(bytes)
    }

    /// Returns the first bytes of a slice, which must have as many.
    #[inline(always)]
    pub fn from_slice(bytes: &[u8]) -> Self {
        let bytes = &bytes[..N];
        Few(from_fn(|k| bytes[k]))
    }

    #[inline(always)]
    pub fn to_array(self) -> [u8; N] {
        self.0
    }

    /// Stores the lanes at the front of a slice, which must have as many bytes.
    #[inline(always)]
    pub fn copy_to_slice(self, bytes: &mut [u8]) {
        bytes[..N].copy_from_slice(&self.0);
    }

    #[inline(always)]
    pub fn simd_ge(self, other: Self) -> FewMask<N> {
        FewMask(from_fn(|k| if self.0[k] >= other.0[k] { 0xFF } else { 0 }))
    }

    #[inline(always)]
    pub fn simd_lt(self, other: Self) -> FewMask<N> {
        FewMask(from_fn(|k| if self.0[k] < other.0[k] { 0xFF } else { 0 }))
    }

    /// Returns the lanes as wider numbers.
    #[inline(always)]
    pub fn cast<T: From<u8> + Copy>(self) -> Lanes<T, N> {
        Lanes(from_fn(|k| T::from(self.0[k])))
    }
}

impl<const N: usize> FewMask<N> {
    /// Returns a bit for each lane, the first lane's lowest.
    #[inline(always)]
    pub fn to_bitmask(self) -> u64 {
        let bytes = from_fn(|k| if k < N { self.0[k] } else { 0 });
        u64::from(Block::of_bytes(bytes).byte_bits())
    }
}
