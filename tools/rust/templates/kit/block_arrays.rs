//! Sixteen bytes in an array, as bytes or as eight units.

use core::array::from_fn;

/// Sixteen bytes.
#[derive(Clone, Copy)]
pub struct Block([u8; 16]);

/// Defines operations of two blocks, each by bytes or by units.
macro_rules! operations {
    ($($by:ident $name:ident($a:ident, $b:ident) = $value:expr;)*) => {
        impl Block {
            $(#[inline(always)]
            pub fn $name(self, other: Block) -> Block {
                self.$by(other, |$a, $b| $value)
            })*
        }
    };
}

operations! {
    by_bytes and(a, b) = a & b;
    by_bytes or(a, b) = a | b;
    by_bytes xor(a, b) = a ^ b;
    by_bytes add8(a, b) = a.wrapping_add(b);
    by_bytes sub8(a, b) = a.wrapping_sub(b);
    by_bytes saturating_add8(a, b) = a.saturating_add(b);
    by_bytes saturating_sub8(a, b) = a.saturating_sub(b);
    by_bytes ge8(a, b) = if a >= b { 0xFF } else { 0 };
    by_bytes eq8(a, b) = if a == b { 0xFF } else { 0 };
    by_bytes min8(a, b) = a.min(b);
    by_bytes max8(a, b) = a.max(b);
    by_units add16(a, b) = a.wrapping_add(b);
    by_units sub16(a, b) = a.wrapping_sub(b);
    by_units mul16(a, b) = a.wrapping_mul(b);
    by_units saturating_add16(a, b) = a.saturating_add(b);
    by_units saturating_sub16(a, b) = a.saturating_sub(b);
    by_units ge16(a, b) = if a >= b { 0xFFFF } else { 0 };
    by_units eq16(a, b) = if a == b { 0xFFFF } else { 0 };
    by_units min16(a, b) = a.min(b);
    by_units max16(a, b) = a.max(b);
    by_units left16(a, b) = a << (b & 15);
    by_units right16(a, b) = a >> (b & 15);
}

impl Block {
    #[inline(always)]
    fn by_bytes(self, other: Block, act: impl Fn(u8, u8) -> u8) -> Block {
        Block(from_fn(|k| act(self.0[k], other.0[k])))
    }

    #[inline(always)]
    fn by_units(self, other: Block, act: impl Fn(u16, u16) -> u16) -> Block {
        let (a, b) = (self.units(), other.units());
        Block::of_units(from_fn(|k| act(a[k], b[k])))
    }

    #[inline(always)]
    pub fn of_bytes(bytes: [u8; 16]) -> Block {
        Block(bytes)
    }

    #[inline(always)]
    pub fn bytes(self) -> [u8; 16] {
        self.0
    }

    #[inline(always)]
    pub fn of_units(units: [u16; 8]) -> Block {
        Block(from_fn(|k| units[k / 2].to_ne_bytes()[k % 2]))
    }

    #[inline(always)]
    pub fn units(self) -> [u16; 8] {
        from_fn(|k| u16::from_ne_bytes([self.0[2 * k], self.0[2 * k + 1]]))
    }

    #[inline(always)]
    pub fn splat8(byte: u8) -> Block {
        Block([byte; 16])
    }

    #[inline(always)]
    pub fn splat16(unit: u16) -> Block {
        Block::of_units([unit; 8])
    }

    /// Returns the bits of one block where this one's are set, and of the other elsewhere.
    #[inline(always)]
    pub fn select(self, one: Block, other: Block) -> Block {
        Block(from_fn(|k| (self.0[k] & one.0[k]) | (!self.0[k] & other.0[k])))
    }

    /// Returns the greatest bit of each byte.
    #[inline(always)]
    pub fn byte_bits(self) -> u16 {
        self.0.iter().rev().fold(0, |bits, byte| bits << 1 | u16::from(byte >> 7))
    }

    /// Returns a bit for each unit of a mask.
    #[inline(always)]
    pub fn unit_bits(self) -> u8 {
        self.units().iter().rev().fold(0, |bits, unit| bits << 1 | (unit >> 15) as u8)
    }

    /// Returns the units with their bytes in the order of a little-endian processor, or back.
    #[inline(always)]
    pub fn to_little_endian(self) -> Block {
        Block::of_units(self.units().map(u16::to_le))
    }

    #[inline(always)]
    pub fn interleave8(self, other: Block) -> (Block, Block) {
        let lane = |k: usize| if k % 2 == 0 { self.0[k / 2] } else { other.0[k / 2] };
        (Block(from_fn(lane)), Block(from_fn(|k| lane(16 + k))))
    }

    #[inline(always)]
    pub fn interleave16(self, other: Block) -> (Block, Block) {
        let (a, b) = (self.units(), other.units());
        let lane = |k: usize| if k % 2 == 0 { a[k / 2] } else { b[k / 2] };
        (Block::of_units(from_fn(lane)), Block::of_units(from_fn(|k| lane(8 + k))))
    }

    /// Returns the bytes at these places, and 0 for each place past 15.
    #[inline(always)]
    pub fn shuffled(self, places: Block) -> Block {
        Block(from_fn(|k| {
            let byte = self.0[usize::from(places.0[k] & 15)];
            if places.0[k] < 16 { byte } else { 0 }
        }))
    }
}
