//! The index files of the Standard, read to flat indexes.

use legacy_codecs::{Indexes, SingleByteTable, GB18030_2022_PUA};

/// The words of indexes.
pub const INDEXES: [&str; 7] = ["big5", "euc-kr", "jis0208", "jis0212", "gb18030", "ranges", "single-byte"];

/// Flat indexes, empty if their files were not read.
#[derive(Default)]
pub struct Owned {
    big5: Vec<u32>,
    narrow: [Vec<u16>; 4],
    ranges: Vec<(u16, u16)>,
    single_byte: Vec<u16>,
}

/// Returns the pointer and the scalar of a line.
fn entry(line: &str) -> Option<(usize, u32)> {
    let mut words = line.split_whitespace();
    let pointer = words.next()?.parse().ok()?;
    let scalar = u32::from_str_radix(words.next()?.strip_prefix("0x")?, 16).ok()?;
    Some((pointer, scalar))
}

fn put<T: Copy + Default>(index: &mut Vec<T>, pointer: usize, scalar: T) {
    if index.len() <= pointer {
        index.resize(pointer + 1, T::default());
    }
    index[pointer] = scalar;
}

impl Owned {
    /// Reads the file of an index. An error is the number of a malformed line.
    pub fn read(&mut self, index: &str, text: &str) -> Result<(), usize> {
        let place = INDEXES.iter().position(|it| *it == index).expect("the word is one of an index");
        for (number, line) in text.lines().enumerate().filter(|(_, line)| !line.is_empty() && !line.starts_with('#')) {
            let (pointer, scalar) = entry(line).ok_or(number + 1)?;
            match (place, u16::try_from(scalar)) {
                (0, _) => put(&mut self.big5, pointer, scalar),
                (5, Ok(scalar)) => self.ranges.push((u16::try_from(pointer).map_err(|_| number + 1)?, scalar)),
                // The Standard's last range is that of the planes past the first.
                (5, Err(_)) => {}
                (6, Ok(scalar)) => put(&mut self.single_byte, pointer, scalar),
                (_, Ok(scalar)) => put(&mut self.narrow[place - 1], pointer, scalar),
                (_, Err(_)) => return Err(number + 1),
            }
        }
        Ok(())
    }

    /// Returns the indexes of pointers.
    pub fn flat(&self) -> Indexes<'_> {
        let [euc_kr, jis0208, jis0212, gb18030] = &self.narrow;
        Indexes {
            big5: &self.big5,
            euc_kr,
            jis0208,
            jis0212,
            gb18030,
            katakana: &[],
            ranges: &self.ranges,
            gb18030_pua: &GB18030_2022_PUA,
        }
    }

    /// Returns the table of a single-byte encoding.
    pub fn table(&self) -> SingleByteTable {
        let entries = std::array::from_fn(|place| self.single_byte.get(place).copied().unwrap_or(0));
        SingleByteTable::new(&entries).expect("the table is accepted")
    }
}
