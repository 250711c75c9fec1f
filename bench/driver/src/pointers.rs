//! Checks that encoding_rs's indexes have the pointers that the law of encoders asks for (`HasPointers`).

use crate::indexes;
use crate::ours::Range;
use std::collections::HashSet;

/// The pointers of jis0208 that EUC-JP and ISO-2022-JP have bytes for.
const ROWS: usize = 94 * 94;

/// The pointers of four bytes that have scalars, and the pointer with a scalar by a rule of its own.
const FOUR_BYTES: [std::ops::RangeInclusive<u32>; 2] = [0..=39419, 189_000..=1_237_575];
const OWN_RULE: (u32, u32) = (7457, 0xE7C7);

/// Returns the least pointer of a scalar.
fn first_pointer(index: &[u16], scalar: u16) -> Option<usize> {
    index.iter().position(|&entry| entry == scalar)
}

/// Checks jis0208: the first pointer of each scalar is in the rows, and U+FF0D has one there and one for Shift_JIS.
fn check_jis0208(index: &[u16]) -> Result<(), String> {
    for &scalar in index.iter().filter(|&&entry| entry != 0) {
        if first_pointer(index, scalar).is_none_or(|pointer| pointer >= ROWS) {
            return Err(format!("U+{scalar:04X} has no pointer in the rows of jis0208"));
        }
    }
    match first_pointer(index, 0xFF0D) {
        Some(pointer) if pointer < 8272 => Ok(()),
        _ => Err("U+FF0D has no pointer in jis0208 for all encoders".to_owned()),
    }
}

/// Returns whether the encoder of ISO-2022-JP looks up this scalar in jis0208 as it is.
fn is_looked_up(scalar: u16) -> bool {
    !matches!(scalar, 0..=0x7F | 0xA5 | 0x203E | 0x2212 | 0xFF61..=0xFF9F)
}

/// Checks that each half-width katakana has an entry that is looked up and found.
fn check_katakana(jis0208: &[u16], katakana: &[u16]) -> Result<(), String> {
    if katakana.len() != 63 {
        return Err("the katakana index has not 63 entries".to_owned());
    }
    for &entry in katakana {
        if !is_looked_up(entry) || first_pointer(&jis0208[..ROWS], entry).is_none() {
            return Err(format!("U+{entry:04X} of the katakana index is not found in jis0208"));
        }
    }
    Ok(())
}

/// Returns the scalar of a pointer of four bytes: the offset from the last range that begins at or before it.
fn scalar_of(ranges: &[Range], pointer: u32) -> Option<u32> {
    if pointer == OWN_RULE.0 {
        return Some(OWN_RULE.1);
    }
    if pointer >= 189_000 {
        return Some(pointer - 189_000 + 0x1_0000);
    }
    let range = ranges.iter().rev().find(|range| u32::from(range.pointer) <= pointer)?;
    Some(u32::from(range.scalar) + pointer - u32::from(range.pointer))
}

/// Checks that each scalar past ASCII but U+E5E5 has a pointer of two bytes or one of four.
fn check_gb18030(index: &[u16], ranges: &[Range]) -> Result<(), String> {
    let two: HashSet<u32> = index.iter().map(|&entry| u32::from(entry)).collect();
    let four: HashSet<u32> = FOUR_BYTES.into_iter().flatten().filter_map(|pointer| scalar_of(ranges, pointer)).collect();
    let scalars = ('\u{80}'..=char::MAX).map(u32::from).filter(|&scalar| scalar != 0xE5E5);
    match scalars.into_iter().find(|scalar| !two.contains(scalar) && !four.contains(scalar)) {
        Some(scalar) => Err(format!("U+{scalar:04X} has no pointer in gb18030")),
        None => Ok(()),
    }
}

/// Checks all indexes.
pub fn check() -> Result<(), String> {
    let jis0208 = indexes::jis0208();
    check_jis0208(&jis0208)?;
    check_katakana(&jis0208, &indexes::katakana())?;
    check_gb18030(&indexes::gb18030(), &indexes::ranges())
}
