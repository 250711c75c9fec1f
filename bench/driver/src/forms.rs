//! The kinds of patterns: what forms they have, and how they are cut.

use crate::pattern::Cut;
use encoding_rs::{DecoderResult, Encoding};
use std::collections::BTreeSet;

/// Returns a letter for the block of a character: ASCII, below U+0800, below U+10000, or above.
fn block(c: char) -> char {
    match c.len_utf8() {
        1 => 'a',
        2 => 'b',
        3 => 'c',
        _ => 'd',
    }
}

/// Returns the forms of a source: of each the number of bytes and the blocks of its text, or that it is malformed.
///
/// Forms that begin with a byte from 80 to 9F are told from others.
pub fn of_bytes(encoding: &'static Encoding, src: &[u8]) -> BTreeSet<String> {
    let mut decoder = encoding.new_decoder_without_bom_handling();
    let (mut forms, mut start, mut text) = (BTreeSet::new(), 0, [0; 64]);
    for at in 0..src.len() {
        let mut end = at;
        while end == at {
            let (answer, read, written) = decoder.decode_to_utf8_without_replacement(&src[at..=at], &mut text, false);
            end += read;
            let is_malformed = matches!(answer, DecoderResult::Malformed(_, _));
            if !is_malformed && written == 0 {
                continue;
            }
            let scalars: String = String::from_utf8_lossy(&text[..written]).chars().map(block).collect();
            let mark = if (0x80..0xA0).contains(&src[start]) { "^" } else { "" };
            let fault = if is_malformed { "x" } else { "" };
            forms.insert(format!("{mark}{}{scalars}{fault}", end - start));
            start = end;
        }
    }
    forms
}

/// Returns the forms of a text: of each the block of the code point and the number of its bytes, or that it has none.
pub fn of_code_points(encoding: &'static Encoding, codes: &[u32]) -> BTreeSet<String> {
    let form = |code: &u32| {
        let Some(c) = char::from_u32(*code) else { return "s".to_string() };
        let text = c.to_string();
        let (bytes, _, is_unmappable) = encoding.encode(&text);
        if is_unmappable { format!("{}x", block(c)) } else { format!("{}{}", block(c), bytes.len()) }
    };
    codes.iter().map(form).collect()
}

/// Returns a word for the kind of a cut.
pub fn of_cut(cut: Cut) -> &'static str {
    match cut {
        Cut::Whole => "whole",
        Cut::Lines => "lines",
        Cut::Pieces(1..8) => "short",
        Cut::Pieces(_) => "long",
    }
}
