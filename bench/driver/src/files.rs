//! Checks that both programs write, for files, what encoding_rs writes: of all scalars, and of all pairs of bytes.

use crate::agreement::ENCODINGS;
use crate::indexes;
use crate::recode::{compare, find_programs, index_text, input, run, write_repeated, ENCODER, PROGRAM};
use encoding_rs::{Encoding, BIG5, EUC_JP, EUC_KR, GB18030, GBK, ISO_2022_JP, SHIFT_JIS, X_USER_DEFINED};
use std::fs;
use std::process::Stdio;

/// The folder of the files.
const FOLDER: &str = concat!(env!("CARGO_MANIFEST_DIR"), "/../target/files");

/// Writes a file of the folder, and returns its path.
fn file(name: &str, content: &[u8]) -> Result<String, String> {
    let path = format!("{FOLDER}/{name}");
    write_repeated(&path, content, 1).map_err(|error| format!("{path}: {error}"))?;
    Ok(path)
}

/// Returns the ranges in the form in which the Standard publishes them.
fn ranges_text() -> String {
    let ranges = indexes::ranges().into_iter().map(|range| format!("{}\t0x{:04X}\n", range.pointer, range.scalar));
    ranges.collect::<String>() + "189000\t0x10000\n"
}

/// Returns the text of an index file, by its word.
fn text_of(index: &str, encoding: &'static Encoding) -> String {
    match index {
        "big5" => index_text(indexes::big5()),
        "euc-kr" => index_text(indexes::euc_kr()),
        "jis0208" => index_text(indexes::jis0208()),
        "jis0212" => index_text(indexes::jis0212()),
        "gb18030" => index_text(indexes::gb18030()),
        "ranges" => ranges_text(),
        _ => index_text(indexes::single_byte(encoding)),
    }
}

/// Returns the words of the programs for an encoding: its codec, and each index with its file.
fn words(encoding: &'static Encoding) -> Result<Vec<String>, String> {
    let known: [(&'static Encoding, &str, &[&str]); 8] = [
        (GBK, "gbk", &["gb18030", "ranges"]),
        (GB18030, "gb18030", &["gb18030", "ranges"]),
        (BIG5, "big5", &["big5"]),
        (EUC_JP, "euc-jp", &["jis0208", "jis0212"]),
        (ISO_2022_JP, "iso-2022-jp", &["jis0208"]),
        (SHIFT_JIS, "shift_jis", &["jis0208"]),
        (EUC_KR, "euc-kr", &["euc-kr"]),
        (X_USER_DEFINED, "x-user-defined", &[]),
    ];
    let found = known.into_iter().find(|(each, _, _)| *each == encoding);
    let (_, codec, named) = found.unwrap_or((encoding, "single-byte", &["single-byte"]));
    let mut words = vec![codec.to_string()];
    for index in named {
        words.extend([index.to_string(), file(&format!("index-{index}.txt"), text_of(index, encoding).as_bytes())?]);
    }
    Ok(words)
}

/// Returns the text for which encoding_rs writes what the program is to write for this one.
///
/// The programs read no katakana index. So ISO-2022-JP has no half-width katakana, and each is written as a reference;
/// encoding_rs writes another character.
fn as_encoded(encoding: &'static Encoding, text: &str) -> String {
    let is_missing = |c: char| encoding == ISO_2022_JP && matches!(c, '\u{FF61}'..='\u{FF9F}');
    let given = |c: char| if is_missing(c) { format!("&#{};", u32::from(c)) } else { c.to_string() };
    text.chars().map(given).collect()
}

/// Compares the outputs for the text, for its bytes, and for other bytes. Returns the number of bytes compared.
fn compared(encoding: &'static Encoding, text: &str, others: &[u8]) -> Result<usize, String> {
    let words = words(encoding)?;
    let words: Vec<&str> = words.iter().map(String::as_str).collect();
    let bytes = encoding.encode(&as_encoded(encoding, text)).0.into_owned();
    let mut total = bytes.len();
    compare(&run(ENCODER, &words, input(&format!("{FOLDER}/scalars"))?, Stdio::piped())?.stdout, &bytes)?;
    for source in [bytes.as_slice(), others] {
        let wanted = encoding.decode_without_bom_handling(source).0;
        let words = [&["--text"], words.as_slice()].concat();
        let path = file("bytes", source)?;
        compare(&run(PROGRAM, &words, input(&path)?, Stdio::piped())?.stdout, wanted.as_bytes())?;
        total += wanted.len();
    }
    Ok(total)
}

/// Compares both programs in all encodings that have an encoder, and prints how much was compared.
pub fn report() -> Result<(), String> {
    find_programs()?;
    fs::create_dir_all(FOLDER).map_err(|error| format!("{FOLDER}: {error}"))?;
    let text: String = ('\0'..=char::MAX).collect();
    file("scalars", text.as_bytes())?;
    let pairs: Vec<u8> = (0..=u16::MAX).flat_map(|pair| [pair.to_be_bytes().as_slice(), b"\n"].concat()).collect();
    let (mut count, mut total) = (0, 0);
    for name in ENCODINGS {
        let encoding = Encoding::for_label(name.as_bytes()).ok_or("no such encoding")?;
        if encoding.output_encoding() == encoding {
            total += compared(encoding, &text, &pairs).map_err(|error| format!("{name}: {error}"))?;
            count += 1;
        }
    }
    let scalars = text.chars().count();
    println!("{count} encodings, {scalars} scalars and 65536 pairs of bytes: the same as encoding_rs, {total} bytes");
    println!("In ISO-2022-JP 63 half-width katakana are references: the programs read no katakana index.");
    Ok(())
}
