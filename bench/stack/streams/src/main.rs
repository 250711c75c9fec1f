//! Runs a loop of legacy_streams on a thread with a stack of so many KB: `streams LOOP KILOBYTES`.

use legacy_codecs::{Gb18030Decoder, Gb18030Encoder, Indexes, Packed, Run, Tables};
use legacy_streams::encode::encode_text;
use legacy_streams::recode::recode;
use legacy_streams::text::recode_text;

/// Makes packed tables and runs a loop over them, by its name.
fn run(name: &str) {
    let indexes =
        Indexes { big5: &[], euc_kr: &[], jis0208: &[], jis0212: &[], gb18030: &[], katakana: &[], ranges: &[], gb18030_pua: &[] };
    let (runs, order): (&[Run], &[u16]) = (&[], &[]);
    let packed = Packed {
        big5: runs,
        euc_kr: runs,
        jis0208: runs,
        jis0212: runs,
        gb18030: runs,
        big5_order: order,
        euc_kr_order: order,
        shift_jis_order: order,
        euc_jp_order: order,
        gb18030_order: order,
    };
    let Ok(tables) = Tables::packed_of(&indexes, &packed) else { panic!("the indexes are refused") };
    let mut decoder = Gb18030Decoder::new(&tables);
    let (mut bytes, mut text): (&[u8], &[u8]) = (b"abc\x81\x30\x81\x30\xA1\xB0\xFF\xFFabc", "a\u{e9}\u{ac00}".as_bytes());
    let mut output = std::io::sink();
    let is_done = match name {
        "recode" => recode(&mut decoder, &mut bytes, &mut output).is_ok(),
        "recode_text" => recode_text(&mut decoder, &mut bytes, &mut output).is_ok(),
        _ => encode_text(&mut Gb18030Encoder::new(&tables, true), &mut text, &mut output).is_ok(),
    };
    assert!(is_done);
}

fn main() {
    let words: Vec<String> = std::env::args().skip(1).collect();
    let [name, size] = words.as_slice() else { panic!("usage: streams LOOP KILOBYTES") };
    let size: usize = size.parse().expect("a number of KB");
    let name = name.clone();
    let body = move || if name != "nothing" { run(&name) };
    std::thread::Builder::new().stack_size(size * 1024).spawn(body).expect("a thread").join().expect("the loop ended");
}
