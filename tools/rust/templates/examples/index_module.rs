//! Prints a module of constant tables from a folder of the Standard's index files.
//!
//! Usage: `cargo run --example index_module FOLDER [packed] > index_data.rs`. The files have the Standard's names
//! (`index-big5.txt` ..). A file that is not there gives an empty index. `packed` adds runs and orders of the five large
//! indexes, by which encoders search. The module names `legacy_codecs`. Its tables are made by
//! `Tables::new(&index_data::INDEXES)`, or by `Tables::packed_of(&index_data::INDEXES, &index_data::PACKED)`, which checks
//! the parts against the indexes.

use legacy_codecs::{ENCODINGS, Encoding, FileIndex, Indexes, KATAKANA_FILE, OwnedIndexes, Packed, pack};
use std::error::Error;
use std::fmt::Debug;
use std::{env, fs};

/// Prints a constant list, and returns the number of its items.
fn list<T: Debug>(name: &str, item: &str, items: &[T]) {
    println!("pub static {name}: [{item}; {}] = [", items.len());
    for row in items.chunks(12) {
        let row: Vec<String> = row.iter().map(|item| format!("{item:?}")).collect();
        println!("    {},", row.join(", "));
    }
    println!("];\n");
}

/// Reads the index files of an encoding, and prints its table if it is a single-byte encoding.
fn read(owned: &mut OwnedIndexes, folder: &str, encoding: Encoding) -> Result<(), Box<dyn Error>> {
    for index in encoding.indexes() {
        let name = encoding.file_name(*index).ok_or("no file")?;
        let Ok(text) = fs::read(format!("{folder}/{name}")) else { continue };
        if *index != FileIndex::SingleByte {
            owned.read(*index, &text)?;
            continue;
        }
        let mut single = OwnedIndexes::new();
        single.read(*index, &text)?;
        single.single_byte_table()?;
        list(&encoding.name().to_uppercase().replace('-', "_"), "u16", &single.single_byte);
    }
    Ok(())
}

/// Prints the five large indexes as flat lists.
fn print_flat(indexes: &Indexes) {
    list("BIG5", "u32", indexes.big5);
    list("EUC_KR", "u16", indexes.euc_kr);
    list("JIS0208", "u16", indexes.jis0208);
    list("JIS0212", "u16", indexes.jis0212);
    list("GB18030", "u16", indexes.gb18030);
}

/// Prints the parts of the packed indexes.
fn print_packed(packed: &Packed) {
    println!("use legacy_codecs::{{Packed, Run}};\n");
    let runs = [packed.big5, packed.euc_kr, packed.jis0208, packed.jis0212, packed.gb18030];
    for (name, part) in ["BIG5", "EUC_KR", "JIS0208", "JIS0212", "GB18030"].iter().zip(runs) {
        list(&format!("{name}_RUNS"), "Run", part);
    }
    list("BIG5_ORDER", "u16", packed.big5_order);
    list("EUC_KR_ORDER", "u16", packed.euc_kr_order);
    list("SHIFT_JIS_ORDER", "u16", packed.shift_jis_order);
    list("EUC_JP_ORDER", "u16", packed.euc_jp_order);
    list("GB18030_ORDER", "u16", packed.gb18030_order);
    println!(
        "/// The packed indexes.
pub static PACKED: Packed<'static> = Packed {{
    big5: &BIG5_RUNS,
    euc_kr: &EUC_KR_RUNS,
    jis0208: &JIS0208_RUNS,
    jis0212: &JIS0212_RUNS,
    gb18030: &GB18030_RUNS,
    big5_order: &BIG5_ORDER,
    euc_kr_order: &EUC_KR_ORDER,
    shift_jis_order: &SHIFT_JIS_ORDER,
    euc_jp_order: &EUC_JP_ORDER,
    gb18030_order: &GB18030_ORDER,
}};
"
    );
}

/// Prints the other lists, and the indexes.
fn print_indexes(indexes: &Indexes) {
    list("KATAKANA", "u16", indexes.katakana);
    list("RANGES", "(u16, u16)", indexes.ranges);
    println!("/// The indexes, which `Tables` checks.");
    println!("pub static INDEXES: Indexes<'static> = Indexes {{");
    for (field, name) in [
        ("big5", "BIG5"),
        ("euc_kr", "EUC_KR"),
        ("jis0208", "JIS0208"),
        ("jis0212", "JIS0212"),
        ("gb18030", "GB18030"),
        ("katakana", "KATAKANA"),
        ("ranges", "RANGES"),
        ("gb18030_pua", "GB18030_2022_PUA"),
    ] {
        println!("    {field}: &{name},");
    }
    println!("}};");
}

fn main() -> Result<(), Box<dyn Error>> {
    let words: Vec<String> = env::args().skip(1).collect();
    let folder = words.first().ok_or("usage: index_module FOLDER [packed]")?;
    let is_packed = words.iter().any(|word| word == "packed");
    println!("//! The Standard's indexes, from its index files.\n");
    println!("use legacy_codecs::{{GB18030_2022_PUA, Indexes}};\n");
    let mut owned = OwnedIndexes::new();
    for encoding in ENCODINGS {
        read(&mut owned, folder, encoding)?;
    }
    if let Ok(text) = fs::read(format!("{folder}/{KATAKANA_FILE}")) {
        owned.read_katakana(&text)?;
    }
    owned.tables()?;
    let indexes = owned.indexes();
    print_flat(&indexes);
    if is_packed {
        print_packed(&pack(&indexes)?.packed());
    }
    print_indexes(&indexes);
    Ok(())
}
