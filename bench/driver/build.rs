//! Links the static library of the codecs, and takes the numbers of the codecs from the C header.
//!
//! The library is the one in the folder BENCH_LIBRARY. If that is not set, it is the one that `rt lib` leaves in its
//! crate's folder. With the feature `plain` the library is crates of plain Rust, and nothing is linked.

use std::path::Path;
use std::{env, fs};

/// Returns the constants of the lines `LEGACY_NAME = NUMBER` of a C header, as Rust.
fn constants(header: &str) -> String {
    let mut constants = String::new();
    for line in header.lines() {
        let Some((name, after)) = line.trim().split_once(" = ") else { continue };
        let number: String = after.chars().take_while(char::is_ascii_digit).collect();
        if name.starts_with("LEGACY_") && !number.is_empty() {
            constants += &format!("pub const {name}: u32 = {number};\n");
        }
    }
    constants
}

fn main() {
    let here = env::var("CARGO_MANIFEST_DIR").expect("cargo gives the folder");
    if env::var_os("CARGO_FEATURE_PLAIN").is_none() {
        link(&here);
    }

    let header = format!("{here}/../legacy_codecs.h");
    println!("cargo:rerun-if-changed={header}");
    let text = fs::read_to_string(&header).expect("the header is there");
    let out = env::var("OUT_DIR").expect("cargo gives the folder");
    fs::write(Path::new(&out).join("numbers.rs"), constants(&text)).expect("the numbers are written");
}

/// Links the static library.
fn link(here: &str) {
    let library = env::var("BENCH_LIBRARY").unwrap_or(format!("{here}/../../crates/legacy_exports/out"));
    println!("cargo:rustc-link-search=native={library}");
    println!("cargo:rustc-link-lib=static=legacy_exports");
    println!("cargo:rerun-if-env-changed=BENCH_LIBRARY");
    println!("cargo:rerun-if-changed={library}/liblegacy_exports.a");
}
