//! Replays a corpus over the library that is linked, and makes the file of a corpus and takes it apart.
//!
//! Arguments: `corpus FILE` replays a file of inputs, `inputs PATH..` replays inputs, each a file of its own,
//! `boundaries` tries forms near multiples of 64, `seeds FOLDER` writes inputs to begin with, `unpack FILE FOLDER` and
//! `pack FILE FOLDER` turn a file of inputs into a folder of them and back.

use fuzz::{boundaries, pack, seeds, Bench};
use std::fs;
use std::path::PathBuf;

/// The files of a folder, the shortest first.
fn files(folder: &str) -> Result<Vec<Vec<u8>>, String> {
    let failed = |error| format!("{folder}: {error}");
    let paths: Result<Vec<PathBuf>, _> = fs::read_dir(folder).map_err(failed)?.map(|entry| entry.map(|entry| entry.path())).collect();
    let mut inputs: Vec<Vec<u8>> = paths.map_err(failed)?.iter().map(fs::read).collect::<Result<_, _>>().map_err(failed)?;
    inputs.sort_by_key(|input| (input.len(), input.clone()));
    Ok(inputs)
}

fn unpack(inputs: &[Vec<u8>], folder: &str) -> Result<(), String> {
    fs::create_dir_all(folder).map_err(|error| format!("{folder}: {error}"))?;
    for (number, input) in inputs.iter().enumerate() {
        fs::write(format!("{folder}/{number:05}"), input).map_err(|error| format!("{folder}: {error}"))?;
    }
    Ok(())
}

/// Tries inputs, and says how many.
fn replay(inputs: &[Vec<u8>]) -> Result<(), String> {
    let mut bench = Bench::new();
    for input in inputs {
        bench.tries(input)?;
    }
    println!("{} inputs: {} by functions of the header, {} by direct calls, and no difference", inputs.len(), bench.exported, bench.direct);
    Ok(())
}

fn try_boundaries() -> Result<(), String> {
    let mut bench = Bench::new();
    for plan in boundaries::all() {
        bench.follows(&plan).map_err(|error| format!("{error}\n{plan:02X?}"))?;
    }
    println!("{} by functions of the header, {} by direct calls, and no difference", bench.exported, bench.direct);
    Ok(())
}

fn read(path: &str) -> Result<Vec<u8>, String> {
    fs::read(path).map_err(|error| format!("{path}: {error}"))
}

fn main() -> Result<(), String> {
    let words: Vec<String> = std::env::args().skip(1).collect();
    let words: Vec<&str> = words.iter().map(String::as_str).collect();
    match words.as_slice() {
        ["corpus", file] => replay(&pack::inputs(&read(file)?)),
        ["inputs", paths @ ..] => replay(&paths.iter().map(|path| read(path)).collect::<Result<Vec<_>, _>>()?),
        ["boundaries"] => try_boundaries(),
        ["seeds", folder] => unpack(&seeds::all(), folder),
        ["unpack", file, folder] => unpack(&pack::inputs(&read(file)?), folder),
        ["pack", file, folder] => fs::write(file, pack::file(&files(folder)?)).map_err(|error| format!("{file}: {error}")),
        _ => Err("usage: replay corpus FILE | inputs PATH.. | boundaries | seeds FOLDER | unpack FILE FOLDER | pack FILE FOLDER".to_string()),
    }
}
