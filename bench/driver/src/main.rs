//! Times the decoders and the encoders beside other libraries, and times the program `legacy_recode`.
//!
//! It also compares all outputs. Its arguments are one of these:
//!
//! - Words and a number. A line is made if it has one of the words: a corpus, a language, a kind of text or an encoding,
//!   as `ja-text`, `ja`, `text` or `Big5`.
//!   The name of a table (`decode`, `encode`, `ahead`, `packed`, `flat`, `replace`, `checks`, `pieces`, `patterns`) makes that
//!   table, and `recode` the program's. Without words all lines of all tables are made. The number is how often each call of a codec is timed
//!   at least.
//! - `agreement`: compares all codecs and times nothing.
//! - `files`: compares what both programs write for files, and times nothing.
//! - `worst`, an encoding, a number of seconds, and a seed: searches for patterns that are slow (`climb.rs`).
//! - `compare`, two builds of the library as shared ones, and words and a number as above: times them beside each
//!   other.
//! - `sources`: prints the packed indexes as source text.
//! - `medians` and files with the tables of several builds: makes one table of them.

mod agreement;
mod changes;
mod checks;
mod climb;
mod compare;
mod corpora;
mod decoding;
mod encoding;
mod files;
mod forms;
mod indexes;
mod loaded;
mod measure;
mod medians;
mod numbers;
mod ours;
mod packing;
mod pattern;
mod patterns;
mod peers;
mod piece_table;
mod pieces;
mod pointers;
mod recode;
mod replacing;
mod rest;
mod rounds;
mod sources;
mod theirs;
mod ways;

use compare::{Builds, Ratios};
use decoding::Codec;
use encoding_rs::{Encoding, BIG5};
use ours::{Kept, Ours};
use std::collections::HashMap;

/// A language's folder, its corpus's name, the least share of letters past ASCII in a line, and its encodings.
type Language = (&'static str, &'static str, f64, &'static [&'static str]);

/// The languages of the corpora.
const CORPORA: &[Language] = &[
    ("ko-KR", "ko", 0.5, &["EUC-KR", "gb18030"]),
    ("ja-JP", "ja", 0.5, &["Shift_JIS", "EUC-JP", "ISO-2022-JP", "UTF-16LE"]),
    ("zh-TW", "tw", 0.5, &["Big5"]),
    ("zh-CN", "cn", 0.5, &["GBK", "gb18030", "UTF-16LE"]),
    ("fr-FR", "fr", 0.01, &["windows-1252", "x-user-defined", "UTF-16LE"]),
    ("ru-RU", "ru", 0.5, &["windows-1251"]),
];

/// The encodings whose indexes can be packed, and whose encoders can cache their pairs.
const PACKED: &[&str] = &["EUC-KR", "gb18030", "GBK", "Shift_JIS", "EUC-JP", "Big5", "ISO-2022-JP"];

/// The tables of the codecs.
#[derive(Clone, Copy, PartialEq, Eq)]
enum Table {
    Decode,
    Encode,
    Ahead,
    Packed,
    Flat,
    Replace,
    Checks,
    Pieces,
    Patterns,
}

/// The names of the tables, in the order in which they are made.
const TABLES: [(&str, Table); 9] = [
    ("decode", Table::Decode),
    ("encode", Table::Encode),
    ("ahead", Table::Ahead),
    ("packed", Table::Packed),
    ("flat", Table::Flat),
    ("replace", Table::Replace),
    ("checks", Table::Checks),
    ("pieces", Table::Pieces),
    ("patterns", Table::Patterns),
];

/// The tables and lines that are made. If no word names any, all are made.
struct Wanted {
    tables: Vec<Table>,
    words: Vec<String>,
}

impl Wanted {
    fn new(words: Vec<String>) -> Wanted {
        let table = |word: &String| TABLES.iter().find(|(name, _)| name == word).map(|(_, table)| *table);
        let tables = words.iter().filter_map(table).collect();
        Wanted { tables, words: words.into_iter().filter(|word| table(word).is_none()).collect() }
    }

    fn has_table(&self, table: Table) -> bool {
        self.tables.is_empty() || self.tables.contains(&table)
    }

    fn has_line(&self, names: &[&str]) -> bool {
        self.words.is_empty() || self.words.iter().any(|word| names.contains(&word.as_str()))
    }
}

/// The codecs that are made already, kept because finding encoding_rs's indexes takes time.
#[derive(Default)]
struct Codecs {
    made: HashMap<&'static str, Codec>,
}

impl Codecs {
    fn codec(&mut self, label: &'static str) -> Result<&Codec, String> {
        if !self.made.contains_key(label) {
            let encoding = Encoding::for_label(label.as_bytes()).ok_or("no such encoding")?;
            let packed = PACKED.contains(&label).then(|| Ours::new(encoding, Kept::Packed));
            let ahead = PACKED.contains(&label).then(|| Ours::new(encoding, Kept::Ahead));
            self.made.insert(label, Codec { encoding, flat: Ours::new(encoding, Kept::Flat), packed, ahead });
        }
        self.made.get(label).ok_or_else(|| "no codec".to_string())
    }
}

/// Prints the lines of one corpus in one encoding in a table.
fn lines(table: Table, corpus: &str, codec: &Codec, long: &[u8], short: &[u8], times: usize) -> Result<(), String> {
    let is_text = corpus.ends_with("text");
    match table {
        Table::Decode => decoding::lines(corpus, codec, long, short, times),
        Table::Encode => encoding::lines(corpus, codec, codec.packed.as_ref().unwrap_or(&codec.flat), long, short, times),
        Table::Ahead => codec.ahead.as_ref().map_or(Ok(()), |ahead| encoding::lines(corpus, codec, ahead, long, short, times)),
        Table::Packed if is_text => decoding::packed_lines(corpus, codec, short, times),
        Table::Flat if is_text => encoding::flat_lines(corpus, codec, short, times),
        Table::Replace if is_text => {
            replacing::lines(corpus, codec, long, short, times)?;
            if codec.packed.is_none() || codec.encoding.name() == "gb18030" {
                return Ok(());
            }
            replacing::faulty_lines(corpus, codec, long, short, times)
        }
        _ => Ok(()),
    }
}

/// Returns the heading of a table.
fn heading(table: Table) -> String {
    match table {
        Table::Decode => decoding::heading(),
        Table::Encode | Table::Ahead => encoding::heading(),
        Table::Packed => decoding::packed_heading(),
        Table::Flat => encoding::flat_heading(),
        Table::Replace => replacing::heading(),
        Table::Pieces => piece_table::heading(),
        Table::Patterns => patterns::heading(),
        Table::Checks => String::new(),
    }
}

/// Calls a function for each wanted line with its corpus, its codec, and the long and the short source.
fn each_line(wanted: &Wanted, codecs: &mut Codecs, mut make: impl FnMut(&str, &Codec, &[u8], &[u8]) -> Result<(), String>) -> Result<(), String> {
    for (language, name, share, encodings) in CORPORA {
        let pages = corpora::html(language).map_err(|error| format!("{language}: {error}"))?;
        let help = corpora::help(name).map(|content| ("help", content));
        for (kind, content) in [("text", corpora::text(&pages, *share)), ("html", pages)].into_iter().chain(help) {
            let corpus = format!("{name}-{kind}");
            for label in encodings.iter().filter(|label| wanted.has_line(&[corpus.as_str(), label, name, kind])) {
                let codec = codecs.codec(label)?;
                let long = corpora::encode_long(codec.encoding, &content);
                let short = corpora::encode_short(codec.encoding, &content);
                make(&corpus, codec, &long, &short)?;
            }
        }
    }
    Ok(())
}

/// Prints a table with the wanted lines.
fn table(table: Table, wanted: &Wanted, codecs: &mut Codecs, times: usize) -> Result<(), String> {
    if table == Table::Checks {
        return checks::table();
    }
    println!("{}", heading(table));
    match table {
        Table::Pieces => return piece_table::lines(wanted, times),
        Table::Patterns => return patterns::lines(wanted, times),
        _ => {}
    }
    each_line(wanted, codecs, |corpus, codec, long, short| lines(table, corpus, codec, long, short, times))?;
    if table == Table::Replace && wanted.has_line(&["Big5", "ff"]) {
        replacing::ff_lines(&Ours::new(BIG5, Kept::Flat), times)?;
    }
    Ok(())
}

/// Prints the tables of the codecs.
fn tables(words: Vec<String>, times: usize) -> Result<(), String> {
    if !peers::has_icu() {
        eprintln!("missing: ICU (libicuuc.so); its columns stay empty");
    }
    let (wanted, mut codecs) = (Wanted::new(words), Codecs::default());
    for (name, each) in TABLES.iter().filter(|(_, each)| wanted.has_table(*each)) {
        println!("## {name}");
        table(*each, &wanted, &mut codecs, times)?;
        println!();
    }
    Ok(())
}

/// The ways to keep tables, in the order of the lines of `compare`, and their names there.
const KEPT: [(Kept, &str); 3] = [(Kept::Flat, "flat"), (Kept::Packed, "packed"), (Kept::Ahead, "pairs looked up ahead")];

/// Prints the table of two builds beside each other.
///
/// It has decoding over flat tables and, without the word `flat`, over packed ones; with `replace`, decoding of malformed text.
/// It has encoding over packed ones if the codec can have them, and with cached pairs.
fn compared(builds: &Builds, words: Vec<String>, times: usize) -> Result<(), String> {
    let (wanted, mut codecs) = (Wanted::new(words), Codecs::default());
    let mut ratios: [Vec<Ratios>; 3] = Default::default();
    println!("{}", compare::heading());
    each_line(&wanted, &mut codecs, |corpus, codec, long, short| {
        for ((kept, tables), so_far) in KEPT.into_iter().zip(&mut ratios) {
            if kept == Kept::Packed && wanted.tables.contains(&Table::Flat) {
                continue;
            }
            let (ours, encodes) = match kept {
                Kept::Flat => (Some(&codec.flat), codec.packed.is_none() && wanted.has_table(Table::Encode)),
                Kept::Packed => (codec.packed.as_ref(), wanted.has_table(Table::Encode)),
                Kept::Ahead => (codec.ahead.as_ref(), wanted.has_table(Table::Ahead)),
            };
            let Some(ours) = ours else { continue };
            let name = format!("{corpus} | {} | {tables}", codec.encoding.name());
            if kept != Kept::Ahead && wanted.has_table(Table::Decode) {
                so_far.extend(compare::decoder_lines(builds, &name, ours, long, short, times)?);
            }
            if kept == Kept::Flat && wanted.tables.contains(&Table::Replace) {
                compare::malformed_lines(builds, &name, codec, long, short, times)?;
            }
            if encodes {
                so_far.extend(compare::encoder_lines(builds, &name, codec, ours, long, short, times)?);
            }
        }
        Ok(())
    })?;
    println!();
    for ((_, tables), lines) in KEPT.into_iter().zip(&ratios) {
        compare::print_medians(tables, lines);
    }
    Ok(())
}

fn main() -> Result<(), String> {
    let arguments: Vec<String> = std::env::args().skip(1).collect();
    match arguments.first().map(String::as_str) {
        Some("medians") => return medians::tables(arguments.into_iter().skip(1)),
        Some("agreement") => return agreement::report(),
        Some("files") => return files::report(),
        Some("worst") => return climb::report(&arguments[1..]),
        Some("sources") => {
            sources::print();
            return Ok(());
        }
        _ => {}
    }
    let (numbers, mut words): (Vec<String>, Vec<String>) = arguments.into_iter().partition(|word| word.parse::<usize>().is_ok());
    let times = numbers.first().map_or(Ok(20), |number| number.parse()).map_err(|_| "not a number".to_string())?;
    let program = words.is_empty() || words.iter().any(|word| word == "recode");
    let all = words.iter().all(|word| word == "soon");
    if words.iter().any(|word| word == "soon") {
        rest::skip();
    }
    words.retain(|word| word != "soon" && word != "recode");
    rest::allow(times);
    if words.first().is_some_and(|word| word == "compare") {
        let [_, older, newer, words @ ..] = words.as_slice() else { return Err("compare: two libraries".to_string()) };
        return compared(&Builds::open(older, newer)?, words.to_vec(), times);
    }
    if all || !words.is_empty() {
        tables(words, times)?;
    }
    if program {
        recode::table()?;
    }
    Ok(())
}
