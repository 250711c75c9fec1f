//! Times the programs `legacy_recode` and `legacy_encode`: the processor time of whole runs over a long input, and that of
//! `iconv` and of `uconv` where they do the same.

use crate::{corpora, indexes};
use encoding_rs::{Encoding, SHIFT_JIS};
use std::fmt::Write as _;
use std::fs::File;
use std::io::{self, Read as _, Write as _};
use std::path::Path;
use std::process::{Command, Output, Stdio};
use std::time::{Duration, Instant};

/// The program that decodes.
pub const PROGRAM: &str = "legacy_recode";

/// The program that encodes.
pub const ENCODER: &str = "legacy_encode";

/// The text of the corpus in UTF-8, on which the output is compared.
const TEXT_SHORT: &str = concat!(env!("CARGO_MANIFEST_DIR"), "/../target/encode-short.txt");

/// The text repeated, on which the program is timed.
const TEXT_LONG: &str = concat!(env!("CARGO_MANIFEST_DIR"), "/../target/encode-long.txt");

/// The index jis0208 as a file.
const INDEX: &str = concat!(env!("CARGO_MANIFEST_DIR"), "/../target/index-jis0208.txt");

/// The corpus once, for which the output is compared.
const SHORT: &str = concat!(env!("CARGO_MANIFEST_DIR"), "/../target/recode-short.txt");

/// The corpus repeated, on which the program is timed.
const LONG: &str = concat!(env!("CARGO_MANIFEST_DIR"), "/../target/recode-long.txt");

/// Bytes FF, each of which is malformed in Big5.
const MALFORMED: &str = concat!(env!("CARGO_MANIFEST_DIR"), "/../target/recode-malformed.txt");

/// The least number of bytes of the long input, and the number of malformed bytes.
const LEAST: usize = 200_000_000;

/// The number of malformed bytes for which the output is compared.
const FEW_MALFORMED: usize = 200_000;

/// The number of times that each run is timed.
const TIMES: usize = 8;

/// The words of each run, in which FILE means the index file. The first word is a label of the encoding too.
const REQUESTS: &[&[&str]] = &[&["shift_jis", "jis0208", "FILE"], &["x-user-defined"]];

/// A run that writes the text of the long input, in Shift_JIS, as UTF-8.
struct TextRun {
    program: &'static str,
    /// The Debian package that has it.
    package: &'static str,
    words: &'static [&'static str],
}

/// The runs that write text, which are timed in turn. The first one is of our program.
const TEXT_RUNS: &[TextRun] = &[
    TextRun { program: PROGRAM, package: "", words: &["--text", "shift_jis", "jis0208", "FILE"] },
    TextRun { program: "iconv", package: "libc-bin", words: &["-f", "SHIFT_JIS", "-t", "UTF-8"] },
    TextRun { program: "uconv", package: "icu-devtools", words: &["-f", "Shift_JIS", "-t", "UTF-8"] },
];

/// The runs that write the bytes of the long text in Shift_JIS, which are timed in turn. The first is the program's. The
/// others' Shift_JIS without Microsoft's rows has no backslash.
const ENCODE_RUNS: &[TextRun] = &[
    TextRun { program: ENCODER, package: "", words: &["shift_jis", "jis0208", "FILE"] },
    TextRun { program: "iconv", package: "libc-bin", words: &["-f", "UTF-8", "-t", "CP932"] },
    TextRun { program: "uconv", package: "icu-devtools", words: &["-f", "UTF-8", "-t", "windows-31j"] },
];

/// The runs that write the long input, in Shift_JIS, as EUC-JP, which are timed in turn. The first is both programs.
const BOTH_WAYS: &[TextRun] = &[
    TextRun { program: "sh", package: "dash", words: &["-c", "\"$0\" --text shift_jis jis0208 \"$2\" | \"$1\" euc-jp jis0208 \"$2\"", PROGRAM, ENCODER, "FILE"] },
    TextRun { program: "iconv", package: "libc-bin", words: &["-f", "CP932", "-t", "EUC-JP-MS"] },
];

/// The number of lines and bytes that are written.
struct Size {
    lines: usize,
    bytes: usize,
}

/// Returns the processor time of all children that have ended, in the program and in the system.
fn children_time() -> Duration {
    #[repr(C)]
    struct Timeval {
        seconds: i64,
        microseconds: i64,
    }
    #[repr(C)]
    struct Usage {
        user: Timeval,
        system: Timeval,
        others: [i64; 14],
    }
    extern "C" {
        fn getrusage(who: i32, usage: *mut Usage) -> i32;
    }
    const RUSAGE_CHILDREN: i32 = -1;
    let none = || Timeval { seconds: 0, microseconds: 0 };
    let mut usage = Usage { user: none(), system: none(), others: [0; 14] };
    let answer = unsafe { getrusage(RUSAGE_CHILDREN, &mut usage) };
    assert_eq!(answer, 0, "the children's time");
    let duration = |time: &Timeval| Duration::new(time.seconds as u64, time.microseconds as u32 * 1000);
    duration(&usage.user) + duration(&usage.system)
}

/// Returns an index in the form in which the Standard publishes it.
pub fn index_text<T: Into<u32>>(index: Vec<T>) -> String {
    let mut text = String::new();
    for (pointer, scalar) in index.into_iter().map(T::into).enumerate().filter(|(_, scalar)| *scalar != 0) {
        writeln!(text, "{pointer}\t0x{scalar:04X}").expect("a string takes all");
    }
    text
}

/// Writes the bytes `repeats` times.
pub fn write_repeated(path: &str, bytes: &[u8], repeats: usize) -> io::Result<()> {
    let mut file = File::create(path)?;
    for _ in 0..repeats {
        file.write_all(bytes)?;
    }
    Ok(())
}

/// Makes the index file and the inputs. Returns the corpus and how often the long input has it.
fn make_files() -> Result<(Vec<u8>, usize), String> {
    let pages = corpora::html("ja-JP").map_err(|error| format!("ja-JP: {error}"))?;
    let corpus = corpora::encode_once(SHIFT_JIS, &corpora::text(&pages, 0.5));
    let repeats = LEAST.div_ceil(corpus.len());
    let malformed = vec![0xFF; FEW_MALFORMED];
    let index = index_text(indexes::jis0208());
    let text = SHIFT_JIS.decode_without_bom_handling(&corpus).0;
    let files: [(&str, &[u8], usize); 6] = [
        (TEXT_SHORT, text.as_bytes(), 1),
        (TEXT_LONG, text.as_bytes(), LEAST.div_ceil(text.len())),
        (INDEX, index.as_bytes(), 1),
        (SHORT, &corpus, 1),
        (LONG, &corpus, repeats),
        (MALFORMED, &malformed, LEAST / FEW_MALFORMED),
    ];
    for (path, bytes, repeats) in files {
        write_repeated(path, bytes, repeats).map_err(|error| format!("{path}: {error}"))?;
    }
    Ok((corpus, repeats))
}

/// Returns a word of a command as it is passed: the path of a program of ours, or of the index file for `FILE`.
///
/// The programs are in the folder BENCH_PROGRAMS, or where `rt run` puts them.
fn passed(word: &str) -> String {
    match (word, std::env::var("BENCH_PROGRAMS")) {
        ("FILE", _) => INDEX.to_string(),
        (PROGRAM | ENCODER, Ok(folder)) => format!("{folder}/{word}"),
        (PROGRAM | ENCODER, Err(_)) => format!("{}/../../crates/{word}/out/{word}", env!("CARGO_MANIFEST_DIR")),
        _ => word.to_string(),
    }
}

/// Checks that both programs are there.
pub fn find_programs() -> Result<(), String> {
    let missing = [PROGRAM, ENCODER].map(passed).into_iter().find(|path| !Path::new(path).is_file());
    missing.map_or(Ok(()), |path| Err(format!("missing: the program {path} (rt run in its crate's folder builds it)")))
}

/// Runs a program to its end with the input. It must end with status 0 and write no error.
pub fn run(program: &str, words: &[&str], input: Stdio, output: Stdio) -> Result<Output, String> {
    let words = words.iter().map(|word| passed(word));
    let child = Command::new(passed(program)).args(words).stdin(input).stdout(output).stderr(Stdio::piped()).spawn();
    let ended = child.and_then(|child| child.wait_with_output()).map_err(|error| format!("{program}: {error}"))?;
    if !ended.status.success() || !ended.stderr.is_empty() {
        return Err(format!("{program}: {}: {}", ended.status, String::from_utf8_lossy(&ended.stderr)));
    }
    Ok(ended)
}

/// Opens the file as the input of a program.
pub fn input(path: &str) -> Result<Stdio, String> {
    File::open(path).map(Stdio::from).map_err(|error| format!("{path}: {error}"))
}

/// Returns the lines of encoding_rs's scalars.
fn wanted_lines(encoding: &'static Encoding, src: &[u8]) -> Result<String, String> {
    let decoded = encoding.decode_without_bom_handling_and_without_replacement(src);
    let mut lines = String::new();
    for c in decoded.ok_or("the corpus has a malformed sequence")?.chars() {
        writeln!(lines, "U+{:04X}", u32::from(c)).expect("a string takes all");
    }
    Ok(lines)
}

/// Checks that an output is the wanted one. The error names the first difference.
pub fn compare(written: &[u8], wanted: &[u8]) -> Result<(), String> {
    if written == wanted {
        return Ok(());
    }
    let same = written.iter().zip(wanted).take_while(|(ours, theirs)| ours == theirs).count();
    let line = wanted[..same].iter().filter(|byte| **byte == b'\n').count() + 1;
    Err(format!("{} bytes, not {}; first difference in line {line}", written.len(), wanted.len()))
}

/// Compares what the program writes for the corpus with the lines of encoding_rs's scalars.
fn compare_lines(words: &[&str], corpus: &[u8]) -> Result<Size, String> {
    let encoding = Encoding::for_label(words[0].as_bytes()).ok_or("no such encoding")?;
    let wanted = wanted_lines(encoding, corpus)?;
    let written = run(PROGRAM, words, input(SHORT)?, Stdio::piped())?.stdout;
    compare(&written, wanted.as_bytes())?;
    Ok(Size { lines: wanted.lines().count(), bytes: wanted.len() })
}

/// Returns the processor time of one run, whose output is thrown away.
fn time(program: &str, words: &[&str], path: &str) -> Result<Duration, String> {
    let start = children_time();
    run(program, words, input(path)?, Stdio::null())?;
    Ok(children_time() - start)
}

/// Returns the least processor time of some runs of the program.
fn best_time(words: &[&str], path: &str) -> Result<Duration, String> {
    let mut least = Duration::MAX;
    for _ in 0..TIMES {
        least = least.min(time(PROGRAM, words, path)?);
    }
    Ok(least)
}

/// Prints one line of the table.
fn line(words: &[&str], corpus: &[u8], repeats: usize) -> Result<(), String> {
    let once = compare_lines(words, corpus)?;
    let seconds = best_time(words, LONG)?.as_secs_f64();
    let millions = |count: usize| (count * repeats) as f64 / 1e6;
    println!(
        "| {} | {:.1} | {:.1} | {seconds:.2} | {:.0} | {:.0} |",
        words.join(" "),
        millions(once.lines),
        millions(once.bytes),
        millions(corpus.len()) / seconds,
        millions(once.bytes) / seconds,
    );
    Ok(())
}

/// Prints the line of the run over malformed bytes, without an index.
///
/// The output for the first of them is compared with lines made here.
fn malformed_line() -> Result<(), String> {
    let words = ["big5"];
    let mut first = File::open(MALFORMED).map_err(|error| format!("{MALFORMED}: {error}"))?;
    let mut few = vec![0; FEW_MALFORMED];
    first.read_exact(&mut few).map_err(|error| format!("{MALFORMED}: {error}"))?;
    let few_path = format!("{MALFORMED}.few");
    write_repeated(&few_path, &few, 1).map_err(|error| format!("{few_path}: {error}"))?;
    let wanted: String = (0..FEW_MALFORMED).map(|at| format!("bad {at} 1\n")).collect();
    let written = run(PROGRAM, &words, input(&few_path)?, Stdio::piped())?.stdout;
    compare(&written, wanted.as_bytes())?;
    let seconds = best_time(&words, MALFORMED)?.as_secs_f64();
    let bytes: usize = (0..LEAST).map(|at| 7 + at.checked_ilog10().unwrap_or(0) as usize + 1).sum();
    let millions = |count: usize| count as f64 / 1e6;
    println!(
        "| big5, bytes FF | {:.1} | {:.1} | {seconds:.2} | {:.0} | {:.0} |",
        millions(LEAST),
        millions(bytes),
        millions(LEAST) / seconds,
        millions(bytes) / seconds,
    );
    Ok(())
}

/// The table of runs over a short input and a long one. What the first of them writes of the short input is compared with
/// what is wanted; the others give some characters otherwise, and are only timed.
fn runs_table(title: &str, runs: &[TextRun], short: &str, long: &str, wanted: &[u8]) -> Result<(), String> {
    let written = run(runs[0].program, runs[0].words, input(short)?, Stdio::piped())?.stdout;
    compare(&written, wanted)?;
    let length = std::fs::metadata(long).map_err(|error| format!("{long}: {error}"))?.len();
    let mut least = vec![(Duration::MAX, Duration::MAX); runs.len()];
    for _ in 0..TIMES {
        for ((used, passed), text) in least.iter_mut().zip(runs) {
            let start = Instant::now();
            *used = (*used).min(time(text.program, text.words, long)?);
            *passed = (*passed).min(start.elapsed());
        }
    }
    println!("\n| {title} | processor time (s) | time (s) | input MB/s of processor time |\n|---|---|---|---|");
    for ((used, passed), text) in least.iter().zip(runs) {
        let command = format!("{} {}", text.program, text.words.join(" "));
        let name = if text.program == "sh" { "legacy_recode --text shift_jis \\| legacy_encode euc-jp" } else { &command };
        let seconds = used.as_secs_f64();
        println!("| {name} | {seconds:.2} | {:.2} | {:.0} |", passed.as_secs_f64(), length as f64 / 1e6 / seconds);
    }
    Ok(())
}

/// The tables of the runs that write text, that encode, and that do both.
fn stream_tables(corpus: &[u8]) -> Result<(), String> {
    let text = SHIFT_JIS.decode_without_bom_handling(corpus).0;
    let euc_jp = encoding_rs::EUC_JP.encode(&text).0;
    runs_table("to UTF-8", TEXT_RUNS, SHORT, LONG, text.as_bytes())?;
    runs_table("from UTF-8", ENCODE_RUNS, TEXT_SHORT, TEXT_LONG, corpus)?;
    runs_table("from Shift_JIS to EUC-JP", BOTH_WAYS, SHORT, LONG, &euc_jp)
}

/// Checks whether a program can be run.
fn is_there(program: &str) -> bool {
    Command::new(program).arg("--version").stdout(Stdio::null()).stderr(Stdio::null()).status().is_ok()
}

/// Prints the tables of the program's runs.
pub fn table() -> Result<(), String> {
    find_programs()?;
    for TextRun { program, package, .. } in &TEXT_RUNS[1..] {
        if !is_there(program) {
            return Err(format!("missing: the program {program} (apt-get install {package})"));
        }
    }
    let (corpus, repeats) = make_files()?;
    println!("| words | lines (millions) | bytes written (MB) | processor time (s) | input MB/s | output MB/s |");
    println!("|---|---|---|---|---|---|");
    for words in REQUESTS {
        line(words, &corpus, repeats).map_err(|error| format!("{}: {error}", words.join(" ")))?;
    }
    malformed_line().map_err(|error| format!("big5: {error}"))?;
    stream_tables(&corpus)
}
