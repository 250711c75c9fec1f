//! The table of the patterns that were slow once: our speed divided by encoding_rs's for each.
//!
//! They are in the file `patterns`, one a line: `decoder`, `encoder` or `searcher`, the encoding, and the pattern
//! (`pattern.rs`).

use crate::measure::ratio_cell;
use crate::pattern::Pattern;
use crate::ways::{Converter, Effort, Subject, Way};
use crate::Wanted;
use std::collections::HashMap;
use std::time::Duration;

/// The lines of patterns. What follows a `#` is a comment.
const PATTERNS: &str = include_str!("../patterns");

/// About how long a call is, and how long a pattern is timed in a way.
const SPAN: Duration = Duration::from_micros(300);
const MOST: Duration = Duration::from_millis(400);

/// Returns the converter, the encoding's label and the pattern of a line.
fn parsed(line: &'static str) -> Result<(Converter, &'static str, Pattern), String> {
    let missing = || format!("{line}: not a pattern");
    let (word, rest) = line.split_once(' ').ok_or_else(missing)?;
    let (label, pattern) = rest.trim().split_once(' ').ok_or_else(missing)?;
    let converter = Converter::ALL.into_iter().find(|converter| converter.word() == word).ok_or_else(missing)?;
    Ok((converter, label, pattern.parse()?))
}

/// Returns the names of a pattern's cells.
pub fn heading() -> String {
    let ways: Vec<String> = Way::ALL.iter().map(|way| format!("ratio, {}", way.name())).collect();
    format!("| pattern | ratio, least | {} | ratio, least, to fast tables |\n|{}", ways.join(" | "), "---|".repeat(7))
}

/// A line of the table, and its least ratio.
struct Line {
    least: f64,
    text: String,
}

/// Times a pattern in all ways.
fn line(subject: &Subject, converter: Converter, pattern: &Pattern, effort: Effort) -> Result<Line, String> {
    let mut all = Vec::new();
    for way in Way::ALL {
        all.push(subject.ratios(converter, way, pattern, effort)?);
    }
    let least = all.iter().map(|ratios| ratios.default).fold(f64::INFINITY, f64::min);
    let fast = all.iter().map(|ratios| ratios.fast).fold(f64::INFINITY, f64::min);
    let ratios = [least].into_iter().chain(all.iter().map(|ratios| ratios.default)).chain([fast]);
    let cells: String = ratios.map(|ratio| ratio_cell(Some(ratio), Some(1.0))).collect();
    Ok(Line { least, text: format!("| {} {} {pattern} |{cells}", converter.word(), subject.encoding.name()) })
}

/// Prints the lines of the wanted patterns, worst first. The words for encodings and those for converters keep lines.
pub fn lines(wanted: &Wanted, times: usize) -> Result<(), String> {
    let is_converter = |word: &&str| Converter::ALL.iter().any(|converter| converter.word() == *word);
    let (converters, labels): (Vec<&str>, Vec<&str>) = wanted.words.iter().map(String::as_str).partition(is_converter);
    let has = |words: &[&str], name: &str| words.is_empty() || words.contains(&name);
    let (mut subjects, mut lines) = (HashMap::new(), Vec::new());
    let written = PATTERNS.lines().map(|line| line.split('#').next().unwrap_or_default().trim()).filter(|line| !line.is_empty());
    for each in written {
        let (converter, label, pattern) = parsed(each)?;
        if !has(&labels, label) || !has(&converters, converter.word()) {
            continue;
        }
        if !subjects.contains_key(label) {
            subjects.insert(label, Subject::new(label)?);
        }
        lines.push(line(&subjects[label], converter, &pattern, Effort { turns: times, span: SPAN, most: MOST, with_fast: true })?);
    }
    lines.sort_by(|one, other| one.least.total_cmp(&other.least));
    for line in &lines {
        println!("{}", line.text);
    }
    Ok(())
}
