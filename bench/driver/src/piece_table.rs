//! The table of calls of all lengths: our speed divided by encoding_rs's for text, HTML and ASCII in pieces and by lines.

use crate::pattern::{Cut, Part, Pattern, Repeated};
use crate::ways::{Converter, Effort, Subject, Way};
use crate::{Language, Wanted, CORPORA};
use std::time::Duration;

/// The columns.
const CUTS: [Cut; 12] = [
    Cut::Pieces(1),
    Cut::Pieces(3),
    Cut::Pieces(8),
    Cut::Pieces(17),
    Cut::Pieces(24),
    Cut::Pieces(64),
    Cut::Pieces(79),
    Cut::Pieces(100),
    Cut::Pieces(250),
    Cut::Pieces(1000),
    Cut::Lines,
    Cut::Whole,
];

/// The number of characters of a source, and of one that is cut into lines.
const LENGTH: usize = 20_000;
const LENGTH_OF_LINES: usize = 100_000;

/// About how long a call is, and how long a cell is timed.
const SPAN: Duration = Duration::from_micros(300);
const MOST: Duration = Duration::from_millis(200);

/// Returns the names of a line's cells.
pub fn heading() -> String {
    let columns: Vec<String> = CUTS.iter().map(|cut| format!("in {cut}")).collect();
    format!("| corpus | encoding | text | {} |\n|{}", columns.join(" | "), "---|".repeat(columns.len() + 3))
}

/// Prints the line of a converter and an encoding form. ASCII text has no lines.
fn line(subject: &Subject, corpus: &str, repeated: &Repeated, converter: Converter, way: Way, times: usize) -> Result<(), String> {
    let to = if converter == Converter::Decoder { "to" } else { "from" };
    print!("| {corpus} | {} | {to} {} |", subject.encoding.name(), way.name());
    for cut in CUTS {
        if cut == Cut::Lines && *repeated == Repeated::Ascii {
            print!(" |");
            continue;
        }
        let count = if cut == Cut::Lines { LENGTH_OF_LINES } else { LENGTH };
        let pattern = Pattern { parts: vec![Part { repeated: repeated.clone(), count }], cut };
        let effort = Effort { turns: times, span: SPAN, most: MOST, with_fast: false };
        print!(" {:.2} |", subject.ratios(converter, way, &pattern, effort)?.default);
    }
    println!();
    Ok(())
}

/// Prints the lines of one text in an encoding, by raw calls.
fn text_lines(subject: &Subject, corpus: &str, repeated: &Repeated, times: usize) -> Result<(), String> {
    for converter in [Converter::Decoder, Converter::Encoder] {
        for way in [Way::ALL[0], Way::ALL[2]] {
            if subject.has(converter) {
                line(subject, corpus, repeated, converter, way, times)?;
            }
        }
    }
    Ok(())
}

/// Prints the lines of a language in an encoding, and those of ASCII if it is the first with that encoding.
fn lines_of(language: &'static Language, label: &'static str, wanted: &Wanted, times: usize) -> Result<(), String> {
    let (_, name, _, _) = language;
    let subject = Subject::over(label, language)?;
    for (kind, repeated) in [("text", Repeated::Text), ("html", Repeated::Html)] {
        let corpus = format!("{name}-{kind}");
        if wanted.has_line(&[&corpus, label, name, kind]) {
            text_lines(&subject, &corpus, &repeated, times)?;
        }
    }
    let first = CORPORA.iter().find(|(_, _, _, encodings)| encodings.contains(&label));
    if first.is_some_and(|(_, first, _, _)| first == name) && wanted.has_line(&["ascii", label]) {
        text_lines(&subject, "ascii", &Repeated::Ascii, times)?;
    }
    Ok(())
}

/// Prints the wanted lines.
pub fn lines(wanted: &Wanted, times: usize) -> Result<(), String> {
    for language in CORPORA {
        let (_, name, _, encodings) = language;
        let names = [format!("{name}-text"), format!("{name}-html")];
        for label in *encodings {
            if wanted.has_line(&[label, name, "text", "html", "ascii", &names[0], &names[1]]) {
                lines_of(language, label, wanted, times)?;
            }
        }
    }
    Ok(())
}
