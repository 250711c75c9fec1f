//! Searches for the patterns on which we are slowest beside encoding_rs.
//!
//! Each climb begins with a random pattern and keeps a random change if it makes the ratio of speeds less. At its end the
//! pattern is made simpler. The seed and the number of a climb give its pattern and its changes. Which of them are kept
//! depends on times. All outputs are compared with encoding_rs's.

use crate::changes::{simpler, Changes};
use crate::forms;
use crate::numbers::Numbers;
use crate::pattern::Pattern;
use crate::ways::{Converter, Effort, Ratios, Subject, Way};
use std::collections::HashMap;
use std::time::{Duration, Instant};

/// How a candidate and a finding are timed.
const QUICK: Effort = Effort { turns: 3, span: Duration::from_micros(60), most: Duration::from_millis(4), with_fast: false };
const SURE: Effort = Effort { turns: 15, span: Duration::from_micros(400), most: Duration::from_millis(300), with_fast: true };

/// The factor by which a ratio must be less for a change to be kept, and by which it may be greater for a simpler pattern.
const LESS: f64 = 0.97;
const AS_LOW: f64 = 1.06;

/// The number of changes in turn that are of no use before a climb ends.
const PATIENCE: usize = 40;

/// How often patterns of one kind are climbed to.
const MOST_OF_A_KIND: usize = 2;

/// The number of findings that are printed of each converter.
const PRINTED: usize = 10;

/// A pattern at the end of a climb.
struct Finding {
    ratios: Ratios,
    way: Way,
    pattern: Pattern,
    kind: String,
}

/// The climbs of one converter.
struct Climber<'a> {
    subject: &'a Subject,
    converter: Converter,
    seed: u64,
    climbs: u64,
    tried: u64,
    kinds: HashMap<String, usize>,
    findings: Vec<Finding>,
}

impl Climber<'_> {
    fn kind(&self, pattern: &Pattern) -> String {
        let (encoding, texts) = (self.subject.encoding, &self.subject.texts);
        let forms = match self.converter {
            Converter::Decoder => forms::of_bytes(encoding, &pattern.bytes_once(encoding, texts).repeat(2)),
            _ => forms::of_code_points(encoding, &pattern.code_points_once(texts)),
        };
        format!("{}: {}", forms::of_cut(pattern.cut), forms.into_iter().collect::<Vec<_>>().join(" "))
    }

    fn is_known(&self, kind: &str) -> bool {
        self.kinds.get(kind).is_some_and(|count| *count >= MOST_OF_A_KIND)
    }

    fn ratio(&mut self, way: Way, pattern: &Pattern) -> Result<f64, String> {
        self.tried += 1;
        Ok(self.subject.ratios(self.converter, way, pattern, QUICK)?.default)
    }

    /// Returns the ratio of a pattern if it is below a bound, twice.
    fn below(&mut self, way: Way, pattern: &Pattern, bound: f64) -> Result<Option<f64>, String> {
        let first = self.ratio(way, pattern)?;
        if first >= bound {
            return Ok(None);
        }
        let second = self.ratio(way, pattern)?;
        Ok((second < bound).then_some(first.max(second)))
    }

    /// Makes a pattern simpler while it stays as slow.
    fn simplified(&mut self, way: Way, mut pattern: Pattern, ratio: f64) -> Result<Pattern, String> {
        'simpler: loop {
            for candidate in simpler(&pattern) {
                if self.below(way, &candidate, ratio * AS_LOW)?.is_some() {
                    pattern = candidate;
                    continue 'simpler;
                }
            }
            return Ok(pattern);
        }
    }

    /// Makes one climb, and keeps what it finds.
    fn climb(&mut self, end: Instant) -> Result<(), String> {
        self.climbs += 1;
        let decodes = self.converter == Converter::Decoder;
        let seed = self.seed.wrapping_mul(0x9E37_79B9_7F4A_7C15) ^ self.climbs.wrapping_mul(0xD1B5_4A32_D192_ED03);
        let mut numbers = Numbers::new(seed.max(1));
        let way = numbers.one_of(&Way::ALL);
        let mut changes = Changes::new(self.subject.encoding, decodes, numbers);
        let mut pattern = changes.pattern();
        let (mut ratio, mut in_vain) = (self.ratio(way, &pattern)?, 0);
        while in_vain < PATIENCE && Instant::now() < end {
            let candidate = changes.changed(&pattern);
            in_vain += 1;
            if candidate == pattern || self.is_known(&self.kind(&candidate)) {
                continue;
            }
            if let Some(less) = self.below(way, &candidate, ratio * LESS)? {
                (pattern, ratio, in_vain) = (candidate, less, 0);
            }
        }
        let pattern = self.simplified(way, pattern, ratio)?;
        let ratios = self.subject.ratios(self.converter, way, &pattern, SURE)?;
        let kind = self.kind(&pattern);
        *self.kinds.entry(kind.clone()).or_default() += 1;
        self.findings.push(Finding { ratios, way, pattern, kind });
        Ok(())
    }

    /// Prints the worst findings, one of each kind.
    fn print(&mut self) {
        self.findings.sort_by(|one, other| one.ratios.default.total_cmp(&other.ratios.default));
        println!("## {} {}: {} climbs, {} patterns", self.converter.word(), self.subject.encoding.name(), self.climbs, self.tried);
        let mut printed: Vec<&str> = Vec::new();
        for Finding { ratios, way, pattern, kind } in &self.findings {
            if printed.len() == PRINTED || printed.contains(&kind.as_str()) {
                continue;
            }
            printed.push(kind);
            let (word, name) = (self.converter.word(), self.subject.encoding.name());
            let fast = if self.converter == Converter::Decoder { String::new() } else { format!(" (fast tables {:.2})", ratios.fast) };
            println!("{:.2}{fast}  {word} {name} {pattern}  # {}; {kind}", ratios.default, way.name());
        }
        println!();
    }
}

/// Climbs with the codecs of an encoding for so many seconds, and prints the ten worst patterns of each converter.
pub fn report(words: &[String]) -> Result<(), String> {
    let usage = "worst CODEC SECONDS [SEED]";
    let [label, seconds, seed @ ..] = words else { return Err(usage.to_string()) };
    let number = |word: &String| word.parse::<u64>().map_err(|_| usage.to_string());
    let (seconds, seed) = (number(seconds)?, seed.first().map_or(Ok(1), number)?);
    let subject = Subject::new(label)?;
    let converters: Vec<Converter> = Converter::ALL.into_iter().filter(|converter| subject.has(*converter)).collect();
    for converter in &converters {
        let end = Instant::now() + Duration::from_secs(seconds) / converters.len() as u32;
        let mut climber =
            Climber { subject: &subject, converter: *converter, seed, climbs: 0, tried: 0, kinds: HashMap::new(), findings: Vec::new() };
        while Instant::now() < end {
            climber.climb(end)?;
        }
        climber.print();
    }
    Ok(())
}
