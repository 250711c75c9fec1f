//! Makes one table of those of several builds.
//!
//! It has the median of each number, and of each ratio also the least and the greatest. Below a table of speeds is a
//! chart of it.

use std::fs;

/// A table: its title, the names of its columns, and its lines by cells.
struct Table {
    title: String,
    names: Vec<String>,
    lines: Vec<Vec<String>>,
}

/// The title of the table whose lines are in the order of their first numbers, the worst first.
const PATTERNS: &str = "## patterns";

/// Returns the cells of a line of a table.
fn cells(line: &str) -> Vec<String> {
    let inner = line.strip_prefix('|').and_then(|line| line.strip_suffix('|')).unwrap_or(line);
    inner.split('|').map(|cell| cell.trim().to_string()).collect()
}

/// Returns the tables of a file, which may have other lines between them.
fn parse(text: &str) -> Vec<Table> {
    let mut tables = Vec::new();
    for part in text.split("\n\n") {
        let title = part.lines().find(|line| line.starts_with("## ")).unwrap_or_default().to_string();
        let lines: Vec<&str> = part.lines().filter(|line| line.starts_with('|')).collect();
        if let [names, _, body @ ..] = lines.as_slice() {
            let mut lines: Vec<Vec<String>> = body.iter().map(|line| cells(line)).collect();
            if title == PATTERNS {
                lines.sort();
            }
            tables.push(Table { title, names: cells(names), lines });
        }
    }
    tables
}

/// Returns the median of numbers.
pub fn median(numbers: &mut [f64]) -> f64 {
    numbers.sort_by(f64::total_cmp);
    (numbers[(numbers.len() - 1) / 2] + numbers[numbers.len() / 2]) / 2.0
}

/// Returns one cell for the same cell of all builds. A cell that is not a number must be the same in all of them.
fn cell(name: &str, same: &[&String]) -> Result<String, String> {
    let numbers: Vec<f64> = same.iter().filter_map(|cell| cell.parse().ok()).collect();
    if numbers.len() < same.len() {
        let is_one = same.iter().all(|cell| *cell == same[0]);
        return if is_one { Ok(same[0].clone()) } else { Err(format!("the tables differ at {:?}", same[0])) };
    }
    let mut sorted = numbers.clone();
    let median = median(&mut sorted);
    if name.starts_with("in ") {
        return Ok(format!("{median:.2}"));
    }
    if name.starts_with("ratio") {
        return Ok(format!("{median:.2} ({:.2} to {:.2})", sorted[0], sorted[sorted.len() - 1]));
    }
    Ok(if median < 10.0 { format!("{median:.1}") } else { format!("{median:.0}") })
}

/// Prints lines of cells in columns.
fn print_columns(lines: &[Vec<String>]) {
    let width = |column: usize| lines.iter().filter_map(|line| line.get(column)).map(String::len).max().unwrap_or(0);
    for line in lines {
        let cells: Vec<String> = line.iter().enumerate().map(|(column, cell)| format!("{cell:0$}", width(column))).collect();
        println!("{}", cells.join("  ").trim_end());
    }
}

/// Prints a chart of a table with a column `ours`: for each text our bar and that of encoding_rs, for the first source.
fn chart(names: &[String], lines: &[Vec<String>]) {
    let place = |start: &str| names.iter().position(|name| name.starts_with(start));
    let theirs = place("its fast tables").or(place("encoding_rs MB/s"));
    let (Some(theirs), Some(ours)) = (theirs, place("ours")) else { return };
    let speed = |line: &[String], column: usize| line[column].parse::<f64>().unwrap_or(0.0);
    let texts: Vec<&Vec<String>> = lines.iter().filter(|line| line[0].ends_with("-text")).collect();
    let most = texts.iter().map(|line| speed(line, ours).max(speed(line, theirs))).fold(1.0, f64::max);
    println!("\nMB/s, 3 MB in one call: ours, and encoding_rs's below it");
    for line in texts {
        for (name, column) in [(line[..3].join(" "), ours), (String::new(), theirs)] {
            let speed = speed(line, column);
            println!("{name:36} {} {speed:.0}", "#".repeat((speed / most * 60.0).round() as usize));
        }
    }
}

/// Returns the number at the beginning of a line's second cell.
fn first_number(line: &[String]) -> f64 {
    line[1].split(' ').next().and_then(|number| number.parse().ok()).unwrap_or(f64::INFINITY)
}

/// Prints the medians of one table in all builds, and its chart.
fn print(builds: &[&Table]) -> Result<(), String> {
    let mut lines = vec![builds[0].names.clone()];
    for (at, line) in builds[0].lines.iter().enumerate() {
        let mut cells = Vec::new();
        for column in 0..line.len() {
            let same: Option<Vec<&String>> = builds.iter().map(|build| build.lines.get(at)?.get(column)).collect();
            let name = builds[0].names.get(column).map_or("", String::as_str);
            cells.push(cell(name, &same.ok_or("a table is shorter")?)?);
        }
        lines.push(cells);
    }
    if builds[0].title == PATTERNS {
        lines[1..].sort_by(|one, other| first_number(one).total_cmp(&first_number(other)));
    }
    println!("{}\n\n```text", builds[0].title);
    print_columns(&lines);
    chart(&builds[0].names, &lines[1..]);
    println!("```\n");
    Ok(())
}

/// Prints the medians of these files' tables.
pub fn tables(files: impl Iterator<Item = String>) -> Result<(), String> {
    let builds: Result<Vec<Vec<Table>>, String> =
        files.map(|file| fs::read_to_string(&file).map(|text| parse(&text)).map_err(|error| format!("{file}: {error}"))).collect();
    let builds = builds?;
    let count = builds.first().ok_or("no table")?.len();
    for at in 0..count {
        let same: Option<Vec<&Table>> = builds.iter().map(|build| build.get(at)).collect();
        print(&same.ok_or("a file has fewer tables")?)?;
    }
    Ok(())
}
