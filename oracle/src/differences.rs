//! The rows of docs/DIFFERENCES.md on both crates, and beside the list that program `vectors` replays.
use crate::judges::{self, Judged};
use std::fs;
use std::path::Path;

/// The line of the list that stands before the rows.
const SECTION: &str = "# docs/DIFFERENCES.md, row by row";
/// How a line begins that says which request touches the next value; it may be left out.
const MARK: &str = "# Q-";
/// The last cells of a table's head: one answer of both crates, or one of each.
const ONE: &[&str] = &["Schema", "Value", "Result"];
const TWO: &[&str] = &["Schema", "Value", "The crate", "Hulmbax"];

/// A row's frames in hexadecimal, and its answers as program `resolve` writes them.
struct Row {
    schema: String,
    value: String,
    by_crate: String,
    by_hulmbax: String,
    /// Whether the table says that the two differ.
    two: bool,
}

/// Whether the crates give each row's answers, and the list has the rows in their order.
pub fn differences(document: &Path, list: &Path) -> bool {
    let (rows, unread) = rows(&fs::read_to_string(document).unwrap());
    unread.iter().for_each(|line| println!("not a row as its table's head says: {line}"));
    let judged: Vec<Judged> = rows.iter().map(judged).collect();
    let wrong: Vec<String> = rows.iter().zip(&judged).flat_map(|(r, j)| faults(r, j)).collect();
    wrong.iter().for_each(|fault| println!("{fault}"));
    let wanted: String = rows.iter().zip(&judged).map(|(r, j)| listed(r, j)).collect();
    let same = section(&fs::read_to_string(list).unwrap()) == unmarked(&wanted);
    let two = rows.iter().filter(|r| r.two).count();
    println!(
        "differences: {} rows, {two} of them between Hulmbax and the crate; {} answers are others",
        rows.len(),
        wrong.len()
    );
    if !same {
        println!("{} has other rows; below its line {SECTION:?} should stand:\n{wanted}", list.display());
    }
    wrong.is_empty() && unread.is_empty() && same && !rows.is_empty()
}

fn judged(row: &Row) -> Judged {
    judges::of_input(format!("{}\n{}\n", row.schema, row.value).as_bytes()).remove(0)
}

/// A row as the list has it, with the requests that touch it.
fn listed(row: &Row, judged: &Judged) -> String {
    let mark = match judged.touched.as_slice() {
        [] => String::new(),
        touched => format!("# {}\n", touched.join(", ")),
    };
    format!("s {}\n{mark}v {}\n{}\n", row.schema, row.value, row.by_hulmbax)
}

/// What is wrong with a row: the answers that a crate doesn't give, or two that don't differ.
fn faults(row: &Row, judged: &Judged) -> Vec<String> {
    let given = [
        (&row.by_crate, &judged.plain, "the crate as it is"),
        (&row.by_hulmbax, &judged.patched, "the patched crate"),
    ];
    let mut faults = vec![];
    for (answer, given, judge) in given {
        let line = given.line();
        if line != *answer {
            faults.push(format!(
                "{} with {}: {answer} in the table, {line} from {judge}",
                row.schema, row.value
            ));
        }
    }
    if row.two && row.by_crate == row.by_hulmbax {
        faults.push(format!("{} with {}: the two answers are equal", row.schema, row.value));
    }
    faults
}

/// The lines behind the section's first, up to the next comment that is no mark; without the marks.
fn section(list: &str) -> String {
    let behind = list.lines().skip_while(|l| !l.starts_with(SECTION)).skip(1);
    let lines = behind.take_while(|l| !l.starts_with('#') || l.starts_with(MARK));
    unmarked(&lines.map(|l| format!("{l}\n")).collect::<String>())
}

fn unmarked(lines: &str) -> String {
    lines.lines().filter(|l| !l.starts_with(MARK)).map(|l| format!("{l}\n")).collect()
}

/// The rows of the tables whose head ends in `ONE` or `TWO`, and the lines of them that can't be read.
fn rows(document: &str) -> (Vec<Row>, Vec<String>) {
    let (mut rows, mut unread) = (vec![], vec![]);
    let mut head: Option<&[&str]> = None;
    for line in document.lines() {
        let cells: Vec<&str> = line.trim_matches('|').split('|').map(str::trim).collect();
        if !line.starts_with('|') {
            head = None;
        } else if let Some(ends) = [ONE, TWO].into_iter().find(|ends| cells.ends_with(ends)) {
            head = Some(ends);
        } else if let Some(ends) = head.filter(|_| line.starts_with("| ")) {
            match row(&cells, ends == TWO) {
                Some(row) => rows.push(row),
                None => unread.push(line.to_string()),
            }
        }
    }
    (rows, unread)
}

fn row(cells: &[&str], two: bool) -> Option<Row> {
    let (frames, results) = cells.split_at(cells.len().checked_sub(if two { 2 } else { 1 })?);
    let [.., schema, value] = frames else { return None };
    let (by_crate, by_hulmbax) = (answer(results.first()?)?, answer(results.last()?)?);
    Some(Row { schema: frame(schema)?, value: frame(value)?, by_crate, by_hulmbax, two })
}

/// A result or a number, as a line of program `resolve`.
fn answer(cell: &str) -> Option<String> {
    match frame(cell) {
        Some(hex) => Some(format!("+ {hex}")),
        None => Some(format!("- {}", cell.parse::<u8>().ok()?)),
    }
}

/// Digits in backticks; `00×12` stands for as many repeats.
fn frame(cell: &str) -> Option<String> {
    let parts = cell.strip_prefix('`')?.strip_suffix('`')?.split(' ');
    let part = |p: &str| match p.split_once('×') {
        Some((digits, times)) => Some(digits.repeat(times.parse().ok()?)),
        None => Some(p.into()),
    };
    let hex = parts.map(part).collect::<Option<String>>()?;
    hex.bytes().all(|c| c.is_ascii_hexdigit()).then_some(hex)
}
