//! Program `bench`: the crate and Hulmbax timed on the same frames. See README.md.
mod hash;
mod hulmbax;
mod lean;
mod rows;
mod time;
mod worst;

use rows::Row;
use std::process::ExitCode;

/// The last two stand there only where there is an older archive.
const HEAD: &[&str] = &[
    "",
    "schema",
    "value",
    "crate",
    "kept",
    "Hulmbax",
    "crate/B",
    "kept/B",
    "Hulmbax/B",
    "crate : H",
    "kept : H",
    "before",
    "before : H",
];
const COLUMNS: usize = HEAD.len() - if hulmbax::COUNT > 1 { 0 } else { 2 };

fn main() -> ExitCode {
    let words: Vec<String> = std::env::args().skip(1).collect();
    if words.first().is_some_and(|w| w == "worst") {
        let seconds = words.get(1).and_then(|n| n.parse().ok()).unwrap_or(60.0);
        let only = words.get(2).map_or("", |w| w.as_str());
        return status(worst::worst(seconds, only));
    }
    let rounds = words.first().and_then(|n| n.parse().ok()).unwrap_or(40);
    let clearing = time::clearing(hulmbax::WORKSPACE, rounds);
    println!("Least of {rounds} runs. Lengths of schema and value in bytes; then nanoseconds per call,");
    println!("nanoseconds per byte of value (B), and the crate's time over Hulmbax's. crate: the schema");
    println!("frame is read in each call; kept: once for all. Hulmbax reads and checks it in each call,");
    println!(
        "and leaves its workspace of 65,536 bytes zero in each; a fill of so many takes {clearing:.0} ns."
    );
    println!("No buffer is cleared before a call.");
    let tables: [(&str, Vec<Row>); 6] = [
        ("Frames", rows::rows()),
        ("200 names: of fields, the record in another order; of symbols, a String for each", rows::names()),
        ("Fields in one record", rows::fields()),
        ("Depth, records in records", rows::depths()),
        ("Unions in unions, named_index twice, accepted", rows::unions_accepted()),
        ("Unions in unions, named_index twice, refused (16)", rows::unions_refused()),
    ];
    let differ: usize = tables.iter().map(|(title, rows)| table(title, rows, rounds)).sum();
    println!("\n{differ} rows in which the answers differ");
    status(differ == 0)
}

fn status(right: bool) -> ExitCode {
    if right { ExitCode::SUCCESS } else { ExitCode::FAILURE }
}

/// Prints a table; how many of its rows have answers that differ.
fn table(title: &str, rows: &[Row], rounds: usize) -> usize {
    println!("\n{title}\n");
    line(HEAD[..COLUMNS].iter().map(|head| head.to_string()));
    line((0..COLUMNS).map(|i| if i == 0 { "---".into() } else { "---:".into() }));
    let mut differ = 0;
    for row in rows {
        match time::times(row, rounds) {
            Some(times) => line(cells(row, times).into_iter()),
            None => {
                differ += 1;
                println!("| {} | the answers differ |", row.name);
            }
        }
    }
    differ
}

fn cells(row: &Row, [each, kept, hulmbax, before @ ..]: time::Times) -> Vec<String> {
    let bytes = row.bytes() as f64 / row.values.len() as f64;
    let whole = |x: f64| format!("{x:.0}");
    let parts = |x: f64| format!("{x:.2}");
    let mut cells = vec![
        row.name.clone(),
        row.schema.len().to_string(),
        whole(bytes),
        whole(each),
        whole(kept),
        whole(hulmbax),
        parts(each / bytes),
        parts(kept / bytes),
        parts(hulmbax / bytes),
        parts(each / hulmbax),
        parts(kept / hulmbax),
    ];
    cells.extend(before.iter().flat_map(|before| [whole(*before), parts(before / hulmbax)]));
    cells
}

fn line(mut cells: impl Iterator<Item = String>) {
    print!("| {:41} |", cells.next().unwrap_or_default());
    cells.for_each(|c| print!(" {c:>10} |"));
    println!();
}
