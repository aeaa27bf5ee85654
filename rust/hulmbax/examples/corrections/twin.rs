//! The files of the corrections: frames for program `resolve`, what it writes, and both in words.

use crate::shared::files::Files;
use crate::shared::line::{self, Line};
use crate::shared::Any;
use crate::{entries, sheet};

const HEAD: &str = "# Corrections after race 1, in words\n\n\
    What the frames of `corrections.txt` hold, by its lines, what the sheet gets from each, and in \
    which of the two sheets it is current. `cargo run --example corrections -- write` in \
    `rust/hulmbax` writes this file, `corrections.txt` and `corrections.out`; its tests hold all \
    three to it.\n";

const COLUMNS: &str =
    "| Line | What was sent | What the sheet gets | Current |\n|---|---|---|---|\n";

/// The name and the content of each file.
pub fn files() -> Any<Files> {
    let (first, entered) = (entries::first_finishes()?, entries::entries());
    let input = line::input(&entries::reader_schema()?, first.iter().chain(&entered))?;
    let (_, lines) = line::resolve(&input)?;
    let output = lines.iter().map(Line::output).collect::<Any<String>>()?;
    let twin = twin(&lines, first.len())?;
    Ok(vec![
        ("corrections.txt", input),
        ("corrections.out", output),
        ("corrections.md", twin),
    ])
}

fn twin(lines: &[Line], first: usize) -> Any<String> {
    let rows = rows(lines)?;
    let mut out = format!(
        "{HEAD}\n## The reader schema (line 1)\n\n{}\n",
        entries::reader_schema()?
    );
    out += "\n## The finishes of race 1 that the series has, as their clubs sent them\n\n";
    out += COLUMNS;
    out += &rows[..first].concat();
    out += "\n## What crews entered again\n\n";
    out += &format!("Writer schema: {}\n\n", entries::form_schema()?);
    out += COLUMNS;
    out += &rows[first..].concat();
    let sheets = sheet::before_and_after(lines)?;
    Ok(out + &format!("\n## The sheets\n\n```\n{sheets}```\n"))
}

// Each line as a row of a table.
fn rows(lines: &[Line]) -> Any<Vec<String>> {
    let before = sheet::current_lines(sheet::first_lines(lines))?;
    let after = sheet::current_lines(lines)?;
    let row = |line: &Line| {
        let is_in = |sheet: &[&Line]| sheet.iter().any(|other| other.number == line.number);
        let current = match (is_in(&before), is_in(&after)) {
            _ if line.answer.is_err() => "no, not entered",
            (true, true) => "before and after",
            (true, false) => "before",
            (false, true) => "after",
            (false, false) => "no",
        };
        format!("{} {current} |\n", line.cells())
    };
    Ok(lines.iter().map(row).collect())
}
