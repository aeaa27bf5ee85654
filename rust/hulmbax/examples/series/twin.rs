//! The files of the series: frames for program `resolve`, what it writes, and both in words.

use crate::shared::files::Files;
use crate::shared::line::{self, Line};
use crate::shared::Any;
use crate::{clubs, sheet};

const HEAD: &str = "# A series of three clubs, in words\n\n\
    What the frames of `series.txt` hold, by its lines, and what the sheet gets from each. \
    `cargo run --example series -- write` in `rust/hulmbax` writes this file, `series.txt` and \
    `series.out`; its tests hold all three to it.\n";

/// The name and the content of each file.
pub fn files() -> Any<Files> {
    let clubs = clubs::clubs()?;
    let records = clubs.iter().flat_map(|club| &club.records);
    let input = line::input(&clubs::reader_schema()?, records)?;
    let (_, lines) = line::resolve(&input)?;
    let output = lines.iter().map(Line::output).collect::<Any<String>>()?;
    let twin = twin(&lines)?;
    Ok(vec![
        ("series.txt", input),
        ("series.out", output),
        ("series.md", twin),
    ])
}

fn twin(lines: &[Line]) -> Any<String> {
    let reader = clubs::reader_schema()?;
    let mut out = format!("{HEAD}\n## The reader schema (line 1)\n\n{reader}\n");
    let mut lines_left = lines.iter();
    for club in clubs::clubs()? {
        out += &format!("\n## {}\n\n{}\n\n", club.name, club.habit);
        out += &format!("Writer schema: {}\n\n", club.schema);
        out += "| Line | What was sent | What the sheet gets |\n|---|---|---|\n";
        let rows = lines_left.by_ref().take(club.records.len());
        out += &rows.map(|line| line.cells() + "\n").collect::<String>();
    }
    Ok(out + &format!("\n## The sheet\n\n```\n{}```\n", sheet::sheet(lines)?))
}
