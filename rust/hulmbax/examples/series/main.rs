//! Scores the series of examples/ at the top of the repository: finishes from three clubs, each
//! under a schema of its own, brought to the sheet's reader schema.
//!
//!     cargo run --example series             # the sheet, from examples/series.txt
//!     cargo run --example series -- write    # writes series.txt, series.out and series.md anew

mod clubs;
#[path = "../shared/mod.rs"]
mod shared;
mod sheet;
mod twin;

use shared::{files, line, Any};

fn main() -> Any<()> {
    files::run(shown, twin::files)
}

fn shown() -> Any<String> {
    let (_, lines) = line::resolve(&files::read("series.txt")?)?;
    sheet::sheet(&lines)
}

#[cfg(test)]
mod tests {
    use super::*;
    use hulmbax::{Reader, Refusal, Value};

    #[test]
    fn the_shipped_files_are_what_this_program_writes() {
        files::assert_shipped(twin::files().unwrap());
    }

    // A record that fits the schema that it was written under resolves to itself, unless it has a
    // NaN, which no schema makes acceptable.
    #[test]
    fn each_record_is_of_its_club_s_schema() {
        for club in clubs::clubs().unwrap() {
            let mut reader = Reader::new(&club.schema).unwrap();
            for record in club.records {
                let elapsed = record.get("elapsed").and_then(Value::as_f64);
                let answer = reader.resolve(&record);
                match elapsed.is_some_and(f64::is_nan) {
                    true => assert_eq!(answer.unwrap_err().refusal(), Some(Refusal::NotANumber)),
                    false => assert_eq!(answer, Ok(record)),
                }
            }
        }
    }
}
