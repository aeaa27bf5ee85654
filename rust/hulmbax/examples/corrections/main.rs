//! Goes on from the series of examples/ at the top of the repository: after race 1 crews corrected
//! finishes by entering them again. Prints the sheet of the race as it stood before and after.
//!
//!     cargo run --example corrections             # both sheets, from examples/corrections.txt
//!     cargo run --example corrections -- write    # writes corrections.txt, .out and .md anew

mod entries;
#[path = "../shared/mod.rs"]
mod shared;
mod sheet;
mod twin;

use shared::{files, line, Any};

fn main() -> Any<()> {
    files::run(shown, twin::files)
}

fn shown() -> Any<String> {
    let (_, lines) = line::resolve(&files::read("corrections.txt")?)?;
    sheet::before_and_after(&lines)
}

#[cfg(test)]
mod tests {
    use super::*;
    use hulmbax::Reader;

    #[test]
    fn the_shipped_files_are_what_this_program_writes() {
        files::assert_shipped(twin::files().unwrap());
    }

    // A record that fits the schema that it was written under resolves to itself.
    #[test]
    fn each_entry_is_of_the_form_s_schema() {
        let mut reader = Reader::new(&entries::form_schema().unwrap()).unwrap();
        for entry in entries::entries() {
            assert_eq!(reader.resolve(&entry).as_ref(), Ok(&entry));
        }
    }
}
