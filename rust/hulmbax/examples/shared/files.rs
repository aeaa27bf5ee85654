//! The files of examples/ at the top of the repository.

use super::Any;
use std::{env, fs};

/// The folder of the shipped files.
const FOLDER: &str = concat!(env!("CARGO_MANIFEST_DIR"), "/../../examples/");

/// The name and the content of each file that an example writes.
pub type Files = Vec<(&'static str, String)>;

/// An example: prints what it shows or, with the argument `write`, writes its files anew.
pub fn run(shown: impl Fn() -> Any<String>, files: impl Fn() -> Any<Files>) -> Any<()> {
    match env::args().nth(1).as_deref() {
        None => print!("{}", shown()?),
        Some("write") => {
            for (name, content) in files()? {
                fs::write(format!("{FOLDER}{name}"), content)?;
            }
        }
        Some(other) => return Err(format!("{other}: the only argument is `write`").into()),
    }
    Ok(())
}

pub fn read(name: &str) -> Any<String> {
    fs::read_to_string(format!("{FOLDER}{name}")).map_err(|e| format!("{FOLDER}{name}: {e}").into())
}

#[cfg(test)]
pub fn assert_shipped(files: Files) {
    for (name, content) in files {
        assert_eq!(read(name).unwrap(), content, "{name}: run it with `write`");
    }
}
