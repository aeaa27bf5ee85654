//! What the examples share: the lines of an input of program `resolve`, the finishes that a sheet reads
//! from them, the places of each race, and the files of examples/ at the top of the repository.

pub mod files;
pub mod finish;
pub mod line;
pub mod series;

pub type Any<T> = Result<T, Box<dyn std::error::Error>>;
