//! Program `library`: `hulmbax_current` of libhulmbax.a beside the reading of. See ../README.md.
mod buffers;
mod compare;
mod counts;
mod entry;
mod times;

use std::path::Path;
use std::process::ExitCode;

const USAGE: &str = "\
library compare N SEED DIR    N lists, each with several buffers and workspaces; differing ones go to DIR
library first N SEED DIR      the same up to the first difference
library time                  how long calls take";

fn main() -> ExitCode {
    let words: Vec<String> = std::env::args().skip(1).collect();
    let words: Vec<&str> = words.iter().map(String::as_str).collect();
    let right = match words.as_slice() {
        [how @ ("compare" | "first"), n, seed, dir] => {
            compare::compare(number(n) as usize, number(seed), Path::new(dir), *how == "first")
        }
        ["time"] => times::times(),
        _ => usage(),
    };
    if right { ExitCode::SUCCESS } else { ExitCode::FAILURE }
}

fn usage() -> ! {
    eprintln!("{USAGE}");
    std::process::exit(2)
}

fn number(word: &str) -> u64 {
    word.parse().unwrap_or_else(|_| usage())
}
