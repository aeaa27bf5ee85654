//! Program `library`: the C entry of libhulmbax.a beside both crates. See README.md.
mod buffers;
mod compare;
mod deep;
mod entry;
mod memory;
mod stack;

use std::path::Path;
use std::process::ExitCode;

const USAGE: &str = "\
library compare N SEED DIR    about N values, each with several buffers and workspaces
library memory N SEED         N damaged frames, each block just as long as its slice; for valgrind
library stack N SEED BOUND    the stack of calls on deep frames and on about N values; fails above BOUND bytes";

fn main() -> ExitCode {
    let words: Vec<String> = std::env::args().skip(1).collect();
    let words: Vec<&str> = words.iter().map(|s| s.as_str()).collect();
    let right = match words.as_slice() {
        ["compare", n, seed, dir] => compare::compare(number(n) as usize, number(seed), Path::new(dir)),
        ["memory", n, seed] => memory::memory(number(n) as usize, number(seed)),
        ["stack", n, seed, bound] => stack::stack(number(n) as usize, number(seed), number(bound) as usize),
        _ => usage(),
    };
    if right { ExitCode::SUCCESS } else { ExitCode::FAILURE }
}

fn usage() -> ! {
    eprintln!("{USAGE}");
    std::process::exit(2)
}

fn number(word: &str) -> u64 {
    word.parse().unwrap_or_else(|_| usage())
}
