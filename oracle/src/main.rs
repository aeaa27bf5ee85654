//! Program `oracle`: see README.md.
use oracle::answer::Answer;
use oracle::{compare, demand3, differences, lists, patched, plain, selftest};
use std::io::{Read, Write};
use std::path::Path;
use std::process::ExitCode;

const USAGE: &str = "\
oracle resolve < FILE                  the lines of program `resolve`, by the patched crate
oracle unpatched < FILE                the same, by the crate as it is
oracle compare N SEED PROGRAM DIR      PROGRAM beside both crates on about N values
oracle demand3 N SEED PROGRAM DIR      N alike pairs and N repeats through PROGRAM
oracle selftest                        the oracle beside the scope, the crate's builder and its own filters
oracle differences DOCUMENT LIST       the rows of docs/DIFFERENCES.md on both crates and in the list
oracle lists SEED DIR                  recorded lists for the repository's programs
oracle sources                         which files of the crate were compiled, and the patches";

fn main() -> ExitCode {
    let words: Vec<String> = std::env::args().skip(1).collect();
    let words: Vec<&str> = words.iter().map(|s| s.as_str()).collect();
    let right = match words.as_slice() {
        ["resolve"] => resolve(patched::of_input),
        ["unpatched"] => resolve(plain::of_input),
        ["compare", n, seed, program, dir] => {
            compare::compare(number(n) as usize, number(seed), Path::new(program), Path::new(dir))
        }
        ["demand3", n, seed, program, dir] => {
            demand3::demand3(number(n) as usize, number(seed), Path::new(program), Path::new(dir))
        }
        ["selftest"] => selftest::selftest(),
        ["differences", document, list] => differences::differences(Path::new(document), Path::new(list)),
        ["lists", seed, dir] => lists::write(number(seed), Path::new(dir)),
        ["sources"] => {
            print!("{}{}", plain::avro::SOURCES, patched::avro::PATCHES);
            true
        }
        _ => usage(),
    };
    if right { ExitCode::SUCCESS } else { ExitCode::FAILURE }
}

fn usage() -> ! {
    eprintln!("{USAGE}");
    std::process::exit(2)
}

fn number(word: &str) -> u64 {
    word.parse().unwrap_or_else(|_| usage())
}

fn resolve(judge: fn(&[u8]) -> Vec<Answer>) -> bool {
    let mut input = vec![];
    std::io::stdin().read_to_end(&mut input).unwrap();
    let mut out = std::io::BufWriter::new(std::io::stdout().lock());
    for a in judge(&input) {
        writeln!(out, "{}", a.line()).unwrap();
    }
    true
}
