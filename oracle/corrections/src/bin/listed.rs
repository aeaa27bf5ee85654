//! Program `listed`: `listed N SEED` writes the list of program `corrected`: the lists of edges.rs and
//! N drawn ones, each once, with the reading's answers. See ../README.md.
use corrections::edges;
use corrections::generate::FAMILIES;
use corrections::list::{List, hex};
use corrections::random::Rng;
use corrections::reading::{Answer, answer};
use std::process::exit;

const HEAD: &str = "\
# Lists of frames, each with the places of the finishes that are current (Q-7, Q-13). All is in hexadecimal, numbers
# high byte first: a byte that counts the frames, for each frame 2 bytes that say where it ends, and the input's bytes;
# behind a space a byte for each place, `=` where there is none, or `-` and the number of the refusal in docs/RULES.md.
# `oracle/current --list` makes the list. The answers are those of oracle/corrections, which reads frames and finishes
# by itself, from the words of the requests alone. No answer is Hulmbax's own.";
/// The most lines of the list, and the most characters of one.
const MOST_LINES: usize = 220;
const MOST_CHARS: usize = 2_000;

fn main() {
    let words: Vec<String> = std::env::args().skip(1).collect();
    let numbers: Vec<u64> = words.iter().filter_map(|word| word.parse().ok()).collect();
    let [n, seed] = numbers[..] else {
        eprintln!("listed N SEED");
        exit(2)
    };
    let mut lines: Vec<String> = HEAD.lines().map(String::from).collect();
    for (what, lists) in edges::sections() {
        lines.push(format!("# {what}."));
        for list in lists {
            add(&mut lines, line(&list).expect("a short list"));
        }
    }
    lines.push("# Any lists.".into());
    draw(&mut lines, n as usize, seed);
    println!("{}", lines.join("\n"));
}

/// Adds a line, unless it is there. Whether it wasn't.
fn add(lines: &mut Vec<String>, line: String) -> bool {
    let is_new = !lines.contains(&line);
    if is_new {
        lines.push(line);
    }
    is_new
}

/// So many drawn lists, of the families by turns; fewer where the lines would be too many.
fn draw(lines: &mut Vec<String>, n: usize, seed: u64) {
    let mut r = Rng::new(seed);
    let n = n.min(MOST_LINES.saturating_sub(lines.len()));
    let (mut drawn, mut turn) = (0, 0);
    while drawn < n {
        let list = FAMILIES[turn % FAMILIES.len()].draw(&mut r);
        turn += 1;
        if let Some(line) = line(&list) {
            drawn += usize::from(add(lines, line));
        }
    }
}

/// The line of a list, where its counts and ends fit the form and it isn't too long.
fn line(list: &List) -> Option<String> {
    let mut bytes = vec![u8::try_from(list.ends.len()).ok()?];
    for end in &list.ends {
        bytes.extend(u16::try_from(*end).ok()?.to_be_bytes());
    }
    bytes.extend_from_slice(&list.input);
    let line = format!("{} {}", hex(&bytes), shown(&answer(list)));
    (line.len() <= MOST_CHARS).then_some(line)
}

fn shown(answer: &Answer) -> String {
    match answer {
        Ok(places) if places.is_empty() => "=".into(),
        Ok(places) => hex(places),
        Err(number) => format!("-{number}"),
    }
}
