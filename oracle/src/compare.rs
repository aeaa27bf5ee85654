//! Program `resolve` beside both judges, case by case.
use crate::answer::Answer;
use crate::frame::{self, Schema, Value};
use crate::generate::{Given, cases};
use crate::judges::{self, Differ, Judged, Tally};
use crate::meet::meet;
use crate::requests::{REQUESTS, nan_in};
use std::collections::BTreeMap;
use std::fs::{self, File};
use std::path::Path;
use std::process::Command;

/// The values of a run come from this many seeds, one after another.
pub const SEEDS: u64 = 10;

/// Differences that are printed and kept as files.
const SHOWN: usize = 20;

/// The cases of a run: about `n` values from the seeds `seed`, `seed + 1` and so on.
pub fn given(n: usize, seed: u64) -> impl Iterator<Item = Given> {
    (seed..seed + SEEDS).flat_map(move |s| cases(s, n.div_ceil(SEEDS as usize)))
}

/// What the program writes when it reads `input`. The input goes by a file in `dir`.
pub fn run(program: &Path, input: &[u8], dir: &Path) -> Vec<String> {
    let path = dir.join("input.txt");
    fs::write(&path, input).unwrap();
    let out = Command::new(program).stdin(File::open(&path).unwrap()).output().unwrap();
    if !out.status.success() {
        return vec![format!("(the program ends with {})", out.status)];
    }
    String::from_utf8_lossy(&out.stdout).lines().map(String::from).collect()
}

pub fn compare(n: usize, seed: u64, program: &Path, dir: &Path) -> bool {
    fs::create_dir_all(dir).unwrap();
    let mut counts = Counts::default();
    let mut differ = Differ::default();
    for case in given(n, seed) {
        let judged = judges::of_input(&case.input);
        let got = run(program, &case.input, dir);
        counts.add(&case, &judged);
        for i in 0..judged.len().max(got.len()) {
            let Some((judge, want)) = difference(judged.get(i), got.get(i)) else { continue };
            if differ.add(judge) <= SHOWN {
                let file = dir.join(format!("difference-{}.txt", differ.all()));
                fs::write(&file, &case.input).unwrap();
                let got = got.get(i).map_or("no line", String::as_str);
                println!(
                    "{} (family {}), value {}: {judge}: {want}, the program: {got}",
                    file.display(),
                    case.family,
                    i + 1
                );
            }
        }
    }
    counts.print();
    println!("program: {} values, {differ}", counts.values);
    differ.all() == 0
}

/// An answer that holds for a value and is not the program's line, and whose it is; or that the line is
/// a result with a NaN.
fn difference(judged: Option<&Judged>, got: Option<&String>) -> Option<(&'static str, String)> {
    let Some(judged) = judged else { return Some(("both crates", "no line".into())) };
    let wrong = |(_, want): &(&str, &Answer)| got != Some(&want.line());
    if let Some((judge, want)) = judged.wanted().into_iter().find(wrong) {
        return Some((judge, want.line()));
    }
    accepted(got?).is_some_and(|b| nan_in(&b)).then(|| ("Q-10", "no NaN".into()))
}

/// The result of a line that has one.
pub fn accepted(line: &str) -> Option<Vec<u8>> {
    frame::unhex(line.strip_prefix("+ ")?.as_bytes())
}

/// What the cases of a run had in them.
#[derive(Default)]
pub struct Counts {
    pub values: usize,
    answers: BTreeMap<String, usize>,
    several: usize,
    crate_differs: usize,
    families: BTreeMap<&'static str, usize>,
    met: BTreeMap<u8, usize>,
    results: BTreeMap<u8, usize>,
    tally: Tally,
    /// The answers in the families that are made for requests.
    requested: BTreeMap<(&'static str, String), usize>,
}

impl Counts {
    fn add(&mut self, case: &Given, judged: &[Judged]) {
        let lines = frame::lines(&case.input);
        let schema = frame::unhex(lines[0]).and_then(|b| frame::read_schema(&b).ok());
        let schema = schema.filter(frame::schema_ok);
        let requested = REQUESTS.iter().any(|r| r.family == case.family);
        *self.families.entry(case.family).or_default() += judged.len();
        self.values += judged.len();
        for (j, line) in judged.iter().zip(&lines[1..]) {
            let a = &j.patched;
            self.tally.add(j);
            *self.answers.entry(a.sort()).or_default() += 1;
            if requested {
                *self.requested.entry((case.family, a.sort())).or_default() += 1;
            }
            self.several += usize::from(a.several());
            self.crate_differs += usize::from(a.crate_differs());
            if let Some(s) = &schema {
                self.add_met(s, line);
            }
            if let Answer::Accepted(b) = a {
                count_kinds(&frame::read_value(b).unwrap(), &mut self.results);
            }
        }
    }

    fn add_met(&mut self, s: &Schema, line: &[u8]) {
        if let Some(v) = frame::unhex(line).and_then(|b| frame::read_value(&b).ok()) {
            meet(&v, s, false, &mut |met| *self.met.entry(met.schema.kind()).or_default() += 1);
        }
    }

    fn print(&self) {
        println!("answers:");
        for k in sorts() {
            println!("  {k:>7} {:9}", self.answers.get(&k).unwrap_or(&0));
        }
        self.tally.print();
        println!("maps whose failing entries have several numbers: {}", self.several);
        println!(
            "  the patched crate's is not that of the first in key order, and is admitted: {}",
            self.crate_differs
        );
        println!("families:");
        for (k, n) in &self.families {
            println!("  {k:12} {n:9}");
        }
        for r in REQUESTS {
            let one = |k: String| Some(format!("{k}: {}", self.requested.get(&(r.family, k.clone()))?));
            let answers: Vec<String> = sorts().filter_map(one).collect();
            println!("answers in family {}, made for {}: {}", r.family, r.name, answers.join(", "));
        }
        println!("kind, schema nodes of it that a value met, nodes of it in accepted results:");
        for k in 0..=0x19u8 {
            println!(
                "  {k:02x} {:9} {:9}",
                self.met.get(&k).unwrap_or(&0),
                self.results.get(&k).unwrap_or(&0)
            );
        }
    }
}

/// Every sort of answer: accepted, and the numbers of program `resolve`.
fn sorts() -> impl Iterator<Item = String> {
    ["+".to_string()].into_iter().chain((2..=18).chain([28]).map(|n| n.to_string()))
}

/// Counts the nodes of a value by their kind.
pub fn count_kinds(v: &Value, counts: &mut BTreeMap<u8, usize>) {
    *counts.entry(v.kind()).or_default() += 1;
    match v {
        Value::Array(items) => items.iter().for_each(|v| count_kinds(v, counts)),
        Value::Map(items) | Value::Record(items) => items.iter().for_each(|(_, v)| count_kinds(v, counts)),
        Value::Union(_, v) => count_kinds(v, counts),
        _ => {}
    }
}
