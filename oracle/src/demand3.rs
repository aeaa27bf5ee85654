//! Demand 3 on the running program: alike pairs get equal answers, and accepted results fit and
//! repeat; none holds a NaN. The patched crate is run beside it.
use crate::answer::Answer;
use crate::compare::{accepted, run};
use crate::frame::{self, Schema, Value, hex, schema_frame, value_frame};
use crate::generate::{Alike, Case, alike_cases, input};
use crate::meet::{fits, trimmed};
use crate::patched;
use crate::requests::nan_in;
use std::fs;
use std::path::Path;

/// After this many lines that differ from the patched crate's the run ends.
const TOO_MANY: usize = 100;

/// The program, and what was counted.
struct Run<'a> {
    program: &'a Path,
    dir: &'a Path,
    pairs: usize,
    /// Pairs of which 5 stops one, or whose schema is refused.
    left_out: usize,
    unequal: usize,
    results: usize,
    unfit: usize,
    changed: usize,
    /// Results that hold a NaN.
    nans: usize,
    /// Lines that are not the patched crate's.
    differ: usize,
}

/// Runs until there are `n` pairs and `n` repeats.
pub fn demand3(n: usize, seed: u64, program: &Path, dir: &Path) -> bool {
    fs::create_dir_all(dir).unwrap();
    let mut run = Run {
        program,
        dir,
        pairs: 0,
        left_out: 0,
        unequal: 0,
        results: 0,
        unfit: 0,
        changed: 0,
        nans: 0,
        differ: 0,
    };
    let mut cases = alike_cases(seed);
    while (run.pairs < n || run.results < n) && run.differ < TOO_MANY {
        run.case(&cases.next().unwrap());
    }
    run.print();
    run.unequal + run.unfit + run.changed + run.nans + run.differ == 0
}

impl Run<'_> {
    fn case(&mut self, case: &Alike) {
        let schema = schema_frame(&case.schema);
        let values: Vec<&Value> = case.pairs.iter().flat_map(|(a, b)| [a, b]).collect();
        let lines = self.lines(&(schema.clone(), values.iter().map(|v| value_frame(v)).collect()));
        for ((a, b), lines) in case.pairs.iter().zip(lines.chunks_exact(2)) {
            assert!(trimmed(a, &case.schema) == trimmed(b, &case.schema), "the generator's pairs are alike");
            self.pair(&schema, &lines[0], &lines[1]);
        }
        let results = lines.iter().filter_map(|line| accepted(line)).collect();
        self.repeat(&case.schema, (schema, results));
    }

    /// The lines that two alike values got.
    fn pair(&mut self, schema: &[u8], a: &str, b: &str) {
        if [a, b].iter().any(|l| ["- 2", "- 3", "- 4", "- 5"].contains(l)) {
            self.left_out += 1;
            return;
        }
        self.pairs += 1;
        if a != b {
            self.unequal += 1;
            println!("schema {}: alike values get {a} and {b}", hex(schema));
        }
    }

    /// Gives results back as records.
    fn repeat(&mut self, tree: &Schema, case: Case) {
        let lines = self.lines(&case);
        for (result, line) in case.1.iter().zip(&lines) {
            let unfit = !frame::read_value(result).is_ok_and(|v| fits(&v, tree));
            let changed = *line != format!("+ {}", hex(result));
            let nan = nan_in(result);
            if unfit || changed || nan {
                println!("schema {}: result {} repeats to {line}", hex(&case.0), hex(result));
            }
            self.results += 1;
            self.unfit += unfit as usize;
            self.changed += changed as usize;
            self.nans += nan as usize;
        }
    }

    /// The program's lines; counts the ones that are not the patched crate's.
    fn lines(&mut self, case: &Case) -> Vec<String> {
        let got = run(self.program, &input(case), self.dir);
        let wrong = differences(&patched::of_case(case), &got);
        if let Some(i) = wrong.first() {
            println!("schema {}, value {}: the program differs from the patched crate", hex(&case.0), i + 1);
        }
        self.differ += wrong.len();
        got
    }

    fn print(&self) {
        println!(
            "{} alike pairs: {} unequal ({} more left out: 2 to 5)",
            self.pairs, self.unequal, self.left_out
        );
        println!(
            "{} results: {} don't fit, {} repeats change, {} hold a NaN",
            self.results, self.unfit, self.changed, self.nans
        );
        println!("lines that differ from the patched crate's: {}", self.differ);
    }
}

/// The places at which the lines are not the answers.
fn differences(want: &[Answer], got: &[String]) -> Vec<usize> {
    let right = |i: &usize| want.get(*i).zip(got.get(*i)).is_some_and(|(w, g)| w.line() == *g);
    (0..want.len().max(got.len())).filter(|i| !right(i)).collect()
}
