//! The entry on the cases of the comparison: number, length, every byte of result, workspace and
//! what lies around them.
use crate::buffers::{Buffer, Junk};
use crate::entry::{WORKSPACE, hulmbax_resolve, right, with_lengths};
use oracle::answer::Answer;
use oracle::frame::MAX_FRAME;
use oracle::generate::{Rng, input};
use oracle::judges::{self, Differ, Judged, Tally};
use oracle::requests::nan_in;
use std::collections::BTreeMap;
use std::fs;
use std::path::Path;

/// Differences that are printed and kept as files.
const SHOWN: usize = 20;

/// What the calls share.
struct Tester {
    r: Rng,
    junk: Junk,
    schema: Buffer,
    record: Buffer,
    result: Buffer,
    workspace: Buffer,
    calls: BTreeMap<i32, usize>,
}

pub fn compare(n: usize, seed: u64, dir: &Path) -> bool {
    fs::create_dir_all(dir).unwrap();
    let mut tester = Tester::new(seed);
    let (mut values, mut differ, mut tally) = (0, Differ::default(), Tally::default());
    for given in oracle::compare::given(n, seed) {
        let (schema, frames) = &given.case;
        for (frame, judged) in frames.iter().zip(judges::of_case(&given.case)) {
            values += 1;
            tally.add(&judged);
            let Err((judge, what)) = tester.judged(schema, frame, &judged) else { continue };
            if differ.add(judge) <= SHOWN {
                let file = dir.join(format!("library-{}.txt", differ.all()));
                fs::write(&file, input(&(schema.clone(), vec![frame.clone()]))).unwrap();
                println!("{} (family {}): {judge}: {what}", file.display(), given.family);
            }
        }
    }
    tester.print();
    tally.print();
    println!("library: {values} values, {differ}");
    differ.all() == 0
}

impl Tester {
    fn new(seed: u64) -> Self {
        let mut r = Rng::new(seed);
        let junk = Junk::new(&mut r);
        let [schema, record, result, workspace] = [(); 4].map(|_| Buffer::new());
        Tester { r, junk, schema, record, result, workspace, calls: BTreeMap::new() }
    }

    /// One pair of frames beside each answer that holds for it; on a difference also whose it is.
    fn judged(
        &mut self,
        schema: &[u8],
        record: &[u8],
        judged: &Judged,
    ) -> Result<(), (&'static str, String)> {
        let mut wanted = judged.wanted().into_iter();
        wanted.try_for_each(|(judge, want)| self.value(schema, record, want).map_err(|what| (judge, what)))
    }

    /// One pair of frames with every length of result buffer and workspace.
    fn value(&mut self, schema: &[u8], record: &[u8], want: &Answer) -> Result<(), String> {
        self.schema.hold(schema, &self.junk, &mut self.r);
        self.record.hold(record, &self.junk, &mut self.r);
        for (result, workspace) in self.lengths(want) {
            let want = with_lengths(want, result, workspace);
            self.call(result, workspace, &want).map_err(|what| {
                format!("result buffer of {result}, workspace of {workspace} bytes: {what}")
            })?;
        }
        let unchanged = self.schema.holds(schema) && self.record.holds(record);
        if unchanged { Ok(()) } else { Err("an input changed".into()) }
    }

    /// Pairs of lengths: of the result buffer (none, just enough, one short, longer, the longest
    /// frame, too long for a frame) and of the workspace (too short, just enough, longer).
    fn lengths(&mut self, want: &Answer) -> Vec<(usize, usize)> {
        let more = 1 + self.r.below(1000);
        let mut lengths = vec![
            (0, WORKSPACE + more),
            (MAX_FRAME, WORKSPACE),
            (2 * MAX_FRAME, WORKSPACE + 1),
            (MAX_FRAME, WORKSPACE - 1),
            (MAX_FRAME + more, 0),
        ];
        if let Answer::Accepted(b) = want {
            let n = b.len();
            lengths.extend([(n, WORKSPACE), (n - 1, WORKSPACE), (n + more, WORKSPACE), (n, WORKSPACE - 1)]);
        }
        lengths
    }

    fn call(&mut self, result: usize, workspace: usize, want: &Answer) -> Result<(), String> {
        self.result.fill(result, &self.junk, &mut self.r);
        self.workspace.fill(workspace, &self.junk, &mut self.r);
        let given = unsafe {
            hulmbax_resolve(
                self.schema.pointer(),
                self.schema.len(),
                self.record.pointer(),
                self.record.len(),
                self.result.pointer(),
                result,
                self.workspace.pointer(),
                workspace,
            )
        };
        *self.calls.entry(given.min(1)).or_default() += 1;
        let written: &[u8] = match want {
            Answer::Accepted(b) => b,
            _ => &[],
        };
        let cleared: &[u8] = if workspace < WORKSPACE { &[] } else { &[0; WORKSPACE] };
        if !right(want, given) {
            Err(format!("gives {given}, want {}", want.line()))
        } else if !self.result.holds(written) {
            Err(format!("gives {given}, but the result buffer is wrong"))
        } else if !self.workspace.holds(cleared) {
            Err(format!("gives {given}, but the workspace is wrong"))
        } else if given > 0 && nan_in(self.result.first(given as usize)) {
            Err(format!("gives {given}, but the result holds a NaN"))
        } else {
            Ok(())
        }
    }

    fn print(&self) {
        println!("calls of the entry, by what it gave:");
        for (given, n) in self.calls.iter().rev() {
            let given = if *given == 1 { "+".to_string() } else { (-given).to_string() };
            println!("  {given:>7} {n:9}");
        }
    }
}
