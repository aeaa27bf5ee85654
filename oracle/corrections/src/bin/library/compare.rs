//! The entry on lists of the generator: the number, every byte of result and workspace, and all that
//! lies around them.
use crate::buffers::{Junk, Read, Written};
use crate::counts::Counts;
use crate::entry;
use corrections::generate::{self, FAMILIES};
use corrections::list::{List, hex};
use corrections::random::Rng;
use corrections::reading::{self, Answer, Finish, WORKSPACE};
use std::collections::BTreeMap;
use std::fs;
use std::path::Path;

/// Differences that are shown.
const SHOWN: usize = 10;
/// How much of a list is shown; all of it is in a file.
const SHOWN_CHARS: usize = 2_000;

/// What the calls share.
struct Tester {
    r: Rng,
    junk: Junk,
    input: Read<u8>,
    ends: Read<usize>,
    result: Written,
    workspace: Written,
    counts: Counts,
}

/// Compares on n lists, or up to the first difference. Whether there was none.
pub fn compare(n: usize, seed: u64, dir: &Path, only_first: bool) -> bool {
    fs::create_dir_all(dir).unwrap();
    let mut tester = Tester::new(seed);
    let mut lists = Rng::new(seed);
    let (mut done, mut differ) = (0, 0);
    while done < n && (differ == 0 || !only_first) {
        let (family, list) = generate::draw(&mut lists);
        done += 1;
        if let Err(what) = tester.list(family, &list) {
            differ += 1;
            if differ <= SHOWN {
                show(differ, FAMILIES[family].name, &what, &list, dir);
            }
        }
    }
    tester.counts.print();
    println!("{done} lists, {} calls, {differ} differ", tester.counts.calls());
    differ == 0
}

fn show(number: usize, family: &str, what: &str, list: &List, dir: &Path) {
    let file = dir.join(format!("differs-{number}.txt"));
    let text = format!("{family}: {what}\n{}", list.shown());
    fs::write(&file, &text).unwrap();
    let end = text.len().min(SHOWN_CHARS);
    println!("differs, {}", text[..end].trim_end());
    if end < text.len() {
        println!("... all of it is in {}", file.display());
    }
}

impl Tester {
    fn new(seed: u64) -> Self {
        let mut r = Rng::new(!seed);
        let junk = Junk::new(&mut r);
        let (result, workspace) = Default::default();
        Tester {
            r,
            junk,
            input: Read::default(),
            ends: Read::default(),
            result,
            workspace,
            counts: Counts::default(),
        }
    }

    /// A list with several lengths of result buffer and workspace, and at times in another order.
    fn list(&mut self, family: usize, list: &List) -> Result<(), String> {
        let want = reading::answer(list);
        self.counts.list(family, list, &want);
        self.calls(list, &want)?;
        match want {
            Ok(places) if list.ends.len() > 1 && self.r.percent(50) => self.permuted(list, &places),
            _ => Ok(()),
        }
    }

    fn calls(&mut self, list: &List, want: &Answer) -> Result<(), String> {
        self.hold(list);
        for (result, workspace) in self.lengths(want) {
            self.call(result, workspace, want)?;
        }
        Ok(())
    }

    fn hold(&mut self, list: &List) {
        let Tester { r, .. } = self;
        self.input.hold(&list.input, Rng::byte, r);
        self.ends.hold(&list.ends, |r| r.bits() as usize >> r.below(64), r);
    }

    /// Pairs of lengths: of the result buffer (just enough, one short, none, longer, once in a while
    /// past any frame) and of the workspace (just enough, longer, too short).
    fn lengths(&mut self, want: &Answer) -> Vec<(usize, usize)> {
        let r = &mut self.r;
        let more = r.within(1, 600);
        let short = r.pick(&[0, 1, 255, 32_768, WORKSPACE - 2, WORKSPACE - 1, WORKSPACE - 1]);
        let enough = want.as_ref().map_or(0, Vec::len);
        let mut lengths =
            vec![(enough, WORKSPACE), (enough + more, WORKSPACE + more), (r.pick(&[0, enough, 256]), short)];
        if enough > 0 {
            lengths.push((enough - 1, WORKSPACE + 1));
        }
        if enough > 1 && r.percent(30) {
            lengths.push((r.below(enough), WORKSPACE));
        }
        if r.percent(2) {
            lengths.push((65_536 + more, WORKSPACE));
        }
        lengths
    }

    /// A call on the list that is held. `want` is the answer where both buffers are long enough.
    fn call(&mut self, result: usize, workspace: usize, want: &Answer) -> Result<(), String> {
        let want = reading::with_lengths(want, result, workspace);
        self.counts.call(&want);
        self.result.fill(result, &self.junk, &mut self.r);
        self.workspace.fill_or_zero(workspace, &self.junk, &mut self.r);
        let given = unsafe {
            entry::current(self.input.slice(), self.ends.slice(), self.result.slice(), self.workspace.slice())
        };
        let Some(what) = self.wrong(given, &want) else { return Ok(()) };
        let written = hex(self.result.front(given));
        let (must, places) = (entry::given(&want), hex(&want.unwrap_or_default()));
        let lengths = format!("result of {result} bytes, workspace of {workspace}");
        Err(format!("{lengths}: gives {given} {written}, must give {must} {places}: {what}"))
    }

    /// What is not as it must be after a call.
    fn wrong(&self, given: i32, want: &Answer) -> Option<&'static str> {
        let written = want.as_deref().unwrap_or(&[]);
        let cleared: &[u8] = if *want == Err(1) { &[] } else { &[0; WORKSPACE] };
        if given != entry::given(want) {
            Some("the number is wrong")
        } else if !self.result.holds(written) {
            Some("the result buffer is wrong")
        } else if !self.workspace.holds(cleared) {
            Some("the workspace is wrong")
        } else if !self.input.unchanged() || !self.ends.unchanged() {
            Some("an input changed")
        } else {
            None
        }
    }

    /// The list in another order, in which finishes of one sail and one number keep theirs: the same
    /// frames must be named.
    fn permuted(&mut self, list: &List, places: &[u8]) -> Result<(), String> {
        let finishes = reading::finishes(list).unwrap();
        let order = order(&mut self.r, &finishes);
        let frames: Vec<&[u8]> = list.frames().map(Option::unwrap).collect();
        let permuted = List::of(&order.iter().map(|place| frames[*place]).collect::<Vec<_>>());
        let want = reading::answer(&permuted);
        self.counts.permuted();
        self.hold(&permuted);
        let outcome = self.call(places.len(), WORKSPACE, &want);
        let named = want.iter().flatten().map(|place| order[usize::from(*place)]);
        let same = sorted(named) == sorted(places.iter().map(|place| usize::from(*place)));
        let outcome = if same { outcome } else { Err("other frames are named".into()) };
        outcome.map_err(|what| format!("permuted to {order:?}: {what}"))
    }
}

fn sorted(places: impl Iterator<Item = usize>) -> Vec<usize> {
    let mut places: Vec<usize> = places.collect();
    places.sort();
    places
}

/// The places of the finishes in any order; those of one sail and one number keep theirs.
fn order(r: &mut Rng, finishes: &[Finish]) -> Vec<usize> {
    let mut order: Vec<usize> = (0..finishes.len()).collect();
    r.shuffle(&mut order);
    let mut alike: BTreeMap<(&str, i64), Vec<usize>> = BTreeMap::new();
    for (place, finish) in finishes.iter().enumerate().rev() {
        alike.entry((finish.sail, finish.seq)).or_default().push(place);
    }
    // wherever one of several alike ones stands, the earliest that is left takes its place
    let next = |place: usize| {
        let finish = &finishes[place];
        alike.get_mut(&(finish.sail, finish.seq)).unwrap().pop().unwrap()
    };
    order.into_iter().map(next).collect()
}
