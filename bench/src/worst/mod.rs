//! The slowest frames that are known of each sort, at growing sizes, beside the crate. The times are
//! processor time of the thread, the least of several runs where one is short.
mod frames;

use crate::hulmbax::Buffers;
use crate::lean::read_schema;
use crate::rows::{Row, behind_a_long_entry};
use crate::time::crate_call;
use oracle::frame::MAX_FRAME;
use std::collections::HashMap;
use std::hint::black_box;

/// Frames of three sizes, each twice the one before; the last is nearly as long as frames can be.
const SIZES: &[usize] = &[16_250, 32_500, 65_000];
/// As many levels of unions as there is room for within 16.
const LEVELS: &[usize] = &[1, 2, 3, 4, 5, 6, 7];
/// The sizes of frames with levels.
const FULL: usize = 65_400;
const SMALL: usize = 4_000;

struct Sort {
    /// What the time grows by: the schema's length n, the value's m.
    bound: &'static str,
    sizes: &'static [usize],
    make: fn(usize) -> Row,
}

const fn sort(bound: &'static str, sizes: &'static [usize], make: fn(usize) -> Row) -> Sort {
    Sort { bound, sizes, make }
}

const SORTS: &[Sort] = &[
    sort("m", SIZES, frames::arrays),
    sort("n + m", SIZES, frames::records),
    sort("m", SIZES, behind_a_long_entry),
    sort("n", SIZES, frames::defaults_in_defaults),
    sort("n * n", SIZES, frames::short_names),
    sort("n * n", SIZES, frames::one_hash),
    sort("n * n", SIZES, frames::behind_a_long_field),
    sort("n", SIZES, frames::entries_of_one_row),
    sort("n * m", SIZES, frames::entries),
    sort("n * m", SIZES, frames::map_entries),
    sort("n * m", SIZES, frames::long_entry),
    sort("n * m", SIZES, frames::defaults),
    sort("n * m", SIZES, frames::union_defaults),
    sort("n * m", SIZES, frames::symbols),
    sort("n * m", SIZES, frames::string_variants),
    sort("n * m", SIZES, frames::array_variants),
    sort("n * m", SIZES, frames::variants),
    sort("n", SIZES, frames::named_index),
    sort("n * n", SIZES, frames::named_repeats),
    sort("n * m", SIZES, frames::named_index_and_items),
    sort("n * m", LEVELS, |l| frames::levels(FULL, l)),
    sort("2 ^ levels * n * m", LEVELS, |l| frames::levels_unordered(FULL, l)),
    sort("n * m", &[1, 2, 3, 4, 5, 6], |l| frames::levels_of_variants(SMALL, l)),
];

unsafe extern "C" {
    fn clock_gettime(clock: i32, time: *mut [i64; 2]) -> i32;
}

/// Processor time of this thread, in seconds.
fn now() -> f64 {
    const THREAD: i32 = 3;
    let mut t = [0; 2];
    assert_eq!(unsafe { clock_gettime(THREAD, &mut t) }, 0);
    t[0] as f64 + t[1] as f64 / 1e9
}

/// The answer, and the least time of the runs, which together take half a second or are one.
fn timed<A>(mut run: impl FnMut() -> A) -> (A, f64) {
    let (mut least, mut all) = (f64::MAX, 0.0);
    loop {
        let begin = now();
        let answer = run();
        let time = now() - begin;
        least = least.min(time);
        all += time;
        if all > 0.5 {
            return (answer, least);
        }
    }
}

/// One side's times over the sizes of a sort: what the last took, and how it grew.
#[derive(Default)]
struct Growth {
    times: Vec<f64>,
}

impl Growth {
    /// Whether the next size is likely to take no more than so many seconds.
    fn goes_on(&self, seconds: f64) -> bool {
        let factor = self.factor().unwrap_or(4.0);
        self.times.last().is_none_or(|t| t * factor.max(1.0) < seconds)
    }

    fn factor(&self) -> Option<f64> {
        let [.., a, b] = self.times[..] else { return None };
        Some(b / a)
    }

    fn cells(&self) -> String {
        let growth = self.factor().map_or(String::new(), |f| format!("{f:.1}"));
        format!("{:.5} | {growth}", self.times.last().unwrap())
    }
}

/// Times every sort; a side is left out where it would likely take more than `seconds`. Whether all
/// answers agree.
pub fn worst(seconds: f64, only: &str) -> bool {
    println!("Seconds of processor time, and how many times as long as the row before. n is the schema's");
    println!(
        "length, m the value's. A side that would likely take more than {seconds} seconds is left out.\n"
    );
    println!("| Frames | Grows by | Schema | Value | Answer | Hulmbax | Growth | Crate | Growth |");
    println!("|---|---|---|---|---|---|---|---|---|");
    let mut alike = true;
    for sort in SORTS {
        let (mut ours, mut theirs) = (Growth::default(), Growth::default());
        for &size in sort.sizes {
            let row = (sort.make)(size);
            if !row.name.contains(only) {
                continue;
            }
            if !ours.goes_on(seconds) {
                break;
            }
            alike &= line(sort, &row, &mut ours, &mut theirs, seconds);
        }
    }
    println!("\n{}", if alike { "all answers agree" } else { "AN ANSWER DIFFERS" });
    alike
}

fn line(sort: &Sort, row: &Row, ours: &mut Growth, theirs: &mut Growth, seconds: f64) -> bool {
    let (schema, value) = (&row.schema, &row.values[0]);
    let mut buffers = Buffers::new();
    let (given, time) = timed(|| buffers.answer(black_box(schema), black_box(value)));
    ours.times.push(time);
    let mut alike = true;
    let mut crates = "| ".into();
    if theirs.goes_on(seconds) {
        let (wanted, time) = timed(|| by_crate(row));
        theirs.times.push(time);
        alike = wanted == given;
        crates = theirs.cells();
    }
    let answer = given.map_or_else(|k| format!("refused, {k}"), |b| format!("{} bytes", b.len()));
    println!(
        "| {} | {} | {} | {} | {answer} | {} | {crates} |{}",
        row.name,
        sort.bound,
        schema.len(),
        value.len(),
        ours.cells(),
        if alike { "" } else { " differs" }
    );
    alike
}

fn by_crate(row: &Row) -> Result<Vec<u8>, u8> {
    let schema = read_schema(black_box(&row.schema)).unwrap();
    let mut out = Vec::new();
    crate_call(&schema, &HashMap::new(), black_box(&row.values[0]), &mut out)?;
    if out.len() > MAX_FRAME { Err(18) } else { Ok(out) }
}
