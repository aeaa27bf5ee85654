//! The sides, the check that they answer alike, and their times.
use crate::hulmbax::{self, Buffers};
use crate::lean::{read_schema, read_value, write_value};
use crate::rows::Row;
use apache_avro::{Schema, schema::Name};
use oracle::answer::{self, Answer};
use oracle::plain::{self, number};
use std::collections::HashMap;
use std::hint::black_box;
use std::time::Instant;

/// Calls that are timed together take about this many nanoseconds.
const BATCH: f64 = 1_000_000.0;

/// The crate with the schema frame read each time, the crate with the schema kept, Hulmbax, and the
/// older archive where there is one.
pub const SIDES: usize = 2 + hulmbax::COUNT;

/// The least time of a call in nanoseconds, for each side.
pub type Times = [f64; SIDES];

struct Sides<'a> {
    row: &'a Row,
    schema: Schema,
    names: HashMap<Name, Schema>,
    out: Vec<u8>,
    buffers: [Buffers; hulmbax::COUNT],
}

impl<'a> Sides<'a> {
    fn new(row: &'a Row) -> Self {
        let schema = read_schema(&row.schema).expect("the schema is a frame");
        Sides { row, schema, names: HashMap::new(), out: Vec::with_capacity(70_000), buffers: Buffers::all() }
    }

    /// One call for the i-th value.
    fn call(&mut self, side: usize, i: usize) {
        let value = black_box(&self.row.values[i]);
        match side {
            0 => {
                let schema = read_schema(black_box(&self.row.schema)).unwrap();
                black_box(crate_call(&schema, &self.names, value, &mut self.out)).ok();
            }
            1 => {
                black_box(crate_call(&self.schema, &self.names, value, &mut self.out)).ok();
            }
            _ => {
                black_box(self.buffers[side - 2].call(black_box(&self.row.schema), value));
            }
        }
    }

    /// Whether the crate as timed, the crate as the comparison asks it, and each archive give the
    /// same bytes or number for each value.
    fn alike(&mut self) -> bool {
        let wanted = plain::of_case(&(self.row.schema.clone(), self.row.values.clone()));
        let mut alike = true;
        for (value, wanted) in self.row.values.iter().zip(wanted) {
            let lean = crate_call(&self.schema, &self.names, value, &mut self.out).map(|()| self.out.clone());
            for buffers in &mut self.buffers {
                let given = buffers.answer(&self.row.schema, value);
                alike &= lean == given && wanted.line() == as_answer(given).line();
            }
        }
        alike
    }

    /// Nanoseconds per call over n rounds of all values.
    fn time(&mut self, side: usize, n: usize) -> f64 {
        let begin = Instant::now();
        for _ in 0..n {
            (0..self.row.values.len()).for_each(|i| self.call(side, i));
        }
        begin.elapsed().as_nanos() as f64 / (n * self.row.values.len()) as f64
    }
}

fn as_answer(given: Result<Vec<u8>, u8>) -> Answer {
    given.map_or_else(answer::refused, Answer::Accepted)
}

/// Frame to `Value`, resolution, `Value` to frame.
pub fn crate_call(
    s: &Schema,
    names: &HashMap<Name, Schema>,
    frame: &[u8],
    out: &mut Vec<u8>,
) -> Result<(), u8> {
    let value = read_value(frame).ok_or(5)?;
    let resolved = value.resolve_with_names(s, names).map_err(|e| number(&e))?;
    out.clear();
    write_value(out, &resolved);
    Ok(())
}

/// The least times of a row over so many rounds; the sides take turns. `None`: they differ.
pub fn times(row: &Row, rounds: usize) -> Option<Times> {
    let mut sides = Sides::new(row);
    if !sides.alike() {
        return None;
    }
    let batch: [usize; SIDES] = std::array::from_fn(|side| {
        let once = sides.time(side, 1).min(sides.time(side, 1)) * row.values.len() as f64;
        ((BATCH / once) as usize).max(1)
    });
    let mut least = [f64::MAX; SIDES];
    for _ in 0..rounds {
        for side in 0..SIDES {
            least[side] = least[side].min(sides.time(side, batch[side]));
        }
    }
    Some(least)
}

/// The least time of filling so many bytes with zero.
pub fn clearing(len: usize, rounds: usize) -> f64 {
    let mut bytes = vec![1u8; len];
    let mut least = f64::MAX;
    for _ in 0..rounds {
        let begin = Instant::now();
        (0..1000).for_each(|_| black_box(&mut bytes).fill(0));
        least = least.min(begin.elapsed().as_nanos() as f64 / 1000.0);
    }
    least
}
