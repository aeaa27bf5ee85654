//! The entry on damaged frames, for a run under valgrind: each slice is a heap block of just its
//! length, and the result buffer is left as the allocator gives it. The workspace holds junk: the
//! entry reads it to see what of it is not zero.
use crate::entry::{WORKSPACE, hulmbax_resolve, right, with_lengths};
use oracle::answer::Answer;
use oracle::frame::{MAX_FRAME, hex};
use oracle::generate::{Rng, cases, damage};
use oracle::patched;

unsafe extern "C" {
    fn malloc(len: usize) -> *mut u8;
    fn free(pointer: *mut u8);
}

/// A heap block whose bytes nobody has set. Valgrind reports a decision that rests on one, and
/// every access past its length, be it 0.
struct Block(*mut u8);

impl Block {
    fn new(len: usize) -> Self {
        Block(unsafe { malloc(len) })
    }

    fn of(bytes: &[u8]) -> Self {
        let block = Block::new(bytes.len());
        unsafe { block.0.copy_from(bytes.as_ptr(), bytes.len()) };
        block
    }

    fn begins_with(&self, bytes: &[u8]) -> bool {
        *bytes == *unsafe { std::slice::from_raw_parts(self.0, bytes.len()) }
    }
}

impl Drop for Block {
    fn drop(&mut self) {
        unsafe { free(self.0) }
    }
}

pub fn memory(n: usize, seed: u64) -> bool {
    let mut r = Rng::new(seed);
    let (mut damaged, mut calls, mut differ) = (0, 0, 0);
    for given in cases(seed, usize::MAX) {
        if damaged >= n {
            break;
        }
        let (schema, values) = given.case;
        let broken_schema = r.percent(40);
        let schema = if broken_schema { damage(&mut r, schema) } else { schema };
        damaged += broken_schema as usize;
        let values: Vec<Vec<u8>> = values.into_iter().take(6).map(|v| damage(&mut r, v)).collect();
        damaged += values.len();
        let case = (schema, values);
        for (value, want) in case.1.iter().zip(patched::of_case(&case)) {
            for result in lengths(&want) {
                calls += 1;
                if !call(&case.0, value, result, &with_lengths(&want, result, WORKSPACE)) {
                    differ += 1;
                    println!(
                        "schema {} value {} buffer {result}: want {}",
                        hex(&case.0),
                        hex(value),
                        want.line()
                    );
                }
            }
        }
    }
    println!("{damaged} damaged frames, {calls} calls of the entry, {differ} differ");
    differ == 0
}

/// Lengths of the result buffer: just enough and one short, or none and the longest.
fn lengths(want: &Answer) -> [usize; 2] {
    match want {
        Answer::Accepted(b) => [b.len(), b.len() - 1],
        _ => [0, MAX_FRAME],
    }
}

fn call(schema: &[u8], record: &[u8], result_len: usize, want: &Answer) -> bool {
    let (schema_block, record_block) = (Block::of(schema), Block::of(record));
    let (result, workspace) = (Block::new(result_len), Block::of(&[0xa5; WORKSPACE]));
    let given = unsafe {
        hulmbax_resolve(
            schema_block.0,
            schema.len(),
            record_block.0,
            record.len(),
            result.0,
            result_len,
            workspace.0,
            WORKSPACE,
        )
    };
    let written: &[u8] = match want {
        Answer::Accepted(b) => b,
        _ => &[],
    };
    right(want, given) && result.begins_with(written) && workspace.begins_with(&[0; WORKSPACE])
}
