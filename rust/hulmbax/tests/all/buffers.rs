// What a call over frames leaves in the result buffer and in the workspace.
use crate::common::bytes;
use hulmbax::frame::{resolve, WORKSPACE_LEN};
use hulmbax::Refusal;

const LONG: &str = "03";
const INT: &str = "0200000e11";
const RESULT: &str = "030000000000000e11";

// The Int under the schema of a Long, which gives RESULT.
fn int_to_long(result: &mut [u8]) -> Result<usize, Refusal> {
    resolve(
        &bytes(LONG),
        &bytes(INT),
        result,
        &mut vec![0; WORKSPACE_LEN],
    )
}

#[test]
fn a_buffer_of_the_result_s_length_is_long_enough() {
    let mut result = [0xaa; 9];
    let n = int_to_long(&mut result);
    assert_eq!(n, Ok(9));
    assert_eq!(result.to_vec(), bytes(RESULT));
}

#[test]
fn a_longer_buffer_keeps_what_stands_after_the_result() {
    let mut result = [0xaa; 12];
    let n = int_to_long(&mut result);
    assert_eq!(n, Ok(9));
    assert_eq!(result[..9].to_vec(), bytes(RESULT));
    assert_eq!(result[9..], [0xaa; 3]);
}

#[test]
fn a_shorter_buffer_is_refused_and_left_as_it_was() {
    for length in 0..9 {
        let mut result = vec![0xaa; length];
        let n = int_to_long(&mut result);
        assert_eq!(n, Err(Refusal::ResultTooLong), "{length}");
        assert_eq!(result, vec![0xaa; length]);
    }
}

#[test]
fn a_refused_record_leaves_the_buffer_as_it_was() {
    // an array of two Ints, the second of which is a text
    let record = bytes("080002020000000107000161");
    let mut result = [0xaa; 64];
    let n = resolve(
        &bytes("0803"),
        &record,
        &mut result,
        &mut vec![0; WORKSPACE_LEN],
    );
    assert_eq!(n, Err(Refusal::Unsuited));
    assert_eq!(result, [0xaa; 64]);
}

#[test]
fn the_workspace_is_zero_after_each_call_and_the_bytes_after_it_are_kept() {
    let calls = [(LONG, INT), (LONG, "00"), (LONG, ""), ("1a", INT)];
    for (schema, record) in calls {
        let mut workspace = vec![0xbb; WORKSPACE_LEN + 7];
        let mut result = [0; 64];
        let _ = resolve(&bytes(schema), &bytes(record), &mut result, &mut workspace);
        let (used, after) = workspace.split_at(WORKSPACE_LEN);
        assert!(used.iter().all(|byte| *byte == 0), "{schema} with {record}");
        assert_eq!(after, [0xbb; 7]);
    }
}

#[test]
fn a_workspace_that_is_too_short_is_left_as_it_was() {
    for length in [0, 1, WORKSPACE_LEN - 1] {
        let mut workspace = vec![0xbb; length];
        let mut result = [0xaa; 64];
        let answer = resolve(&bytes(LONG), &bytes(INT), &mut result, &mut workspace);
        assert_eq!(answer, Err(Refusal::WorkspaceTooShort));
        assert_eq!(workspace, vec![0xbb; length]);
        assert_eq!(result, [0xaa; 64]);
    }
}

#[test]
fn a_workspace_serves_again_whatever_was_answered() {
    let mut workspace = vec![0; WORKSPACE_LEN];
    let mut result = [0; 64];
    for _ in 0..3 {
        let accepted = resolve(&bytes(LONG), &bytes(INT), &mut result, &mut workspace);
        assert_eq!(accepted, Ok(9));
        assert_eq!(result[..9].to_vec(), bytes(RESULT));
        let refused = resolve(&bytes(LONG), &bytes("00"), &mut result, &mut workspace);
        assert_eq!(refused, Err(Refusal::Unsuited));
    }
}

#[test]
fn threads_call_at_the_same_time() {
    let calls: Vec<_> = (0..4)
        .map(|_| {
            std::thread::spawn(|| {
                let mut result = [0; 64];
                let mut workspace = vec![0; WORKSPACE_LEN];
                (0..100).all(|_| {
                    resolve(&bytes(LONG), &bytes(INT), &mut result, &mut workspace) == Ok(9)
                        && result[..9] == bytes(RESULT)
                })
            })
        })
        .collect();
    assert!(calls.into_iter().all(|call| call.join().unwrap()));
}
