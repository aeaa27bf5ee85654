//! The C entry.
use corrections::reading::Answer;

unsafe extern "C" {
    /// The number of places written, 0 to 256; or -k, refused with number k.
    fn hulmbax_current(
        input: *const u8,
        input_len: usize,
        ends: *const usize,
        ends_len: usize,
        result: *mut u8,
        result_len: usize,
        workspace: *mut u8,
        workspace_len: usize,
    ) -> i32;
}

/// A pointer and a length.
pub type Slice<T> = (*mut T, usize);

/// Calls the entry.
///
/// # Safety
/// Each slice is memory that the entry may read, and the last two such that it may write.
pub unsafe fn current(input: Slice<u8>, ends: Slice<usize>, result: Slice<u8>, workspace: Slice<u8>) -> i32 {
    unsafe { hulmbax_current(input.0, input.1, ends.0, ends.1, result.0, result.1, workspace.0, workspace.1) }
}

/// What the entry gives for an answer.
pub fn given(answer: &Answer) -> i32 {
    match answer {
        Ok(places) => places.len() as i32,
        Err(number) => -i32::from(*number),
    }
}
