//! The C entry, and what the scope wants of a call.
use oracle::answer::Answer;
use oracle::frame::MAX_FRAME;

/// What the workspace must have.
pub const WORKSPACE: usize = 65_536;

unsafe extern "C" {
    /// n at least 1: accepted, n bytes written. -k: refused with number k.
    pub fn hulmbax_resolve(
        schema: *const u8,
        schema_len: usize,
        record: *const u8,
        record_len: usize,
        result: *mut u8,
        result_len: usize,
        workspace: *mut u8,
        workspace_len: usize,
    ) -> i32;
}

/// The answer with these lengths of result buffer and workspace, where `answer` is the one with
/// a buffer of 65,535 bytes and a workspace that passes 1.
pub fn with_lengths(answer: &Answer, result: usize, workspace: usize) -> Answer {
    match answer {
        _ if workspace < WORKSPACE => oracle::answer::refused(1),
        Answer::Accepted(b) if b.len() > result.min(MAX_FRAME) => oracle::answer::refused(18),
        a => a.clone(),
    }
}

/// Whether the entry must give this for that answer.
pub fn right(answer: &Answer, given: i32) -> bool {
    match answer {
        Answer::Accepted(b) => given == b.len() as i32,
        Answer::Refused(r) => given == -(r.number as i32),
        Answer::Panic(_) => false,
    }
}
