//! Frames, the bytes that the library reads and writes, and its entries over them.
//!
//! [`Reader`](crate::Reader), [`current`](crate::current) and [`calendar`](crate::calendar) make the
//! frames themselves; this module is for a program that has frames already, or that keeps buffers of
//! its own. docs/RULES.md at the top of the repository says what the bytes of a frame are.

pub(crate) mod bytes;
mod error;
pub mod kind;

pub use crate::ffi::{
    add, current, holds, resolve, MAX_FINISHES, RESULT_LEN, SUM_LEN, WORKSPACE_LEN,
};
pub use error::FrameError;

/// The longest frame.
pub const MAX_FRAME: usize = 65_535;

/// The depth of the deepest node; the root's is 1, and a default's is 1 again.
pub const MAX_DEPTH: usize = 16;
