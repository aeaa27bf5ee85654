//! The C entry of libhulmbax.a, with buffers that are kept from call to call; and that of an older
//! archive where there is one.
use oracle::frame::MAX_FRAME;

/// What the workspace must have; each call clears it.
pub const WORKSPACE: usize = 65_536;

/// Schema, record, result and workspace, each with its length. n at least 1: accepted, n bytes
/// written. -k: refused with number k.
type Entry = unsafe extern "C" fn(*const u8, usize, *const u8, usize, *mut u8, usize, *mut u8, usize) -> i32;

/// Declares entries, which all have the same parameters.
macro_rules! entries {
    ($($(#[$when:meta])? $name:ident),*) => {
        unsafe extern "C" {
            $($(#[$when])? fn $name(
                schema: *const u8,
                schema_len: usize,
                record: *const u8,
                record_len: usize,
                result: *mut u8,
                result_len: usize,
                workspace: *mut u8,
                workspace_len: usize,
            ) -> i32;)*
        }

        const ENTRIES: &[Entry] = &[$($(#[$when])? $name),*];
    };
}

// the entry, and the one of the older archive
entries!(
    hulmbax_resolve,
    #[cfg(before)]
    before_resolve
);

/// How many entries there are.
pub const COUNT: usize = ENTRIES.len();

/// An entry, its result buffer and its workspace.
pub struct Buffers {
    entry: Entry,
    result: Vec<u8>,
    workspace: Vec<u8>,
}

impl Buffers {
    pub fn new() -> Self {
        Self::of(ENTRIES[0])
    }

    /// For each entry its own.
    pub fn all() -> [Self; COUNT] {
        std::array::from_fn(|i| Self::of(ENTRIES[i]))
    }

    fn of(entry: Entry) -> Self {
        Buffers { entry, result: vec![0; MAX_FRAME], workspace: vec![0; WORKSPACE] }
    }

    /// The result's length, or the refusal negated.
    pub fn call(&mut self, schema: &[u8], record: &[u8]) -> i32 {
        unsafe {
            (self.entry)(
                schema.as_ptr(),
                schema.len(),
                record.as_ptr(),
                record.len(),
                self.result.as_mut_ptr(),
                self.result.len(),
                self.workspace.as_mut_ptr(),
                self.workspace.len(),
            )
        }
    }

    /// The answer of a call: the result's bytes or the number.
    pub fn answer(&mut self, schema: &[u8], record: &[u8]) -> Result<Vec<u8>, u8> {
        match self.call(schema, record) {
            n if n > 0 => Ok(self.result[..n as usize].to_vec()),
            k => Err(-k as u8),
        }
    }
}
