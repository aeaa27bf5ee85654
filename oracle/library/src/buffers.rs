//! A slice in the middle of junk, so that every byte that a call changes is seen.
use oracle::generate::Rng;

/// Junk on each side of a slice.
const MARGIN: usize = 64;
/// The longest slice.
pub const MOST: usize = 150_000;

/// Junk to fill with; copies begin at any place in it.
pub struct Junk(Vec<u8>);

impl Junk {
    pub fn new(r: &mut Rng) -> Self {
        Junk((0..2 * MOST).map(|_| r.u64() as u8).collect())
    }
}

/// A slice of an arena that is otherwise junk, and what the whole arena held.
pub struct Buffer {
    arena: Vec<u8>,
    before: Vec<u8>,
    start: usize,
    len: usize,
}

impl Buffer {
    pub fn new() -> Self {
        Buffer { arena: vec![], before: vec![], start: 0, len: 0 }
    }

    /// A slice of `len` junk bytes, at an address that need not be even.
    pub fn fill(&mut self, len: usize, junk: &Junk, r: &mut Rng) {
        self.len = len;
        self.start = MARGIN + r.below(16);
        let total = self.start + len + MARGIN;
        let from = r.below(junk.0.len() - total);
        self.before.clear();
        self.before.extend_from_slice(&junk.0[from..from + total]);
        self.arena.clone_from(&self.before);
    }

    /// A slice that holds these bytes.
    pub fn hold(&mut self, bytes: &[u8], junk: &Junk, r: &mut Rng) {
        self.fill(bytes.len(), junk, r);
        self.before[self.start..self.start + bytes.len()].copy_from_slice(bytes);
        self.arena.clone_from(&self.before);
    }

    pub fn pointer(&mut self) -> *mut u8 {
        self.arena[self.start..].as_mut_ptr()
    }

    pub fn len(&self) -> usize {
        self.len
    }

    /// So many bytes of the slice, from its start.
    pub fn first(&self, bytes: usize) -> &[u8] {
        &self.arena[self.start..self.start + bytes]
    }

    /// Whether the slice begins with `bytes` now and all else is as it was.
    pub fn holds(&self, bytes: &[u8]) -> bool {
        let end = self.start + bytes.len();
        bytes.len() <= self.len
            && self.arena[self.start..end] == *bytes
            && self.arena[..self.start] == self.before[..self.start]
            && self.arena[end..] == self.before[end..]
    }
}
