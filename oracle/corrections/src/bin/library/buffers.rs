//! Slices in the middle of junk, so that every byte that a call changes is seen.
use crate::entry::Slice;
use corrections::random::Rng;

/// Junk on each side of a slice, in items.
const MARGIN: usize = 48;
/// The longest slice that is filled with junk.
pub const MOST: usize = 80_000;
/// How much junk there is of either sort.
const STOCK: usize = 2 * MOST;

/// Junk to fill with; copies begin at any place in it. The front is bytes of any sort, the rest is zero
/// but for a few.
pub struct Junk(Vec<u8>);

impl Junk {
    pub fn new(r: &mut Rng) -> Self {
        let mut bytes = r.bytes(STOCK);
        bytes.extend((0..STOCK).map(|_| if r.below(20_000) == 0 { 0xa5 } else { 0 }));
        Junk(bytes)
    }

    /// So many bytes of any sort.
    fn any(&self, len: usize, r: &mut Rng) -> &[u8] {
        let from = r.below(STOCK - len);
        &self.0[from..from + len]
    }

    /// So many bytes that may also be zero, all or in part.
    fn any_or_zero(&self, len: usize, r: &mut Rng) -> &[u8] {
        let from = r.below(self.0.len() - len);
        &self.0[from..from + len]
    }
}

/// Bytes that a call may write.
#[derive(Default)]
pub struct Written {
    arena: Vec<u8>,
    before: Vec<u8>,
    start: usize,
    len: usize,
}

impl Written {
    /// A slice of so many bytes of junk, at an odd address as often as at an even one.
    pub fn fill(&mut self, len: usize, junk: &Junk, r: &mut Rng) {
        self.lay_out(len, r);
        self.before.clear();
        self.before.extend_from_slice(junk.any(self.start + len + MARGIN, r));
        self.arena.clone_from(&self.before);
    }

    /// The same; the bytes may be zero, all or in part.
    pub fn fill_or_zero(&mut self, len: usize, junk: &Junk, r: &mut Rng) {
        self.lay_out(len, r);
        self.before.clear();
        self.before.extend_from_slice(junk.any_or_zero(self.start + len + MARGIN, r));
        self.arena.clone_from(&self.before);
    }

    fn lay_out(&mut self, len: usize, r: &mut Rng) {
        self.start = MARGIN + r.below(16);
        self.len = len;
    }

    pub fn slice(&mut self) -> Slice<u8> {
        (self.arena[self.start..].as_mut_ptr(), self.len)
    }

    /// What a call that answers `given` says it has written, as far as the slice goes.
    pub fn front(&self, given: i32) -> &[u8] {
        let len = usize::try_from(given).unwrap_or(0).min(self.len);
        &self.arena[self.start..self.start + len]
    }

    /// Whether the slice begins with `bytes` now and all else is as it was.
    pub fn holds(&self, bytes: &[u8]) -> bool {
        let end = self.start + bytes.len();
        bytes.len() <= self.len
            && self.arena[self.start..end] == *bytes
            && self.arena[..self.start] == self.before[..self.start]
            && self.arena[end..] == self.before[end..]
    }
}

/// Bytes or numbers that a call may only read.
#[derive(Default)]
pub struct Read<T> {
    arena: Vec<T>,
    before: Vec<T>,
    start: usize,
    len: usize,
}

impl<T: Copy + PartialEq> Read<T> {
    /// A slice of these items between junk.
    pub fn hold(&mut self, items: &[T], junk: impl Fn(&mut Rng) -> T, r: &mut Rng) {
        self.start = MARGIN + r.below(16);
        self.len = items.len();
        self.before.clear();
        self.before.extend((0..self.start).map(|_| junk(r)));
        self.before.extend_from_slice(items);
        self.before.extend((0..MARGIN).map(|_| junk(r)));
        self.arena.clone_from(&self.before);
    }

    pub fn slice(&mut self) -> Slice<T> {
        (self.arena[self.start..].as_mut_ptr(), self.len)
    }

    pub fn unchanged(&self) -> bool {
        self.arena == self.before
    }
}
