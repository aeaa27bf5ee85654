// Numbers, texts and flags of a frame: reading and writing them.
use super::{FrameError, MAX_FRAME};

type Result<T> = std::result::Result<T, FrameError>;

/// What is left of a frame that is being read.
pub(crate) struct Input<'a> {
    rest: &'a [u8],
}

impl<'a> Input<'a> {
    pub(crate) fn new(frame: &'a [u8]) -> Result<Input<'a>> {
        if frame.len() > MAX_FRAME {
            return Err(FrameError::TooLong);
        }
        Ok(Input { rest: frame })
    }

    /// Nothing may be left after the root.
    pub(crate) fn end(self) -> Result<()> {
        match self.rest.len() {
            0 => Ok(()),
            n => Err(FrameError::Rest(n)),
        }
    }

    fn take(&mut self, n: usize) -> Result<&'a [u8]> {
        let (taken, rest) = self.rest.split_at_checked(n).ok_or(FrameError::Short)?;
        self.rest = rest;
        Ok(taken)
    }

    /// The next N bytes; numbers have their high byte first.
    pub(crate) fn array<const N: usize>(&mut self) -> Result<[u8; N]> {
        let (taken, rest) = self.rest.split_first_chunk().ok_or(FrameError::Short)?;
        self.rest = rest;
        Ok(*taken)
    }

    pub(crate) fn byte(&mut self) -> Result<u8> {
        self.array().map(|[byte]| byte)
    }

    /// A count, a length, a size or a position.
    pub(crate) fn count(&mut self) -> Result<u16> {
        self.array().map(u16::from_be_bytes)
    }

    /// An index, a precision or a scale.
    pub(crate) fn index(&mut self) -> Result<u32> {
        self.array().map(u32::from_be_bytes)
    }

    pub(crate) fn int(&mut self) -> Result<i32> {
        self.array().map(i32::from_be_bytes)
    }

    pub(crate) fn long(&mut self) -> Result<i64> {
        self.array().map(i64::from_be_bytes)
    }

    pub(crate) fn flag(&mut self) -> Result<bool> {
        match self.byte()? {
            0 => Ok(false),
            1 => Ok(true),
            other => Err(FrameError::Flag(other)),
        }
    }

    pub(crate) fn octets(&mut self) -> Result<Vec<u8>> {
        let n = self.count()?;
        self.take(n.into()).map(<[u8]>::to_vec)
    }

    pub(crate) fn text(&mut self) -> Result<String> {
        String::from_utf8(self.octets()?).map_err(|_| FrameError::Utf8)
    }

    /// A count, and so many of what `one` reads.
    pub(crate) fn list<T>(
        &mut self,
        mut one: impl FnMut(&mut Self) -> Result<T>,
    ) -> Result<Vec<T>> {
        let n = self.count()?;
        (0..n).map(|_| one(self)).collect()
    }
}

/// A frame that is being written.
#[derive(Default)]
pub(crate) struct Output {
    bytes: Vec<u8>,
}

impl Output {
    pub(crate) fn end(self) -> Result<Vec<u8>> {
        if self.bytes.len() > MAX_FRAME {
            return Err(FrameError::TooLong);
        }
        Ok(self.bytes)
    }

    pub(crate) fn raw(&mut self, bytes: &[u8]) {
        self.bytes.extend_from_slice(bytes);
    }

    pub(crate) fn byte(&mut self, byte: u8) {
        self.bytes.push(byte);
    }

    pub(crate) fn flag(&mut self, flag: bool) {
        self.byte(flag.into());
    }

    /// A count, a length or a size, in 2 bytes.
    pub(crate) fn count(&mut self, n: usize) -> Result<()> {
        let n = u16::try_from(n).map_err(|_| FrameError::TooLarge)?;
        self.raw(&n.to_be_bytes());
        Ok(())
    }

    /// A precision or a scale, in 4 bytes.
    pub(crate) fn wide(&mut self, n: usize) -> Result<()> {
        let n = u32::try_from(n).map_err(|_| FrameError::TooLarge)?;
        self.raw(&n.to_be_bytes());
        Ok(())
    }

    pub(crate) fn octets(&mut self, bytes: &[u8]) -> Result<()> {
        self.count(bytes.len())?;
        self.raw(bytes);
        Ok(())
    }

    pub(crate) fn text(&mut self, text: &str) -> Result<()> {
        self.octets(text.as_bytes())
    }
}
