//! Numbers and texts at the front of what is left of a frame.

pub struct Reader<'a>(pub &'a [u8]);

impl<'a> Reader<'a> {
    pub fn take(&mut self, n: usize) -> Option<&'a [u8]> {
        let (front, rest) = self.0.split_at_checked(n)?;
        self.0 = rest;
        Some(front)
    }
    pub fn n8(&mut self) -> Option<u8> {
        Some(self.take(1)?[0])
    }
    pub fn n16(&mut self) -> Option<usize> {
        Some(u16::from_be_bytes(self.take(2)?.try_into().ok()?) as usize)
    }
    pub fn n32(&mut self) -> Option<u32> {
        Some(u32::from_be_bytes(self.take(4)?.try_into().ok()?))
    }
    pub fn n64(&mut self) -> Option<i64> {
        Some(i64::from_be_bytes(self.take(8)?.try_into().ok()?))
    }
    pub fn flag(&mut self) -> Option<bool> {
        match self.n8()? {
            0 => Some(false),
            1 => Some(true),
            _ => None,
        }
    }
    pub fn bytes(&mut self) -> Option<Vec<u8>> {
        let n = self.n16()?;
        Some(self.take(n)?.to_vec())
    }
    pub fn part(&mut self) -> Option<&'a str> {
        let n = self.n16()?;
        std::str::from_utf8(self.take(n)?).ok()
    }
    pub fn text(&mut self) -> Option<String> {
        Some(self.part()?.to_string())
    }
}
