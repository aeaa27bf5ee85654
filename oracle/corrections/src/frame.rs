//! Value frames, read as docs/RULES.md has them ("Frames").

/// The longest frame.
pub const MAX_FRAME: usize = 65_535;
/// The depth of the deepest node; the root's is 1.
pub const MAX_DEPTH: usize = 16;

/// A node. Of those that Q-7 asks nothing of, only what they hold is kept.
#[derive(Debug, PartialEq)]
pub enum Value<'a> {
    Long(i64),
    String(&'a str),
    Array(Vec<Value<'a>>),
    Map(Fields<'a>),
    Union(Box<Value<'a>>),
    Record(Fields<'a>),
    /// a node without children that is neither Long nor String
    Leaf,
}

/// What a Record or a Map holds, in its order.
pub type Fields<'a> = Vec<(&'a str, Value<'a>)>;

/// The value of a frame that refusal 5 would not stop.
pub fn read(frame: &[u8]) -> Option<Value<'_>> {
    if frame.is_empty() || frame.len() > MAX_FRAME {
        return None;
    }
    let mut rest = Rest(frame);
    let value = rest.node(1)?;
    (rest.0.is_empty() && keys_rise(&value)).then_some(value)
}

/// Whether the keys of every Map rise strictly by their bytes.
fn keys_rise(value: &Value) -> bool {
    match value {
        Value::Long(_) | Value::String(_) | Value::Leaf => true,
        Value::Union(inner) => keys_rise(inner),
        Value::Array(items) => items.iter().all(keys_rise),
        Value::Record(fields) => fields.iter().all(|(_, v)| keys_rise(v)),
        Value::Map(entries) => {
            entries.windows(2).all(|pair| pair[0].0.as_bytes() < pair[1].0.as_bytes())
                && entries.iter().all(|(_, v)| keys_rise(v))
        }
    }
}

/// What is left to read.
struct Rest<'a>(&'a [u8]);

impl<'a> Rest<'a> {
    fn take(&mut self, len: usize) -> Option<&'a [u8]> {
        let (taken, rest) = self.0.split_at_checked(len)?;
        self.0 = rest;
        Some(taken)
    }

    fn skip(&mut self, len: usize) -> Option<Value<'a>> {
        self.take(len).map(|_| Value::Leaf)
    }

    /// A count or a length: 2 bytes, high byte first.
    fn count(&mut self) -> Option<usize> {
        let taken = self.take(2)?;
        Some(usize::from(taken[0]) * 256 + usize::from(taken[1]))
    }

    fn bytes(&mut self) -> Option<&'a [u8]> {
        let len = self.count()?;
        self.take(len)
    }

    fn text(&mut self) -> Option<&'a str> {
        std::str::from_utf8(self.bytes()?).ok()
    }

    /// The content of a Record or a Map, whose nodes are at this depth.
    fn fields(&mut self, depth: usize) -> Option<Fields<'a>> {
        let count = self.count()?;
        (0..count).map(|_| Some((self.text()?, self.node(depth)?))).collect()
    }

    fn node(&mut self, depth: usize) -> Option<Value<'a>> {
        if depth > MAX_DEPTH {
            return None;
        }
        match self.take(1)?[0] {
            0x00 => Some(Value::Leaf),
            0x01 => (self.take(1)?[0] <= 1).then_some(Value::Leaf),
            0x02 | 0x04 | 0x10 | 0x11 => self.skip(4),
            0x03 => Some(Value::Long(i64::from_be_bytes(self.take(8)?.try_into().ok()?))),
            0x05 | 0x12..=0x18 => self.skip(8),
            0x06 | 0x0d | 0x0e => self.bytes().map(|_| Value::Leaf),
            0x07 => self.text().map(Value::String),
            0x08 => {
                let count = self.count()?;
                (0..count).map(|_| self.node(depth + 1)).collect::<Option<_>>().map(Value::Array)
            }
            0x09 => self.fields(depth + 1).map(Value::Map),
            0x0a => {
                self.take(4)?;
                Some(Value::Union(Box::new(self.node(depth + 1)?)))
            }
            0x0b => self.fields(depth + 1).map(Value::Record),
            0x0c => {
                self.take(4)?;
                self.text().map(|_| Value::Leaf)
            }
            0x0f => self.skip(16),
            0x19 => self.skip(12),
            _ => None,
        }
    }
}
