//! Nodes as bytes. Names and texts are given as bytes too, so that wrong ones can be written.

/// A kind byte and its content.
pub type Node = Vec<u8>;
/// What a Record or a Map is to hold.
pub type Field = (Vec<u8>, Node);

pub const NULL: u8 = 0x00;
pub const BOOLEAN: u8 = 0x01;
pub const INT: u8 = 0x02;
pub const LONG: u8 = 0x03;
pub const DOUBLE: u8 = 0x05;
pub const BYTES: u8 = 0x06;
pub const STRING: u8 = 0x07;
pub const ARRAY: u8 = 0x08;
pub const MAP: u8 = 0x09;
pub const UNION: u8 = 0x0a;
pub const RECORD: u8 = 0x0b;
pub const ENUM: u8 = 0x0c;
pub const FIXED: u8 = 0x0d;
pub const DECIMAL: u8 = 0x0e;
pub const UUID: u8 = 0x0f;
pub const DATE: u8 = 0x10;
pub const TIMESTAMP_MILLIS: u8 = 0x13;
pub const DURATION: u8 = 0x19;

/// A node whose content is just these bytes.
pub fn plain(kind: u8, content: &[u8]) -> Node {
    [&[kind], content].concat()
}

pub fn int(n: i32) -> Node {
    plain(INT, &n.to_be_bytes())
}

pub fn long(n: i64) -> Node {
    plain(LONG, &n.to_be_bytes())
}

/// A count or a length.
fn count(n: usize) -> [u8; 2] {
    u16::try_from(n).expect("a count has 2 bytes").to_be_bytes()
}

/// A node of a length and so many bytes: Bytes, String, Fixed, Decimal.
pub fn counted(kind: u8, bytes: &[u8]) -> Node {
    [&[kind], &count(bytes.len())[..], bytes].concat()
}

pub fn string(text: impl AsRef<[u8]>) -> Node {
    counted(STRING, text.as_ref())
}

pub fn symbol(index: u32, text: &[u8]) -> Node {
    [&[ENUM], &index.to_be_bytes()[..], &count(text.len()), text].concat()
}

pub fn union(index: u32, node: &[u8]) -> Node {
    [&[UNION], &index.to_be_bytes()[..], node].concat()
}

pub fn array(items: &[Node]) -> Node {
    [&[ARRAY], &count(items.len())[..], &items.concat()].concat()
}

pub fn field(name: &str, node: Node) -> Field {
    (name.as_bytes().to_vec(), node)
}

/// A Record or a Map of these, in this order.
pub fn fields(kind: u8, fields: &[Field]) -> Node {
    let len = fields.iter().map(|(name, node)| 2 + name.len() + node.len()).sum::<usize>();
    let mut bytes = Vec::with_capacity(3 + len);
    bytes.push(kind);
    bytes.extend_from_slice(&count(fields.len()));
    for (name, node) in fields {
        bytes.extend_from_slice(&count(name.len()));
        bytes.extend_from_slice(name);
        bytes.extend_from_slice(node);
    }
    bytes
}

pub fn record(of: &[Field]) -> Node {
    fields(RECORD, of)
}

pub fn map(of: &[Field]) -> Node {
    fields(MAP, of)
}

/// A record of a sail and its number, and no more.
pub fn finish(sail: impl AsRef<[u8]>, seq: i64) -> Node {
    record(&[field("sail", string(sail)), field("seq", long(seq))])
}
