//! Frames of the scope: plain trees, reader, writer, and the checks 2, 3 and 5, written
//! from the document alone (nothing of the crate is used here).

pub const MAX_FRAME: usize = 65_535;
pub const MAX_DEPTH: usize = 16;

/// A value node.
#[derive(Clone, Debug, PartialEq)]
pub enum Value {
    Null,
    Bool(bool),
    Int(i32),
    Long(i64),
    /// the bits
    Float(u32),
    /// the bits
    Double(u64),
    Bytes(Vec<u8>),
    Str(String),
    Array(Vec<Value>),
    Map(Vec<(String, Value)>),
    Union(u32, Box<Value>),
    Record(Vec<(String, Value)>),
    Enum(u32, String),
    Fixed(Vec<u8>),
    Decimal(Vec<u8>),
    Uuid([u8; 16]),
    /// kinds 10 and 11
    Time32(u8, i32),
    /// kinds 12 to 18
    Time64(u8, i64),
    Duration([u8; 12]),
}

/// A schema node.
#[derive(Clone, Debug, PartialEq)]
pub enum Schema {
    /// 00 to 07 and 10 to 18
    Plain(u8),
    Array(Box<Schema>),
    Map(Box<Schema>),
    Union(Union),
    Record(Vec<Field>),
    Enum(Vec<String>, Option<String>),
    Fixed(u16),
    Decimal(u32, u32, Option<u16>),
    UuidBytes,
    UuidString,
    UuidFixed(u16),
    Duration(u16),
}

#[derive(Clone, Debug, PartialEq)]
pub struct Union {
    pub variants: Vec<Schema>,
    pub kinds: Vec<(u8, u16)>,
    pub named: Vec<u16>,
}

#[derive(Clone, Debug, PartialEq)]
pub struct Field {
    pub name: String,
    pub default: Option<Value>,
    pub schema: Schema,
}

pub const NULL: Schema = Schema::Plain(0);
pub const BOOLEAN: Schema = Schema::Plain(1);
pub const INT: Schema = Schema::Plain(2);
pub const LONG: Schema = Schema::Plain(3);
pub const FLOAT: Schema = Schema::Plain(4);
pub const DOUBLE: Schema = Schema::Plain(5);
pub const BYTES: Schema = Schema::Plain(6);
pub const STRING: Schema = Schema::Plain(7);

impl Value {
    pub fn text(t: &str) -> Self {
        Value::Str(t.into())
    }
    pub fn union(index: u32, v: Value) -> Self {
        Value::Union(index, Box::new(v))
    }
    pub fn kind(&self) -> u8 {
        match self {
            Value::Null => 0,
            Value::Bool(_) => 1,
            Value::Int(_) => 2,
            Value::Long(_) => 3,
            Value::Float(_) => 4,
            Value::Double(_) => 5,
            Value::Bytes(_) => 6,
            Value::Str(_) => 7,
            Value::Array(_) => 8,
            Value::Map(_) => 9,
            Value::Union(..) => 0x0a,
            Value::Record(_) => 0x0b,
            Value::Enum(..) => 0x0c,
            Value::Fixed(_) => 0x0d,
            Value::Decimal(_) => 0x0e,
            Value::Uuid(_) => 0x0f,
            Value::Time32(k, _) => *k,
            Value::Time64(k, _) => *k,
            Value::Duration(_) => 0x19,
        }
    }
}

impl Field {
    pub fn new(name: &str, default: Option<Value>, schema: Schema) -> Self {
        Field { name: name.into(), default, schema }
    }
}

impl Schema {
    pub fn array(items: Schema) -> Self {
        Schema::Array(Box::new(items))
    }
    pub fn map(values: Schema) -> Self {
        Schema::Map(Box::new(values))
    }
    pub fn kind(&self) -> u8 {
        match self {
            Schema::Plain(k) => *k,
            Schema::Array(_) => 8,
            Schema::Map(_) => 9,
            Schema::Union(_) => 0x0a,
            Schema::Record(_) => 0x0b,
            Schema::Enum(..) => 0x0c,
            Schema::Fixed(_) => 0x0d,
            Schema::Decimal(..) => 0x0e,
            Schema::UuidBytes | Schema::UuidString | Schema::UuidFixed(_) => 0x0f,
            Schema::Duration(_) => 0x19,
        }
    }
}

// ---------------------------------------------------------------- reading

/// No frame.
#[derive(Debug)]
pub struct Broken;
type Read<T> = Result<T, Broken>;

struct Reader<'a> {
    b: &'a [u8],
    p: usize,
}

impl<'a> Reader<'a> {
    fn take(&mut self, n: usize) -> Read<&'a [u8]> {
        if self.b.len() - self.p < n {
            return Err(Broken);
        }
        let s = &self.b[self.p..self.p + n];
        self.p += n;
        Ok(s)
    }
    fn u8(&mut self) -> Read<u8> {
        Ok(self.take(1)?[0])
    }
    fn u16(&mut self) -> Read<u16> {
        let s = self.take(2)?;
        Ok(u16::from_be_bytes([s[0], s[1]]))
    }
    fn u32(&mut self) -> Read<u32> {
        let s = self.take(4)?;
        Ok(u32::from_be_bytes([s[0], s[1], s[2], s[3]]))
    }
    fn u64(&mut self) -> Read<u64> {
        let s = self.take(8)?;
        Ok(u64::from_be_bytes(s.try_into().unwrap()))
    }
    fn bytes(&mut self) -> Read<Vec<u8>> {
        let n = self.u16()? as usize;
        Ok(self.take(n)?.to_vec())
    }
    fn text(&mut self) -> Read<String> {
        String::from_utf8(self.bytes()?).map_err(|_| Broken)
    }
    fn flag(&mut self) -> Read<bool> {
        match self.u8()? {
            0 => Ok(false),
            1 => Ok(true),
            _ => Err(Broken),
        }
    }

    fn value(&mut self, depth: usize) -> Read<Value> {
        if depth > MAX_DEPTH {
            return Err(Broken);
        }
        Ok(match self.u8()? {
            0x00 => Value::Null,
            0x01 => Value::Bool(self.flag()?),
            0x02 => Value::Int(self.u32()? as i32),
            0x03 => Value::Long(self.u64()? as i64),
            0x04 => Value::Float(self.u32()?),
            0x05 => Value::Double(self.u64()?),
            0x06 => Value::Bytes(self.bytes()?),
            0x07 => Value::Str(self.text()?),
            0x08 => {
                let n = self.u16()?;
                let mut v = Vec::new();
                for _ in 0..n {
                    v.push(self.value(depth + 1)?);
                }
                Value::Array(v)
            }
            k @ (0x09 | 0x0b) => {
                let n = self.u16()?;
                let mut v = Vec::new();
                for _ in 0..n {
                    let name = self.text()?;
                    v.push((name, self.value(depth + 1)?));
                }
                if k == 9 { Value::Map(v) } else { Value::Record(v) }
            }
            0x0a => {
                let i = self.u32()?;
                Value::Union(i, Box::new(self.value(depth + 1)?))
            }
            0x0c => {
                let i = self.u32()?;
                Value::Enum(i, self.text()?)
            }
            0x0d => Value::Fixed(self.bytes()?),
            0x0e => Value::Decimal(self.bytes()?),
            0x0f => Value::Uuid(self.take(16)?.try_into().unwrap()),
            k @ (0x10 | 0x11) => Value::Time32(k, self.u32()? as i32),
            k @ 0x12..=0x18 => Value::Time64(k, self.u64()? as i64),
            0x19 => Value::Duration(self.take(12)?.try_into().unwrap()),
            _ => return Err(Broken),
        })
    }

    fn schema(&mut self, depth: usize) -> Read<Schema> {
        if depth > MAX_DEPTH {
            return Err(Broken);
        }
        Ok(match self.u8()? {
            k @ (0x00..=0x07 | 0x10..=0x18) => Schema::Plain(k),
            0x08 => Schema::Array(Box::new(self.schema(depth + 1)?)),
            0x09 => Schema::Map(Box::new(self.schema(depth + 1)?)),
            0x0a => {
                let n = self.u16()?;
                let mut variants = Vec::new();
                for _ in 0..n {
                    variants.push(self.schema(depth + 1)?);
                }
                let n = self.u16()?;
                let mut kinds = Vec::new();
                for _ in 0..n {
                    let k = self.u8()?;
                    kinds.push((k, self.u16()?));
                }
                let n = self.u16()?;
                let mut named = Vec::new();
                for _ in 0..n {
                    named.push(self.u16()?);
                }
                Schema::Union(Union { variants, kinds, named })
            }
            0x0b => {
                let n = self.u16()?;
                let mut fields = Vec::new();
                for _ in 0..n {
                    let name = self.text()?;
                    let default = if self.flag()? { Some(self.value(1)?) } else { None };
                    let schema = self.schema(depth + 1)?;
                    fields.push(Field { name, default, schema });
                }
                Schema::Record(fields)
            }
            0x0c => {
                let n = self.u16()?;
                let mut symbols = Vec::new();
                for _ in 0..n {
                    symbols.push(self.text()?);
                }
                let default = if self.flag()? { Some(self.text()?) } else { None };
                Schema::Enum(symbols, default)
            }
            0x0d => Schema::Fixed(self.u16()?),
            0x0e => {
                let p = self.u32()?;
                let s = self.u32()?;
                let size = if self.flag()? { Some(self.u16()?) } else { None };
                Schema::Decimal(p, s, size)
            }
            0x0f => match self.u8()? {
                0 => Schema::UuidBytes,
                1 => Schema::UuidString,
                2 => Schema::UuidFixed(self.u16()?),
                _ => return Err(Broken),
            },
            0x19 => Schema::Duration(self.u16()?),
            _ => return Err(Broken),
        })
    }
}

fn frame_len(b: &[u8]) -> Read<()> {
    if b.is_empty() || b.len() > MAX_FRAME { Err(Broken) } else { Ok(()) }
}

/// Check 2.
pub fn read_schema(b: &[u8]) -> Read<Schema> {
    frame_len(b)?;
    let mut r = Reader { b, p: 0 };
    let s = r.schema(1)?;
    if r.p == b.len() { Ok(s) } else { Err(Broken) }
}

/// Check 5.
pub fn read_value(b: &[u8]) -> Read<Value> {
    frame_len(b)?;
    let mut r = Reader { b, p: 0 };
    let v = r.value(1)?;
    if r.p == b.len() && keys_rise(&v) { Ok(v) } else { Err(Broken) }
}

fn keys_rise(v: &Value) -> bool {
    match v {
        Value::Array(items) => items.iter().all(keys_rise),
        Value::Map(items) => {
            items.windows(2).all(|w| w[0].0.as_bytes() < w[1].0.as_bytes())
                && items.iter().all(|(_, v)| keys_rise(v))
        }
        Value::Record(items) => items.iter().all(|(_, v)| keys_rise(v)),
        Value::Union(_, v) => keys_rise(v),
        _ => true,
    }
}

// ---------------------------------------------------------------- check 3

pub fn schema_ok(s: &Schema) -> bool {
    match s {
        Schema::Plain(_)
        | Schema::Enum(..)
        | Schema::Fixed(_)
        | Schema::Decimal(..)
        | Schema::UuidBytes
        | Schema::UuidString => true,
        Schema::UuidFixed(n) => *n == 16,
        Schema::Duration(n) => *n == 12,
        Schema::Array(i) | Schema::Map(i) => schema_ok(i),
        Schema::Union(u) => {
            let n = u.variants.len();
            n > 0
                && u.variants.iter().all(|v| !matches!(v, Schema::Union(_)) && schema_ok(v))
                && u.kinds.iter().all(|&(k, p)| k <= 0x19 && (p as usize) < n)
                && u.kinds.windows(2).all(|w| w[0].0 < w[1].0)
                && u.named.iter().all(|&p| (p as usize) < n)
        }
        Schema::Record(fields) => {
            let mut names: Vec<&str> = fields.iter().map(|f| f.name.as_str()).collect();
            names.sort();
            names.windows(2).all(|w| w[0] != w[1])
                && fields.iter().all(|f| f.default.as_ref().is_none_or(default_ok) && schema_ok(&f.schema))
        }
    }
}

pub fn default_ok(v: &Value) -> bool {
    match v {
        Value::Null | Value::Bool(_) | Value::Int(_) | Value::Str(_) => true,
        Value::Long(n) => i32::try_from(*n).is_err(),
        Value::Double(bits) => f64::from_bits(*bits).is_finite(),
        Value::Array(items) => items.iter().all(default_ok),
        Value::Map(items) => {
            items.windows(2).all(|w| w[0].0.as_bytes() < w[1].0.as_bytes())
                && items.iter().all(|(_, v)| default_ok(v))
        }
        _ => false,
    }
}

// ---------------------------------------------------------------- writing

fn w16(out: &mut Vec<u8>, n: usize) {
    out.extend_from_slice(&(n as u16).to_be_bytes());
}
fn wtext(out: &mut Vec<u8>, b: &[u8]) {
    w16(out, b.len());
    out.extend_from_slice(b);
}

/// Writes a node. Lengths past 65,535 are cut to 16 bits: then the frame is too long anyhow.
pub fn write_value(out: &mut Vec<u8>, v: &Value) {
    out.push(v.kind());
    match v {
        Value::Null => {}
        Value::Bool(b) => out.push(*b as u8),
        Value::Int(n) | Value::Time32(_, n) => out.extend_from_slice(&n.to_be_bytes()),
        Value::Long(n) | Value::Time64(_, n) => out.extend_from_slice(&n.to_be_bytes()),
        Value::Float(b) => out.extend_from_slice(&b.to_be_bytes()),
        Value::Double(b) => out.extend_from_slice(&b.to_be_bytes()),
        Value::Bytes(b) | Value::Fixed(b) | Value::Decimal(b) => wtext(out, b),
        Value::Str(s) => wtext(out, s.as_bytes()),
        Value::Array(items) => {
            w16(out, items.len());
            items.iter().for_each(|i| write_value(out, i));
        }
        Value::Map(items) | Value::Record(items) => {
            w16(out, items.len());
            for (k, v) in items {
                wtext(out, k.as_bytes());
                write_value(out, v);
            }
        }
        Value::Union(i, v) => {
            out.extend_from_slice(&i.to_be_bytes());
            write_value(out, v);
        }
        Value::Enum(i, s) => {
            out.extend_from_slice(&i.to_be_bytes());
            wtext(out, s.as_bytes());
        }
        Value::Uuid(b) => out.extend_from_slice(b),
        Value::Duration(b) => out.extend_from_slice(b),
    }
}

pub fn write_schema(out: &mut Vec<u8>, s: &Schema) {
    out.push(s.kind());
    match s {
        Schema::Plain(_) => {}
        Schema::Array(i) | Schema::Map(i) => write_schema(out, i),
        Schema::Union(u) => {
            w16(out, u.variants.len());
            u.variants.iter().for_each(|v| write_schema(out, v));
            w16(out, u.kinds.len());
            for (k, p) in &u.kinds {
                out.push(*k);
                w16(out, *p as usize);
            }
            w16(out, u.named.len());
            u.named.iter().for_each(|p| w16(out, *p as usize));
        }
        Schema::Record(fields) => {
            w16(out, fields.len());
            for f in fields {
                wtext(out, f.name.as_bytes());
                match &f.default {
                    None => out.push(0),
                    Some(d) => {
                        out.push(1);
                        write_value(out, d);
                    }
                }
                write_schema(out, &f.schema);
            }
        }
        Schema::Enum(symbols, default) => {
            w16(out, symbols.len());
            symbols.iter().for_each(|s| wtext(out, s.as_bytes()));
            match default {
                None => out.push(0),
                Some(d) => {
                    out.push(1);
                    wtext(out, d.as_bytes());
                }
            }
        }
        Schema::Fixed(n) | Schema::Duration(n) => w16(out, *n as usize),
        Schema::Decimal(p, s, size) => {
            out.extend_from_slice(&p.to_be_bytes());
            out.extend_from_slice(&s.to_be_bytes());
            match size {
                None => out.push(0),
                Some(n) => {
                    out.push(1);
                    w16(out, *n as usize);
                }
            }
        }
        Schema::UuidBytes => out.push(0),
        Schema::UuidString => out.push(1),
        Schema::UuidFixed(n) => {
            out.push(2);
            w16(out, *n as usize);
        }
    }
}

pub fn value_frame(v: &Value) -> Vec<u8> {
    let mut out = Vec::new();
    write_value(&mut out, v);
    out
}
pub fn schema_frame(s: &Schema) -> Vec<u8> {
    let mut out = Vec::new();
    write_schema(&mut out, s);
    out
}

// ---------------------------------------------------------------- hexadecimal

pub fn hex(b: &[u8]) -> String {
    const D: &[u8; 16] = b"0123456789abcdef";
    let mut s = String::with_capacity(2 * b.len());
    for x in b {
        s.push(D[(x >> 4) as usize] as char);
        s.push(D[(x & 15) as usize] as char);
    }
    s
}

/// `None`: the line isn't whole byte pairs.
pub fn unhex(line: &[u8]) -> Option<Vec<u8>> {
    if !line.len().is_multiple_of(2) {
        return None;
    }
    let d = |c: u8| (c as char).to_digit(16).map(|x| x as u8);
    line.chunks(2).map(|p| Some(d(p[0])? << 4 | d(p[1])?)).collect()
}

/// Lines; the last one may lack its newline.
pub fn lines(input: &[u8]) -> Vec<&[u8]> {
    let mut v: Vec<&[u8]> = input.split(|b| *b == b'\n').collect();
    if v.last().is_some_and(|l| l.is_empty()) {
        v.pop();
    }
    v
}
