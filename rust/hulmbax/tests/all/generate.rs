// A small generator of schemas and values, the same for the same seed.
use crate::common::{decimal, fixed, nullable, symbols};
use hulmbax::schema::{InnerDecimalSchema, UuidSchema};
use hulmbax::{Duration, RecordField, Schema, Value};

/// How deep a generated schema is at most.
const DEPTH: u64 = 4;

const NAMES: [&str; 5] = ["sail", "race", "elapsed", "crew", "of the boat"];
const TEXTS: [&str; 5] = ["", "A 12", "NaN", "é", "1:02:05"];
const SYMBOLS: [&str; 3] = ["finished", "retired", "protested"];

pub struct Generator {
    state: u64,
}

impl Generator {
    pub fn new(seed: u64) -> Generator {
        Generator { state: seed }
    }

    // SplitMix64.
    fn next(&mut self) -> u64 {
        self.state = self.state.wrapping_add(0x9e37_79b9_7f4a_7c15);
        let mixed = (self.state ^ (self.state >> 30)).wrapping_mul(0xbf58_476d_1ce4_e5b9);
        let mixed = (mixed ^ (mixed >> 27)).wrapping_mul(0x94d0_49bb_1331_11eb);
        mixed ^ (mixed >> 31)
    }

    pub fn below(&mut self, n: u64) -> u64 {
        self.next() % n
    }

    fn one_of<T: Copy>(&mut self, all: &[T]) -> T {
        all[self.below(all.len() as u64) as usize]
    }

    fn octets(&mut self, n: usize) -> Vec<u8> {
        (0..n).map(|_| self.next() as u8).collect()
    }

    /// A number of any size, small ones often.
    pub fn long(&mut self) -> i64 {
        let n = self.next() as i64;
        n >> self.below(64)
    }

    // A float that is no NaN, so that it fits.
    fn double(&mut self) -> f64 {
        let x = f64::from_bits(self.next());
        if x.is_nan() {
            0.5
        } else {
            x
        }
    }

    fn float(&mut self) -> f32 {
        let x = f32::from_bits(self.next() as u32);
        if x.is_nan() {
            0.5
        } else {
            x
        }
    }

    // A NaN of either kind and sign, quiet or signalling: the last bit is set, so whatever the
    // others are, it is no infinity.
    fn nan(&mut self) -> Value {
        let bits = self.next();
        match self.below(2) {
            0 => Value::Float(f32::from_bits(bits as u32 | 0x7f80_0001)),
            _ => Value::Double(f64::from_bits(bits | 0x7ff0_0000_0000_0001)),
        }
    }

    /// A sound schema, in which each union is Null or another.
    pub fn schema(&mut self) -> Schema {
        self.schema_of(DEPTH)
    }

    /// A sound schema of a Record.
    pub fn record_schema(&mut self) -> Schema {
        self.record_of(DEPTH)
    }

    fn schema_of(&mut self, depth: u64) -> Schema {
        if depth <= 1 {
            return self.leaf();
        }
        match self.below(8) {
            0 => Schema::array(self.schema_of(depth - 1)),
            1 => Schema::map(self.schema_of(depth - 1)),
            2 | 3 => match self.schema_of(depth - 1) {
                inner @ (Schema::Null | Schema::Union(_)) => inner,
                inner => nullable(inner),
            },
            4 | 5 => self.record_of(depth),
            _ => self.leaf(),
        }
    }

    fn record_of(&mut self, depth: u64) -> Schema {
        let n = self.below(NAMES.len() as u64 + 1) as usize;
        let fields = NAMES[..n].iter().map(|name| {
            let field = RecordField::new(*name, self.schema_of(depth - 1));
            match self.below(4) {
                0 => field.with_default(self.plain()),
                _ => field,
            }
        });
        Schema::record(fields.collect())
    }

    // What may be a default, whether it suits the field or not.
    fn plain(&mut self) -> Value {
        match self.below(5) {
            0 => Value::Null,
            1 => Value::Boolean(true),
            2 => Value::Int(self.long() as i32),
            3 => Value::Double(0.5),
            _ => self.one_of(&TEXTS).into(),
        }
    }

    fn leaf(&mut self) -> Schema {
        match self.below(26) {
            0 => Schema::Null,
            1 => Schema::Boolean,
            2 | 3 => Schema::Int,
            4 => Schema::Long,
            5 => Schema::Float,
            6 | 7 => Schema::Double,
            8 => Schema::Bytes,
            9 | 10 => Schema::String,
            11 => symbols(&SYMBOLS, None),
            12 => symbols(&SYMBOLS, Some(SYMBOLS[1])),
            13 => Schema::Fixed(fixed(2)),
            14 => decimal(4, 2, InnerDecimalSchema::Bytes),
            15 => decimal(4, 2, InnerDecimalSchema::Fixed(fixed(2))),
            16 => Schema::Uuid(UuidSchema::Bytes),
            17 => Schema::Uuid(UuidSchema::String),
            18 => Schema::Uuid(UuidSchema::Fixed(fixed(16))),
            19 => Schema::Date,
            20 => Schema::TimeMillis,
            21 => Schema::TimeMicros,
            22 => Schema::TimestampMillis,
            23 => Schema::LocalTimestampNanos,
            24 => Schema::TimestampNanos,
            _ => Schema::Duration(fixed(12)),
        }
    }

    /// A value that fits the schema.
    pub fn fitting(&mut self, schema: &Schema) -> Value {
        self.value(schema, 0)
    }

    /// A value that fits the schema but for some parts, of which some are NaNs.
    pub fn near(&mut self, schema: &Schema) -> Value {
        self.value(schema, 12)
    }

    /// A value of a schema of its own.
    pub fn any(&mut self) -> Value {
        let schema = self.schema_of(2);
        self.fitting(&schema)
    }

    // A NaN, mostly where a float is asked for, or a value of a schema of its own.
    fn odd(&mut self, schema: &Schema) -> Value {
        let nans = match schema {
            Schema::Float | Schema::Double => 3,
            _ => 1,
        };
        match self.below(4) < nans {
            true => self.nan(),
            false => self.any(),
        }
    }

    // A part doesn't fit `odd` times of a hundred.
    fn value(&mut self, schema: &Schema, odd: u64) -> Value {
        if self.below(100) < odd {
            return self.odd(schema);
        }
        let long = self.long();
        match schema {
            Schema::Null => Value::Null,
            Schema::Boolean => Value::Boolean(self.below(2) == 0),
            Schema::Int => Value::Int(long as i32),
            Schema::Long => Value::Long(long),
            Schema::Float => Value::Float(self.float()),
            Schema::Double => Value::Double(self.double()),
            Schema::Bytes => Value::Bytes(self.octets(3)),
            Schema::String => self.one_of(&TEXTS).into(),
            Schema::Array(array) => {
                let n = self.below(4);
                Value::array((0..n).map(|_| self.value(&array.items, odd)))
            }
            Schema::Map(map) => {
                let n = self.below(4) as usize;
                let names = NAMES[..n].iter().copied();
                Value::map(names.map(|name| (name, self.value(&map.types, odd))))
            }
            Schema::Union(union) => match self.below(2) {
                0 => None::<Value>.into(),
                _ => Some(self.value(&union.variants()[1], odd)).into(),
            },
            Schema::Record(record) => self.record(&record.fields, odd),
            Schema::Enum(symbols) => {
                let i = self.below(symbols.symbols.len() as u64) as usize;
                Value::Enum(i as u32, symbols.symbols[i].clone())
            }
            Schema::Fixed(fixed) => Value::Fixed(fixed.size, self.octets(fixed.size)),
            Schema::Decimal(_) => Value::Decimal(self.octets(2)),
            Schema::Uuid(_) => Value::Uuid(std::array::from_fn(|_| self.next() as u8)),
            Schema::Date => Value::Date(long as i32),
            Schema::TimeMillis => Value::TimeMillis(long as i32),
            Schema::TimeMicros => Value::TimeMicros(long),
            Schema::TimestampMillis => Value::TimestampMillis(long),
            Schema::TimestampMicros => Value::TimestampMicros(long),
            Schema::TimestampNanos => Value::TimestampNanos(long),
            Schema::LocalTimestampMillis => Value::LocalTimestampMillis(long),
            Schema::LocalTimestampMicros => Value::LocalTimestampMicros(long),
            Schema::LocalTimestampNanos => Value::LocalTimestampNanos(long),
            Schema::Duration(_) => Value::Duration(Duration {
                months: self.next() as u32,
                days: self.next() as u32,
                millis: self.next() as u32,
            }),
        }
    }

    // The fields, of which some are missing where parts may be odd.
    fn record(&mut self, fields: &[RecordField], odd: u64) -> Value {
        let mut sent = Vec::new();
        for field in fields {
            if self.below(100) >= odd {
                sent.push((field.name.clone(), self.value(&field.schema, odd)));
            }
        }
        Value::Record(sent)
    }
}
