// A value in words.
use super::{Duration, Value};
use crate::words::{list, Name, Octets, Quoted};
use std::fmt::{Display, Formatter, Result};

/// In words and on one line: the kind, then what it holds. Bytes are digits after `0x`, texts stand
/// in backquotes, and what holds values stands in parentheses within another.
///
/// ```
/// use hulmbax::Value;
///
/// let crew = Value::array([31, 29]);
/// let boat = Value::record([("sail", Value::from("B 7")), ("ages", crew)]);
/// assert_eq!(boat.to_string(), "Record of sail: String `B 7`, ages: (Array of Int 31, Int 29)");
/// assert_eq!(Value::from(vec![0_u8, 255]).to_string(), "Bytes 0x00ff");
/// ```
impl Display for Value {
    fn fmt(&self, f: &mut Formatter<'_>) -> Result {
        match self {
            Value::Null => write!(f, "Null"),
            Value::Boolean(b) => write!(f, "Boolean {b}"),
            Value::Int(n) => write!(f, "Int {n}"),
            Value::Long(n) => write!(f, "Long {n}"),
            Value::Float(x) => write!(f, "Float {x}"),
            Value::Double(x) => write!(f, "Double {x}"),
            Value::Bytes(bytes) => write!(f, "Bytes {}", Octets(bytes)),
            Value::String(text) => write!(f, "String {}", Quoted(text)),
            Value::Fixed(_, bytes) => write!(f, "Fixed {}", Octets(bytes)),
            Value::Enum(i, symbol) => write!(f, "Enum {} (symbol {i})", Quoted(symbol)),
            Value::Union(i, value) => write!(f, "{} (variant {i})", Within(value)),
            Value::Array(items) => {
                write!(f, "Array of ")?;
                list(f, items.iter().map(Within))
            }
            Value::Map(entries) => {
                write!(f, "Map of ")?;
                list(f, entries.iter().map(|(key, value)| Entry(key, value)))
            }
            Value::Record(fields) => {
                write!(f, "Record of ")?;
                list(f, fields.iter().map(|(name, value)| Entry(name, value)))
            }
            Value::Date(n) => write!(f, "Date {n}"),
            Value::Decimal(bytes) => write!(f, "Decimal {}", Octets(bytes)),
            Value::TimeMillis(n) => write!(f, "TimeMillis {n}"),
            Value::TimeMicros(n) => write!(f, "TimeMicros {n}"),
            Value::TimestampMillis(n) => write!(f, "TimestampMillis {n}"),
            Value::TimestampMicros(n) => write!(f, "TimestampMicros {n}"),
            Value::TimestampNanos(n) => write!(f, "TimestampNanos {n}"),
            Value::LocalTimestampMillis(n) => write!(f, "LocalTimestampMillis {n}"),
            Value::LocalTimestampMicros(n) => write!(f, "LocalTimestampMicros {n}"),
            Value::LocalTimestampNanos(n) => write!(f, "LocalTimestampNanos {n}"),
            Value::Duration(duration) => write!(f, "Duration {duration}"),
            Value::Uuid(bytes) => write!(f, "Uuid {}", Hyphened(bytes)),
        }
    }
}

/// The three units: `1 months 2 days 3 ms`.
impl Display for Duration {
    fn fmt(&self, f: &mut Formatter<'_>) -> Result {
        let Duration {
            months,
            days,
            millis,
        } = self;
        write!(f, "{months} months {days} days {millis} ms")
    }
}

// A value within another.
struct Within<'a>(&'a Value);

impl Display for Within<'_> {
    fn fmt(&self, f: &mut Formatter<'_>) -> Result {
        match self.0 {
            Value::Array(_) | Value::Map(_) | Value::Record(_) => write!(f, "({})", self.0),
            other => other.fmt(f),
        }
    }
}

// A value under a name or a key.
struct Entry<'a>(&'a str, &'a Value);

impl Display for Entry<'_> {
    fn fmt(&self, f: &mut Formatter<'_>) -> Result {
        write!(f, "{}: {}", Name(self.0), Within(self.1))
    }
}

// A UUID in the form of RFC 4122.
struct Hyphened<'a>(&'a [u8; 16]);

impl Display for Hyphened<'_> {
    fn fmt(&self, f: &mut Formatter<'_>) -> Result {
        for (i, byte) in self.0.iter().enumerate() {
            if [4, 6, 8, 10].contains(&i) {
                f.write_str("-")?;
            }
            write!(f, "{byte:02x}")?;
        }
        Ok(())
    }
}

#[cfg(test)]
mod tests {
    use super::*;

    #[test]
    fn what_holds_values_stands_in_parentheses_within_another() {
        let crew = Value::array([1, 2]);
        let boat = Value::record([("crew", crew), ("sail no", Value::from("B`7"))]);
        let words = r"Record of crew: (Array of Int 1, Int 2), `sail no`: String `B\`7`";
        assert_eq!(boat.to_string(), words);
        let optional = Value::from(Some(boat));
        assert_eq!(optional.to_string(), format!("({words}) (variant 1)"));
        let map = Value::map([("a", optional)]);
        assert_eq!(map.to_string(), format!("Map of a: ({words}) (variant 1)"));
    }

    #[test]
    fn what_holds_nothing() {
        assert_eq!(Value::Array(vec![]).to_string(), "Array of nothing");
        assert_eq!(Value::map::<&str>([]).to_string(), "Map of nothing");
        assert_eq!(Value::record::<&str>([]).to_string(), "Record of nothing");
        assert_eq!(Value::Bytes(vec![]).to_string(), "Bytes 0x");
        assert_eq!(Value::from("").to_string(), "String ``");
    }

    #[test]
    fn the_other_kinds() {
        let duration = Duration {
            months: 1,
            days: 2,
            millis: 3,
        };
        let uuid = std::array::from_fn(|i| i as u8);
        let words = [
            (Value::Boolean(true), "Boolean true"),
            (Value::Double(f64::NAN), "Double NaN"),
            (Value::Float(f32::NEG_INFINITY), "Float -inf"),
            (Value::Fixed(2, vec![1, 2]), "Fixed 0x0102"),
            (Value::Enum(2, "dnf".to_string()), "Enum `dnf` (symbol 2)"),
            (Value::Decimal(vec![0xff]), "Decimal 0xff"),
            (Value::Date(1), "Date 1"),
            (Value::LocalTimestampNanos(-1), "LocalTimestampNanos -1"),
            (Value::Duration(duration), "Duration 1 months 2 days 3 ms"),
            (
                Value::Uuid(uuid),
                "Uuid 00010203-0405-0607-0809-0a0b0c0d0e0f",
            ),
        ];
        for (value, meant) in words {
            assert_eq!(value.to_string(), meant);
        }
    }
}
