// What a value holds, as the types of Rust.
use super::{Duration, Value};
use std::collections::BTreeMap;

/// Each of these looks through Unions, so that an optional field is read like any other.
///
/// ```
/// use hulmbax::Value;
///
/// let finish = Value::record([
///     ("sail", Value::from("A 12")),
///     ("elapsed", Value::from(Some(3601.0))),
///     ("protest", Value::from(None::<f64>)),
/// ]);
/// assert_eq!(finish.get("elapsed").and_then(Value::as_f64), Some(3601.0));
/// assert!(finish.get("protest").is_some_and(Value::is_null));
/// assert_eq!(finish.get("wind"), None);
/// ```
impl Value {
    /// The value under a name of a Record, or under a key of a Map. Of a name that repeats, the
    /// last counts, as it does when the record is resolved.
    pub fn get(&self, name: &str) -> Option<&Value> {
        match self.within() {
            Value::Record(fields) => {
                let mut last_first = fields.iter().rev();
                last_first.find(|(n, _)| n == name).map(|(_, value)| value)
            }
            Value::Map(entries) => entries.get(name),
            _ => None,
        }
    }

    /// What is left of the value once it is no Union.
    pub fn within(&self) -> &Value {
        match self {
            Value::Union(_, value) => value.within(),
            other => other,
        }
    }

    /// Whether it is Null.
    pub fn is_null(&self) -> bool {
        matches!(self.within(), Value::Null)
    }

    /// A Boolean.
    pub fn as_bool(&self) -> Option<bool> {
        match self.within() {
            Value::Boolean(b) => Some(*b),
            _ => None,
        }
    }

    /// An Int.
    pub fn as_i32(&self) -> Option<i32> {
        match self.within() {
            Value::Int(n) => Some(*n),
            _ => None,
        }
    }

    /// A Long or an Int.
    pub fn as_i64(&self) -> Option<i64> {
        match self.within() {
            Value::Long(n) => Some(*n),
            Value::Int(n) => Some((*n).into()),
            _ => None,
        }
    }

    /// A Float.
    pub fn as_f32(&self) -> Option<f32> {
        match self.within() {
            Value::Float(x) => Some(*x),
            _ => None,
        }
    }

    /// A Double, or a Float or an Int, whose number every Double holds.
    pub fn as_f64(&self) -> Option<f64> {
        match self.within() {
            Value::Double(x) => Some(*x),
            Value::Float(x) => Some((*x).into()),
            Value::Int(n) => Some((*n).into()),
            _ => None,
        }
    }

    /// The text of a String, or the symbol of an Enum.
    pub fn as_str(&self) -> Option<&str> {
        match self.within() {
            Value::String(text) | Value::Enum(_, text) => Some(text),
            _ => None,
        }
    }

    /// The bytes of a Bytes or a Fixed.
    pub fn as_bytes(&self) -> Option<&[u8]> {
        match self.within() {
            Value::Bytes(bytes) | Value::Fixed(_, bytes) => Some(bytes),
            _ => None,
        }
    }

    /// The items of an Array.
    pub fn as_array(&self) -> Option<&[Value]> {
        match self.within() {
            Value::Array(items) => Some(items),
            _ => None,
        }
    }

    /// The entries of a Map.
    pub fn as_map(&self) -> Option<&BTreeMap<String, Value>> {
        match self.within() {
            Value::Map(entries) => Some(entries),
            _ => None,
        }
    }

    /// The names and values of a Record.
    pub fn as_record(&self) -> Option<&[(String, Value)]> {
        match self.within() {
            Value::Record(fields) => Some(fields),
            _ => None,
        }
    }

    /// A Duration.
    pub fn as_duration(&self) -> Option<Duration> {
        match self.within() {
            Value::Duration(duration) => Some(*duration),
            _ => None,
        }
    }
}

#[cfg(test)]
mod tests {
    use super::*;

    // Which of the accessors answer.
    fn answers(value: &Value) -> Vec<&'static str> {
        let all = [
            ("null", value.is_null()),
            ("bool", value.as_bool().is_some()),
            ("i32", value.as_i32().is_some()),
            ("i64", value.as_i64().is_some()),
            ("f32", value.as_f32().is_some()),
            ("f64", value.as_f64().is_some()),
            ("str", value.as_str().is_some()),
            ("bytes", value.as_bytes().is_some()),
            ("array", value.as_array().is_some()),
            ("map", value.as_map().is_some()),
            ("record", value.as_record().is_some()),
            ("duration", value.as_duration().is_some()),
        ];
        all.into_iter()
            .filter(|(_, yes)| *yes)
            .map(|(name, _)| name)
            .collect()
    }

    #[test]
    fn each_kind_is_what_it_can_be_without_loss_also_in_unions() {
        let kinds: [(Value, &[&str]); 15] = [
            (Value::Null, &["null"]),
            (Value::Boolean(true), &["bool"]),
            (Value::Int(1), &["i32", "i64", "f64"]),
            (Value::Long(1), &["i64"]),
            (Value::Float(0.5), &["f32", "f64"]),
            (Value::Double(0.5), &["f64"]),
            (Value::String("a".to_string()), &["str"]),
            (Value::Enum(0, "a".to_string()), &["str"]),
            (Value::Bytes(vec![1]), &["bytes"]),
            (Value::Fixed(1, vec![1]), &["bytes"]),
            (Value::Decimal(vec![1]), &[]),
            (Value::Array(vec![]), &["array"]),
            (Value::map::<&str>([]), &["map"]),
            (Value::record::<&str>([]), &["record"]),
            (Value::Duration(Duration::default()), &["duration"]),
        ];
        for (value, meant) in kinds {
            assert_eq!(answers(&value), meant, "{value}");
            let inner = Value::Union(0, Box::new(value));
            assert_eq!(answers(&Value::Union(3, Box::new(inner))), meant);
        }
        assert_eq!(answers(&Value::Date(1)), [""; 0]);
    }

    #[test]
    fn what_is_handed_back() {
        assert_eq!(Value::Int(-7).as_i64(), Some(-7));
        assert_eq!(Value::Int(i32::MIN).as_f64(), Some(-2_147_483_648.0));
        assert_eq!(Value::Float(0.1).as_f64(), Some(f64::from(0.1_f32)));
        assert_eq!(Value::from("a").as_str(), Some("a"));
        assert_eq!(Value::Fixed(1, vec![7]).as_bytes(), Some(&[7][..]));
        assert_eq!(Value::array([1]).as_array(), Some(&[Value::Int(1)][..]));
    }

    #[test]
    fn the_last_of_two_equal_names_counts() {
        let record = Value::record([
            ("a", Value::Int(1)),
            ("b", Value::Null),
            ("a", Value::Int(2)),
        ]);
        assert_eq!(record.get("a"), Some(&Value::Int(2)));
        assert_eq!(record.get("A"), None);
        let optional = Value::Union(1, Box::new(record));
        assert_eq!(optional.get("b"), Some(&Value::Null));
        let map = Value::map([("a", Value::Int(1))]);
        assert_eq!(map.get("a"), Some(&Value::Int(1)));
        assert_eq!(Value::Int(1).get("a"), None);
    }
}
