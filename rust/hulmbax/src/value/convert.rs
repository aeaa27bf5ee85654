// Values of the common types of Rust, with the choices of apache-avro.
use super::{Duration, Value};
use std::collections::{BTreeMap, HashMap};
use std::hash::BuildHasher;

macro_rules! from {
    ($($type:ty => $variant:ident),* $(,)?) => {
        $(impl From<$type> for Value {
            fn from(value: $type) -> Value {
                Value::$variant(value.into())
            }
        })*
    };
}

from! {
    bool => Boolean,
    i32 => Int,
    i64 => Long,
    f32 => Float,
    f64 => Double,
    String => String,
    &str => String,
    Vec<u8> => Bytes,
    &[u8] => Bytes,
    Vec<Value> => Array,
    BTreeMap<String, Value> => Map,
    Duration => Duration,
}

impl From<()> for Value {
    fn from((): ()) -> Value {
        Value::Null
    }
}

/// None is the Null of variant 0, and Some is of variant 1.
impl<T: Into<Value>> From<Option<T>> for Value {
    fn from(value: Option<T>) -> Value {
        match value {
            None => Value::Union(0, Box::new(Value::Null)),
            Some(value) => Value::Union(1, Box::new(value.into())),
        }
    }
}

impl<K: Into<String>, V: Into<Value>, S: BuildHasher> From<HashMap<K, V, S>> for Value {
    fn from(entries: HashMap<K, V, S>) -> Value {
        Value::map(entries.into_iter().map(|(key, value)| (key, value.into())))
    }
}

#[cfg(test)]
mod tests {
    use super::*;

    #[test]
    fn each_type_becomes_its_kind() {
        let values = [
            (Value::from(()), Value::Null),
            (Value::from(true), Value::Boolean(true)),
            (Value::from(-1), Value::Int(-1)),
            (Value::from(-1_i64), Value::Long(-1)),
            (Value::from(0.5_f32), Value::Float(0.5)),
            (Value::from(0.5), Value::Double(0.5)),
            (Value::from("é"), Value::String("é".to_string())),
            (Value::from("é".to_string()), Value::String("é".to_string())),
            (Value::from(vec![1_u8, 2]), Value::Bytes(vec![1, 2])),
            (Value::from(&[1_u8, 2][..]), Value::Bytes(vec![1, 2])),
            (
                Value::from(vec![Value::Null]),
                Value::Array(vec![Value::Null]),
            ),
            (
                Value::from(Duration::default()),
                Value::Duration(Duration::default()),
            ),
        ];
        for (made, meant) in values {
            assert_eq!(made, meant);
        }
    }

    #[test]
    fn an_option_is_a_union_of_null_and_another() {
        assert_eq!(
            Value::from(None::<i32>),
            Value::Union(0, Box::new(Value::Null))
        );
        assert_eq!(
            Value::from(Some(5)),
            Value::Union(1, Box::new(Value::Int(5)))
        );
    }

    #[test]
    fn maps_of_either_kind_become_a_map() {
        let entries = [("b", 2), ("a", 1)];
        let map = Value::map([("a", Value::Int(1)), ("b", Value::Int(2))]);
        assert_eq!(Value::from(HashMap::from(entries)), map);
        let owned = entries.map(|(k, v)| (k.to_string(), Value::from(v)));
        assert_eq!(Value::from(BTreeMap::from(owned)), map);
    }

    #[test]
    fn the_makers_of_arrays_maps_and_records() {
        assert_eq!(
            Value::array([1, 2]),
            Value::Array(vec![Value::Int(1), Value::Int(2)])
        );
        let twice = Value::map([("a", Value::Int(1)), ("a", Value::Int(2))]);
        assert_eq!(twice, Value::map([("a", Value::Int(2))]));
        let record = Value::record([("b", Value::Null), ("a", Value::Null)]);
        let names = |record: &Value| match record {
            Value::Record(fields) => fields.iter().map(|(name, _)| name.clone()).collect(),
            _ => vec![],
        };
        assert_eq!(names(&record), ["b", "a"]);
    }
}
