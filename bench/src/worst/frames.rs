//! Frames whose answer takes long, by the bytes that schema and value may have.
use crate::hash::{self, FACTOR};
use crate::rows::Row;
use oracle::frame::{
    BOOLEAN, Field, MAX_FRAME, NULL, STRING, Schema, Union, Value, schema_frame, value_frame,
};

/// Two letters each, all different, and none of them empty.
fn pair(i: usize) -> String {
    assert!(i < 127 * 127);
    String::from_utf8(vec![1 + (i / 127) as u8, 1 + (i % 127) as u8]).unwrap()
}

/// Words of four letters, in their order.
fn words() -> impl Iterator<Item = u32> {
    (0x2121_2121u32..).filter(|w| letters(*w))
}

fn letters(w: u32) -> bool {
    w.to_be_bytes().iter().all(|b| (0x21..0x7f).contains(b))
}

fn name(a: u32, b: u32) -> String {
    String::from_utf8([a.to_be_bytes(), b.to_be_bytes()].concat()).unwrap()
}

/// Names of eight letters, the words a and b, that all have one `text::hash`: a * FACTOR + b is the
/// same for all.
fn one_hash_names(n: usize) -> Vec<String> {
    let pairs = words().map(|a| (a, 0x5555_5555u32.wrapping_sub(a.wrapping_mul(FACTOR))));
    pairs.filter(|(_, b)| letters(*b)).map(|(a, b)| name(a, b)).take(n).collect()
}

/// Names of eight letters that all fall into the first row of the table of an entry's names, and
/// seldom into one slot of the check's.
fn one_row_names(n: usize) -> Vec<String> {
    let second = |i: usize| words().nth(i % 64).unwrap();
    let all = words().enumerate().map(|(i, a)| name(a, second(i)));
    all.filter(|name| hash::row(name) == 0).take(n).collect()
}

fn row(name: &str, schema: &Schema, value: &Value) -> Row {
    let row = Row { name: name.into(), schema: schema_frame(schema), values: vec![value_frame(value)] };
    assert!(row.schema.len() <= MAX_FRAME && row.values[0].len() <= MAX_FRAME, "{name}");
    row
}

fn union(variants: Vec<Schema>, kinds: Vec<(u8, u16)>, named: Vec<u16>) -> Schema {
    Schema::Union(Union { variants, kinds, named })
}

fn nulls(n: usize) -> Value {
    Value::Array(vec![Value::Null; n])
}

/// Fields with these names that are Null where they are missing, 5 bytes and the name each.
fn defaulted(names: impl IntoIterator<Item = String>) -> Vec<Field> {
    names.into_iter().map(|n| Field::new(&n, Some(Value::Null), NULL)).collect()
}

// ---------------------------------------------------------------- reading and skipping

/// 15 arrays around one of Nulls: what each skips is all that lies below.
pub fn arrays(n: usize) -> Row {
    let schema = (0..15).fold(NULL, |s, _| Schema::array(s));
    let value = (0..14).fold(nulls(n - 60), |v, _| Value::Array(vec![v]));
    row("arrays 15 deep", &schema, &value)
}

/// Records in records, each with one field more behind the next one, around an Enum and an Array.
pub fn records(n: usize) -> Row {
    let symbols = vec![String::new(); n / 2 - 200];
    let last = [("e", Schema::Enum([symbols, vec!["x".into()]].concat(), None)), ("l", Schema::array(NULL))];
    let schema = Schema::Record(last.map(|(n, s)| Field::new(n, None, s)).into());
    let value = vec![("e".into(), Value::text("x")), ("l".into(), nulls(n - 400))];
    let around = |s| Schema::Record(vec![Field::new("f", None, s), Field::new("g", None, NULL)]);
    let with = |v| Value::Record(vec![("f".into(), v), ("g".into(), Value::Null)]);
    let schema = (0..13).fold(schema, |s, _| around(s));
    let value = (0..13).fold(Value::Record(value), |v, _| with(v));
    row("records 14 deep", &schema, &value)
}

// ---------------------------------------------------------------- names

/// As many fields with names of two letters as there is room for.
pub fn short_names(n: usize) -> Row {
    let fields = (0..n / 6 - 1).map(|i| Field::new(&pair(i), None, NULL)).collect();
    row("field names of two letters", &Schema::Record(fields), &Value::Null)
}

/// Fields whose names have one hash.
pub fn one_hash(n: usize) -> Row {
    let fields = one_hash_names(n / 12 - 1).iter().map(|name| Field::new(name, None, NULL)).collect();
    row("field names of one hash", &Schema::Record(fields), &Value::Null)
}

/// A field that takes long to skip, and then names of one hash.
pub fn behind_a_long_field(n: usize) -> Row {
    let long = union(vec![NULL; n / 2], vec![], vec![]);
    let names = one_hash_names((n / 2 - 20) / 12);
    let mut fields = vec![Field::new("f", None, long)];
    fields.extend(names.iter().map(|name| Field::new(name, None, NULL)));
    row("names of one hash behind a long field", &Schema::Record(fields), &Value::Null)
}

/// 1,024 entries in one row of their table, and fields with other names of that row.
pub fn entries_of_one_row(n: usize) -> Row {
    let count = n / 13 - 1;
    let mut names = one_row_names(count + 1024);
    let entries = names.split_off(count).into_iter().map(|name| (name, Value::Null)).collect();
    row(
        "fields and 1,024 entries in one row of the table",
        &Schema::Record(defaulted(names)),
        &Value::Record(entries),
    )
}

// ---------------------------------------------------------------- fields and entries

/// Fields that are all missing, and entries past the table's 1,024.
pub fn entries(n: usize) -> Row {
    let schema = Schema::Record(defaulted((0..n / 7 - 1).map(pair)));
    let value = Value::Record(vec![(String::new(), Value::Null); n / 3 - 1]);
    row("fields and entries past 1,024", &schema, &value)
}

/// The same with a Map, whose keys differ.
pub fn map_entries(n: usize) -> Row {
    let schema = Schema::Record(defaulted((0..n / 7 - 1).map(pair)));
    let key = |i: usize| format!("{}{}", pair(i), '~');
    let value = Value::Map((0..n / 6 - 1).map(|i| (key(i), Value::Null)).collect());
    row("fields and a Map's entries past 1,024", &schema, &value)
}

/// Two entries, the first of which takes long to skip.
pub fn long_entry(n: usize) -> Row {
    let schema = Schema::Record(defaulted((0..n / 7 - 1).map(pair)));
    let value = Value::Record(vec![("l".into(), nulls(n - 20)), ("m".into(), Value::Null)]);
    row("fields and a long first entry", &schema, &value)
}

/// Records without entries, each filled from as many defaults.
pub fn defaults(n: usize) -> Row {
    let schema = Schema::array(Schema::Record(defaulted((0..n / 7 - 2).map(pair))));
    let value = Value::Array(vec![Value::Record(vec![]); n / 3 - 1]);
    row("defaults in records of an Array", &schema, &value)
}

/// The same where each field is a union.
pub fn union_defaults(n: usize) -> Row {
    let one = |i| Field::new(&pair(i), Some(Value::Bool(true)), union(vec![BOOLEAN], vec![], vec![]));
    let schema = Schema::array(Schema::Record((0..n / 15 - 2).map(one).collect()));
    let value = Value::Array(vec![Value::Record(vec![]); n / 3 - 1]);
    row("union fields' defaults in records of an Array", &schema, &value)
}

/// Union fields in union fields, each missing, around fields that are missing too: n / 100 of them,
/// since a default becomes no longer than 4,096 bytes.
pub fn defaults_in_defaults(n: usize) -> Row {
    let mut schema = Schema::Record(defaulted((0..n / 100).map(pair)));
    for _ in 0..7 {
        let field = Field::new("f", Some(Value::Map(vec![])), union(vec![schema], vec![], vec![0]));
        schema = Schema::Record(vec![field]);
    }
    row("defaults in defaults, 7 levels", &schema, &Value::Record(vec![]))
}

// ---------------------------------------------------------------- symbols and variants

/// Strings that are no symbol; the default is the last.
pub fn symbols(n: usize) -> Row {
    let mut symbols = vec![String::new(); n / 2 - 10];
    symbols.push("x".into());
    let schema = Schema::array(Schema::Enum(symbols, Some("x".into())));
    row("symbols and Strings", &schema, &Value::Array(vec![Value::text("y"); n / 4 - 1]))
}

/// A union whose last variant suits the items, none of which its kind table knows.
pub fn variants(n: usize) -> Row {
    let mut variants = vec![BOOLEAN; n - 20];
    variants.push(NULL);
    row("variants and items", &Schema::array(union(variants, vec![], vec![])), &nulls(n - 20))
}

/// Arrays as variants, none of which takes the last item.
pub fn array_variants(n: usize) -> Row {
    let schema = union(vec![Schema::array(NULL); n / 2 - 10], vec![], vec![]);
    let mut items = vec![Value::Null; n - 20];
    items.push(Value::Bool(true));
    row("Arrays as variants, and items (16)", &schema, &Value::Array(items))
}

/// Bytes that are no UTF-8 at their end, and Strings as variants.
pub fn string_variants(n: usize) -> Row {
    let mut bytes = "é".repeat(n / 2 - 10).into_bytes();
    bytes.push(0xff);
    let schema = union(vec![STRING; n - 20], vec![], vec![]);
    row("Strings as variants, and Bytes (16)", &schema, &Value::Bytes(bytes))
}

/// A union of Nulls, and a Fixed as the last variant; `named_index` has the later half of the
/// positions, so that the Fixed is tried last.
fn named(n: usize) -> Schema {
    let count = n / 2;
    let mut variants = vec![NULL; count - 20];
    variants.push(Schema::Fixed(0));
    let last = variants.len() - 1;
    let first = last + 1 - n / 4;
    union(variants, vec![], (first..=last).map(|i| i as u16).collect())
}

/// One value under such a union.
pub fn named_index(n: usize) -> Row {
    row("named_index", &named(n), &Value::Fixed(vec![]))
}

/// A `named_index` that falls, has one position many times, and ends with the one that resolves.
pub fn named_repeats(n: usize) -> Row {
    let count = n / 4;
    let mut variants = vec![Schema::Fixed(0)];
    variants.resize(count, NULL);
    let mut named: Vec<u16> = (1..count as u16).rev().collect();
    named.resize(3 * n / 8 - 20, 1);
    named.push(0);
    let schema = union(variants, vec![], named);
    row("named_index, falling, with repeats", &schema, &Value::Fixed(vec![]))
}

/// As many values as there is room for.
pub fn named_index_and_items(n: usize) -> Row {
    let value = Value::Array(vec![Value::Fixed(vec![]); n / 3 - 1]);
    row("named_index and items", &Schema::array(named(n - 10)), &value)
}

/// A union of an Array, which the kind table gives for a Map, and a Record.
fn array_or(record: Vec<Field>, named: &[u16]) -> Schema {
    union(vec![Schema::array(NULL), Schema::Record(record)], vec![(9, 0)], named.to_vec())
}

/// Maps under so many levels of such unions.
fn nested(levels: usize, named: &[u16], (mut schema, mut value): (Schema, Value)) -> (Schema, Value) {
    for _ in 0..levels {
        schema = array_or(vec![Field::new("f", None, schema)], named);
        value = Value::Map(vec![("f".into(), value)]);
    }
    (schema, value)
}

/// Such levels around fields and a long first entry.
fn levels_of_fields(n: usize, levels: usize, named: &[u16]) -> (Schema, Value) {
    let mut fields = defaulted((0..(n - 400) / 7).map(pair));
    fields.push(Field::new("m", None, NULL));
    let value = Value::Map(vec![("l".into(), nulls(n - 400)), ("m".into(), Value::Null)]);
    nested(levels - 1, named, (array_or(fields, named), value))
}

pub fn levels(n: usize, levels: usize) -> Row {
    let (schema, value) = levels_of_fields(n, levels, &[1]);
    row(&format!("unions of an Array and a Record, {levels} levels"), &schema, &value)
}

/// The Record's position stands twice in `named_index`, which then does not rise.
pub fn levels_unordered(n: usize, levels: usize) -> Row {
    let (schema, value) = levels_of_fields(n, levels, &[1, 1]);
    row(&format!("the same with a position twice, {levels} levels"), &schema, &value)
}

/// Such levels around variants and items.
pub fn levels_of_variants(n: usize, levels: usize) -> Row {
    let mut variants = vec![BOOLEAN; n - 400];
    variants.push(NULL);
    let inner = (Schema::array(union(variants, vec![], vec![])), nulls(n - 400));
    let (schema, value) = nested(levels, &[1], inner);
    row(&format!("such unions around variants and items, {levels} levels"), &schema, &value)
}
