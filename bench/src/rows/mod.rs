//! The frames that are timed.
mod finish;
mod growth;
mod many;

pub use finish::behind_a_long_entry;
pub use growth::{depths, fields, unions_accepted, unions_refused};

use oracle::frame::{Schema, Value, schema_frame, value_frame};

/// A schema frame and value frames that are timed together.
pub struct Row {
    pub name: String,
    pub schema: Vec<u8>,
    pub values: Vec<Vec<u8>>,
}

impl Row {
    fn new(name: impl Into<String>, schema: &Schema, values: &[Value]) -> Self {
        let values = values.iter().map(value_frame).collect();
        Row { name: name.into(), schema: schema_frame(schema), values }
    }

    /// The bytes of all value frames.
    pub fn bytes(&self) -> usize {
        self.values.iter().map(Vec::len).sum()
    }
}

/// Names that have to be told apart: at the end, at the front, by their lengths.
pub fn names() -> Vec<Row> {
    use many::{at_the_end, at_the_front, by_lengths, fields, fields_of_one_row, symbols};
    vec![
        fields("fields, differ at the end", at_the_end),
        fields_of_one_row("the same, all in one row of the table", at_the_end),
        fields("fields, differ at the front", at_the_front),
        fields_of_one_row("the same, all in one row of the table", at_the_front),
        fields("fields, 1 to 200 letters", by_lengths),
        symbols("symbols, differ at the end", at_the_end),
        symbols("symbols, differ at the front", at_the_front),
        symbols("symbols, 1 to 200 letters", by_lengths),
    ]
}

/// The rows of the main table.
pub fn rows() -> Vec<Row> {
    vec![
        many::one_int(),
        finish::typical(),
        finish::refused_last(),
        finish::cut(),
        many::half_missing(),
        growth::depth(16, "records in records, depth 16"),
        many::arrays(),
        many::map(),
        many::ascii(),
        many::wide_characters(),
        growth::unions(5, true, "unions in unions, 5 levels, accepted"),
        growth::unions(5, false, "unions in unions, 5 levels, refused (16)"),
    ]
}
