//! What a Rust program that uses the crate would have: straight from frames to the crate's trees
//! and back, with no tree between.
mod reader;
mod schema;
mod value;
mod writer;

pub use schema::read_schema;
pub use value::read_value;
pub use writer::write_value;
