//! Brings an Avro record to one reader schema, as apache-avro 0.22.0 does
//! (`Value::resolve_with_names` with no names) but for what docs/DIFFERENCES.md lists, by a library
//! that is proved to do so.
//!
//! A [`Reader`] holds the schema, and brings one [`Value`] after another to it:
//!
//! ```
//! use hulmbax::{Reader, RecordField, Refusal, Schema, Value};
//!
//! // the sheet's finish: a boat, and an elapsed time or none
//! let schema = Schema::record(vec![
//!     RecordField::new("sail", Schema::String),
//!     RecordField::new("elapsed", Schema::nullable(Schema::Double)?).with_default(Value::Null),
//! ]);
//! let mut reader = Reader::new(&schema)?;
//!
//! // a club that writes whole seconds
//! let sent = Value::record([("sail", Value::from("A 12")), ("elapsed", Value::from(3601))]);
//! let finish = reader.resolve(&sent)?;
//! assert_eq!(finish.get("sail").and_then(Value::as_str), Some("A 12"));
//! assert_eq!(finish.get("elapsed").and_then(Value::as_f64), Some(3601.0));
//!
//! // a club that writes a time of day as text
//! let sent = Value::record([("sail", Value::from("C 3")), ("elapsed", Value::from("1:02:05"))]);
//! let refused = reader.resolve(&sent).unwrap_err();
//! assert_eq!(refused.refusal(), Some(Refusal::NoVariant));
//! assert_eq!(refused.path().to_string(), "elapsed");
//! # Ok::<(), hulmbax::Error>(())
//! ```
//!
//! Every rule that decides an answer is in `docs/RULES.md` at the top of the repository: the bytes of
//! a frame, the order of the checks, what each pair of kinds gives, how a union chooses.
//!
//! The names are those of apache-avro, where it has them; module [`apache_avro`] has the code that
//! maps that crate's values and schemas onto these. Module [`frame`] is the byte level below.
//!
//! # Corrections
//!
//! Crews correct a finish by entering it again, with a greater `seq`. [`current`] names the finish of
//! each boat that counts, by its place in the list:
//!
//! ```
//! use hulmbax::{current, Value};
//!
//! let finish = |sail: &str, seq: i64| Value::record([("sail", sail.into()), ("seq", seq.into())]);
//! let race = [finish("A 12", 0), finish("B 7", 0), finish("A 12", 2), finish("A 12", 1)];
//! assert_eq!(current(&race)?, [2, 1]);
//! # Ok::<(), hulmbax::Error>(())
//! ```
//!
//! # Calendar
//!
//! Module [`calendar`] has the days of Dates, adds a [`Duration`] to a Date or a timestamp, and tells
//! whether a window holds one:
//!
//! ```
//! use hulmbax::calendar::{add, date, holds, Civil};
//! use hulmbax::{Duration, Value};
//!
//! let opening = Value::Date(date(Civil::new(2024, 1, 31))?);
//! let closing = add(&opening, &Duration { months: 1, ..Duration::default() })?;
//! assert_eq!(closing, Value::Date(date(Civil::new(2024, 2, 29))?));
//! assert!(holds(&opening, &closing, &opening)?);
//! assert!(!holds(&opening, &closing, &closing)?);
//! # Ok::<(), hulmbax::Error>(())
//! ```
//!
//! # Threads and stack
//!
//! A call keeps nothing: equal schemas and records give equal answers, and threads may call at the
//! same time, each with a reader of its own.
//!
//! A call takes up to about 170 KB of stack (169,216 bytes were measured, for records nested 16
//! deep, the innermost empty). A thread that calls should have 256 KB or more; Rust's own threads
//! have 2 MB if nothing else is asked for.

#![deny(missing_docs)]
#![deny(unsafe_code)]
#![warn(missing_debug_implementations)]

pub mod calendar;
mod corrections;
mod error;
mod ffi;
pub mod frame;
pub mod hex;
pub mod path;
mod reader;
mod refusal;
pub mod schema;
pub mod value;
mod words;

#[doc = include_str!("apache_avro.md")]
pub mod apache_avro {}

// the program in README.md, as a test
#[cfg(doctest)]
#[doc = include_str!("../README.md")]
struct Readme;

pub use corrections::current;
pub use error::Error;
pub use path::Path;
pub use reader::Reader;
pub use refusal::Refusal;
pub use schema::{RecordField, Schema};
pub use value::{Duration, Value};
