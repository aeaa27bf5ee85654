// The recorded answers of apache-avro with the rules of the requests put in, from Rust: each frame is read and written again, and each
// record is resolved.
use crate::common::{bytes, holds_nan, line, resolved};
use hulmbax::{Reader, Schema, Value};

const RECORDED: &str = concat!(env!("CARGO_MANIFEST_DIR"), "/../../crates/vectors/stdin");

/// A schema, a record, and the line with the answer to it.
struct Vector {
    schema: Vec<u8>,
    record: Vec<u8>,
    answer: String,
}

// The file has a line `s SCHEMA`, then for each record a line `v RECORD` and one with the answer; a frame may be empty, and `#`
// begins a comment.
fn vectors() -> Vec<Vector> {
    let file = std::fs::read_to_string(RECORDED)
        .unwrap_or_else(|e| panic!("the recorded answers can't be read, {RECORDED}: {e}"));
    let mut vectors = Vec::new();
    let (mut schema, mut record) = (Vec::new(), Vec::new());
    for line in file.lines().filter(|line| !line.starts_with('#')) {
        match line.split_once(' ').unwrap_or((line, "")) {
            ("s", frame) => schema = bytes(frame),
            ("v", frame) => record = bytes(frame),
            ("+" | "-", _) => vectors.push(Vector {
                schema: schema.clone(),
                record: record.clone(),
                answer: line.to_string(),
            }),
            _ => panic!("a line of {RECORDED} is none of s, v, + and -: {line}"),
        }
    }
    assert!(vectors.len() > 1_000, "{RECORDED} has {}", vectors.len());
    vectors
}

#[test]
fn every_record_gets_its_recorded_answer() {
    for v in vectors() {
        let answer = line(resolved(&v.schema, &v.record));
        assert_eq!(answer, v.answer, "{:02x?} with {:02x?}", v.schema, v.record);
    }
}

// A reader refuses a schema as the library does, and then gives the library's answer to each record
// of it, whatever way it takes to find the place of a refusal.
#[test]
fn every_record_gets_its_recorded_answer_from_a_reader() {
    let mut with_path = 0;
    for v in vectors() {
        let Ok(schema) = Schema::from_frame(&v.schema) else {
            continue;
        };
        let reader = Reader::new(&schema);
        let answer = reader.and_then(|mut r| r.resolve_frame(&v.record).map(<[u8]>::to_vec));
        with_path += usize::from(matches!(&answer, Err(e) if !e.path().is_root()));
        let answer = line(answer.map_err(|error| error.refusal().unwrap()));
        assert_eq!(answer, v.answer, "{schema} with {:02x?}", v.record);
    }
    assert!(with_path > 100, "{with_path}");
}

// 2 says that the schema is no frame. Of those refused with 3, a schema with a default whose keys
// don't rise can't be held in Rust.
#[test]
fn every_schema_is_read_and_written_again() {
    for v in vectors() {
        let read = Schema::from_frame(&v.schema);
        if v.answer != "- 3" {
            assert_eq!(
                read.is_err(),
                v.answer == "- 2",
                "{:02x?}: {read:?}",
                v.schema
            );
        }
        if let Ok(schema) = read {
            assert_eq!(schema.to_frame(), Ok(v.schema));
        }
    }
}

// 5 says that the record is no frame; 2, 3 and 4 are said before it is looked at.
#[test]
fn every_record_is_read_and_written_again() {
    for v in vectors() {
        let looked_at = !["- 2", "- 3", "- 4"].contains(&v.answer.as_str());
        let read = Value::from_frame(&v.record);
        if looked_at {
            assert_eq!(
                read.is_err(),
                v.answer == "- 5",
                "{:02x?}: {read:?}",
                v.record
            );
        }
        if let Ok(value) = read {
            assert_eq!(value.to_frame(), Ok(v.record));
        }
    }
}

#[test]
fn every_result_is_read_and_written_again_and_holds_no_nan() {
    for v in vectors() {
        if let Some(digits) = v.answer.strip_prefix("+ ") {
            let value = Value::from_frame(&bytes(digits)).unwrap();
            assert_eq!(value.to_frame(), Ok(bytes(digits)));
            assert!(!holds_nan(&value), "{:02x?}: {value}", v.schema);
        }
    }
}
