// A reader from record to record and from thread to thread.
use crate::common::{nullable, record};
use crate::generate::Generator;
use hulmbax::frame::FrameError;
use hulmbax::{Error, Reader, RecordField, Refusal, Schema, Value};
use std::thread;

fn finish() -> Schema {
    Schema::record(vec![
        RecordField::new("sail", Schema::String),
        RecordField::new("elapsed", nullable(Schema::Double)).with_default(Value::Null),
        RecordField::new("rating", Schema::Double).with_default(1000),
    ])
}

#[test]
fn defaults_fill_what_is_missing_and_other_names_are_left_out() {
    let mut reader = Reader::new(&finish()).unwrap();
    let sent = Value::record([("wind", Value::from(12.5)), ("sail", Value::from("A 12"))]);
    let meant = Value::record([
        ("sail", Value::from("A 12")),
        ("elapsed", Value::from(None::<f64>)),
        ("rating", Value::from(1000.0)),
    ]);
    assert_eq!(reader.resolve(&sent), Ok(meant));
}

#[test]
fn no_answer_depends_on_those_before() {
    let mut reader = Reader::new(&finish()).unwrap();
    let sent = Value::record([("sail", Value::from("A 12"))]);
    let refused = Value::record([("sail", Value::Null)]);
    let first = (reader.resolve(&sent), reader.resolve(&refused));
    assert!(first.0.is_ok() && first.1.is_err());
    for _ in 0..3 {
        assert_eq!((reader.resolve(&sent), reader.resolve(&refused)), first);
    }
}

#[test]
fn frames_get_what_values_get() {
    let mut reader = Reader::new(&finish()).unwrap();
    let sent = Value::record([
        ("sail", Value::from("A 12")),
        ("elapsed", Value::from(3601)),
    ]);
    let got = reader.resolve(&sent).unwrap();
    let frame = sent.to_frame().unwrap();
    assert_eq!(reader.resolve_frame(&frame), Ok(&*got.to_frame().unwrap()));
}

#[test]
fn a_record_without_a_frame_is_not_sent() {
    let mut reader = Reader::new(&Schema::Bytes).unwrap();
    let wrong = [
        (Value::Fixed(3, vec![1]), FrameError::FixedSize),
        (Value::Bytes(vec![0; 65_533]), FrameError::TooLong),
        (Value::Bytes(vec![0; 65_536]), FrameError::TooLarge),
        (
            (1..17).fold(Value::Null, |v, _| Value::array([v])),
            FrameError::TooDeep,
        ),
    ];
    for (record, error) in wrong {
        assert_eq!(reader.resolve(&record), Err(Error::Frame(error)));
    }
}

#[test]
fn a_reader_and_its_errors_go_to_other_threads() {
    fn is_send_and_sync<T: Send + Sync + 'static>() {}
    is_send_and_sync::<Reader>();
    is_send_and_sync::<Error>();
}

#[test]
fn a_reader_shows_its_schema() {
    let reader = Reader::new(&Schema::Int).unwrap();
    assert_eq!(format!("{reader:?}"), "Reader { schema: Int, .. }");
}

// The library holds no state: threads that call at the same time get what one thread gets.
#[test]
fn threads_resolve_at_the_same_time() {
    let mut generator = Generator::new(14);
    let schema = generator.record_schema();
    let sent: Vec<Value> = (0..300).map(|_| generator.near(&schema)).collect();
    let answers = |mut reader: Reader| -> Vec<_> {
        let answer = |value| reader.resolve(value).map(|got| got.to_frame());
        sent.iter().map(answer).collect()
    };
    let reader = Reader::new(&schema).unwrap();
    let meant = answers(reader.clone());
    let refused = meant.iter().filter(|answer| answer.is_err()).count();
    assert!((10..290).contains(&refused), "{refused} of 300");
    thread::scope(|scope| {
        let readers = [(); 4].map(|()| reader.clone());
        let calls = readers.map(|reader| scope.spawn(|| answers(reader)));
        for call in calls {
            assert_eq!(call.join().unwrap(), meant);
        }
    });
}

#[test]
fn a_fresh_reader_for_one_record() {
    let schema = record([("a", Schema::Long)]);
    let sent = Value::record([("a", Value::Int(1))]);
    let meant = Value::record([("a", Value::Long(1))]);
    assert_eq!(sent.resolve(&schema), Ok(meant));
    let error = Value::Int(1).resolve(&schema).unwrap_err();
    assert_eq!(error.refusal(), Some(Refusal::Unsuited));
}
