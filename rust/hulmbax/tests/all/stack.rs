// The stack that the documentation recommends is enough. Records nested as deep as a frame can be,
// the innermost empty, take the most of all shapes that were measured.
use crate::common::{record, resolved};
use hulmbax::calendar::{add, holds};
use hulmbax::frame::{MAX_DEPTH, MAX_FINISHES};
use hulmbax::{current, Duration, Reader, Refusal, Schema, Value};
use std::thread::Builder;

const RECOMMENDED: usize = 256 * 1024;

fn on_the_recommended_stack<T: Send + 'static>(call: impl FnOnce() -> T + Send + 'static) -> T {
    let thread = Builder::new().stack_size(RECOMMENDED).spawn(call);
    thread.unwrap().join().unwrap()
}

fn deep_schema() -> Schema {
    (1..MAX_DEPTH).fold(Schema::record(vec![]), |s, _| record([("f", s)]))
}

fn deep_value(innermost: Value) -> Value {
    (1..MAX_DEPTH).fold(innermost, |v, _| Value::record([("f", v)]))
}

#[test]
fn for_a_call_over_frames() {
    let schema = deep_schema().to_frame().unwrap();
    let sent = deep_value(Value::record::<&str>([])).to_frame().unwrap();
    let meant = sent.clone();
    let answer = on_the_recommended_stack(move || resolved(&schema, &sent));
    assert_eq!(answer, Ok(meant));
}

#[test]
fn for_a_reader() {
    let sent = deep_value(Value::record::<&str>([]));
    let meant = sent.clone();
    let answer = on_the_recommended_stack(move || {
        let mut reader = Reader::new(&deep_schema()).unwrap();
        reader.resolve(&sent)
    });
    assert_eq!(answer, Ok(meant));
}

#[test]
fn for_a_reader_that_looks_for_the_path() {
    let sent = deep_value(Value::Null);
    let answer = on_the_recommended_stack(move || {
        let mut reader = Reader::new(&deep_schema()).unwrap();
        reader.resolve(&sent)
    });
    let error = answer.unwrap_err();
    assert_eq!(error.refusal(), Some(Refusal::Unsuited));
    assert_eq!(error.path().steps().len(), MAX_DEPTH - 1);
}

#[test]
fn for_the_calendar() {
    let sent = deep_value(Value::record::<&str>([]));
    let (sum, held) = on_the_recommended_stack(move || {
        let sum = add(&sent, &Duration::default());
        (sum, holds(&sent, &sent, &sent))
    });
    assert_eq!(sum, Err(Refusal::Unsuited.into()));
    assert_eq!(held, Err(Refusal::Unsuited.into()));
}

// Finishes with the deepest records in a field, as many as a list can have; then one that is no
// finish behind them, so that each is looked at by itself.
#[test]
fn for_a_list_of_finishes() {
    let nested = (2..MAX_DEPTH).fold(Value::record::<&str>([]), |v, _| Value::record([("f", v)]));
    let finish = |i: usize| {
        let sail = format!("A {i}").into();
        Value::record([
            ("f", nested.clone()),
            ("sail", sail),
            ("seq", Value::Long(0)),
        ])
    };
    let mut list: Vec<Value> = (0..MAX_FINISHES).map(finish).collect();
    let (accepted, refused) = on_the_recommended_stack(move || {
        let accepted = current(&list);
        list[MAX_FINISHES - 1] = Value::Null;
        (accepted, current(&list))
    });
    assert_eq!(accepted, Ok((0..MAX_FINISHES).collect()));
    assert_eq!(refused.unwrap_err().path().to_string(), "[255]");
}
