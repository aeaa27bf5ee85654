// The current finishes of a list of values, and a reading of the rule to compare them with.
use crate::frames::values;
use crate::generate::Generator;
use hulmbax::frame::{FrameError, MAX_FINISHES};
use hulmbax::path::Step;
use hulmbax::{current, Error, Reader, RecordField, Refusal, Schema, Value};

const LISTS: usize = 5_000;

/// A finish of a sail and a seq.
pub fn finish(sail: &str, seq: i64) -> Value {
    Value::record([("sail", sail.into()), ("seq", seq.into())])
}

/// The places of the current ones, if all are finishes. A finish is current if none before it of its
/// sail has a greater seq and none after it one as great.
pub fn reading(list: &[Value]) -> Option<Vec<usize>> {
    let list: Vec<(&str, i64)> = list.iter().map(sail_and_seq).collect::<Option<_>>()?;
    let is_current = |place: &usize| {
        let (sail, seq) = list[*place];
        let mut others = (0..).zip(&list).filter(|(_, other)| other.0 == sail);
        others.all(|(other, (_, its))| match other > *place {
            true => *its < seq,
            false => *its <= seq,
        })
    };
    let mut places: Vec<usize> = (0..list.len()).filter(is_current).collect();
    places.sort_by_key(|place| list.iter().position(|(sail, _)| *sail == list[*place].0));
    Some(places)
}

// The last field of each name, without looking through a Union.
fn sail_and_seq(finish: &Value) -> Option<(&str, i64)> {
    let Value::Record(fields) = finish else {
        return None;
    };
    let last = |name| fields.iter().rfind(|(n, _)| n == name).map(|(_, v)| v);
    match (last("sail")?, last("seq")?) {
        (Value::String(sail), Value::Long(seq)) => Some((sail, *seq)),
        _ => None,
    }
}

// The path and the refusal of a list that is refused.
fn refused(list: &[Value]) -> (String, Refusal) {
    let error = current(list).expect_err("this is to be refused");
    (error.path().to_string(), error.refusal().unwrap())
}

fn no_finish(place: usize) -> (String, Refusal) {
    (format!("[{place}]"), Refusal::NoFinish)
}

fn union(value: impl Into<Value>) -> Value {
    Value::Union(0, Box::new(value.into()))
}

#[test]
fn an_empty_list_has_an_empty_answer() {
    assert_eq!(current(&[]), Ok(vec![]));
}

#[test]
fn the_greatest_seq_is_current_wherever_it_stands() {
    let lists = [
        ([0, 1, 2], 2),
        ([0, 2, 1], 1),
        ([2, 0, 1], 0),
        ([2, 1, 0], 0),
        ([-2, -1, -3], 1),
        ([-1, 0, -2], 1),
        ([i64::MIN, i64::MAX, 0], 1),
        ([i64::MIN, -1, i64::MIN + 1], 1),
        ([i64::MAX - 1, i64::MAX, i64::MIN], 1),
        ([255, 256, -256], 1),
        ([0x7fff_ffff, 0x8000_0000, 0], 1),
    ];
    for (seqs, meant) in lists {
        let list = seqs.map(|seq| finish("A 12", seq));
        assert_eq!(current(&list), Ok(vec![meant]), "{seqs:?}");
    }
}

#[test]
fn of_equal_seqs_the_later_is_current() {
    for seq in [0, 1, -1, i64::MIN, i64::MAX] {
        let list = [(); 5].map(|()| finish("A 12", seq));
        assert_eq!(current(&list), Ok(vec![4]), "{seq}");
    }
    let list = [2, 0, 2, 2, 1].map(|seq| finish("A 12", seq));
    assert_eq!(current(&list), Ok(vec![3]));
}

#[test]
fn sails_stand_in_the_order_in_which_they_first_appear() {
    let list = [
        finish("C 5", 0),
        finish("A 12", 0),
        finish("B 7", 0),
        finish("A 12", 1),
        finish("C 5", -1),
        finish("B 7", 3),
        finish("D 1", 0),
        finish("C 5", 0),
    ];
    assert_eq!(current(&list), Ok(vec![7, 3, 5, 6]));
}

#[test]
fn sails_that_are_nearly_the_same() {
    let sails = [
        "", "A", "a", "A 1", "A 12", "A 21", "A 12 ", " A 12", "B 12", "é", "e\u{301}", "A\u{0}",
        "A\u{0}1", "A\u{0}2",
    ];
    let list = sails.map(|sail| finish(sail, 0));
    assert_eq!(current(&list), Ok((0..sails.len()).collect()));
    let twice: Vec<Value> = list
        .into_iter()
        .chain(sails.map(|s| finish(s, 1)))
        .collect();
    let later = (sails.len()..2 * sails.len()).collect();
    assert_eq!(current(&twice), Ok(later));
}

#[test]
fn many_boats_of_which_each_corrects() {
    let entered = |seq| (0..128).map(move |boat| finish(&format!("A {boat}"), seq));
    let list: Vec<Value> = entered(0).chain(entered(1)).collect();
    assert_eq!(current(&list), Ok((128..256).collect()));
    let list: Vec<Value> = entered(0).chain(entered(-1)).collect();
    assert_eq!(current(&list), Ok((0..128).collect()));
    // the last boat's correction comes first
    let list: Vec<Value> = entered(0).chain(entered(1).rev()).collect();
    assert_eq!(current(&list), Ok((128..256).rev().collect()));
}

#[test]
fn of_repeated_names_the_last_counts() {
    let fields = |fields: &[(&str, Value)]| Value::record(fields.iter().cloned());
    let twice = fields(&[
        ("seq", Value::Long(9)),
        ("sail", "B 7".into()),
        ("sail", "A 12".into()),
        ("seq", Value::Long(0)),
    ]);
    let list = [twice, finish("A 12", 1), finish("B 7", 0)];
    assert_eq!(current(&list), Ok(vec![1, 2]));

    // the kind of an earlier one plays no part, and that of the last does
    let mended = fields(&[
        ("sail", Value::Null),
        ("seq", Value::Int(5)),
        ("sail", "A 12".into()),
        ("seq", Value::Long(5)),
    ]);
    assert_eq!(current(&[mended]), Ok(vec![0]));
    for (name, last) in [("sail", Value::Null), ("seq", Value::Int(5))] {
        let spoilt = fields(&[
            ("sail", "A 12".into()),
            ("seq", Value::Long(5)),
            (name, last),
        ]);
        assert_eq!(refused(&[spoilt]), no_finish(0), "{name}");
    }
}

#[test]
fn other_fields_play_no_part() {
    let names = ["Sail", "SEQ", "sai", "sails", "se", "seqs", "", "elapsed"];
    for (value, _) in values() {
        let others = names.map(|name| (name, value.clone()));
        let list = [1, 0].map(|seq| {
            let fields = [("sail", "A 12".into()), ("seq", Value::Long(seq))];
            Value::record(others.iter().cloned().chain(fields).chain(others.clone()))
        });
        assert_eq!(current(&list), Ok(vec![0]), "{value}");
    }
}

#[test]
fn only_a_string_is_a_sail_and_only_a_long_a_seq() {
    for (value, _) in values() {
        let as_sail = Value::record([("sail", value.clone()), ("seq", Value::Long(0))]);
        match value {
            Value::String(_) => assert_eq!(current(&[as_sail]), Ok(vec![0])),
            _ => assert_eq!(refused(&[as_sail]), no_finish(0), "{value}"),
        }
        let as_seq = Value::record([("sail", "A 12".into()), ("seq", value.clone())]);
        match value {
            Value::Long(_) => assert_eq!(current(&[as_seq]), Ok(vec![0])),
            _ => assert_eq!(refused(&[as_seq]), no_finish(0), "{value}"),
        }
        assert_eq!(refused(&[value]), no_finish(0));
    }
}

#[test]
fn no_union_is_taken_off() {
    let unions = [
        union(finish("A 12", 0)),
        Value::record([("sail", union("A 12")), ("seq", Value::Long(0))]),
        Value::record([("sail", "A 12".into()), ("seq", union(0_i64))]),
        Value::record([("sail", Value::from(Some("A 12"))), ("seq", Value::Long(0))]),
    ];
    for value in unions {
        assert_eq!(refused(&[value]), no_finish(0));
    }
}

#[test]
fn a_map_is_no_record() {
    let map = Value::map([("sail", "A 12".into()), ("seq", Value::Long(0))]);
    assert_eq!(refused(&[map]), no_finish(0));
}

#[test]
fn a_field_that_is_missing() {
    let fields = [
        vec![],
        vec![("sail", Value::from("A 12"))],
        vec![("seq", Value::Long(0))],
        vec![("Sail", "A 12".into()), ("seq", Value::Long(0))],
    ];
    for fields in fields {
        assert_eq!(refused(&[Value::record(fields)]), no_finish(0));
    }
}

#[test]
fn the_path_leads_to_the_first_that_is_no_finish() {
    let mut list: Vec<Value> = (0..200).map(|seq| finish("A 12", seq)).collect();
    for place in [199, 57, 56, 3, 0] {
        list[place] = Value::Null;
        assert_eq!(refused(&list), no_finish(place));
    }
    let error = current(&list[3..]).unwrap_err();
    assert_eq!(error.path().steps(), [Step::Index(0)]);
    let text = error.to_string();
    assert!(
        text.starts_with("[0]: a frame in the list is no finish"),
        "{text}"
    );
    assert!(text.ends_with("(refusal 24)"), "{text}");
}

#[test]
fn two_hundred_and_fifty_six_and_one_more() {
    let list: Vec<Value> = (0..257).map(|i| finish(&format!("A {i}"), 0)).collect();
    assert_eq!(current(&list[..255]), Ok((0..255).collect()));
    assert_eq!(current(&list[..MAX_FINISHES]), Ok((0..256).collect()));
    assert_eq!(refused(&list), (String::new(), Refusal::TooManyFrames));
    let of_one_boat: Vec<Value> = (0..256).map(|seq| finish("A 12", seq)).collect();
    assert_eq!(current(&of_one_boat), Ok(vec![255]));
}

#[test]
fn too_many_come_before_one_that_is_no_finish() {
    let too_many = (String::new(), Refusal::TooManyFrames);
    assert_eq!(refused(&vec![Value::Null; 257]), too_many);
    assert_eq!(refused(&vec![Value::Null; 256]), no_finish(0));
}

#[test]
fn a_value_without_a_frame_is_not_sent() {
    let list = [finish("A 12", 0), Value::Fixed(3, vec![1])];
    assert_eq!(current(&list), Err(Error::Frame(FrameError::FixedSize)));
}

#[test]
fn finishes_come_from_anything_that_gives_them() {
    let races = [
        (1, finish("A 12", 0)),
        (2, finish("A 12", 5)),
        (1, finish("A 12", 1)),
    ];
    let of_race = |race| {
        races
            .iter()
            .filter(move |(r, _)| *r == race)
            .map(|(_, f)| f)
    };
    assert_eq!(current(of_race(1)), Ok(vec![1]));
    assert_eq!(current(of_race(2)), Ok(vec![0]));
    assert_eq!(current(of_race(3)), Ok(vec![]));
    assert_eq!(current(&vec![finish("A 12", 0)]), Ok(vec![0]));
}

// The sheet's reader schema, with the sail as it is handed in.
fn reader(sail: Schema) -> Reader {
    let seq = RecordField::new("seq", Schema::Long).with_default(0);
    Reader::new(&Schema::record(vec![RecordField::new("sail", sail), seq])).unwrap()
}

#[test]
fn results_of_a_reader() {
    let sent = [
        Value::record([("sail", Value::from("A 12"))]),
        Value::map([("seq", Value::Int(-1)), ("sail", union("A 12"))]),
        Value::record([("sail", Value::from("A 12")), ("seq", Value::Int(0))]),
    ];
    let resolved = |mut reader: Reader| sent.clone().map(|sent| reader.resolve(&sent).unwrap());
    assert_eq!(current(&resolved(reader(Schema::String))), Ok(vec![2]));
    let nullable = Schema::nullable(Schema::String).unwrap();
    assert_eq!(refused(&resolved(reader(nullable))), no_finish(0));
}

// A list of finishes by chance: few seqs and mostly few sails, so that many are equal, among other
// fields.
fn any_list(generator: &mut Generator) -> Vec<Value> {
    let seqs = [
        0,
        1,
        -1,
        2,
        i64::MIN,
        i64::MAX,
        generator.long(),
        generator.long(),
    ];
    let (sails, most) = match generator.below(20) {
        0 => (200, MAX_FINISHES as u64),
        _ => (6, 23),
    };
    let (sails, length) = (1 + generator.below(sails), generator.below(most + 1));
    (0..length)
        .map(|place| {
            let sail = format!("A {}", generator.below(sails));
            let seq = seqs[generator.below(seqs.len() as u64) as usize];
            let mut fields = vec![
                ("sail", sail.into()),
                ("seq", Value::Long(seq)),
                ("elapsed", generator.any()),
                ("place", Value::Long(place as i64)),
            ];
            fields.rotate_left(generator.below(4) as usize);
            Value::record(fields)
        })
        .collect()
}

// In one of so many lists a field has another value, another name or another beside it.
fn spoil(list: &mut [Value], generator: &mut Generator) {
    let place = generator.below(1 + 4 * list.len() as u64) as usize;
    let Some(Value::Record(fields)) = list.get_mut(place) else {
        return;
    };
    let field = generator.below(fields.len() as u64) as usize;
    match generator.below(3) {
        0 => fields[field].1 = generator.any(),
        1 => fields[field].0.push('s'),
        _ => fields.push((fields[field].0.clone(), generator.any())),
    }
}

#[test]
fn lists_by_chance_get_what_the_reading_gives() {
    let mut generator = Generator::new(7);
    let (mut corrected, mut refused) = (0, 0);
    for _ in 0..LISTS {
        let mut list = any_list(&mut generator);
        spoil(&mut list, &mut generator);
        let answer = current(&list);
        match reading(&list) {
            Some(places) => {
                corrected += usize::from(places.len() < list.len());
                assert_eq!(answer, Ok(places), "{list:?}");
            }
            None => {
                refused += 1;
                let first = list
                    .iter()
                    .position(|finish| sail_and_seq(finish).is_none());
                let error = answer.unwrap_err();
                assert_eq!(error.refusal(), Some(Refusal::NoFinish), "{list:?}");
                assert_eq!(error.path().steps(), [Step::Index(first.unwrap())]);
            }
        }
    }
    assert!(
        corrected > LISTS / 2 && refused > LISTS / 20,
        "{corrected} {refused}"
    );
}

// The list in another order, in which those of equal seq keep theirs.
fn reordered(list: &[Value], generator: &mut Generator) -> Vec<Value> {
    let seq = |finish: &Value| sail_and_seq(finish).unwrap().1;
    let mut left = list.to_vec();
    let mut out = Vec::new();
    while !left.is_empty() {
        let any = seq(&left[generator.below(left.len() as u64) as usize]);
        let first = left.iter().position(|finish| seq(finish) == any);
        out.push(left.remove(first.unwrap()));
    }
    out
}

// The current ones by themselves, in the order of their sails.
fn current_ones(list: &[Value]) -> Vec<Vec<u8>> {
    let mut ones: Vec<&Value> = current(list)
        .unwrap()
        .iter()
        .map(|place| &list[*place])
        .collect();
    ones.sort_by_key(|finish| sail_and_seq(finish).unwrap().0);
    ones.into_iter()
        .map(|finish| finish.to_frame().unwrap())
        .collect()
}

#[test]
fn the_order_of_different_seqs_does_not_matter() {
    let mut generator = Generator::new(23);
    let mut moved = 0;
    for _ in 0..LISTS {
        let list = any_list(&mut generator);
        let other = reordered(&list, &mut generator);
        moved += usize::from(current(&list) != current(&other));
        assert_eq!(
            current_ones(&list),
            current_ones(&other),
            "{list:?}, {other:?}"
        );
    }
    assert!(moved > LISTS / 2, "{moved} of {LISTS}");
}
