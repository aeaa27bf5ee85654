// The current finishes of a list of frames: ends, what is no frame, the order of the refusals, and
// what a call leaves in the result buffer and in the workspace.
use crate::common::bytes;
use crate::current::{finish, reading};
use crate::generate::Generator;
use hulmbax::frame::{current, MAX_DEPTH, MAX_FINISHES, MAX_FRAME, WORKSPACE_LEN};
use hulmbax::{Refusal, Value};

const LISTS: usize = 5_000;

/// Sail `A` with seq 1, and with seq 0, the fields the other way about.
const LATER: &str = "0b000200047361696c070001410003736571030000000000000001";
const EARLIER: &str = "0b0002000373657103000000000000000000047361696c07000141";

/// Frames that are none: nothing, no kind, cut, with a rest; within them no kind, no flag, no UTF-8
/// in a name and in the sail, keys that fall and keys that are equal.
const BROKEN: [&str; 10] = [
    "",
    "1a",
    "0b000200047361696c0700014100037365710300000000000000",
    "0b000200047361696c07000141000373657103000000000000000100",
    "0b000300047361696c0700014100037365710300000000000000010001611a",
    "0b000300047361696c0700014100037365710300000000000000010001610102",
    "0b000300047361696c0700014100037365710300000000000000010001ff00",
    "0b000200047361696c070001ff0003736571030000000000000001",
    "0b000300047361696c07000141000373657103000000000000000100016d0900020001620000016100",
    "0b000300047361696c07000141000373657103000000000000000100016d0900020001610000016100",
];

/// The frames one behind another, and where each ends.
fn list<F: AsRef<[u8]>>(frames: impl IntoIterator<Item = F>) -> (Vec<u8>, Vec<usize>) {
    let (mut input, mut ends) = (Vec::new(), Vec::new());
    for frame in frames {
        input.extend_from_slice(frame.as_ref());
        ends.push(input.len());
    }
    (input, ends)
}

// So many finishes of boats that are all different.
fn boats(n: usize) -> (Vec<u8>, Vec<usize>) {
    list((0..n).map(|i| finish(&format!("A {i}"), 0).to_frame().unwrap()))
}

// The places in a buffer that is long enough.
fn places(input: &[u8], ends: &[usize]) -> Result<Vec<u8>, Refusal> {
    let mut result = [0; MAX_FINISHES];
    let n = current(input, ends, &mut result, &mut vec![0; WORKSPACE_LEN])?;
    Ok(result[..n].to_vec())
}

// Those of the frames of these digits.
fn places_of<const N: usize>(frames: [&str; N]) -> Result<Vec<u8>, Refusal> {
    let (input, ends) = list(frames.map(bytes));
    places(&input, &ends)
}

#[test]
fn the_fields_stand_in_any_order() {
    assert_eq!(places_of([LATER, EARLIER]), Ok(vec![0]));
    assert_eq!(places_of([EARLIER, LATER]), Ok(vec![1]));
    assert_eq!(places_of([EARLIER, EARLIER]), Ok(vec![1]));
}

#[test]
fn the_first_byte_of_a_seq_has_its_sign() {
    let seq = |digits: &str| EARLIER.replace("0000000000000000", digits);
    let minus_one = seq("ffffffffffffffff");
    let (least, greatest) = (seq("8000000000000000"), seq("7fffffffffffffff"));
    assert_eq!(places_of([&least, &minus_one, EARLIER]), Ok(vec![2]));
    assert_eq!(places_of([&minus_one, &least]), Ok(vec![0]));
    assert_eq!(places_of([&minus_one, &greatest, &least]), Ok(vec![1]));
}

#[test]
fn an_empty_list_whatever_the_input_is() {
    for input in ["", "1a", LATER] {
        let answer = current(&bytes(input), &[], &mut [], &mut vec![0; WORKSPACE_LEN]);
        assert_eq!(answer, Ok(0), "{input}");
    }
}

#[test]
fn the_bytes_behind_the_last_end_are_not_looked_at() {
    for rest in ["00", "1a", LATER, "0b"] {
        let (mut input, ends) = list([bytes(EARLIER), bytes(LATER)]);
        input.extend(bytes(rest));
        assert_eq!(places(&input, &ends), Ok(vec![1]), "{rest}");
        assert_eq!(places(&input, &ends[..1]), Ok(vec![0]), "{rest}");
    }
}

#[test]
fn what_is_no_frame_is_no_finish_wherever_it_stands() {
    for broken in BROKEN {
        let none = Err(Refusal::NoFinish);
        assert_eq!(places_of([broken]), none, "{broken}");
        assert_eq!(places_of([broken, LATER, EARLIER]), none, "{broken}");
        assert_eq!(places_of([LATER, broken, EARLIER]), none, "{broken}");
        assert_eq!(places_of([LATER, EARLIER, broken]), none, "{broken}");
    }
}

#[test]
fn ends_that_make_no_frames() {
    let (input, ends) = list([bytes(EARLIER), bytes(LATER), bytes(EARLIER)]);
    let [a, b, c] = ends[..] else { panic!() };
    assert_eq!(places(&input, &[a, b, c]), Ok(vec![1]));
    let past = input.len() + 1;
    let broken = [
        vec![0],
        vec![a - 1],
        vec![a + 1],
        vec![past],
        vec![usize::MAX],
        vec![a, a],
        vec![a, a - 1],
        vec![a, 0],
        vec![b, a],
        vec![a, c],
        vec![a, b, past],
        vec![a, b, usize::MAX],
        vec![usize::MAX, a],
        vec![a, usize::MAX, b],
        vec![a, b, c, c],
        vec![a, b, c, a],
        vec![a, b, a, b],
    ];
    for ends in broken {
        assert_eq!(places(&input, &ends), Err(Refusal::NoFinish), "{ends:?}");
    }
}

#[test]
fn the_longest_frame_and_one_that_is_longer() {
    // a field of Bytes fills the frame up
    let filled = |length: usize| {
        let mut frame = bytes(&(LATER.replacen("0b0002", "0b0003", 1) + "00016106"));
        let rest = length - frame.len() - 2;
        frame.extend(u16::try_from(rest).unwrap().to_be_bytes());
        frame.resize(length, 0xff);
        frame
    };
    let longest = filled(MAX_FRAME);
    assert_eq!(places(&longest, &[MAX_FRAME]), Ok(vec![0]));
    let longer = filled(MAX_FRAME + 1);
    assert_eq!(places(&longer, &[MAX_FRAME + 1]), Err(Refusal::NoFinish));
    let (input, ends) = list([longest.clone(), bytes(EARLIER), longest]);
    assert_eq!(places(&input, &ends), Ok(vec![2]));
}

#[test]
fn a_frame_nested_deeper_than_sixteen_is_none() {
    // the field stands at depth 2
    let deep = |depth: usize| {
        let nested = "080001".repeat(depth - 2) + "00";
        LATER.replacen("0b0002", "0b0003", 1) + "000161" + &nested
    };
    assert_eq!(places_of([&deep(MAX_DEPTH)]), Ok(vec![0]));
    assert_eq!(places_of([&deep(MAX_DEPTH + 1)]), Err(Refusal::NoFinish));
}

#[test]
fn two_hundred_and_fifty_six_frames_have_all_places_of_a_byte() {
    let (input, ends) = boats(MAX_FINISHES);
    assert_eq!(places(&input, &ends), Ok((0..=255).collect()));
    let later = (0..MAX_FINISHES as i64).map(|seq| finish("A", seq).to_frame().unwrap());
    let (input, ends) = list(later);
    assert_eq!(places(&input, &ends), Ok(vec![255]));
}

#[test]
fn more_frames_are_refused_before_any_is_read() {
    let (input, ends) = boats(MAX_FINISHES + 1);
    assert_eq!(places(&input, &ends), Err(Refusal::TooManyFrames));
    let unreadable = [0, usize::MAX, 1];
    for n in [MAX_FINISHES + 1, 1_000, 65_536] {
        let ends: Vec<usize> = unreadable.into_iter().cycle().take(n).collect();
        assert_eq!(places(&input, &ends), Err(Refusal::TooManyFrames), "{n}");
        assert_eq!(places(&[], &ends), Err(Refusal::TooManyFrames), "{n}");
    }
}

#[test]
fn the_refusals_in_their_order() {
    let (broken, finishes) = (vec![0; MAX_FINISHES + 1], boats(2));
    let calls = [
        (&broken[..], 65_535, Refusal::WorkspaceTooShort),
        (&broken[..], 65_536, Refusal::TooManyFrames),
        (&broken[1..], 65_536, Refusal::NoFinish),
        (&finishes.1[..], 65_535, Refusal::WorkspaceTooShort),
        (&finishes.1[..], 65_536, Refusal::ResultTooLong),
    ];
    for (ends, length, refusal) in calls {
        let answer = current(&finishes.0, ends, &mut [], &mut vec![0; length]);
        assert_eq!(answer, Err(refusal), "{length}");
    }
}

#[test]
fn a_buffer_of_the_answer_s_length_is_long_enough_and_a_shorter_one_is_left_as_it_was() {
    for n in [1, 2, 255, 256] {
        let (input, ends) = boats(n);
        for length in [0, 1, n / 2, n - 1]
            .into_iter()
            .filter(|length| *length < n)
        {
            let mut result = vec![0xaa; length];
            let answer = current(&input, &ends, &mut result, &mut vec![0; WORKSPACE_LEN]);
            assert_eq!(answer, Err(Refusal::ResultTooLong), "{length} of {n}");
            assert_eq!(result, vec![0xaa; length]);
        }
        let mut result = vec![0xaa; n];
        let answer = current(&input, &ends, &mut result, &mut vec![0; WORKSPACE_LEN]);
        assert_eq!(answer, Ok(n));
        assert!(result.into_iter().map(usize::from).eq(0..n));
    }
}

#[test]
fn the_answer_is_as_long_as_there_are_boats_not_frames() {
    let (input, ends) = list([EARLIER, LATER, LATER].map(bytes));
    let mut result = [0xaa];
    let answer = current(&input, &ends, &mut result, &mut vec![0; WORKSPACE_LEN]);
    assert_eq!((answer, result), (Ok(1), [2]));
}

#[test]
fn a_longer_buffer_keeps_what_stands_after_the_answer() {
    for n in [0, 1, 3, 256] {
        let (input, ends) = boats(n);
        let mut result = vec![0xaa; n + 300];
        let answer = current(&input, &ends, &mut result, &mut vec![0; WORKSPACE_LEN]);
        assert_eq!(answer, Ok(n));
        assert_eq!(result[n..], [0xaa; 300]);
    }
}

#[test]
fn a_refusal_leaves_the_buffer_as_it_was() {
    let (input, ends) = list([LATER, EARLIER, "00"].map(bytes));
    for ends in [&ends[..], &ends[1..], &[usize::MAX], &[0; 257]] {
        let mut result = [0xaa; 300];
        assert!(current(&input, ends, &mut result, &mut vec![0; WORKSPACE_LEN]).is_err());
        assert_eq!(result, [0xaa; 300], "{ends:?}");
    }
}

#[test]
fn the_workspace_is_zero_after_each_call_and_the_bytes_after_it_are_kept() {
    let (input, ends) = list([LATER, EARLIER, "00"].map(bytes));
    let calls = [
        (&ends[..2], 1, Ok(1)),
        (&[], 0, Ok(0)),
        (&ends[..2], 0, Err(Refusal::ResultTooLong)),
        (&ends[..], 1, Err(Refusal::NoFinish)),
        (&[usize::MAX], 1, Err(Refusal::NoFinish)),
        (&[0; 257], 1, Err(Refusal::TooManyFrames)),
    ];
    for (ends, length, meant) in calls {
        let mut workspace = vec![0xbb; WORKSPACE_LEN + 7];
        let answer = current(&input, ends, &mut vec![0; length], &mut workspace);
        assert_eq!(answer, meant, "{ends:?}");
        let (used, after) = workspace.split_at(WORKSPACE_LEN);
        assert!(used.iter().all(|byte| *byte == 0), "{ends:?}");
        assert_eq!(after, [0xbb; 7]);
    }
}

#[test]
fn a_workspace_that_is_too_short_is_left_as_it_was() {
    let (input, ends) = boats(2);
    for length in [0, 1, WORKSPACE_LEN - 1] {
        for ends in [&ends[..], &[], &[0; 257]] {
            let (mut workspace, mut result) = (vec![0xbb; length], [0xaa; 9]);
            let answer = current(&input, ends, &mut result, &mut workspace);
            assert_eq!(answer, Err(Refusal::WorkspaceTooShort));
            assert_eq!(workspace, vec![0xbb; length]);
            assert_eq!(result, [0xaa; 9]);
        }
    }
}

#[test]
fn what_the_workspace_and_the_buffer_held_before_plays_no_part() {
    let (input, ends) = boats(200);
    for filling in [0, 1, 0x7f, 0xff] {
        let (mut workspace, mut result) = (vec![filling; WORKSPACE_LEN], [filling; 256]);
        let answer = current(&input, &ends, &mut result, &mut workspace);
        assert_eq!(answer, Ok(200));
        assert!(result[..200].iter().copied().eq(0..200));
    }
}

// What the reading gives for frames: it sees what lies within the input and is a value's frame.
fn reading_of_frames(input: &[u8], ends: &[usize]) -> Option<Vec<u8>> {
    let starts = [0].into_iter().chain(ends.iter().copied());
    let frames = starts.zip(ends).map(|(start, end)| input.get(start..*end));
    let values = frames.map(|frame| Value::from_frame(frame?).ok());
    let places = reading(&values.collect::<Option<Vec<_>>>()?)?;
    Some(places.into_iter().map(|place| place as u8).collect())
}

// Finishes with a byte or an end here and there that is another.
fn any_frames(generator: &mut Generator) -> (Vec<u8>, Vec<usize>) {
    let length = 1 + generator.below(12);
    let mut frame = |_| {
        let fields = [
            (
                "sail",
                ["A", "B", "A 1"][generator.below(3) as usize].into(),
            ),
            ("seq", Value::Long(generator.long() % 3)),
            ("elapsed", generator.any()),
        ];
        Value::record(fields).to_frame().unwrap()
    };
    let (mut input, mut ends) = list((0..length).map(&mut frame));
    match generator.below(3) {
        0 => {
            let at = generator.below(input.len() as u64) as usize;
            input[at] ^= 1 << generator.below(8);
        }
        1 => {
            let at = generator.below(length) as usize;
            ends[at] = ends[at]
                .wrapping_add(generator.below(3) as usize)
                .wrapping_sub(1);
        }
        _ => {}
    }
    (input, ends)
}

#[test]
fn frames_by_chance_get_what_the_reading_gives() {
    let mut generator = Generator::new(24);
    let mut accepted = 0;
    for _ in 0..LISTS {
        let (input, ends) = any_frames(&mut generator);
        let meant = reading_of_frames(&input, &ends).ok_or(Refusal::NoFinish);
        accepted += usize::from(meant.is_ok());
        assert_eq!(places(&input, &ends), meant, "{input:02x?} {ends:?}");
    }
    let (least, most) = (LISTS / 3, 2 * LISTS / 3);
    assert!((least..most).contains(&accepted), "{accepted} of {LISTS}");
}
