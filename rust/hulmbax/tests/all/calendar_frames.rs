// The calendar over frames: what is no frame, other kinds, and what a call leaves in the buffer.
use crate::common::bytes;
use crate::frames::values;
use hulmbax::frame::{add, holds, kind, SUM_LEN};
use hulmbax::Refusal;

/// 1970-01-02, and 31 January 1970 in each kind of timestamp.
const DATE: &str = "1000000001";
const TIMESTAMPS: [&str; 3] = [
    "13000000009a7ec800",
    "140000025b7f3d4000",
    "150009356907420000",
];

/// One month, one day; two milliseconds.
const MONTH_AND_DAY: &str = "19010000000100000000000000";
const MILLIS: &str = "19000000000000000002000000";

/// Frames that are none: nothing, no kind, cut, with a rest, broken within, and keys that fall.
const BROKEN: [&str; 8] = [
    "",
    "1a",
    "10000000",
    "100000000100",
    "1300000000",
    "190100000001000000000000",
    "0b00010001ff00",
    "0900020001620000016100",
];

// The sum in a buffer that is long enough.
fn sum(instant: &str, duration: &str) -> Result<Vec<u8>, Refusal> {
    let mut result = [0; SUM_LEN];
    let n = add(&bytes(instant), &bytes(duration), &mut result)?;
    Ok(result[..n].to_vec())
}

#[test]
fn the_low_byte_of_a_duration_s_parts_comes_first() {
    assert_eq!(sum(DATE, MONTH_AND_DAY), Ok(bytes("1000000021")));
    // 0x010203 days, and 0x01020304 milliseconds
    let days = "19000000000302010000000000";
    assert_eq!(sum(DATE, days), Ok(bytes("1000010204")));
    let millis = "19000000000000000004030201";
    let answer = sum("130000000000000000", millis);
    assert_eq!(answer, Ok(bytes("130000000001020304")));
}

#[test]
fn each_kind_keeps_its_kind() {
    // 28 February
    let sums = [
        "13000000012ab0d800",
        "140000048ec2cbc000",
        "150011cda8ebe60000",
    ];
    for (from, to) in TIMESTAMPS.into_iter().zip(sums) {
        let month = "19010000000000000000000000";
        assert_eq!(sum(from, month), Ok(bytes(to)), "{from}");
    }
    let answer = TIMESTAMPS.map(|from| sum(from, MILLIS));
    let sums = [
        "13000000009a7ec802",
        "140000025b7f3d47d0",
        "150009356907608480",
    ];
    assert_eq!(answer, sums.map(|to| Ok(bytes(to))));
}

#[test]
fn what_is_no_frame_comes_before_any_other_refusal() {
    for broken in BROKEN {
        for other in [DATE, MONTH_AND_DAY, "00", "0b0000"] {
            let none = Err(Refusal::RecordNoFrame);
            assert_eq!(sum(broken, other), none, "{broken} {other}");
            assert_eq!(sum(other, broken), none, "{other} {broken}");
        }
    }
}

#[test]
fn a_frame_nested_deeper_than_sixteen_is_none() {
    let deep = |depth: usize| "080001".repeat(depth - 1) + "00";
    assert_eq!(sum(&deep(16), MILLIS), Err(Refusal::Unsuited));
    assert_eq!(sum(&deep(17), MILLIS), Err(Refusal::RecordNoFrame));
    assert_eq!(sum(DATE, &deep(16)), Err(Refusal::Unsuited));
    assert_eq!(sum(DATE, &deep(17)), Err(Refusal::RecordNoFrame));
}

#[test]
fn each_other_kind_is_unsuited() {
    for (value, digits) in values() {
        let is_instant = matches!(
            value.kind(),
            kind::DATE | kind::TIMESTAMP_MILLIS | kind::TIMESTAMP_MICROS | kind::TIMESTAMP_NANOS
        );
        if !is_instant {
            let unsuited = Err(Refusal::Unsuited);
            assert_eq!(sum(digits, MONTH_AND_DAY), unsuited, "{value}");
        }
        if value.kind() != kind::DURATION {
            assert_eq!(sum(DATE, digits), Err(Refusal::Unsuited), "{value}");
        }
    }
}

#[test]
fn the_refusals_in_their_order() {
    let calls = [
        ("10", "00", Refusal::RecordNoFrame),
        ("00", MILLIS, Refusal::Unsuited),
        (
            "107fffffff",
            "19010000000100000001000000",
            Refusal::MillisOnDate,
        ),
        ("107fffffff", MONTH_AND_DAY, Refusal::OutsideCalendar),
        (DATE, MONTH_AND_DAY, Refusal::ResultTooLong),
    ];
    for (instant, duration, refusal) in calls {
        let answer = add(&bytes(instant), &bytes(duration), &mut []);
        assert_eq!(answer, Err(refusal), "{instant} {duration}");
    }
}

#[test]
fn a_buffer_of_the_sum_s_length_is_long_enough_and_a_shorter_one_is_left_as_it_was() {
    for (instant, n) in [(DATE, 5), (TIMESTAMPS[0], 9), (TIMESTAMPS[2], 9)] {
        let (instant, duration) = (bytes(instant), bytes(MONTH_AND_DAY));
        for length in 0..n {
            let mut result = vec![0xaa; length];
            let answer = add(&instant, &duration, &mut result);
            assert_eq!(answer, Err(Refusal::ResultTooLong), "{length}");
            assert_eq!(result, vec![0xaa; length]);
        }
        let mut result = vec![0xaa; n];
        assert_eq!(add(&instant, &duration, &mut result), Ok(n));
        assert_eq!(result[0], instant[0]);
    }
}

#[test]
fn a_longer_buffer_keeps_what_stands_after_the_sum() {
    let mut result = [0xaa; 12];
    assert_eq!(add(&bytes(DATE), &bytes(MONTH_AND_DAY), &mut result), Ok(5));
    assert_eq!(result[..5].to_vec(), bytes("1000000021"));
    assert_eq!(result[5..], [0xaa; 7]);
}

#[test]
fn a_refusal_leaves_the_buffer_as_it_was() {
    let calls = [
        ("10", MILLIS),
        ("00", MILLIS),
        (DATE, DATE),
        (DATE, MILLIS),
        ("107fffffff", MONTH_AND_DAY),
        ("137fffffffffffffff", MILLIS),
    ];
    for (instant, duration) in calls {
        let mut result = [0xaa; 64];
        assert!(add(&bytes(instant), &bytes(duration), &mut result).is_err());
        assert_eq!(result, [0xaa; 64], "{instant} {duration}");
    }
}

#[test]
fn what_is_no_frame_comes_before_kinds_in_a_window() {
    for broken in BROKEN {
        let (broken, date, null) = (bytes(broken), bytes(DATE), bytes("00"));
        for [a, b, c] in [
            [&broken, &date, &date],
            [&date, &broken, &date],
            [&date, &date, &broken],
            [&null, &date, &broken],
            [&broken, &null, &date],
        ] {
            assert_eq!(holds(a, b, c), Err(Refusal::RecordNoFrame));
        }
    }
}

#[test]
fn numbers_below_zero_stand_before_the_others_in_a_window() {
    let windows = [
        ("10ffffffff", "1000000001", "1000000000", true),
        ("1000000000", "1000000001", "10ffffffff", false),
        ("1080000000", "107fffffff", "10ffffffff", true),
        (
            "13ffffffffffffffff",
            "130000000000000001",
            "130000000000000000",
            true,
        ),
        (
            "158000000000000000",
            "157fffffffffffffff",
            "157ffffffffffffffe",
            true,
        ),
    ];
    for (opening, closing, instant, held) in windows {
        let answer = holds(&bytes(opening), &bytes(closing), &bytes(instant));
        assert_eq!(answer, Ok(held), "{opening} {closing} {instant}");
    }
}
