// The calendar: days of Dates, sums and windows of values.
use crate::frames::values;
use crate::generate::Generator;
use hulmbax::calendar::{add, civil, date, holds, Civil};
use hulmbax::frame::FrameError;
use hulmbax::{Duration, Error, Refusal, Value};

const DAY_MILLIS: i64 = 86_400_000;
const LEAST: Civil = Civil::new(-5_877_641, 6, 23);
const GREATEST: Civil = Civil::new(5_881_580, 7, 11);

fn duration(months: u32, days: u32, millis: u32) -> Duration {
    Duration {
        months,
        days,
        millis,
    }
}

fn day(year: i32, month: u32, day: u32) -> Value {
    Value::Date(date(Civil::new(year, month, day)).unwrap())
}

// A timestamp at so many milliseconds of a day.
fn timestamp(year: i32, month: u32, day: u32, millis: i64) -> Value {
    let date = date(Civil::new(year, month, day)).unwrap();
    Value::TimestampMillis(i64::from(date) * DAY_MILLIS + millis)
}

fn sum(instant: &Value, months: u32, days: u32, millis: u32) -> Result<Value, Error> {
    add(instant, &duration(months, days, millis))
}

fn refused<T>(refusal: Refusal) -> Result<T, Error> {
    Err(refusal.into())
}

fn is_leap(year: i32) -> bool {
    year % 4 == 0 && (year % 100 != 0 || year % 400 == 0)
}

fn days_in_month(year: i32, month: u32) -> u32 {
    match month {
        2 if is_leap(year) => 29,
        2 => 28,
        4 | 6 | 9 | 11 => 30,
        _ => 31,
    }
}

// The four kinds, each of a number.
fn instants(number: i64) -> [Value; 4] {
    [
        Value::Date(number as i32),
        Value::TimestampMillis(number),
        Value::TimestampMicros(number),
        Value::TimestampNanos(number),
    ]
}

fn least() -> [Value; 4] {
    let mut least = instants(i64::MIN);
    least[0] = Value::Date(i32::MIN);
    least
}

fn greatest() -> [Value; 4] {
    let mut greatest = instants(i64::MAX);
    greatest[0] = Value::Date(i32::MAX);
    greatest
}

fn is_instant(value: &Value) -> bool {
    instants(0).iter().any(|one| one.kind() == value.kind())
}

#[test]
fn a_month_after_the_last_of_january() {
    assert_eq!(sum(&day(2023, 1, 31), 1, 0, 0), Ok(day(2023, 2, 28)));
    assert_eq!(sum(&day(2024, 1, 31), 1, 0, 0), Ok(day(2024, 2, 29)));
    for (from, to) in [
        (timestamp(2023, 1, 31, 1), timestamp(2023, 2, 28, 1)),
        (timestamp(2024, 1, 31, 1), timestamp(2024, 2, 29, 1)),
    ] {
        assert_eq!(sum(&from, 1, 0, 0), Ok(to));
    }
}

// Over more than the 400 years after which leap years repeat, on both sides of year 0.
#[test]
fn the_days_follow_one_another() {
    let mut next = date(Civil::new(-410, 1, 1)).unwrap();
    for year in -410..410 {
        for month in 1..=12 {
            for day in 1..=days_in_month(year, month) {
                let meant = Civil::new(year, month, day);
                assert_eq!(civil(next), meant);
                assert_eq!(date(meant), Ok(next), "{meant}");
                next += 1;
            }
            let past = Civil::new(year, month, days_in_month(year, month) + 1);
            assert_eq!(date(past), Err(Refusal::OutsideCalendar), "{past}");
        }
    }
    assert_eq!(next, date(Civil::new(410, 1, 1)).unwrap());
}

#[test]
fn dates_that_are_known() {
    let known = [
        (0, Civil::new(1970, 1, 1)),
        (-1, Civil::new(1969, 12, 31)),
        (19_782, Civil::new(2024, 2, 29)),
        (11_016, Civil::new(2000, 2, 29)),
        (-719_528, Civil::new(0, 1, 1)),
        (-719_529, Civil::new(-1, 12, 31)),
        (i32::MIN, LEAST),
        (i32::MAX, GREATEST),
    ];
    for (number, meant) in known {
        assert_eq!(civil(number), meant);
        assert_eq!(date(meant), Ok(number), "{meant}");
    }
}

#[test]
fn every_date_goes_there_and_back() {
    let mut generator = Generator::new(9);
    let by_chance = (0..2_000).map(|_| generator.long() as i32);
    let at_the_edges = (0..400).flat_map(|n| [i32::MIN + n, i32::MAX - n]);
    for number in by_chance.chain(at_the_edges) {
        assert_eq!(date(civil(number)), Ok(number), "{}", civil(number));
    }
}

#[test]
fn which_years_have_a_29_february() {
    for year in [0, 4, -4, 400, -400, 1600, 2000, 2024, 5_881_576] {
        assert!(date(Civil::new(year, 2, 29)).is_ok(), "{year}");
    }
    for year in [1, -1, 100, -100, 1700, 1900, 2023, 2100, 5_881_579] {
        let none = Err(Refusal::OutsideCalendar);
        assert_eq!(date(Civil::new(year, 2, 29)), none, "{year}");
    }
}

#[test]
fn what_is_no_day() {
    let past_an_int = [0x8000_0000, 0x8000_0001, u32::MAX];
    for number in [0, 32].into_iter().chain(past_an_int) {
        let none = Err(Refusal::OutsideCalendar);
        assert_eq!(date(Civil::new(2024, number, 1)), none, "{number}");
        assert_eq!(date(Civil::new(2024, 1, number)), none, "{number}");
    }
    for (month, day) in [(13, 1), (4, 31), (2, 30), (0, 0)] {
        let none = Err(Refusal::OutsideCalendar);
        assert_eq!(date(Civil::new(2024, month, day)), none);
    }
}

#[test]
fn a_day_outside_date() {
    let outside = [
        Civil { day: 22, ..LEAST },
        Civil {
            day: 12,
            ..GREATEST
        },
        Civil { month: 5, ..LEAST },
        Civil {
            month: 8,
            ..GREATEST
        },
        Civil::new(LEAST.year - 1, 12, 31),
        Civil::new(GREATEST.year + 1, 1, 1),
        Civil::new(i32::MIN, 1, 1),
        Civil::new(i32::MAX, 12, 31),
    ];
    for day in outside {
        assert_eq!(date(day), Err(Refusal::OutsideCalendar), "{day}");
    }
}

#[test]
fn a_day_past_the_end_of_the_month_becomes_its_last() {
    for from in 28..=31 {
        for months in 0..=48 {
            let (year, month) = (2022 + months as i32 / 12, 1 + months % 12);
            let last = days_in_month(year, month);
            let meant = day(year, month, from.min(last));
            assert_eq!(sum(&day(2022, 1, from), months, 0, 0), Ok(meant));
        }
    }
}

#[test]
fn months_come_before_days_and_days_before_milliseconds() {
    assert_eq!(sum(&day(2024, 1, 30), 1, 1, 0), Ok(day(2024, 3, 1)));
    let evening = timestamp(2024, 1, 30, DAY_MILLIS - 1);
    let meant = timestamp(2024, 3, 1, 0);
    assert_eq!(sum(&evening, 1, 0, 1), Ok(meant));
    let meant = timestamp(2024, 3, 2, 0);
    assert_eq!(sum(&evening, 1, 1, 1), Ok(meant));
}

#[test]
fn months_leave_the_time_of_day_before_1970_too() {
    // the last microsecond of 1969, and of 28 February 1970
    let from = Value::TimestampMicros(-1);
    let to = Value::TimestampMicros(59 * DAY_MILLIS * 1_000 - 1);
    assert_eq!(sum(&from, 2, 0, 0), Ok(to));
    // a day that becomes the month's last, late in the evening
    let from = timestamp(1969, 1, 30, DAY_MILLIS - 1);
    let to = timestamp(1969, 2, 28, DAY_MILLIS - 1);
    assert_eq!(sum(&from, 1, 0, 0), Ok(to));
    // across the end of year -1
    let from = timestamp(-1, 12, 31, 5);
    assert_eq!(sum(&from, 2, 0, 0), Ok(timestamp(0, 2, 29, 5)));
}

#[test]
fn the_day_of_a_timestamp_moves_as_its_date_does() {
    let mut generator = Generator::new(27);
    for _ in 0..2_000 {
        let day = (generator.long() % 1_000_000) as i32;
        let of_day = generator.long().rem_euclid(DAY_MILLIS);
        let (months, days) = (generator.below(1_000) as u32, generator.below(40) as u32);
        let at = |day: i32| Value::TimestampMillis(i64::from(day) * DAY_MILLIS + of_day);
        let Ok(Value::Date(later)) = sum(&Value::Date(day), months, days, 0) else {
            panic!("no Date after {day}");
        };
        assert_eq!(sum(&at(day), months, days, 0), Ok(at(later)), "{day}");
    }
}

#[test]
fn a_millisecond_and_a_day_in_each_unit() {
    let [date, millis, micros, nanos] = instants(0);
    assert_eq!(sum(&date, 0, 3, 0), Ok(Value::Date(3)));
    let millisecond = [
        (millis, Value::TimestampMillis(1 + DAY_MILLIS)),
        (micros, Value::TimestampMicros((1 + DAY_MILLIS) * 1_000)),
        (nanos, Value::TimestampNanos((1 + DAY_MILLIS) * 1_000_000)),
    ];
    for (from, to) in millisecond {
        assert_eq!(sum(&from, 0, 1, 1), Ok(to));
    }
}

#[test]
fn a_protest_time_limit() {
    let last_finish = timestamp(2024, 6, 8, 56_530_250);
    let limit = timestamp(2024, 6, 8, 56_530_250 + 5_400_000);
    assert_eq!(sum(&last_finish, 0, 0, 90 * 60_000), Ok(limit));
}

#[test]
fn nothing_added_changes_nothing() {
    for instant in least().into_iter().chain(greatest()).chain(instants(-1)) {
        assert_eq!(sum(&instant, 0, 0, 0), Ok(instant));
    }
}

#[test]
fn the_greatest_instants_are_reached_and_not_passed() {
    let [date, millis, micros, nanos] = greatest();
    assert_eq!(sum(&Value::Date(i32::MIN), 0, u32::MAX, 0), Ok(date));
    let reached = [
        (Value::TimestampMillis(i64::MAX - 1), millis),
        (Value::TimestampMicros(i64::MAX - 1_000), micros),
        (Value::TimestampNanos(i64::MAX - 1_000_000), nanos),
    ];
    for (from, to) in reached {
        assert_eq!(sum(&from, 0, 0, 1), Ok(to));
        assert_eq!(sum(&from, 0, 0, 2), refused(Refusal::OutsideCalendar));
    }
    for instant in greatest() {
        let past = [sum(&instant, 1, 0, 0), sum(&instant, 0, 1, 0)];
        assert_eq!(past, [(); 2].map(|()| refused(Refusal::OutsideCalendar)));
    }
}

#[test]
fn the_longest_durations() {
    let most = u32::MAX;
    // 357,913,941 years and 3 months are more than Date, Micros and Nanos have
    let [date, millis, micros, nanos] = least();
    for instant in [date, micros, nanos] {
        let answer = sum(&instant, most, 0, 0);
        assert_eq!(answer, refused(Refusal::OutsideCalendar));
    }
    let in_three = sum(&millis, most, 0, 0)
        .and_then(|sum_of_months| sum(&sum_of_months, 0, most, 0))
        .and_then(|sum_of_days| sum(&sum_of_days, 0, 0, most));
    assert!(in_three.is_ok());
    assert_eq!(sum(&millis, most, most, most), in_three);
}

#[test]
fn milliseconds_on_a_date_come_before_its_range() {
    let date = Value::Date(i32::MAX);
    assert_eq!(sum(&date, 0, 0, 1), refused(Refusal::MillisOnDate));
    assert_eq!(
        sum(&date, 1, 1, DAY_MILLIS as u32),
        refused(Refusal::MillisOnDate)
    );
    assert_eq!(sum(&date, 0, 1, 0), refused(Refusal::OutsideCalendar));
}

#[test]
fn a_duration_is_its_months_then_its_days_then_its_milliseconds() {
    let mut generator = Generator::new(26);
    let mut accepted = 0;
    for _ in 0..2_000 {
        for instant in instants(generator.long()) {
            let [months, days, millis] = [(); 3].map(|()| generator.long() as u32 >> 8);
            let millis = if matches!(instant, Value::Date(_)) {
                0
            } else {
                millis
            };
            let at_once = sum(&instant, months, days, millis);
            let in_three = sum(&instant, months, 0, 0)
                .and_then(|later| sum(&later, 0, days, 0))
                .and_then(|later| sum(&later, 0, 0, millis));
            accepted += usize::from(at_once.is_ok());
            assert_eq!(at_once, in_three, "{instant} {months} {days} {millis}");
        }
    }
    assert!((1_000..7_900).contains(&accepted), "{accepted} of 8,000");
}

#[test]
fn nothing_is_added_to_any_other_kind() {
    for (value, _) in values() {
        let answer = sum(&value, 0, 0, 0);
        match is_instant(&value) {
            true => assert_eq!(answer, Ok(value)),
            false => assert_eq!(answer, refused(Refusal::Unsuited), "{value}"),
        }
    }
    let optional = Value::from(Some(Value::Date(1)));
    assert_eq!(sum(&optional, 0, 0, 0), refused(Refusal::Unsuited));
    assert_eq!(sum(optional.within(), 0, 0, 0), Ok(Value::Date(1)));
}

#[test]
fn a_window_holds_its_opening_and_not_its_closing() {
    let windows = instants(-5).into_iter().zip(instants(7));
    for (i, (opening, closing)) in windows.enumerate() {
        for number in [
            i64::from(i32::MIN),
            -6,
            -5,
            -4,
            0,
            6,
            7,
            8,
            i64::from(i32::MAX),
        ] {
            let held = (-5..7).contains(&number);
            let instant = &instants(number)[i];
            assert_eq!(holds(&opening, &closing, instant), Ok(held), "{instant}");
        }
    }
}

#[test]
fn a_window_over_all_but_the_greatest_instant() {
    for (opening, closing) in least().into_iter().zip(greatest()) {
        assert_eq!(holds(&opening, &closing, &opening), Ok(true));
        assert_eq!(holds(&opening, &closing, &closing), Ok(false));
    }
}

#[test]
fn a_window_that_closes_at_or_before_its_opening_holds_nothing() {
    for (first, last) in instants(-5).into_iter().zip(instants(7)) {
        for instant in [&first, &last] {
            assert_eq!(holds(&first, &first, instant), Ok(false));
            assert_eq!(holds(&last, &first, instant), Ok(false));
        }
    }
}

#[test]
fn mixed_kinds_are_refused_also_where_the_window_is_empty() {
    for one in instants(3) {
        for other in instants(3)
            .into_iter()
            .filter(|other| other.kind() != one.kind())
        {
            for [a, b, c] in [
                [&one, &one, &other],
                [&one, &other, &one],
                [&other, &one, &one],
            ] {
                assert_eq!(holds(a, b, c), refused(Refusal::Unsuited), "{a}, {b}, {c}");
            }
        }
    }
}

#[test]
fn other_kinds_are_refused_though_all_three_are_equal() {
    for (value, _) in values() {
        let answer = holds(&value, &value, &value);
        match is_instant(&value) {
            true => assert_eq!(answer, Ok(false)),
            false => assert_eq!(answer, refused(Refusal::Unsuited), "{value}"),
        }
    }
}

#[test]
fn a_value_without_a_frame_is_not_sent() {
    let none = Value::Fixed(3, vec![1]);
    let error = Error::Frame(FrameError::FixedSize);
    assert_eq!(sum(&none, 0, 0, 0), Err(error.clone()));
    let date = Value::Date(1);
    for [a, b, c] in [
        [&none, &date, &date],
        [&date, &none, &date],
        [&date, &date, &none],
    ] {
        assert_eq!(holds(a, b, c), Err(error.clone()));
    }
}

#[test]
fn a_refusal_of_the_calendar_is_the_root_s_and_has_its_number() {
    let error = sum(&Value::Date(1), 0, 0, 1).unwrap_err();
    assert!(error.path().is_root());
    assert!(error.to_string().ends_with("(refusal 26)"), "{error}");
    let error = Error::from(date(Civil::new(1900, 2, 29)).unwrap_err());
    assert!(error.to_string().ends_with("(refusal 27)"), "{error}");
}
