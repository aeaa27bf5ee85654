//! The calendar over Dates and timestamps: entry windows, protest times, days of the year.
//!
//! It is the proleptic Gregorian calendar: today's rule of leap years holds for all time, before 1582
//! too, and the year before year 1 is year 0.
//!
//! An *instant* is a [`Value::Date`], or a timestamp: [`Value::TimestampMillis`],
//! [`Value::TimestampMicros`] or [`Value::TimestampNanos`]. A local timestamp is none, and neither is
//! a Union: of an optional instant, hand over what [`Value::within`] gives.
//!
//! ```
//! use hulmbax::calendar::{add, civil, date, holds, Civil};
//! use hulmbax::{Duration, Value};
//!
//! // entries are taken in May, by the clock of UTC
//! let midnight = |day| date(day).map(|days| Value::TimestampMillis(i64::from(days) * 86_400_000));
//! let (opening, closing) = (midnight(Civil::new(2024, 5, 1))?, midnight(Civil::new(2024, 6, 1))?);
//! assert!(holds(&opening, &closing, &opening)?);
//! assert!(!holds(&opening, &closing, &closing)?);
//!
//! // protests are taken for 90 minutes after the last finish
//! let last_finish = Value::TimestampMillis(1_717_861_330_250);
//! let ninety_minutes = Duration { millis: 90 * 60_000, ..Duration::default() };
//! assert_eq!(add(&last_finish, &ninety_minutes)?, Value::TimestampMillis(1_717_866_730_250));
//!
//! assert_eq!(civil(19_882).to_string(), "2024-06-08");
//! # Ok::<(), hulmbax::Error>(())
//! ```
//!
//! [`frame::add`](crate::frame::add) and [`frame::holds`](crate::frame::holds) are the same over
//! frames.

use crate::ffi::{self, SUM_LEN};
use crate::{Duration, Error, Refusal, Value};
use std::fmt;

/// A day of the calendar by its year, month and day, or three numbers that name none:
/// [`date`] tells. In the order of time.
#[derive(Clone, Copy, Debug, PartialEq, Eq, PartialOrd, Ord, Hash)]
pub struct Civil {
    /// The year; the one before year 1 is year 0, and the one before that is -1.
    pub year: i32,
    /// The month, from 1 to 12.
    pub month: u32,
    /// The day of the month, from 1.
    pub day: u32,
}

impl Civil {
    /// This year, month and day.
    pub const fn new(year: i32, month: u32, day: u32) -> Civil {
        Civil { year, month, day }
    }
}

/// As in `2024-02-29`: the year has four digits or more, and a sign where it is below zero.
///
/// ```
/// use hulmbax::calendar::Civil;
///
/// assert_eq!(Civil::new(2024, 2, 29).to_string(), "2024-02-29");
/// assert_eq!(Civil::new(-43, 3, 15).to_string(), "-0043-03-15");
/// ```
impl fmt::Display for Civil {
    fn fmt(&self, f: &mut fmt::Formatter<'_>) -> fmt::Result {
        let sign = if self.year < 0 { "-" } else { "" };
        let year = self.year.unsigned_abs();
        write!(f, "{sign}{year:04}-{:02}-{:02}", self.month, self.day)
    }
}

/// The year, month and day of a Date, which is a number of days since 1970-01-01. Every Date has
/// them.
///
/// ```
/// use hulmbax::calendar::{civil, Civil};
///
/// assert_eq!(civil(0), Civil::new(1970, 1, 1));
/// assert_eq!(civil(i32::MIN), Civil::new(-5_877_641, 6, 23));
/// assert_eq!(civil(i32::MAX), Civil::new(5_881_580, 7, 11));
/// ```
pub fn civil(date: i32) -> Civil {
    let mut slots = [0; 3];
    ffi::civil(date, &mut slots).expect("three slots are enough");
    let [year, month, day] = slots;
    Civil::new(year, month.unsigned_abs(), day.unsigned_abs())
}

/// The Date of a day.
///
/// ```
/// use hulmbax::calendar::{date, Civil};
/// use hulmbax::Refusal;
///
/// assert_eq!(date(Civil::new(1970, 1, 1)), Ok(0));
/// assert_eq!(date(Civil::new(2024, 2, 29)), Ok(19_782));
/// assert_eq!(date(Civil::new(1900, 2, 29)), Err(Refusal::OutsideCalendar));
/// ```
///
/// # Errors
///
/// [`Refusal::OutsideCalendar`]: the year has no such day, or the day is outside Date. Nothing else
/// can go wrong, so it comes without a path.
pub fn date(civil: Civil) -> Result<i32, Refusal> {
    let mut slots = [0];
    ffi::date(civil.year, int(civil.month), int(civil.day), &mut slots)?;
    let [date] = slots;
    Ok(date)
}

// A month or a day as the library takes it. One that is too large becomes the greatest Int, which
// is no month and no day either.
fn int(number: u32) -> i32 {
    i32::try_from(number).unwrap_or(i32::MAX)
}

/// Adds a Duration to an instant; the sum is of the instant's kind.
///
/// Months are added first; a day past the end of the month then becomes its last day. Then days are
/// added, then milliseconds.
///
/// ```
/// use hulmbax::calendar::{add, date, Civil};
/// use hulmbax::{Duration, Value};
///
/// let month = Duration { months: 1, ..Duration::default() };
/// let day = |year, month, day| date(Civil::new(year, month, day)).map(Value::Date);
/// assert_eq!(add(&day(2023, 1, 31)?, &month)?, day(2023, 2, 28)?);
/// assert_eq!(add(&day(2024, 1, 31)?, &month)?, day(2024, 2, 29)?);
/// # Ok::<(), hulmbax::Error>(())
/// ```
///
/// # Errors
///
/// [`Error::Frame`] of a value that has no frame. Else [`Error::Refused`], in the order in which the
/// library looks:
///
/// - [`Refusal::Unsuited`]: the value is no instant.
/// - [`Refusal::MillisOnDate`]: it is a Date, and the milliseconds are not zero.
/// - [`Refusal::OutsideCalendar`]: the sum, or a step on the way to it, leaves the kind's range.
pub fn add(instant: &Value, duration: &Duration) -> Result<Value, Error> {
    let instant = instant.to_frame()?;
    let duration = Value::Duration(*duration).to_frame()?;
    let mut sum = [0; SUM_LEN];
    let n = ffi::add(&instant, &duration, &mut sum)?;
    Value::from_frame(&sum[..n])
}

/// Whether the window from `opening` to before `closing` holds the instant. A window that closes at
/// or before its opening holds nothing.
///
/// ```
/// use hulmbax::calendar::holds;
/// use hulmbax::{Refusal, Value};
///
/// let (opening, closing) = (Value::Date(3), Value::Date(5));
/// assert!(holds(&opening, &closing, &Value::Date(3))?);
/// assert!(!holds(&opening, &closing, &Value::Date(5))?);
///
/// // a timestamp is of another kind than the window's two
/// let error = holds(&opening, &closing, &Value::TimestampMillis(4)).unwrap_err();
/// assert_eq!(error.refusal(), Some(Refusal::Unsuited));
/// # Ok::<(), hulmbax::Error>(())
/// ```
///
/// # Errors
///
/// [`Error::Frame`] of a value that has no frame. Else [`Error::Refused`] with
/// [`Refusal::Unsuited`]: one of the three is no instant, or they are not all of one kind.
pub fn holds(opening: &Value, closing: &Value, instant: &Value) -> Result<bool, Error> {
    let (opening, closing) = (opening.to_frame()?, closing.to_frame()?);
    Ok(ffi::holds(&opening, &closing, &instant.to_frame()?)?)
}

#[cfg(test)]
mod tests {
    use super::*;

    #[test]
    fn a_day_is_shown_with_four_digits_of_the_year_and_a_sign_below_zero() {
        let days = [
            (Civil::new(2024, 2, 29), "2024-02-29"),
            (Civil::new(0, 1, 1), "0000-01-01"),
            (Civil::new(-1, 12, 31), "-0001-12-31"),
            (Civil::new(5_881_580, 7, 11), "5881580-07-11"),
            (Civil::new(i32::MIN, 13, 100), "-2147483648-13-100"),
        ];
        for (day, meant) in days {
            assert_eq!(day.to_string(), meant);
        }
    }

    #[test]
    fn days_stand_in_the_order_of_time() {
        let mut days = [
            Civil::new(2024, 2, 29),
            Civil::new(2024, 1, 31),
            Civil::new(-1, 12, 31),
        ];
        days.sort_unstable();
        let meant = ["-0001-12-31", "2024-01-31", "2024-02-29"];
        assert_eq!(days.map(|day| day.to_string()), meant);
    }

    #[test]
    fn a_number_too_large_for_an_int_becomes_the_greatest() {
        assert_eq!(int(31), 31);
        assert_eq!(int(0x8000_0000), i32::MAX);
        assert_eq!(int(u32::MAX), i32::MAX);
    }
}
