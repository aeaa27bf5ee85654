// The entries of the library. Each is one function here, with its declaration, and every call of
// the library, so every use of `unsafe`, stands in this file.
#![allow(unsafe_code)]

use crate::frame::MAX_FRAME;
use crate::Refusal;

/// The bytes of workspace that a call of [`resolve`] or [`current`] needs.
pub const WORKSPACE_LEN: usize = 65_536;

/// The length of a result buffer into which every result of [`resolve`] fits.
pub const RESULT_LEN: usize = MAX_FRAME;

/// The most frames that a call of [`current`] takes. A result buffer of as many bytes is long enough
/// for every answer of it.
pub const MAX_FINISHES: usize = 256;

/// The length of a result buffer into which every sum of [`add`] fits.
pub const SUM_LEN: usize = 9;

/// Brings the record to the schema, both frames.
///
/// `Ok(n)`: the first n bytes of `result` are the frame of what the reader gets, in which no Float
/// and no Double is a NaN, and the bytes after them are as they were. A buffer of [`RESULT_LEN`]
/// bytes is always long enough.
///
/// The workspace must have [`WORKSPACE_LEN`] bytes. These are zero after the call, whatever it
/// answers, and the bytes after them are as they were.
///
/// A call takes up to about 170 KB of stack; a thread of 256 KB is enough.
///
/// ```
/// use hulmbax::frame::{resolve, WORKSPACE_LEN};
///
/// // the Long 3601 under the schema Int
/// let mut result = [0; 5];
/// let record = [0x03, 0, 0, 0, 0, 0, 0, 0x0e, 0x11];
/// let mut workspace = vec![0; WORKSPACE_LEN];
/// let n = resolve(&[0x02], &record, &mut result, &mut workspace)?;
/// assert_eq!(result[..n], [0x02, 0, 0, 0x0e, 0x11]);
/// # Ok::<(), hulmbax::Error>(())
/// ```
///
/// # Errors
///
/// What stopped the record; `result` is then as it was, and so is a workspace that is too short.
pub fn resolve(
    schema: &[u8],
    record: &[u8],
    result: &mut [u8],
    workspace: &mut [u8],
) -> Result<usize, Refusal> {
    extern "C" {
        fn hulmbax_resolve(
            schema: *const u8,
            schema_len: usize,
            record: *const u8,
            record_len: usize,
            result: *mut u8,
            result_len: usize,
            workspace: *mut u8,
            workspace_len: usize,
        ) -> i32;
    }
    // SAFETY: each pointer and length is that of a slice, so the pointer isn't null and the bytes
    // are there, and set, for the whole call; `result` and `workspace` are borrowed for writing, so
    // nothing overlaps them; the library keeps no pointer and no state, and is proved to end and to
    // stay within the four slices, whatever they hold.
    let answer = unsafe {
        hulmbax_resolve(
            schema.as_ptr(),
            schema.len(),
            record.as_ptr(),
            record.len(),
            result.as_mut_ptr(),
            result.len(),
            workspace.as_mut_ptr(),
            workspace.len(),
        )
    };
    number(answer, 1..=result.len())
}

/// Names the current finish of each boat in a list of frames; [`current`](crate::current) at the
/// top of the crate says which that is.
///
/// The frames stand one behind another in `input`, and `ends` says where each ends: the first goes
/// from 0 to before `ends[0]`, the next from there to before `ends[1]`, and so on. The bytes behind
/// the last end are not looked at.
///
/// `Ok(n)`: there are n boats, and the first n bytes of `result` are the places of their current
/// frames in the list, from 0, in the order in which the boats first appear; the bytes after them
/// are as they were. An empty list gives 0. A buffer of [`MAX_FINISHES`] bytes is always long enough.
///
/// The workspace must have [`WORKSPACE_LEN`] bytes. These are zero after the call, whatever it
/// answers, and the bytes after them are as they were.
///
/// ```
/// use hulmbax::frame::{current, MAX_FINISHES, WORKSPACE_LEN};
/// use hulmbax::Value;
///
/// // two boats, and the first one again
/// let (mut input, mut ends) = (Vec::new(), Vec::new());
/// for (sail, seq) in [("A 12", 0), ("B 7", 0), ("A 12", 1)] {
///     let finish = Value::record([("sail", Value::from(sail)), ("seq", Value::Long(seq))]);
///     input.extend(finish.to_frame()?);
///     ends.push(input.len());
/// }
/// let mut places = [0; MAX_FINISHES];
/// let n = current(&input, &ends, &mut places, &mut vec![0; WORKSPACE_LEN])?;
/// assert_eq!(places[..n], [2, 1]);
/// # Ok::<(), hulmbax::Error>(())
/// ```
///
/// # Errors
///
/// In the order in which they are looked for; `result` is then as it was, and so is a workspace that
/// is too short:
///
/// - [`Refusal::WorkspaceTooShort`]: the workspace is shorter than [`WORKSPACE_LEN`] bytes.
/// - [`Refusal::TooManyFrames`]: there are more than [`MAX_FINISHES`] frames; none of them is read.
/// - [`Refusal::NoFinish`]: one of them is no frame (its end may lie past the input, or before its
///   start), is no Record, lacks the field `sail` or `seq`, or has another kind in it than a String
///   or a Long.
/// - [`Refusal::ResultTooLong`]: `result` is shorter than n.
pub fn current(
    input: &[u8],
    ends: &[usize],
    result: &mut [u8],
    workspace: &mut [u8],
) -> Result<usize, Refusal> {
    extern "C" {
        fn hulmbax_current(
            input: *const u8,
            input_len: usize,
            ends: *const usize,
            ends_len: usize,
            result: *mut u8,
            result_len: usize,
            workspace: *mut u8,
            workspace_len: usize,
        ) -> i32;
    }
    // SAFETY: as in `resolve`; the ends may be any numbers, for the library looks at nothing outside
    // the four slices.
    let answer = unsafe {
        hulmbax_current(
            input.as_ptr(),
            input.len(),
            ends.as_ptr(),
            ends.len(),
            result.as_mut_ptr(),
            result.len(),
            workspace.as_mut_ptr(),
            workspace.len(),
        )
    };
    number(answer, 0..=result.len().min(ends.len()))
}

/// The year, month and day of a Date into the first three slots; the others are as they were.
/// Answers 3.
///
/// # Errors
///
/// [`Refusal::ResultTooLong`] of fewer than three slots, which are then as they were.
pub fn civil(date: i32, slots: &mut [i32]) -> Result<usize, Refusal> {
    extern "C" {
        fn hulmbax_civil(date: i32, year_month_day: *mut i32, slots: usize) -> i32;
    }
    // SAFETY: pointer and count are those of a slice that is borrowed for writing, so the pointer
    // isn't null and nothing overlaps the slots; the library keeps no pointer and no state, and is
    // proved to end and to stay within the slice.
    let answer = unsafe { hulmbax_civil(date, slots.as_mut_ptr(), slots.len()) };
    number(answer, 3..=3)
}

/// The Date of a year, a month and a day into the first slot; the others are as they were.
/// Answers 1.
///
/// # Errors
///
/// [`Refusal::OutsideCalendar`], then [`Refusal::ResultTooLong`] where there is no slot; the slots
/// are then as they were.
pub fn date(year: i32, month: i32, day: i32, slots: &mut [i32]) -> Result<usize, Refusal> {
    extern "C" {
        fn hulmbax_date(year: i32, month: i32, day: i32, date: *mut i32, slots: usize) -> i32;
    }
    // SAFETY: as in `civil`.
    let answer = unsafe { hulmbax_date(year, month, day, slots.as_mut_ptr(), slots.len()) };
    number(answer, 1..=1)
}

/// Adds the duration to the instant, both frames; [`calendar::add`](crate::calendar::add) says how.
///
/// `Ok(n)`: the first n bytes of `result` are the frame of the sum, of the instant's kind, and the
/// bytes after them are as they were. n is 5 for a Date and 9 for a timestamp, so a buffer of
/// [`SUM_LEN`] bytes is always long enough.
///
/// ```
/// use hulmbax::frame::{add, SUM_LEN};
///
/// // 31 January 2023 and one month
/// let date = [0x10, 0, 0, 0x4b, 0xbc];
/// let month = [0x19, 1, 0, 0, 0, 0, 0, 0, 0, 0, 0, 0, 0];
/// let mut sum = [0; SUM_LEN];
/// let n = add(&date, &month, &mut sum)?;
/// assert_eq!(sum[..n], [0x10, 0, 0, 0x4b, 0xd8]); // 28 days later, 28 February
/// # Ok::<(), hulmbax::Error>(())
/// ```
///
/// # Errors
///
/// In the order in which they are looked for; `result` is then as it was:
///
/// - [`Refusal::RecordNoFrame`]: one of the two is no frame.
/// - [`Refusal::Unsuited`]: the first is no Date and no timestamp of the three UTC kinds, or the
///   second no Duration.
/// - [`Refusal::MillisOnDate`]: milliseconds other than zero are added to a Date.
/// - [`Refusal::OutsideCalendar`]: the sum, or a step on the way to it, leaves the kind's range.
/// - [`Refusal::ResultTooLong`]: `result` is shorter than the sum.
pub fn add(instant: &[u8], duration: &[u8], result: &mut [u8]) -> Result<usize, Refusal> {
    extern "C" {
        fn hulmbax_add(
            instant: *const u8,
            instant_len: usize,
            duration: *const u8,
            duration_len: usize,
            result: *mut u8,
            result_len: usize,
        ) -> i32;
    }
    // SAFETY: as in `resolve`, of three slices, of which `result` is borrowed for writing.
    let answer = unsafe {
        hulmbax_add(
            instant.as_ptr(),
            instant.len(),
            duration.as_ptr(),
            duration.len(),
            result.as_mut_ptr(),
            result.len(),
        )
    };
    number(answer, 5..=result.len().min(SUM_LEN))
}

/// Whether the window from `opening` to before `closing` holds the instant; all three are frames.
///
/// ```
/// use hulmbax::frame::holds;
///
/// let date = |day| [0x10, 0, 0, 0, day];
/// assert_eq!(holds(&date(3), &date(5), &date(3)), Ok(true));
/// assert_eq!(holds(&date(3), &date(5), &date(5)), Ok(false));
/// ```
///
/// # Errors
///
/// [`Refusal::RecordNoFrame`]: one of the three is no frame. Then [`Refusal::Unsuited`]: one is no
/// Date and no timestamp of the three UTC kinds, or they are not all of one kind.
pub fn holds(opening: &[u8], closing: &[u8], instant: &[u8]) -> Result<bool, Refusal> {
    extern "C" {
        fn hulmbax_holds(
            opening: *const u8,
            opening_len: usize,
            closing: *const u8,
            closing_len: usize,
            instant: *const u8,
            instant_len: usize,
        ) -> i32;
    }
    // SAFETY: as in `resolve`, of three slices, none of which is written.
    let answer = unsafe {
        hulmbax_holds(
            opening.as_ptr(),
            opening.len(),
            closing.as_ptr(),
            closing.len(),
            instant.as_ptr(),
            instant.len(),
        )
    };
    number(answer, 0..=1).map(|held| held == 1)
}

// The number that an entry answered, within `numbers`, or the refusal whose number it answered
// below zero. The library is proved to answer nothing else, so anything else means that another
// library was linked.
fn number(answer: i32, numbers: std::ops::RangeInclusive<usize>) -> Result<usize, Refusal> {
    let within = usize::try_from(answer).ok();
    if let Some(n) = within.filter(|n| numbers.contains(n)) {
        return Ok(n);
    }
    let number = u8::try_from(answer.unsigned_abs()).ok();
    match number.filter(|_| answer < 0).and_then(Refusal::from_number) {
        Some(refusal) => Err(refusal),
        None => panic!("libhulmbax.a answered {answer}: it is not the library of this crate"),
    }
}

#[cfg(test)]
mod tests {
    use super::*;

    #[test]
    fn a_number_that_may_be_answered_is_accepted() {
        assert_eq!(number(1, 1..=5), Ok(1));
        assert_eq!(number(5, 1..=5), Ok(5));
        assert_eq!(number(0, 0..=1), Ok(0));
    }

    #[test]
    fn a_number_below_zero_is_a_refusal() {
        for refusal in Refusal::all() {
            let answer = -i32::from(refusal.number());
            assert_eq!(number(answer, 1..=5), Err(*refusal));
        }
    }

    #[test]
    fn nothing_else_is_taken_for_an_answer() {
        for answer in [0, 6, i32::MAX, -19, -22, -25, -29, -257, i32::MIN] {
            let taken = std::panic::catch_unwind(|| number(answer, 1..=5));
            assert!(taken.is_err(), "{answer}");
        }
    }

    #[test]
    fn a_day_takes_three_slots_and_leaves_the_others() {
        for length in 0..3 {
            let mut slots = vec![-7; length];
            assert_eq!(civil(0, &mut slots), Err(Refusal::ResultTooLong));
            assert_eq!(slots, vec![-7; length]);
        }
        let mut slots = [-7; 5];
        assert_eq!(civil(0, &mut slots), Ok(3));
        assert_eq!(slots, [1970, 1, 1, -7, -7]);
    }

    #[test]
    fn a_date_takes_one_slot_and_leaves_the_others() {
        assert_eq!(date(1970, 1, 2, &mut []), Err(Refusal::ResultTooLong));
        let mut slots = [-7; 3];
        assert_eq!(date(1970, 1, 2, &mut slots), Ok(1));
        assert_eq!(slots, [1, -7, -7]);
    }

    #[test]
    fn a_day_outside_the_calendar_comes_before_a_missing_slot() {
        for (month, day) in [
            (2, 30),
            (0, 1),
            (-1, 1),
            (1, 0),
            (1, -1),
            (i32::MIN, i32::MIN),
        ] {
            let mut slots = [-7; 3];
            assert_eq!(
                date(2024, month, day, &mut slots),
                Err(Refusal::OutsideCalendar)
            );
            assert_eq!(slots, [-7; 3]);
            assert_eq!(
                date(2024, month, day, &mut []),
                Err(Refusal::OutsideCalendar)
            );
        }
    }
}
