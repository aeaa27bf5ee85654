// Finishes that crews corrected: which ones are current.
use crate::ffi::{self, MAX_FINISHES, WORKSPACE_LEN};
use crate::path::{Path, Step};
use crate::{Error, Refusal, Value};
use std::slice;

/// The place of each boat's current finish, where crews corrected a finish by entering it again.
///
/// A finish is a [`Value::Record`] with a [`Value::String`] in the field `sail` and a
/// [`Value::Long`] in the field `seq`, as [`Reader::resolve`](crate::Reader::resolve) gives it under
/// a schema that has both. Of the finishes of a sail the one with the greatest `seq` is current, and
/// of those with an equal `seq` the last. Of a field whose name repeats, the last counts.
///
/// The answer has the place in the list, from 0, of one finish for each sail, in the order in which
/// the sails first appear; an empty list gives an empty answer. So for a sheet of several races it is
/// asked once for each race.
///
/// ```
/// use hulmbax::{current, Reader, RecordField, Schema, Value};
///
/// let mut reader = Reader::new(&Schema::record(vec![
///     RecordField::new("sail", Schema::String),
///     RecordField::new("seq", Schema::Long).with_default(0),
///     RecordField::new("elapsed", Schema::nullable(Schema::Double)?).with_default(Value::Null),
/// ]))?;
///
/// // two boats finish, and the crew of the first enters its time again
/// let sent = [
///     Value::record([("sail", Value::from("A 12")), ("elapsed", Value::from(3601))]),
///     Value::record([("sail", Value::from("B 7")), ("elapsed", Value::from(3598.25))]),
///     Value::record([
///         ("sail", Value::from("A 12")),
///         ("seq", Value::from(1)),
///         ("elapsed", Value::from(3591)),
///     ]),
/// ];
/// let finishes = sent.iter().map(|sent| reader.resolve(sent)).collect::<Result<Vec<_>, _>>()?;
/// assert_eq!(current(&finishes)?, [2, 1]);
/// # Ok::<(), hulmbax::Error>(())
/// ```
///
/// No Union is taken off, so under a schema in which `sail` is nullable every result has a Union
/// around its sail, and every call with such results is refused.
///
/// # Errors
///
/// [`Error::Frame`] of a value that has no frame. Else [`Error::Refused`], in the order in which the
/// library looks:
///
/// - [`Refusal::TooManyFrames`]: there are more than [`MAX_FINISHES`], which are 256.
/// - [`Refusal::NoFinish`]: one of them is no Record (a Map is none), lacks one of the two fields, or
///   has another kind in it, an Int in `seq`, say, or a Union. The path leads to the first such one.
///
/// ```
/// use hulmbax::{current, Refusal, Value};
///
/// let finish = |seq: Value| Value::record([("sail", Value::from("A 12")), ("seq", seq)]);
/// let error = current(&[finish(Value::Long(0)), finish(Value::Int(1))]).unwrap_err();
/// assert_eq!(error.refusal(), Some(Refusal::NoFinish));
/// assert_eq!(error.path().to_string(), "[1]");
/// ```
pub fn current<'a>(finishes: impl IntoIterator<Item = &'a Value>) -> Result<Vec<usize>, Error> {
    let frames = finishes.into_iter().map(Value::to_frame);
    let frames = frames.collect::<Result<Vec<_>, _>>()?;
    places(&frames).map_err(|refusal| refused(&frames, refusal))
}

// What the library answers to a list of these frames.
fn places(frames: &[Vec<u8>]) -> Result<Vec<usize>, Refusal> {
    let mut end = 0;
    let lengths = frames.iter().map(Vec::len);
    let ends: Vec<usize> = lengths
        .map(|length| {
            end += length;
            end
        })
        .collect();
    let mut places = [0; MAX_FINISHES];
    let mut workspace = vec![0; WORKSPACE_LEN];
    let n = ffi::current(&frames.concat(), &ends, &mut places, &mut workspace)?;
    Ok(places[..n].iter().copied().map(usize::from).collect())
}

// The error of a list that the library refused. Where one of the list is to blame, the first that
// the library refuses by itself is named.
fn refused(frames: &[Vec<u8>], refusal: Refusal) -> Error {
    let alone = |frame| places(slice::from_ref(frame));
    let first = match refusal {
        Refusal::NoFinish => frames.iter().position(|frame| alone(frame) == Err(refusal)),
        _ => None,
    };
    Error::Refused {
        refusal,
        path: first.map(Step::Index).into_iter().collect::<Path>(),
        cause: None,
    }
}
