// The one error of this crate.
use crate::frame::FrameError;
use crate::{Path, Refusal};
use std::fmt;

/// Why a schema was not taken, a record not brought to it, a list not one of finishes, or an instant
/// not taken by the calendar.
#[derive(Clone, Debug, PartialEq, Eq)]
#[non_exhaustive]
pub enum Error {
    /// A value or a schema has no frame, bytes are no frame, or variants make no union. The
    /// library was not asked.
    Frame(FrameError),
    /// The library refused the schema, the record, the list of finishes, or what its calendar was
    /// asked.
    #[non_exhaustive]
    Refused {
        /// The library's answer.
        refusal: Refusal,
        /// Where in the record it arose or, for a schema that was refused by itself, where in the
        /// schema; of a list, which one is no finish; the root where the calendar was asked.
        path: Path,
        /// Why the only variant other than Null didn't take the value, for a
        /// [`Refusal::NoVariant`] in a union that has no other. It is the error's
        /// [`source`](std::error::Error::source).
        cause: Option<Box<Error>>,
    },
}

impl Error {
    /// The library's answer, if it was asked.
    pub fn refusal(&self) -> Option<Refusal> {
        match self {
            Error::Frame(_) => None,
            Error::Refused { refusal, .. } => Some(*refusal),
        }
    }

    /// Where the refusal arose; the root where that isn't known or nothing was asked.
    pub fn path(&self) -> &Path {
        static ROOT: Path = Path::root();
        match self {
            Error::Frame(_) => &ROOT,
            Error::Refused { path, .. } => path,
        }
    }

    /// The cause that lies deepest: the error itself, where it has none.
    ///
    /// Of a nullable record, say, the library tells that no variant takes it; this tells which of
    /// its fields is to blame.
    ///
    /// ```
    /// use hulmbax::{Reader, RecordField, Refusal, Schema, Value};
    ///
    /// let boat = Schema::record(vec![RecordField::new("age", Schema::Int)]);
    /// let mut reader = Reader::new(&Schema::nullable(boat)?)?;
    /// let sent = Value::record([("age", Value::from("old"))]);
    /// let error = reader.resolve(&sent).unwrap_err();
    /// assert_eq!(error.refusal(), Some(Refusal::NoVariant));
    /// assert_eq!(error.root_cause().refusal(), Some(Refusal::Unsuited));
    /// assert_eq!(error.root_cause().path().to_string(), "age");
    /// # Ok::<(), hulmbax::Error>(())
    /// ```
    pub fn root_cause(&self) -> &Error {
        match self {
            Error::Refused {
                cause: Some(cause), ..
            } => cause.root_cause(),
            _ => self,
        }
    }
}

impl fmt::Display for Error {
    fn fmt(&self, f: &mut fmt::Formatter<'_>) -> fmt::Result {
        match self {
            Error::Frame(error) => error.fmt(f),
            Error::Refused { refusal, path, .. } if path.is_root() => refusal.fmt(f),
            Error::Refused { refusal, path, .. } => write!(f, "{path}: {refusal}"),
        }
    }
}

impl std::error::Error for Error {
    fn source(&self) -> Option<&(dyn std::error::Error + 'static)> {
        match self {
            Error::Refused {
                cause: Some(cause), ..
            } => Some(&**cause),
            _ => None,
        }
    }
}

impl From<FrameError> for Error {
    fn from(error: FrameError) -> Error {
        Error::Frame(error)
    }
}

/// At the root.
impl From<Refusal> for Error {
    fn from(refusal: Refusal) -> Error {
        Error::Refused {
            refusal,
            path: Path::root(),
            cause: None,
        }
    }
}

#[cfg(test)]
mod tests {
    use super::*;
    use crate::path::Step;
    use std::error::Error as _;

    fn refused(path: &[&str], cause: Option<Error>) -> Error {
        Error::Refused {
            refusal: Refusal::NoVariant,
            path: path
                .iter()
                .map(|name| Step::Field(name.to_string()))
                .collect(),
            cause: cause.map(Box::new),
        }
    }

    #[test]
    fn the_text_begins_with_the_path_if_there_is_one() {
        let refusal = Refusal::NoVariant.to_string();
        assert_eq!(refused(&[], None).to_string(), refusal);
        let deep = refused(&["boat", "age"], None);
        assert_eq!(deep.to_string(), format!("boat.age: {refusal}"));
        let frame = Error::from(FrameError::TooDeep);
        assert_eq!(frame.to_string(), FrameError::TooDeep.to_string());
    }

    #[test]
    fn a_frame_error_has_no_refusal_and_no_path() {
        let frame = Error::from(FrameError::Short);
        assert_eq!(frame.refusal(), None);
        assert!(frame.path().is_root());
        assert!(frame.source().is_none());
        assert_eq!(frame.root_cause(), &frame);
    }

    #[test]
    fn the_source_is_the_cause() {
        let inner = Error::from(Refusal::Unsuited);
        let middle = refused(&["a"], Some(inner.clone()));
        let outer = refused(&["b"], Some(middle.clone()));
        assert_eq!(outer.source().unwrap().to_string(), middle.to_string());
        assert_eq!(outer.root_cause(), &inner);
        assert_eq!(inner.refusal(), Some(Refusal::Unsuited));
        assert!(inner.source().is_none());
    }
}
