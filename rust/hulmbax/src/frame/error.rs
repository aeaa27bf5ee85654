// Why a tree has no frame, or bytes are no frame.
use std::error::Error;
use std::fmt;

/// Why a value or a schema has no frame, why bytes are no frame, or why variants make no union.
#[derive(Clone, Copy, Debug, PartialEq, Eq)]
#[non_exhaustive]
pub enum FrameError {
    /// The frame would be longer than 65,535 bytes, or is.
    TooLong,
    /// A count, length, size or number has no room in its bytes.
    TooLarge,
    /// It is nested deeper than 16.
    TooDeep,
    /// A Fixed states another size than its bytes have.
    FixedSize,
    /// The bytes end before the frame does.
    Short,
    /// So many bytes are left over.
    Rest(usize),
    /// No node has this kind byte.
    Kind(u8),
    /// A flag, a Boolean or the form of a UUID schema can't be this byte.
    Flag(u8),
    /// A text is not UTF-8.
    Utf8,
    /// The keys of a map don't rise.
    Keys,
    /// A union is a variant of a union.
    NestedUnion,
    /// Two variants of a union that have no name are of this kind, once reduced to the kind that
    /// underlies a logical type.
    Duplicate(u8),
}

impl fmt::Display for FrameError {
    fn fmt(&self, f: &mut fmt::Formatter<'_>) -> fmt::Result {
        match self {
            FrameError::TooLong => write!(f, "a frame has at most 65,535 bytes"),
            FrameError::TooLarge => write!(
                f,
                "a count, length, size or number is too large for a frame"
            ),
            FrameError::TooDeep => write!(f, "a frame is nested at most 16 deep"),
            FrameError::FixedSize => write!(f, "a Fixed states another size than its bytes have"),
            FrameError::Short => write!(f, "the bytes end before the frame does"),
            FrameError::Rest(n) => write!(f, "{n} bytes are left over after the frame"),
            FrameError::Kind(byte) => write!(f, "no node has the kind byte {byte:02x}"),
            FrameError::Flag(byte) => write!(f, "a flag can't be the byte {byte:02x}"),
            FrameError::Utf8 => write!(f, "a text is not UTF-8"),
            FrameError::Keys => write!(f, "the keys of a map don't rise"),
            FrameError::NestedUnion => write!(f, "a union can't be a variant of a union"),
            FrameError::Duplicate(kind) => {
                write!(f, "two variants of a union are of kind {kind:02x}")
            }
        }
    }
}

impl Error for FrameError {}

#[cfg(test)]
mod tests {
    use super::*;

    #[test]
    fn no_two_texts_are_equal() {
        let errors = [
            FrameError::TooLong,
            FrameError::TooLarge,
            FrameError::TooDeep,
            FrameError::FixedSize,
            FrameError::Short,
            FrameError::Rest(2),
            FrameError::Kind(0x1a),
            FrameError::Flag(2),
            FrameError::Utf8,
            FrameError::Keys,
            FrameError::NestedUnion,
            FrameError::Duplicate(3),
        ];
        let mut texts = errors.map(|error| error.to_string()).to_vec();
        texts.sort_unstable();
        texts.dedup();
        assert_eq!(texts.len(), errors.len());
    }
}
