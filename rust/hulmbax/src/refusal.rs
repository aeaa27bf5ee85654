// The refusals of docs/RULES.md, each in one place.
use std::fmt;

/// What a refusal is of.
#[derive(Clone, Copy, PartialEq, Eq)]
enum Of {
    /// The buffers of the call.
    Call,
    /// The schema by itself.
    Schema,
    /// The record's bytes, which are no frame.
    Frame,
    /// What the record holds, where it meets the schema.
    Content,
    /// The length of the result.
    Room,
    /// A list of finishes.
    Finishes,
    /// A day or an instant of the calendar.
    Calendar,
}

// The name and the number of each, what it is of, and a sentence for it.
macro_rules! refusals {
    ($($(#[$doc:meta])* $name:ident = $number:literal, $of:ident, $sentence:literal;)*) => {
        /// The library's answer to a schema that it doesn't take, to a record that it doesn't
        /// bring to the schema, to a list that isn't of finishes, or to a day or instant that its
        /// calendar doesn't take.
        ///
        /// The numbers are those of docs/RULES.md. A record gets 1 to 18, which the library
        /// looks for in their order, and 28, in the place of 6; of a map's failing entries the
        /// first by its key gives the refusal. A list of finishes gets 1, 23, 24 and 18, in this
        /// order. The calendar gives 5, 6, 26, 27 and 18, in this order.
        #[derive(Clone, Copy, Debug, PartialEq, Eq, PartialOrd, Ord, Hash)]
        #[repr(u8)]
        #[non_exhaustive]
        pub enum Refusal {
            $($(#[$doc])* $name = $number,)*
        }

        const ALL: &[Refusal] = &[$(Refusal::$name),*];

        impl Refusal {
            /// A sentence for whoever sent the record or wrote the schema, without the number.
            pub fn sentence(self) -> &'static str {
                match self {
                    $(Refusal::$name => $sentence,)*
                }
            }

            fn of(self) -> Of {
                match self {
                    $(Refusal::$name => Of::$of,)*
                }
            }
        }
    };
}

refusals! {
    /// 1: the workspace is shorter than 65,536 bytes.
    WorkspaceTooShort = 1, Call, "the workspace is shorter than 65,536 bytes";

    /// 2: the schema is no frame.
    SchemaNoFrame = 2, Schema, "the reader schema is no frame: a byte, length or text in it is wrong, bytes are left over, or it is nested deeper than 16";

    /// 3: the schema's union tables, field names, sizes or defaults are unsound.
    SchemaUnsound = 3, Schema, "the reader schema is unsound: a union is empty, nested or has wrong tables, a field name repeats, a size is wrong, or a default is of a kind that JSON can't give";

    /// 4: a default becomes longer than 4,096 bytes in its union's first variant.
    DefaultTooLong = 4, Schema, "a default in the reader schema becomes longer than 4,096 bytes in the first variant of its union";

    /// 5: the record or value is no frame, or its map keys don't rise.
    RecordNoFrame = 5, Frame, "the record or value is no frame: a byte, length or text in it is wrong, bytes are left over, it is nested deeper than 16, or the keys of a map don't rise";

    /// 6: the kind of a value, or its text, doesn't suit the schema, or its kind the calendar.
    Unsuited = 6, Content, "a value is of a kind, or a text, that can't be taken there";

    /// 7: a Long is outside Int.
    LongOutsideInt = 7, Content, "a Long in the record is too large or too small for the Int that the schema asks for";

    /// 8: an item meant as a byte is outside 0 to 255.
    ItemOutsideByte = 8, Content, "an array stands where the schema asks for bytes, and one of its items is outside 0 to 255";

    /// 9: Bytes or a Fixed meant as a String are not UTF-8.
    NotUtf8 = 9, Content, "bytes stand where the schema asks for a string, and they are not UTF-8";

    /// 10: the size of a Fixed, a Duration or a fixed UUID differs; a text's size is its bytes.
    SizeDiffers = 10, Content, "the bytes or the text meant for a fixed, a duration or a fixed UUID are more or fewer than the schema asks for";

    /// 11: UUID text, or the length of UUID bytes, is wrong.
    UuidWrong = 11, Content, "a text or bytes stand where the schema asks for a UUID, and they are none";

    /// 12: a decimal's scale exceeds its precision.
    ScaleExceedsPrecision = 12, Content, "a decimal of the schema has a scale greater than its precision";

    /// 13: a decimal's fixed size is too small for its precision.
    FixedTooSmall = 13, Content, "a decimal of the schema has a fixed size too small for its precision";

    /// 14: the value's bytes, or a text's code points, are too few for the decimal's precision.
    BytesTooFew = 14, Content, "the bytes or the text meant for a decimal are too few for the precision that the schema asks for";

    /// 15: a symbol is unknown and no default is among the symbols.
    SymbolUnknown = 15, Content, "an enum in the record has a symbol that the schema doesn't have, and the schema has no default symbol";

    /// 16: no variant of a union accepts the value.
    NoVariant = 16, Content, "no variant of a union in the schema takes the value that the record has there";

    /// 17: a field is missing and has no default.
    FieldMissing = 17, Content, "the record lacks a field for which the schema has no default";

    /// 18: the accepted result exceeds 65,535 bytes or the result buffer.
    ResultTooLong = 18, Room, "the result doesn't fit: it is longer than the result buffer or than 65,535 bytes";

    /// 23: the list has more than 256 frames.
    TooManyFrames = 23, Finishes, "the list of finishes has more than 256 frames";

    /// 24: one of the list is no frame, no Record, lacks the field `sail` or `seq`, or has another
    /// kind in it than a String or a Long.
    NoFinish = 24, Finishes, "a frame in the list is no finish: it is broken or no record, or it lacks a sail that is a String or a seq that is a Long";

    /// 26: milliseconds other than zero are added to a Date.
    MillisOnDate = 26, Calendar, "a duration with milliseconds is added to a date, which has whole days only";

    /// 27: the day isn't in the calendar; or the outcome, or a step on the way to it, leaves the
    /// kind's range.
    OutsideCalendar = 27, Calendar, "the day isn't in the calendar, or the outcome, or a step on the way to it, is outside the range of its kind";

    /// 28: a Float or a Double, kept or made of another kind or of the text `NaN`, would be a NaN.
    /// It is looked for in the place of 6.
    NotANumber = 28, Content, "a NaN, or the text NaN, stands where the schema asks for a Float or a Double, and no result holds a NaN";
}

impl Refusal {
    /// The number, as program `resolve` and the C interface give it.
    pub fn number(self) -> u8 {
        self as u8
    }

    /// The refusal of a number, if there is one.
    ///
    /// ```
    /// use hulmbax::Refusal;
    ///
    /// assert_eq!(Refusal::from_number(17), Some(Refusal::FieldMissing));
    /// assert_eq!(Refusal::FieldMissing.number(), 17);
    /// ```
    pub fn from_number(number: u8) -> Option<Refusal> {
        ALL.iter().copied().find(|r| r.number() == number)
    }

    /// All of them, in the order of their numbers.
    pub fn all() -> &'static [Refusal] {
        ALL
    }

    /// Whether it arose where a part of the record meets a part of the schema, so that it has a
    /// place there.
    pub(crate) fn is_of_content(self) -> bool {
        self.of() == Of::Content
    }

    /// Whether it is of the schema, whatever the record is.
    pub(crate) fn is_of_schema(self) -> bool {
        self.of() == Of::Schema
    }
}

impl fmt::Display for Refusal {
    fn fmt(&self, f: &mut fmt::Formatter<'_>) -> fmt::Result {
        write!(f, "{} (refusal {})", self.sentence(), self.number())
    }
}

impl std::error::Error for Refusal {}

#[cfg(test)]
mod tests {
    use super::*;

    // 1 to 18 and 28 are those of records, 23 and 24 those of a list of finishes, 26 and 27 those
    // of the calendar.
    fn numbers() -> Vec<u8> {
        (1..=18).chain([23, 24]).chain(26..=28).collect()
    }

    #[test]
    fn numbers_are_those_of_the_rules_in_order() {
        let all: Vec<u8> = Refusal::all().iter().map(|r| r.number()).collect();
        assert_eq!(all, numbers());
    }

    #[test]
    fn a_number_names_its_refusal_and_no_other_number_does() {
        for number in 0..=u8::MAX {
            let named = Refusal::from_number(number).map(Refusal::number);
            assert_eq!(named, numbers().contains(&number).then_some(number));
        }
    }

    #[test]
    fn no_two_sentences_are_equal() {
        let mut sentences: Vec<_> = Refusal::all().iter().map(|r| r.sentence()).collect();
        sentences.sort_unstable();
        sentences.dedup();
        assert_eq!(sentences.len(), Refusal::all().len());
    }

    #[test]
    fn the_text_of_a_refusal_has_its_number() {
        let text = Refusal::FieldMissing.to_string();
        assert!(text.ends_with("(refusal 17)"), "{text}");
    }
}
