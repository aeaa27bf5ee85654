//! Q-6: "String against Fixed must have the stated size in bytes, or 10 is given. String against
//! Decimal must have enough bytes, one for each code point, for the precision, or 14 is given, after 6."
use crate::frame::{Schema, Value};
use crate::meet::Met;
use crate::precision::for_length;

/// A String and a Fixed of another size, or a String and a Decimal for whose precision it has too few
/// code points. 12, 13 and 6 come before 14, from either judge.
pub fn touches(met: &Met) -> bool {
    let Value::Str(text) = met.value else { return false };
    match *met.schema {
        Schema::Fixed(size) => text.len() != size as usize,
        Schema::Decimal(precision, scale, size) => {
            let stopped = scale > precision
                || size.is_some_and(|n| for_length(n as usize) < precision as usize)
                || text.chars().any(|c| c > '\u{ff}');
            !stopped && for_length(text.chars().count()) < precision as usize
        }
        _ => false,
    }
}
