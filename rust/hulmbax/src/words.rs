// Words for people, shared by the texts of values and schemas.
use crate::path::plain;
use std::fmt::{Display, Formatter, Result, Write};

/// A text in backquotes, on one line.
pub(crate) struct Quoted<'a>(pub(crate) &'a str);

impl Display for Quoted<'_> {
    fn fmt(&self, f: &mut Formatter<'_>) -> Result {
        f.write_char('`')?;
        for c in self.0.chars() {
            match c {
                '`' | '\\' => write!(f, "\\{c}")?,
                c if c.is_control() => write!(f, "{}", c.escape_default())?,
                c => f.write_char(c)?,
            }
        }
        f.write_char('`')
    }
}

/// The name of a field or a key, quoted where it isn't all letters, digits and `_`.
pub(crate) struct Name<'a>(pub(crate) &'a str);

impl Display for Name<'_> {
    fn fmt(&self, f: &mut Formatter<'_>) -> Result {
        match plain(self.0) {
            true => f.write_str(self.0),
            false => Quoted(self.0).fmt(f),
        }
    }
}

/// Bytes as digits.
pub(crate) struct Octets<'a>(pub(crate) &'a [u8]);

impl Display for Octets<'_> {
    fn fmt(&self, f: &mut Formatter<'_>) -> Result {
        f.write_str("0x")?;
        self.0.iter().try_for_each(|byte| write!(f, "{byte:02x}"))
    }
}

/// Writes the parts with a comma between them, or `nothing`.
pub(crate) fn list<T: Display>(f: &mut Formatter<'_>, parts: impl Iterator<Item = T>) -> Result {
    let mut none = true;
    for part in parts {
        if !none {
            f.write_str(", ")?;
        }
        none = false;
        part.fmt(f)?;
    }
    match none {
        true => f.write_str("nothing"),
        false => Ok(()),
    }
}

#[cfg(test)]
mod tests {
    use super::*;

    #[test]
    fn a_quoted_text_is_on_one_line_and_ends_at_its_last_quote() {
        assert_eq!(Quoted("B 7").to_string(), "`B 7`");
        assert_eq!(Quoted("a`b\\c").to_string(), "`a\\`b\\\\c`");
        assert_eq!(Quoted("a\nb\u{7}é").to_string(), "`a\\nb\\u{7}é`");
    }

    #[test]
    fn a_name_is_quoted_where_it_has_to_be() {
        assert_eq!(Name("sail_no2").to_string(), "sail_no2");
        assert_eq!(Name("sail no").to_string(), "`sail no`");
        assert_eq!(Name("").to_string(), "``");
    }

    #[test]
    fn octets_are_two_digits_each() {
        assert_eq!(Octets(&[0, 0xab]).to_string(), "0x00ab");
        assert_eq!(Octets(&[]).to_string(), "0x");
    }
}
