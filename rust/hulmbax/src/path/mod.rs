//! Where in a record, or in a schema, a refusal arose.

mod in_record;
mod in_schema;

pub(crate) use in_record::refused_record;
pub(crate) use in_schema::refused_schema;

use std::fmt;

/// The way from the root to a node: `boat.crew[2].age`.
///
/// A field's name stands after a point and an item's position, from 0, in brackets. A map's key, and
/// a name that isn't all letters, digits and `_`, stands in brackets and quotation marks:
/// `marks["windward"]`. The path of the root has no steps and is the empty text.
#[derive(Clone, Debug, Default, PartialEq, Eq, Hash)]
pub struct Path {
    steps: Vec<Step>,
}

/// A step of a [`Path`].
#[derive(Clone, Debug, PartialEq, Eq, Hash)]
#[non_exhaustive]
pub enum Step {
    /// To the field of this name.
    Field(String),
    /// To the item at this position, from 0.
    Index(usize),
    /// To the entry of a map under this key.
    Key(String),
    /// From a field that the record lacks to the default that the schema has for it.
    Default,
    /// In a schema: from an Array to its items.
    Items,
    /// In a schema: from a Map to its values.
    Values,
    /// In a schema: from a Union to the variant at this position, from 0.
    Variant(usize),
}

impl Path {
    /// The path of the root.
    pub const fn root() -> Path {
        Path { steps: Vec::new() }
    }

    /// Whether this is the path of the root.
    pub fn is_root(&self) -> bool {
        self.steps.is_empty()
    }

    /// The steps, from the root on.
    pub fn steps(&self) -> &[Step] {
        &self.steps
    }
}

impl FromIterator<Step> for Path {
    fn from_iter<I: IntoIterator<Item = Step>>(steps: I) -> Path {
        Path {
            steps: steps.into_iter().collect(),
        }
    }
}

impl fmt::Display for Path {
    fn fmt(&self, f: &mut fmt::Formatter<'_>) -> fmt::Result {
        for (i, step) in self.steps.iter().enumerate() {
            match step {
                Step::Field(name) if !plain(name) => write!(f, "[{name:?}]")?,
                Step::Field(name) if i == 0 => f.write_str(name)?,
                Step::Field(name) => write!(f, ".{name}")?,
                Step::Index(position) => write!(f, "[{position}]")?,
                Step::Key(key) => write!(f, "[{key:?}]")?,
                Step::Default => f.write_str(" (default)")?,
                Step::Items => f.write_str("[items]")?,
                Step::Values => f.write_str("[values]")?,
                Step::Variant(position) => write!(f, "[variant {position}]")?,
            }
        }
        Ok(())
    }
}

/// Whether a name can stand in a path, or in words, without quotation marks.
pub(crate) fn plain(name: &str) -> bool {
    !name.is_empty() && name.chars().all(|c| c.is_alphanumeric() || c == '_')
}

#[cfg(test)]
mod tests {
    use super::*;

    fn field(name: &str) -> Step {
        Step::Field(name.to_string())
    }

    #[test]
    fn the_text_of_a_path() {
        let key = |key: &str| Step::Key(key.to_string());
        let texts = [
            (vec![], ""),
            (vec![field("elapsed")], "elapsed"),
            (
                vec![field("boat"), field("crew"), Step::Index(2), field("age")],
                "boat.crew[2].age",
            ),
            (vec![Step::Index(0), Step::Index(11)], "[0][11]"),
            (vec![Step::Index(0), field("age")], "[0].age"),
            (vec![field("marks"), key("windward")], "marks[\"windward\"]"),
            (
                vec![field("boat"), field("sail no."), key("a\"b\n")],
                r#"boat["sail no."]["a\"b\n"]"#,
            ),
            (vec![field("")], "[\"\"]"),
            (vec![field("größe"), Step::Default], "größe (default)"),
            (
                vec![field("a"), Step::Items, Step::Values, Step::Variant(1)],
                "a[items][values][variant 1]",
            ),
        ];
        for (steps, text) in texts {
            let path: Path = steps.clone().into_iter().collect();
            assert_eq!(path.to_string(), text);
            assert_eq!(path.steps(), steps);
            assert_eq!(path.is_root(), steps.is_empty());
        }
        assert_eq!(Path::root(), Path::default());
    }
}
