// The schema of a union, with the two tables that apache-avro's UnionSchema::new makes.
use super::Schema;
use crate::frame::bytes::{Input, Output};
use crate::frame::{kind, FrameError};
use crate::{Error, Value};

/// The schema of a Union: its variants, and the two tables by which a variant is found.
#[derive(Clone, Debug, PartialEq)]
pub struct UnionSchema {
    schemas: Vec<Schema>,
    variant_index: Vec<(u8, u16)>,
    named_index: Vec<u16>,
}

impl UnionSchema {
    /// The union of these variants, with the tables that apache-avro's `UnionSchema::new` makes.
    ///
    /// A variant that has a name in Avro (a Record, an Enum, a Fixed, a Duration, a Decimal or a
    /// UUID over a Fixed) goes into `named_index`, every other one into `variant_index` under its
    /// kind, a logical type under the kind that underlies it. Names are not carried here, so two
    /// variants of one name are not noticed.
    ///
    /// # Errors
    ///
    /// [`Error::Frame`] with [`FrameError::NestedUnion`], with [`FrameError::Duplicate`] for two
    /// variants under one kind, or with [`FrameError::TooLarge`] for more than 65,536 variants.
    pub fn new(schemas: Vec<Schema>) -> Result<UnionSchema, Error> {
        let mut variant_index = Vec::new();
        let mut named_index = Vec::new();
        for (position, schema) in schemas.iter().enumerate() {
            let position = u16::try_from(position).map_err(|_| FrameError::TooLarge)?;
            match schema.base_kind() {
                kind::UNION => return Err(FrameError::NestedUnion.into()),
                kind::RECORD | kind::ENUM | kind::FIXED => named_index.push(position),
                base => variant_index.push((base, position)),
            }
        }
        variant_index.sort_unstable();
        match variant_index.windows(2).find(|pair| pair[0].0 == pair[1].0) {
            Some(pair) => Err(FrameError::Duplicate(pair[0].0).into()),
            None => Ok(UnionSchema::with_tables(
                schemas,
                variant_index,
                named_index,
            )),
        }
    }

    /// A union with tables of the caller's own: positions under kind bytes, the kinds rising, and
    /// positions of the variants that have a name. [`Schema::check`] refuses tables that point
    /// past the variants.
    pub fn with_tables(
        schemas: Vec<Schema>,
        variant_index: Vec<(u8, u16)>,
        named_index: Vec<u16>,
    ) -> UnionSchema {
        UnionSchema {
            schemas,
            variant_index,
            named_index,
        }
    }

    /// The variants, in order.
    pub fn variants(&self) -> &[Schema] {
        &self.schemas
    }

    /// The table of kinds: a kind byte of [`kind`] and a variant's position each.
    pub fn variant_index(&self) -> &[(u8, u16)] {
        &self.variant_index
    }

    /// The positions of the variants that have a name.
    pub fn named_index(&self) -> &[u16] {
        &self.named_index
    }

    /// The variant that this value gets from the table of kinds without being tried, if there is
    /// one: an Array or a Map is tried. The value isn't the Union itself but what it holds.
    pub(crate) fn untried(&self, value: &Value) -> Option<&Schema> {
        let kind = value.unnamed_kind()?;
        let (_, position) = self.variant_index.iter().find(|(k, _)| *k == kind)?;
        let variant = self.schemas.get(usize::from(*position))?;
        (!matches!(variant, Schema::Array(_) | Schema::Map(_))).then_some(variant)
    }

    pub(crate) fn write(&self, out: &mut Output, depth: usize) -> Result<(), FrameError> {
        out.count(self.schemas.len())?;
        self.schemas.iter().try_for_each(|s| s.write(out, depth))?;
        out.count(self.variant_index.len())?;
        self.variant_index.iter().for_each(|(kind, position)| {
            out.byte(*kind);
            out.raw(&position.to_be_bytes());
        });
        out.count(self.named_index.len())?;
        self.named_index
            .iter()
            .for_each(|p| out.raw(&p.to_be_bytes()));
        Ok(())
    }

    pub(crate) fn read(from: &mut Input<'_>, depth: usize) -> Result<UnionSchema, FrameError> {
        Ok(UnionSchema {
            schemas: from.list(|r| Schema::read(r, depth))?,
            variant_index: from.list(|r| Ok((r.byte()?, r.count()?)))?,
            named_index: from.list(|r| r.count())?,
        })
    }
}
