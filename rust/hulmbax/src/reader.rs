// A reader schema, and the buffers in which records are brought to it.
use crate::ffi::{self, RESULT_LEN, WORKSPACE_LEN};
use crate::path::{refused_record, refused_schema};
use crate::{Error, Refusal, Schema, Value};
use std::fmt;

/// A reader schema, to which one record after another is brought.
///
/// It holds the schema, its frame, and two buffers of 64 KB, so it is made once for a schema and
/// used for every record. No answer depends on the records before it. For several threads, each
/// has a reader of its own, a clone, say. A thread that calls should have 256 KB of stack or more.
///
/// ```
/// use hulmbax::{Reader, Schema, Value};
///
/// let mut reader = Reader::new(&Schema::nullable(Schema::Double)?)?;
/// assert_eq!(reader.resolve(&Value::Int(3601))?, Value::from(Some(3601.0)));
/// assert_eq!(reader.resolve(&Value::Null)?, Value::from(None::<f64>));
/// # Ok::<(), hulmbax::Error>(())
/// ```
#[derive(Clone)]
pub struct Reader {
    schema: Schema,
    frame: Vec<u8>,
    buffers: Buffers,
}

// What a call writes into. The workspace is zero between calls.
#[derive(Clone)]
struct Buffers {
    result: Vec<u8>,
    workspace: Vec<u8>,
}

impl Reader {
    /// A reader of this schema, which is checked: see [`Schema::check`].
    ///
    /// # Errors
    ///
    /// Those of [`Schema::check`].
    pub fn new(schema: &Schema) -> Result<Reader, Error> {
        let mut buffers = Buffers::new();
        let frame = buffers.check(schema)?;
        Ok(Reader {
            schema: schema.clone(),
            frame,
            buffers,
        })
    }

    /// The schema.
    pub fn schema(&self) -> &Schema {
        &self.schema
    }

    /// Brings the record to the schema, as apache-avro's `Value::resolve_with_names` does with no
    /// names, but for what docs/DIFFERENCES.md lists.
    ///
    /// No Float and no Double of the result is a NaN, at any depth. apache-avro keeps a NaN,
    /// converts it, and makes one of the text `NaN`; here each of these is refused with
    /// [`Refusal::NotANumber`]. Infinities pass. Where a variant of a union is tried and refuses a
    /// NaN, the later ones are tried.
    ///
    /// ```
    /// use hulmbax::{Reader, Refusal, Schema, Value};
    ///
    /// let mut reader = Reader::new(&Schema::Double)?;
    /// for nan in [Value::Double(f64::NAN), Value::Float(f32::NAN), Value::from("NaN")] {
    ///     let error = reader.resolve(&nan).unwrap_err();
    ///     assert_eq!(error.refusal(), Some(Refusal::NotANumber));
    /// }
    /// assert_eq!(reader.resolve(&Value::from("INF"))?, Value::Double(f64::INFINITY));
    /// # Ok::<(), hulmbax::Error>(())
    /// ```
    ///
    /// # Errors
    ///
    /// [`Error::Frame`] of a record that has no frame. [`Error::Refused`] of one that the library
    /// refuses, with the path to what it refuses: this is found by asking the library of each part
    /// on the way, so a refused record takes longer than an accepted one.
    ///
    /// ```
    /// use hulmbax::{Reader, RecordField, Refusal, Schema, Value};
    ///
    /// let sailor = Schema::record(vec![RecordField::new("age", Schema::Int)]);
    /// let boat = Schema::record(vec![RecordField::new("crew", Schema::array(sailor))]);
    /// let mut reader = Reader::new(&boat)?;
    ///
    /// let sailor = |age: Value| Value::record([("age", age)]);
    /// let crew = Value::Array(vec![sailor(31.into()), sailor("unknown".into())]);
    /// let error = reader.resolve(&Value::record([("crew", crew)])).unwrap_err();
    /// assert_eq!(error.path().to_string(), "crew[1].age");
    /// assert_eq!(error.refusal(), Some(Refusal::Unsuited));
    /// # Ok::<(), hulmbax::Error>(())
    /// ```
    pub fn resolve(&mut self, record: &Value) -> Result<Value, Error> {
        let sent = record.to_frame()?;
        match self.buffers.resolve(&self.frame, &sent) {
            Ok(n) => Value::from_frame(&self.buffers.result[..n]),
            Err(refusal) => Err(self.refused(record, refusal)),
        }
    }

    /// As [`resolve`](Reader::resolve), from a frame to a frame.
    ///
    /// # Errors
    ///
    /// [`Error::Refused`], with the path as in [`resolve`](Reader::resolve); bytes that are no
    /// frame are refused with [`Refusal::RecordNoFrame`].
    pub fn resolve_frame(&mut self, record: &[u8]) -> Result<&[u8], Error> {
        match self.buffers.resolve(&self.frame, record) {
            Ok(n) => Ok(&self.buffers.result[..n]),
            Err(refusal) => Err(match Value::from_frame(record) {
                Ok(record) => self.refused(&record, refusal),
                Err(_) => refusal.into(),
            }),
        }
    }

    fn refused(&mut self, record: &Value, refusal: Refusal) -> Error {
        let buffers = &mut self.buffers;
        refused_record(&self.schema, record, refusal, |schema, value| {
            let (schema, value) = (schema.to_frame().ok()?, value.to_frame().ok()?);
            buffers.resolve(&schema, &value).err()
        })
    }
}

// Without the buffers, which say nothing.
impl fmt::Debug for Reader {
    fn fmt(&self, f: &mut fmt::Formatter<'_>) -> fmt::Result {
        f.debug_struct("Reader")
            .field("schema", &self.schema)
            .finish_non_exhaustive()
    }
}

impl Schema {
    /// Whether records can be brought to this schema: that it has a frame, and that the library
    /// finds nothing unsound in it.
    ///
    /// A Decimal whose scale or size doesn't suit its precision passes, as it does in apache-avro:
    /// a record that meets it is refused. So does a default that its field's schema refuses, the
    /// text `NaN` for a Double, say: a record that lacks the field is refused.
    ///
    /// # Errors
    ///
    /// [`Error::Frame`], or [`Error::Refused`] with [`Refusal::SchemaUnsound`] or
    /// [`Refusal::DefaultTooLong`] and the path to what is wrong in the schema.
    ///
    /// ```
    /// use hulmbax::{RecordField, Refusal, Schema, Value};
    ///
    /// let rating = RecordField::new("rating", Schema::Double);
    /// assert!(Schema::record(vec![rating.clone()]).check().is_ok());
    ///
    /// // a default is what JSON gives, and JSON has no NaN
    /// let unsound = Schema::record(vec![rating.with_default(Value::Double(f64::NAN))]);
    /// let error = unsound.check().unwrap_err();
    /// assert_eq!(error.refusal(), Some(Refusal::SchemaUnsound));
    /// assert_eq!(error.path().to_string(), "rating (default)");
    /// # Ok::<(), hulmbax::Error>(())
    /// ```
    pub fn check(&self) -> Result<(), Error> {
        Buffers::new().check(self).map(drop)
    }
}

impl Value {
    /// Brings this record to the schema. For more than one record, use a [`Reader`].
    ///
    /// # Errors
    ///
    /// Those of [`Reader::new`] and [`Reader::resolve`].
    ///
    /// ```
    /// use hulmbax::{Schema, Value};
    ///
    /// assert_eq!(Value::Int(3601).resolve(&Schema::Double)?, Value::Double(3601.0));
    /// # Ok::<(), hulmbax::Error>(())
    /// ```
    pub fn resolve(&self, schema: &Schema) -> Result<Value, Error> {
        Reader::new(schema)?.resolve(self)
    }
}

impl Buffers {
    fn new() -> Buffers {
        Buffers {
            result: vec![0; RESULT_LEN],
            workspace: vec![0; WORKSPACE_LEN],
        }
    }

    // The length of what stands in `result` then.
    fn resolve(&mut self, schema: &[u8], record: &[u8]) -> Result<usize, Refusal> {
        ffi::resolve(schema, record, &mut self.result, &mut self.workspace)
    }

    // The schema's frame, if the schema is sound.
    fn check(&mut self, schema: &Schema) -> Result<Vec<u8>, Error> {
        let frame = schema.to_frame()?;
        match self.unsound(&frame) {
            None => Ok(frame),
            Some(refusal) => Err(refused_schema(schema, refusal, |part| {
                self.unsound(&part.to_frame().ok()?)
            })),
        }
    }

    // What is wrong with a schema, if anything is: the library looks at it before it looks at the
    // record, which is none here.
    fn unsound(&mut self, schema: &[u8]) -> Option<Refusal> {
        let answer = self.resolve(schema, &[]).err();
        answer.filter(|refusal| refusal.is_of_schema())
    }
}
