//! The sheet's reader schema, and what three clubs sent under schemas of their own.

use hulmbax::{Error, RecordField, Schema, Value};

/// A club, the schema that its release writes under, and its finishes.
pub struct Club {
    pub name: &'static str,
    pub habit: &'static str,
    pub schema: Schema,
    pub records: Vec<Value>,
}

/// What the sheet reads: an elapsed time in seconds, or none, and a rating.
pub fn reader_schema() -> Result<Schema, Error> {
    let elapsed = Schema::nullable(Schema::Double)?;
    Ok(Schema::record(vec![
        RecordField::new("sail", Schema::String),
        RecordField::new("race", Schema::Int),
        RecordField::new("elapsed", elapsed).with_default(Value::Null),
        RecordField::new("rating", Schema::Double).with_default(1000),
    ]))
}

pub fn clubs() -> Result<Vec<Club>, Error> {
    Ok(vec![ardmore(), brightlee()?, corran()?])
}

fn ardmore() -> Club {
    let finish = |sail: &str, race: i32, elapsed: i32| {
        Value::record([
            ("sail", sail.into()),
            ("race", race.into()),
            ("elapsed", elapsed.into()),
        ])
    };
    Club {
        name: "Ardmore",
        habit: "Times whole seconds, and knows no ratings.",
        schema: Schema::record(vec![
            RecordField::new("sail", Schema::String),
            RecordField::new("race", Schema::Int),
            RecordField::new("elapsed", Schema::Int),
        ]),
        records: vec![
            finish("A 12", 1, 3601),
            finish("A 31", 1, 3725),
            finish("A 12", 2, 3544),
            finish("A 31", 2, 3550),
        ],
    }
}

fn brightlee() -> Result<Club, Error> {
    let finish = |sail: &str, race: i64, rating: f32, elapsed: Option<f64>| {
        Value::record([
            ("race", race.into()),
            ("sail", sail.into()),
            ("wind", 12.5_f32.into()),
            ("rating", rating.into()),
            ("elapsed", elapsed.into()),
        ])
    };
    Ok(Club {
        name: "Brightlee",
        habit: "Times parts of a second. A boat that did not start has none; a boat that retired \
                has NaN, which can't be ranked: the sheet refuses it, and the race officer asks \
                again. Also sends the wind, which the sheet does not ask for.",
        schema: Schema::record(vec![
            RecordField::new("race", Schema::Long),
            RecordField::new("sail", Schema::String),
            RecordField::new("wind", Schema::Float),
            RecordField::new("rating", Schema::Float),
            RecordField::new("elapsed", Schema::nullable(Schema::Double)?),
        ]),
        records: vec![
            finish("B 7", 1, 1010.0, Some(3598.25)),
            finish("B 19", 1, 1043.5, Some(f64::NAN)),
            finish("B 7", 2, 1010.0, None),
            finish("B 19", 2, 1043.5, Some(3655.5)),
        ],
    })
}

fn corran() -> Result<Club, Error> {
    let number = |n: i32| Value::Union(0, Box::new(n.into()));
    let cell = |s: &str| Value::Union(1, Box::new(s.into()));
    let finish = |sail, race, elapsed| {
        Value::map([
            ("sail", cell(sail)),
            ("race", number(race)),
            ("rating", number(985)),
            ("elapsed", elapsed),
        ])
    };
    let unsailed = Value::map([("sail", cell("C 8")), ("race", number(2))]);
    let unnamed = Value::map([("race", number(2)), ("elapsed", number(3590))]);
    Ok(Club {
        name: "Corran",
        habit: "Sends the rows of a table as they were typed, each cell a number or a text; an \
                empty cell is not sent.",
        schema: Schema::map(Schema::union(vec![Schema::Int, Schema::String])?),
        records: vec![
            finish("C 3", 1, cell("1:02:05")),
            finish("C 5", 1, number(3650)),
            finish("C 8", 1, cell("NaN")),
            finish("C 3", 2, cell("INF")),
            finish("C 5", 2, number(3570)),
            unsailed,
            unnamed,
        ],
    })
}
