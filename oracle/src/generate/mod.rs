//! Cases from a seed: a schema frame and value frames, in families that each try one part of
//! the scope. The same seed gives the same cases.
mod alike;
mod damage;
mod frames;
mod lengths;
mod nans;
mod places;
mod random;
mod resolution;
mod scalars;
mod schemas;
mod sizes;
mod values;

pub use alike::{Alike, alike_cases};
pub use damage::damage;
pub use nans::{NANS, nans};
pub use random::Rng;
pub use resolution::{GRID, grid};
pub use schemas::{How, PLAIN, built, lead, schema};
pub use sizes::{SIZES, sizes};
pub use values::{any, value};

use crate::frame::{Schema, Value, hex, schema_frame, value_frame};

/// A schema frame and value frames.
pub type Case = (Vec<u8>, Vec<Vec<u8>>);

pub struct Family {
    pub name: &'static str,
    /// How often it is taken, beside the others.
    share: usize,
    pub make: fn(&mut Rng) -> Case,
}

const fn family(name: &'static str, share: usize, make: fn(&mut Rng) -> Case) -> Family {
    Family { name, share, make }
}

pub const FAMILIES: &[Family] = &[
    family("general", 10, resolution::general),
    family("kinds", 4, resolution::kinds),
    family("floats", 6, resolution::floats),
    family("nan", 3, resolution::nan),
    family("unions", 8, resolution::unions),
    family("oddunions", 8, resolution::oddunions),
    family("defaults", 8, resolution::defaults),
    family("enums", 2, resolution::enums),
    family("decimals", 4, resolution::decimals),
    family("uuid", 4, resolution::uuid),
    family("names", 3, resolution::names),
    family("depth", 4, frames::depth),
    family("damaged", 9, frames::damaged),
    family("long", 3, lengths::long),
    family("longdefault", 6, lengths::longdefault),
    family("order", 4, resolution::order),
    family("pairs", 4, resolution::pairs),
    family("maps", 5, resolution::maps),
    family("schemafaults", 14, frames::schemafaults),
    family("texts", 4, resolution::texts),
    family("nested", 5, resolution::nested),
    family("grid", 6, resolution::any_of_grid),
    family("both", 8, resolution::both),
    family("narrow", 5, resolution::narrow),
    family("keys", 3, frames::keys),
    family("bytedefault", 5, resolution::bytedefault),
    family("wide", 4, lengths::wide),
    family("flags", 4, frames::flags),
    family("trials", 3, lengths::trials),
    family("sizes", 9, sizes::any_sizes),
    family("nans", 9, nans::any_nans),
];

/// How many values most families make for a schema.
const VALUES: usize = 20;

fn case(s: &Schema, v: &[Value]) -> Case {
    (schema_frame(s), v.iter().map(value_frame).collect())
}

/// Values that mostly resolve against the schema.
fn many(r: &mut Rng, s: &Schema, n: usize, h: How) -> Vec<Value> {
    (0..n).map(|_| value(r, s, 15, h)).collect()
}

/// A case and the input of program `resolve` that is made of it.
pub struct Given {
    pub family: &'static str,
    pub case: Case,
    pub input: Vec<u8>,
}

/// Cases of all families from a seed, `count` values or a few more.
pub fn cases(seed: u64, count: usize) -> impl Iterator<Item = Given> {
    let mut r = Rng::new(seed);
    let mut total = 0;
    std::iter::from_fn(move || {
        if total >= count {
            return None;
        }
        let f = pick_family(&mut r);
        let case = (f.make)(&mut r);
        total += case.1.len();
        let rough = f.name != "long" && r.percent(3);
        let input = if rough { damage::rough(&mut r, &case) } else { input(&case) };
        Some(Given { family: f.name, case, input })
    })
}

fn pick_family(r: &mut Rng) -> &'static Family {
    let mut x = r.below(FAMILIES.iter().map(|f| f.share).sum());
    for f in FAMILIES {
        if x < f.share {
            return f;
        }
        x -= f.share;
    }
    unreachable!()
}

/// The lines of a case.
pub fn input((s, v): &Case) -> Vec<u8> {
    let mut t = hex(s);
    for b in v {
        t.push('\n');
        t.push_str(&hex(b));
    }
    t.push('\n');
    t.into_bytes()
}
