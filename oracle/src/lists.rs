//! Recorded lists for the repository's own programs: frames with the answers of the patched crate,
//! frames with the outcome of the frame checks alone, and one input of program `resolve`.
use crate::answer::Answer;
use crate::compare::count_kinds;
use crate::frame::{self, BOOLEAN, BYTES, DOUBLE, FLOAT, Field, INT, LONG, NULL, STRING, Schema, Value, hex};
use crate::generate::{self, Case, FAMILIES, Family, GRID, How, NANS, PLAIN, Rng, SIZES, built, lead};
use crate::{judges, patched, plain};
use std::collections::{BTreeMap, BTreeSet};
use std::fmt::Write;
use std::fs;
use std::path::Path;

/// Pairs taken of each family.
const PAIRS: usize = 220;
/// A frame or result longer than this is left out, but for the families that are about length.
const SHORT: usize = 300;
/// The most bytes of a group with long frames.
const LONG_GROUP: usize = 150_000;

type Counts = BTreeMap<String, usize>;

pub fn write(seed: u64, dir: &Path) -> bool {
    fs::create_dir_all(dir).unwrap();
    let (short, long) = vectors(seed);
    fs::write(dir.join("vectors.txt"), short).unwrap();
    fs::write(dir.join("long.txt"), long).unwrap();
    fs::write(dir.join("frames.txt"), frames(seed)).unwrap();
    let (input, output) = program(seed);
    fs::write(dir.join("resolve.txt"), input).unwrap();
    fs::write(dir.join("resolve.out"), output).unwrap();
    true
}

fn rng(seed: u64, part: usize) -> Rng {
    Rng::new(seed.wrapping_mul(1000) + part as u64)
}

fn count(counts: &mut Counts, key: &str) {
    *counts.entry(key.into()).or_default() += 1;
}

// ---------------------------------------------------------------- pairs and answers

/// A schema's group: its line, then two lines for each value, before them the requests that touch it;
/// and the answers in it. Leaves out what is longer than `most`, and where a map's failing entries
/// have several numbers, since the crate may then give another one in another run.
fn group((schema, values): &Case, most: usize) -> (String, Vec<String>) {
    let mut text = format!("{}\n", line('s', schema));
    let mut kept = vec![];
    let case: Case = (schema.clone(), values.iter().filter(|v| v.len() <= most).cloned().collect());
    for (v, judged) in case.1.iter().zip(judges::of_case(&case)) {
        let a = &judged.patched;
        let longer = matches!(a, Answer::Accepted(b) if b.len() > most);
        if !longer && !a.several() {
            if !judged.touched.is_empty() {
                writeln!(text, "# {}", judged.touched.join(", ")).unwrap();
            }
            writeln!(text, "{}\n{}", line('v', v), a.line()).unwrap();
            kept.push(a.sort());
        }
    }
    (text, kept)
}

/// A frame's line; an empty frame leaves no space at its end.
fn line(what: char, frame: &[u8]) -> String {
    format!("{what} {}", hex(frame)).trim_end().into()
}

/// How many pairs of a family.
fn quota(family: &Family) -> usize {
    match family.name {
        // 7, 8 and 9 are rare elsewhere
        "narrow" => 4 * PAIRS,
        // every schema of the grid
        "grid" => 27 * GRID,
        _ => PAIRS,
    }
}

/// Whether 4 stops the schema, by either judge.
fn stops_with_four(schema: &[u8]) -> bool {
    [patched::prepare(Some(schema)).err(), plain::prepare(Some(schema)).err()].contains(&Some(4))
}

/// The list of pairs, and one of long frames, which is also where 18 stands.
fn vectors(seed: u64) -> (String, String) {
    let (mut short, mut long) = (String::new(), String::new());
    let mut counts = Counts::new();
    // the values of `trials` are all long
    for (i, family) in FAMILIES.iter().enumerate().filter(|(_, f)| f.name != "trials") {
        let mut r = rng(seed, i);
        let (mut made, mut taken, mut lengthy, mut fours) = (0, 0, 0, 0);
        let of_length = matches!(family.name, "long" | "longdefault" | "wide");
        while taken < quota(family) && lengthy < 60 {
            let case = match family.name {
                "grid" => generate::grid(&mut r, taken / 27 % GRID),
                "sizes" => generate::sizes(&mut r, made % SIZES),
                "nans" => generate::nans(&mut r, made % NANS),
                _ => (family.make)(&mut r),
            };
            made += 1;
            let four = fours < 6 && stops_with_four(&case.0);
            fours += four as usize;
            let longest = case.1.iter().map(Vec::len).max().unwrap().max(case.0.len());
            if of_length && !four && longest > SHORT {
                let (text, kept) = group(&case, 2 * frame::MAX_FRAME);
                if lengthy < 20 && text.len() <= LONG_GROUP {
                    if taken < 4 && !kept.contains(&"18".into()) {
                        short.push_str(&text);
                        taken += kept.len();
                        kept.iter().for_each(|a| count(&mut counts, a));
                    } else {
                        long.push_str(&text);
                    }
                }
                lengthy += 1;
            } else if case.0.len() <= SHORT || four {
                let (text, kept) = group(&case, SHORT);
                if !kept.is_empty() {
                    short.push_str(&text);
                    taken += kept.len();
                    kept.iter().for_each(|a| count(&mut counts, a));
                }
            }
        }
    }
    println!("vectors: {} pairs: {counts:?}", counts.values().sum::<usize>());
    (short, long)
}

// ---------------------------------------------------------------- frames alone

/// Families of frames, how many cases of each, and the longest frame taken.
const FRAMES: &[(&str, usize, usize)] = &[
    ("damaged", 300, 250),
    ("depth", 150, 250),
    ("keys", 150, 250),
    ("flags", 300, 250),
    ("schemafaults", 300, 250),
    ("wide", 30, 3000),
    ("texts", 150, 250),
    ("defaults", 150, 250),
];

/// Frames in order, each once: `s` or `v`, the frame, the outcome of its own check.
fn frames(seed: u64) -> String {
    let mut lines: BTreeSet<(char, Vec<u8>)> = BTreeSet::new();
    for (i, (name, cases, most)) in FRAMES.iter().enumerate() {
        let mut r = rng(seed, 500 + i);
        let family = FAMILIES.iter().find(|f| f.name == *name).unwrap();
        for _ in 0..*cases {
            let (s, v) = (family.make)(&mut r);
            let all = std::iter::once(('s', s)).chain(v.into_iter().take(5).map(|v| ('v', v)));
            lines.extend(all.filter(|f| f.1.len() <= *most));
        }
    }
    // the longest frame, and one byte more
    for text in [65_532, 65_533] {
        lines.insert(('v', frame::value_frame(&Value::Str("x".repeat(text)))));
        lines.insert(('s', frame::schema_frame(&Schema::Enum(vec!["x".repeat(text - 3)], None))));
    }
    let mut text = String::new();
    let mut counts = Counts::new();
    for (what, b) in &lines {
        let outcome = outcome(*what, b);
        writeln!(text, "{what} {} {outcome}", hex(b)).unwrap();
        count(&mut counts, &format!("{what} {outcome}"));
    }
    println!("frames: {}: {counts:?}", lines.len());
    text
}

fn outcome(what: char, b: &[u8]) -> &'static str {
    match (what, frame::read_schema(b), frame::read_value(b)) {
        ('s', Err(_), _) => "2",
        ('s', Ok(s), _) if !frame::schema_ok(&s) => "3",
        ('v', _, Err(_)) => "5",
        _ => "+",
    }
}

// ---------------------------------------------------------------- program resolve

/// A union of Null and `x` as the builder makes it, whose kind table leads `more` kinds to `x` too.
fn pair(x: Schema, more: &[u8]) -> Schema {
    let mut u = built(vec![NULL, x]).0;
    more.iter().for_each(|&kind| lead(&mut u, kind, Some(1)));
    Schema::Union(u)
}

/// A finish: two fields that must be there, some with a plain default, and nullable pairs.
fn finish() -> Schema {
    let need = |name: &str, schema| Field::new(name, None, schema);
    let with = |name: &str, default, schema| Field::new(name, Some(default), schema);
    let may = |name: &str, schema, more: &[u8]| Field::new(name, Some(Value::Null), pair(schema, more));
    let text = |t: &str| Value::Str(t.into());
    let classes = ["Laser", "Finn", "470"].map(String::from).to_vec();
    let boat = Schema::Record(vec![need("name", STRING), may("crew", INT, &[])]);
    let grown = Schema::Record(vec![with("t", text(&"z".repeat(300)), BYTES)]);
    Schema::Record(vec![
        need("sail", STRING),
        need("seq", LONG),
        may("protest", BOOLEAN, &[]),
        may("place", INT, &[3]),
        with("rating", Value::Int(1), FLOAT),
        may("elapsed", DOUBLE, &[]),
        with("trace", Value::Array(vec![Value::Int(255)]), BYTES),
        may("laps", Schema::array(DOUBLE), &[]),
        may("marks", Schema::map(Schema::Plain(0x13)), &[]),
        may("boat", boat, &[]),
        with("class", text("470"), Schema::Enum(classes.clone(), Some("Laser".into()))),
        may("fleet", Schema::Enum(classes, None), &[7]),
        may("hull", Schema::Fixed(4), &[6]),
        may("score", Schema::Decimal(4, 1, None), &[]),
        may("bonus", Schema::Decimal(2, 3, None), &[]),
        may("fine", Schema::Decimal(9, 0, Some(2)), &[6]),
        may("id", Schema::UuidString, &[]),
        with("key", text("0123456789abcdef"), Schema::UuidFixed(16)),
        may("day", Schema::Plain(0x10), &[]),
        may("gun", Schema::Plain(0x11), &[]),
        may("t12", Schema::Plain(0x12), &[]),
        may("start", Schema::Plain(0x13), &[]),
        may("t14", Schema::Plain(0x14), &[]),
        may("t15", Schema::Plain(0x15), &[]),
        may("t16", Schema::Plain(0x16), &[]),
        may("t17", Schema::Plain(0x17), &[]),
        may("t18", Schema::Plain(0x18), &[]),
        may("limit", Schema::Duration(12), &[]),
        may("grown", Schema::array(grown), &[]),
    ])
}

/// What random values seldom give: 18, 7, 8, 10, 11, 14, 15.
fn sure() -> Vec<(&'static str, Value)> {
    vec![
        ("grown", Value::Array(vec![Value::Record(vec![]); 213])),
        ("grown", Value::Array(vec![Value::Record(vec![]); 2])),
        ("place", Value::Long(1 << 31)),
        ("place", Value::Long((1 << 31) - 1)),
        ("trace", Value::Array(vec![Value::Int(0), Value::Long(256)])),
        ("trace", Value::Array(vec![Value::Int(-1)])),
        ("trace", Value::Array(vec![Value::Int(255), Value::Long(0)])),
        ("hull", Value::Bytes(vec![1, 2, 3])),
        ("key", Value::Fixed(vec![1; 15])),
        ("id", Value::text("0123456789abcdef")),
        ("score", Value::Bytes(vec![1])),
        ("fleet", Value::text("Dragon")),
    ]
}

/// One input of program `resolve`, and the patched crate's answers.
fn program(seed: u64) -> (String, String) {
    let mut r = rng(seed, 900);
    let s = finish();
    let Schema::Record(fields) = &s else { unreachable!() };
    let sure = sure();
    let mut input = hex(&frame::schema_frame(&s));
    input.push('\n');
    for i in 0..480 {
        let h = How { wrong: r.pick(&[0, 1, 10]), wrap: 10, ..PLAIN };
        let mut items = vec![];
        for f in &fields[..2] {
            if !r.percent(4) {
                items.push((f.name.clone(), generate::value(&mut r, &f.schema, 3, How { wrong: 1, ..h })));
            }
        }
        for _ in 0..r.range(1, 3) {
            let f = &fields[2 + r.below(fields.len() - 2)];
            let v = if r.percent(3) {
                generate::any(&mut r, 2)
            } else {
                generate::value(&mut r, &f.schema, 4, h)
            };
            items.push((f.name.clone(), v));
        }
        if let Some((name, v)) = sure.get(i / 20).filter(|_| i % 20 == 0) {
            items = vec![
                ("sail".into(), Value::text("GBR 7")),
                ("seq".into(), Value::Int(i as i32)),
                (name.to_string(), v.clone()),
            ];
        }
        let mut line = hex(&frame::value_frame(&Value::Record(items)));
        match i % 40 {
            7 => line = line.to_uppercase(),
            17 => {
                line.pop();
            }
            27 => line.clear(),
            37 => line.push('\r'),
            _ => {}
        }
        input.push_str(&line);
        input.push('\n');
    }
    input.pop();
    let mut output = String::new();
    let mut counts = Counts::new();
    let mut kinds = BTreeMap::new();
    for a in patched::of_input(input.as_bytes()) {
        if let Answer::Accepted(b) = &a {
            count_kinds(&frame::read_value(b).unwrap(), &mut kinds);
        }
        assert!(!a.several(), "another seed: the crate may give another number for a map");
        count(&mut counts, &a.sort());
        writeln!(output, "{}", a.line()).unwrap();
    }
    println!("resolve: {counts:?}; {} kinds of result nodes", kinds.len());
    (input, output)
}
