//! The oracle itself beside the scope, the crate's builder of unions, and its own filters.
use crate::answer::Answer;
use crate::compare::given;
use crate::frame::{Schema, hex};
use crate::generate::{PLAIN, Rng, built, schema};
use crate::plain::avro::{Schema as AvroSchema, schema::UnionSchema};
use crate::plain::convert::{Namer, schema_kind, to_schema};
use crate::requests::REQUESTS;
use crate::{judges, patched, plain, precision};
use std::collections::BTreeMap;

/// How many unions are made by the generator and by the crate's builder.
const UNIONS: usize = 20_000;

/// How many values, at least, both judges are asked for.
const VALUES: usize = 100_000;

pub fn selftest() -> bool {
    let wrong = [finishes() + starred_by_crate(), precisions(), unions()];
    println!(
        "oracle: {} of the scope's finishes, {} of max_prec_for_len, {} of {UNIONS} union tables differ",
        wrong[0], wrong[1], wrong[2]
    );
    wrong == [0; 3] && patches() && filters()
}

/// Whether each patch has its request, and each request its patch.
fn patches() -> bool {
    let applied: Vec<&str> = patched::avro::PATCHES.lines().filter_map(|l| l.split(':').next()).collect();
    let wanted: Vec<&str> = REQUESTS.iter().map(|r| r.patch).collect();
    println!("oracle: patches {applied:?}");
    applied == wanted && plain::avro::PATCHES.is_empty()
}

/// Whether both judges give the same answer wherever no request touches a value, and each request
/// touches values on which they differ.
fn filters() -> bool {
    let (mut values, mut wrong) = (0, 0);
    let mut changed: BTreeMap<&str, usize> = BTreeMap::new();
    for case in given(VALUES, 1) {
        for judged in judges::of_input(&case.input) {
            values += 1;
            let agree = judged.agree();
            wrong += usize::from(judged.touched.is_empty() && !agree);
            judged.touched.iter().filter(|_| !agree).for_each(|r| *changed.entry(r).or_default() += 1);
        }
    }
    println!("oracle: {values} values, {wrong} on which the crates differ though no request touches them");
    println!("oracle: values that a request touches and on which they differ: {changed:?}");
    wrong == 0 && REQUESTS.iter().all(|r| changed.contains_key(r.name))
}

/// "Finishes to check by" and the example of program `resolve`, as the requests have them now: by
/// the patched crate.
fn finishes() -> usize {
    let nullable = "0a0002000500020000000500010000";
    let mut cases: Vec<(String, String, String)> = [
        ("02", "03000000007fffffff", "+ 027fffffff"),
        ("02", "030000000080000000", "- 7"),
        ("04", "0201000001", "+ 044b800000"),
        ("04", "0201000003", "+ 044b800002"),
        ("05", "030020000000000001", "+ 054340000000000000"),
        ("05", "0700034e614e", "- 28"),
        ("05", "057ff0000000000001", "- 28"),
        ("05", "047fc00001", "- 28"),
        ("04", "057ff0000000000000", "+ 047f800000"),
        (nullable, "057ff8000000000000", "- 28"),
        (nullable, "0700034e614e", "- 16"),
        (nullable, "047fc00000", "- 16"),
        ("0b00010001610002", "0b00020001610200000001000162057ff8000000000000", "+ 0b00010001610200000001"),
        ("0d0004", "0700026162", "- 10"),
        ("0d0004", "070004c3a96162", "+ 0d0004c3a96162"),
        ("0d0004", "0600026162", "- 10"),
        ("0e000000040000000000", "07000161", "- 14"),
        ("0e000000040000000000", "0700026162", "+ 0e00026162"),
        ("0e000000040000000000", "070002c480", "- 6"),
        (nullable, "00", "+ 0a0000000000"),
        (nullable, "0200000005", "+ 0a00000001054014000000000000"),
        ("02", "0a000000000a000000000200000005", "- 6"),
        ("0902", "0900020001610300000000800000000001620700046c617465", "- 7"),
        ("0902", "0900020001610700046c617465000162030000000080000000", "- 6"),
        ("0902", "09000300016102000000010001620700046c617465000163030000000080000000", "- 6"),
        ("0b000100016d010900020001610300000000800000000001620700046c6174650902", "0b0000", "- 7"),
        ("0b000100016d010900020001610700046c6174650001620300000000800000000902", "0b0000", "- 6"),
        (
            "0b000100016d010900020001610300000000800000000001620700046c6174650a0001090200010900000000",
            "0b0000",
            "- 7",
        ),
        ("02", "02ffffffff\n030000000080000000\n00\n", "+ 02ffffffff\n- 7\n- 6\n- 5"),
    ]
    .map(|(s, v, e)| (s.into(), v.into(), e.into()))
    .to_vec();
    cases.extend(decimal_finishes());
    cases.iter().filter(|(s, v, e)| lines(patched::of_input, s, v) != *e).count()
}

/// Decimals at the end of the table of precisions.
fn decimal_finishes() -> Vec<(String, String, String)> {
    let rows = [(307u32, 128usize, true), (308, 128, false), (308, 129, true), (u32::MAX, 129, true)];
    let row = |(precision, length, passes): (u32, usize, bool)| {
        let mut v = vec![0x0e];
        v.extend((length as u16).to_be_bytes());
        v.extend(vec![1u8; length]);
        let answer = if passes { format!("+ {}", hex(&v)) } else { "- 14".into() };
        (format!("0e{precision:08x}0000000000"), hex(&v), answer)
    };
    rows.map(row).to_vec()
}

/// The finishes that requests changed, as the scope has them: by the crate as it is.
fn starred_by_crate() -> usize {
    let cases = [
        ("05", "0700034e614e", "+ 057ff8000000000000"),
        ("0d0004", "0700026162", "+ 0d00026162"),
        ("0e000000040000000000", "07000161", "+ 0e000161"),
    ];
    cases.iter().filter(|(s, v, e)| lines(plain::of_input, s, v) != *e).count()
}

fn lines(judge: fn(&[u8]) -> Vec<Answer>, schema: &str, values: &str) -> String {
    let answers = judge(format!("{schema}\n{values}\n").as_bytes());
    answers.iter().map(Answer::line).collect::<Vec<_>>().join("\n")
}

/// `max_prec_for_len` beside "the largest p with 10^p at most 2^(8·length − 1) − 1".
fn precisions() -> usize {
    let wrong = |length: &usize| {
        let want = precision::for_length(*length);
        plain::avro::max_prec_for_len(*length).unwrap() != want
            || patched::avro::max_prec_for_len(*length).unwrap() != want
    };
    (0..=300).chain([1000, 65_535]).filter(wrong).count()
}

/// The tables that the generator makes as the builder would, beside the builder's own.
fn unions() -> usize {
    let mut r = Rng::new(1);
    (0..UNIONS).filter(|_| !same_tables(&mut r)).count()
}

fn same_tables(r: &mut Rng) -> bool {
    let variants: Vec<Schema> = (0..r.range(1, 6)).map(|_| schema(r, 2, PLAIN)).collect();
    let (u, admitted) = built(variants.clone());
    let mut names = Namer::default();
    let schemas: Vec<AvroSchema> = variants.iter().map(|s| to_schema(s, &mut names)).collect();
    match UnionSchema::new(schemas) {
        Err(_) => !admitted,
        Ok(made) => {
            let (kinds, named) = made.oracle_tables();
            let want: BTreeMap<_, _> = u.kinds.iter().map(|&(k, p)| (schema_kind(k), p as usize)).collect();
            let want_named: Vec<usize> = u.named.iter().map(|&p| p as usize).collect();
            admitted && *kinds == want && named == want_named
        }
    }
}
