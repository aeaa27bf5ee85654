// The C header has the entries, the numbers, the sentences and the version of this crate.
use hulmbax::frame::{
    kind, MAX_DEPTH, MAX_FINISHES, MAX_FRAME, RESULT_LEN, SUM_LEN, WORKSPACE_LEN,
};
use hulmbax::{Refusal, Schema};

const HEADER: &str = include_str!("../../../../c/hulmbax.h");
const ENTRIES: &str = include_str!("../../src/ffi.rs");

// The name of a variant as a constant of C: `SchemaNoFrame` as `SCHEMA_NO_FRAME`.
fn constant(name: &str) -> String {
    let mut out = String::new();
    for (i, c) in name.chars().enumerate() {
        if i > 0 && c.is_ascii_uppercase() {
            out.push('_');
        }
        out.push(c.to_ascii_uppercase());
    }
    out
}

// The lines of the header, without the spaces at either end.
fn has_line(start: &str) -> bool {
    HEADER.lines().any(|line| line.trim().starts_with(start))
}

// The names of what is declared on the lines that begin so, in order.
fn declared<'a>(source: &'a str, start: &str) -> Vec<&'a str> {
    let lines = source
        .lines()
        .filter_map(|line| line.trim().strip_prefix(start));
    lines
        .filter_map(|line| line.split_once('('))
        .map(|(name, _)| name)
        .collect()
}

#[test]
fn every_entry_is_declared() {
    let entries = declared(ENTRIES, "fn hulmbax_");
    let named = ["resolve", "current", "civil", "date", "add", "holds"];
    assert_eq!(entries, named);
    assert_eq!(declared(HEADER, "int32_t hulmbax_"), entries);
}

#[test]
fn every_refusal_has_its_number() {
    for refusal in Refusal::all() {
        let name = constant(&format!("{refusal:?}"));
        let line = format!("HULMBAX_{name} = {}", refusal.number());
        let ends = [',', ' ', '\n'].map(|end| format!("{line}{end}"));
        assert!(ends.iter().any(|end| HEADER.contains(end)), "{line}");
    }
}

#[test]
fn every_refusal_has_its_sentence() {
    for refusal in Refusal::all() {
        let name = constant(&format!("{refusal:?}"));
        let case = format!(
            "case HULMBAX_{name}:\n        return \"{}\";",
            refusal.sentence()
        );
        assert!(HEADER.contains(&case), "{case}");
    }
}

#[test]
fn every_kind_has_its_byte() {
    let names: Vec<String> = (0..=kind::DURATION).map(kind_name).collect();
    for (byte, name) in (0..).zip(&names) {
        assert!(
            has_line(&format!("HULMBAX_KIND_{name} = 0x{byte:02x}")),
            "{name}"
        );
    }
}

// The name that the enum of schemas has for a kind.
fn kind_name(byte: u8) -> String {
    let content: &[u8] = match byte {
        kind::ARRAY | kind::MAP => &[kind::NULL],
        kind::UNION => &[0; 6],
        kind::RECORD | kind::FIXED | kind::DURATION => &[0; 2],
        kind::ENUM => &[0; 3],
        kind::DECIMAL => &[0; 9],
        kind::UUID => &[0],
        _ => &[],
    };
    let schema = Schema::from_frame(&[&[byte], content].concat()).unwrap();
    let shown = format!("{schema:?}");
    constant(shown.split(['(', ' ']).next().unwrap())
}

#[test]
fn the_version_and_the_limits() {
    let macros = [
        ("VERSION", format!("\"{}\"", env!("CARGO_PKG_VERSION"))),
        ("VERSION_MAJOR", env!("CARGO_PKG_VERSION_MAJOR").to_string()),
        ("VERSION_MINOR", env!("CARGO_PKG_VERSION_MINOR").to_string()),
        ("VERSION_PATCH", env!("CARGO_PKG_VERSION_PATCH").to_string()),
        ("WORKSPACE_LEN", WORKSPACE_LEN.to_string()),
        ("RESULT_LEN", RESULT_LEN.to_string()),
        ("SUM_LEN", SUM_LEN.to_string()),
        ("MAX_FRAME", MAX_FRAME.to_string()),
        ("MAX_DEPTH", MAX_DEPTH.to_string()),
        ("MAX_FINISHES", MAX_FINISHES.to_string()),
    ];
    for (name, value) in macros {
        let line = format!("#define HULMBAX_{name} {value}\n");
        assert!(HEADER.contains(&line), "{line}");
    }
}
