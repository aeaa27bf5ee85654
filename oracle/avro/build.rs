//! Copies the source of apache-avro from the folder $AVRO_SOURCE to OUT_DIR, beside the shims, and
//! appends to two of them. Nothing in a given file is changed or removed: lines are only added at
//! the end, and this script checks that each made file begins with the given text, byte for byte.
//!
//! P1 (src/schema/union.rs): accessor and setter for `variant_index` and `named_index`, which
//!    the scope calls for.
//! P2 (src/types.rs): a public wrapper over the private `max_prec_for_len`, for the table test.
//!
//! Package avro ends there. In package patched the patches of folder patches follow, in the order
//! of their names; one that doesn't apply as it stands stops the build.
use std::{env, fs, fs::File, path::Path, path::PathBuf, process::Command};

const P1: &str = r#"
// ---- added for the oracle (patch P1) ----
impl UnionSchema {
    /// The tables as they stand.
    pub fn oracle_tables(&self) -> (&BTreeMap<SchemaKind, usize>, &[usize]) {
        (&self.variant_index, &self.named_index)
    }
    /// A union with these variants and tables; the positions must be below the variant count.
    pub fn oracle_with_tables(
        schemas: Vec<Schema>,
        variant_index: BTreeMap<SchemaKind, usize>,
        named_index: Vec<usize>,
    ) -> Self {
        Self {
            schemas,
            variant_index,
            named_index,
        }
    }
}
"#;

const P2: &str = r#"
// ---- added for the oracle (patch P2) ----
pub fn oracle_max_prec_for_len(len: usize) -> Result<usize, Error> {
    max_prec_for_len(len)
}
"#;

/// (path under src, text to append)
const GIVEN: &[(&str, &str)] = &[
    ("types.rs", P2),
    ("decimal.rs", ""),
    ("duration.rs", ""),
    ("bigdecimal.rs", ""),
    ("schema/mod.rs", ""),
    ("schema/name.rs", ""),
    ("schema/union.rs", P1),
    ("schema/record/field.rs", ""),
    ("schema/record/schema.rs", ""),
];

const SHIMS: &[&str] = &[
    "lib.rs",
    "error.rs",
    "decode.rs",
    "encode.rs",
    "util.rs",
    "validator.rs",
    "watch.rs",
    "schema_equality.rs",
    "schema/builders.rs",
    "schema/parser.rs",
    "schema/resolve.rs",
    "schema/record/mod.rs",
];

fn find(dir: &Path, rel: &str) -> PathBuf {
    let flat = format!("src--src--{}.txt", rel.replace('/', "--"));
    let txt = format!("{rel}.txt");
    let tries = [
        dir.join(&flat),
        dir.join("src").join(rel),
        dir.join("src").join(&txt),
        dir.join(rel),
        dir.join(&txt),
    ];
    for t in &tries {
        if t.is_file() {
            return t.clone();
        }
    }
    panic!("{rel} is in none of the places {tries:?}; AVRO_SOURCE is the folder of the crate's source");
}

/// The package whose source gets the patches.
const PATCHED: &str = "apache-avro-patched";
/// As seen from either package.
const SHIM_DIR: &str = "../avro/shim";
const PATCH_DIR: &str = "../patches";

fn main() {
    println!("cargo:rerun-if-env-changed=AVRO_SOURCE");
    println!("cargo:rerun-if-changed=../avro/build.rs");
    println!("cargo:rerun-if-changed={SHIM_DIR}");
    let source =
        PathBuf::from(env::var("AVRO_SOURCE").expect("AVRO_SOURCE is the folder of the crate's source"));
    let out = PathBuf::from(env::var("OUT_DIR").unwrap()).join("avro");
    fs::create_dir_all(out.join("schema/record")).unwrap();
    for rel in SHIMS {
        fs::copy(Path::new(SHIM_DIR).join(rel), out.join(rel)).unwrap();
    }
    fs::write(out.join("SOURCES.txt"), copy_given(&source, &out)).unwrap();
    let patched = env::var("CARGO_PKG_NAME").unwrap() == PATCHED;
    fs::write(out.join("PATCHES.txt"), if patched { apply_patches(&out) } else { String::new() }).unwrap();
}

/// The given files with what is added to them; the report has a line for each.
fn copy_given(source: &Path, out: &Path) -> String {
    let mut report = String::new();
    for (rel, add) in GIVEN {
        let from = find(source, rel);
        println!("cargo:rerun-if-changed={}", from.display());
        let text = fs::read_to_string(&from).unwrap();
        let made = format!("{text}{add}");
        fs::write(out.join(rel), &made).unwrap();
        let back = fs::read_to_string(out.join(rel)).unwrap();
        assert!(back.starts_with(&text) && &back[text.len()..] == *add);
        report.push_str(&format!(
            "src/{rel}: {} lines verbatim, {} lines added\n",
            text.lines().count(),
            add.lines().count()
        ));
    }
    report
}

/// Applies the patches in the order of their names; the report has a line for each.
fn apply_patches(out: &Path) -> String {
    println!("cargo:rerun-if-changed={PATCH_DIR}");
    let files = fs::read_dir(PATCH_DIR).unwrap().map(|f| f.unwrap().path());
    let mut patches: Vec<PathBuf> = files.filter(|f| f.extension().is_some_and(|e| e == "patch")).collect();
    patches.sort();
    patches.iter().map(|p| apply(p, out)).collect()
}

/// Applies one patch, whose files are named src/types.rs and so on; no line of its context may differ.
fn apply(file: &Path, out: &Path) -> String {
    let words = ["--strip=1", "--fuzz=0", "--forward", "--batch", "--no-backup-if-mismatch", "--directory"];
    let done = Command::new("patch").args(words).arg(out).stdin(File::open(file).unwrap()).output();
    let done = done.unwrap_or_else(|e| panic!("patch can't be run: {e}"));
    assert!(
        done.status.success(),
        "{} doesn't apply: {}",
        file.display(),
        String::from_utf8_lossy(&done.stdout)
    );
    let text = fs::read_to_string(file).unwrap();
    let count = |sign, head| text.lines().filter(|l| l.starts_with(sign) && !l.starts_with(head)).count();
    let name = file.file_name().unwrap().to_string_lossy();
    format!("{name}: {} lines out, {} lines in\n", count("-", "---"), count("+", "+++"))
}
