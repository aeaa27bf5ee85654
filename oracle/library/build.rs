//! Links the archive that `HULMBAX_ARCHIVE` names (target/staticlib/libhulmbax.a of the repository) and,
//! where `HULMBAX_BEFORE` names one, an older archive whose entry is called before_resolve.
use std::env;
use std::path::PathBuf;

fn main() {
    println!("cargo:rustc-check-cfg=cfg(before)");
    assert!(linked("HULMBAX_ARCHIVE", "hulmbax"), "HULMBAX_ARCHIVE names libhulmbax.a");
    if linked("HULMBAX_BEFORE", "before") {
        println!("cargo:rustc-cfg=before");
    }
}

/// Whether the variable names an archive, which is linked then.
fn linked(variable: &str, name: &str) -> bool {
    println!("cargo:rerun-if-env-changed={variable}");
    let Ok(archive) = env::var(variable).map(PathBuf::from) else { return false };
    println!("cargo:rerun-if-changed={}", archive.display());
    println!("cargo:rustc-link-search=native={}", archive.parent().unwrap().display());
    println!("cargo:rustc-link-lib=static={name}");
    true
}
