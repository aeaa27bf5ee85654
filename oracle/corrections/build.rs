//! Links the archive that `HULMBAX_ARCHIVE` names to program `library`. Program `listed` needs none.
use std::env;

fn main() {
    println!("cargo:rerun-if-env-changed=HULMBAX_ARCHIVE");
    let Ok(archive) = env::var("HULMBAX_ARCHIVE") else { return };
    println!("cargo:rerun-if-changed={archive}");
    println!("cargo:rustc-link-arg-bin=library={archive}");
}
