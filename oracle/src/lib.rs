//! The answers of apache-avro 0.22.0 on the frames of the scope, as it is and with the rules of the
//! requests, and cases to ask it for.
// `plain` and `patched` are the same code around two crates.
#![allow(clippy::duplicate_mod)]
pub mod answer;
pub mod compare;
pub mod demand3;
pub mod differences;
pub mod frame;
pub mod generate;
pub mod judges;
pub mod lists;
pub mod meet;
pub mod precision;
pub mod requests;
pub mod selftest;

/// The crate as it is.
#[path = "judge"]
pub mod plain {
    pub use apache_avro as avro;
    mod ask;
    pub mod convert;
    pub use ask::*;
}

/// The crate with the patches of the requests.
#[path = "judge"]
pub mod patched {
    pub use apache_avro_patched as avro;
    mod ask;
    pub mod convert;
    pub use ask::*;
}
