//! The crate `bitdaemon-core`, as far as the compared sources need it: its unchanged files, which
//! `oracle/build` puts under `target/src`, and a stand-in for the module `utf8`.

#[path = "../../target/src/bitdaemon-core/error.rs"]
pub mod error;
#[path = "../../target/src/bitdaemon-core/file_storage.rs"]
pub mod file_storage;
#[path = "../../target/src/bitdaemon-core/merkle.rs"]
pub mod merkle;
#[path = "../../target/src/bitdaemon-core/path.rs"]
pub mod path;
mod utf8;

pub use error::Error;
