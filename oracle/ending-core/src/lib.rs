//! The crate `bitdaemon-core` for the driver: its files are unchanged but for one line of file_storage.rs, by which the
//! walk of `sanitize_symlinks` ends where it would turn round for ever. `oracle/build` puts that line in.

#[path = "../../target/src/bitdaemon-core/error.rs"]
pub mod error;
#[path = "../../target/src/ending-core/file_storage.rs"]
pub mod file_storage;
#[path = "../../target/src/bitdaemon-core/merkle.rs"]
pub mod merkle;
#[path = "../../target/src/bitdaemon-core/path.rs"]
pub mod path;
#[path = "../../bitdaemon-core/src/utf8.rs"]
mod utf8;

pub use error::Error;
