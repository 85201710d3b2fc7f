//! The crate `bitdaemon-common`, as far as the compared sources need it: its unchanged files, which
//! `oracle/build` puts under `target/src`, and two stand-ins.

pub mod bitfield;
#[path = "../../target/src/bitdaemon-common/crc32c.rs"]
pub mod crc32c;
mod flags;
#[path = "../../target/src/bitdaemon-common/hash.rs"]
pub mod hash;
#[path = "../../target/src/bitdaemon-common/hex.rs"]
pub mod hex;
#[path = "../../target/src/bitdaemon-common/index_range.rs"]
pub mod index_range;
#[path = "../../target/src/bitdaemon-common/types.rs"]
pub mod types;

pub use hash::{Sha1Hash, Sha256Hash};
pub use index_range::IndexRange;
pub use types::{FileIndex, PeerRequest, PieceIndex};
