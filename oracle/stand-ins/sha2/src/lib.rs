//! Stands for the crate `sha2`, with which merkle.rs hashes nodes. Hashing of contents isn't compared; if a
//! function that hashes were called, `new` would panic instead of answering.

/// What a hash does.
pub trait Digest {
    /// A new state.
    fn new() -> Self;

    /// Takes bytes in.
    fn update(&mut self, data: impl AsRef<[u8]>);

    /// The hash of what was taken in.
    fn finalize(self) -> [u8; 32];
}

/// A state of SHA-256, which `new` never gives.
pub struct Sha256(());

impl Digest for Sha256 {
    fn new() -> Self {
        unreachable!("hashing is no part of what is compared")
    }

    fn update(&mut self, _data: impl AsRef<[u8]>) {
        unreachable!("hashing is no part of what is compared")
    }

    fn finalize(self) -> [u8; 32] {
        unreachable!("hashing is no part of what is compared")
    }
}
