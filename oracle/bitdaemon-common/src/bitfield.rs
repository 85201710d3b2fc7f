//! Stands for the module `bitfield` of bitdaemon-common, which merkle.rs names in the signature of
//! `merkle_validate_copy`. No value of this type can be made, so nothing here can run.

/// A set of bits that can't be made.
pub enum Bitfield {}

impl Bitfield {
    /// The number of bits.
    pub fn size(&self) -> usize {
        match *self {}
    }

    /// Sets one bit.
    pub fn set_bit(&mut self, _index: usize) {
        match *self {}
    }
}
