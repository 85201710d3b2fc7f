//! Stands for the crate `bitdaemon-bencode`, whose error type error.rs wraps. No value of it can be
//! made, so no answer can depend on it.

use std::fmt;

/// An error of decoding that can't be made.
#[derive(Debug)]
pub enum BdecodeError {}

impl fmt::Display for BdecodeError {
    fn fmt(&self, _: &mut fmt::Formatter<'_>) -> fmt::Result {
        match *self {}
    }
}

impl std::error::Error for BdecodeError {}
