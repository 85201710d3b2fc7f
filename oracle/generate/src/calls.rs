//! Calls on paths and hashes.

use std::io;

use crate::bytes;
use crate::random::Random;
use crate::script::{Script, Word};

/// The calls that take one path and nothing else.
pub const ONE_PATH: [&str; 5] = ["rsplit", "lsplit", "has_parent", "is_complete", "filename"];

/// The calls that take two paths.
pub const TWO_PATHS: [&str; 2] = ["append", "combine"];

/// RFC 3720, B.4, 'An iSCSI - SCSI Read (10) Command PDU'.
const READ_COMMAND: [u8; 48] = [
    0x01, 0xc0, 0x00, 0x00, 0x00, 0x00, 0x00, 0x00, 0x00, 0x00, 0x00, 0x00, 0x00, 0x00, 0x00, 0x00, //
    0x14, 0x00, 0x00, 0x00, 0x00, 0x00, 0x04, 0x00, 0x00, 0x00, 0x00, 0x14, 0x00, 0x00, 0x00, 0x18, //
    0x28, 0x00, 0x00, 0x00, 0x00, 0x00, 0x00, 0x00, 0x02, 0x00, 0x00, 0x00, 0x00, 0x00, 0x00, 0x00,
];

/// The vectors of RFC 3720, B.4, and the usual one of nine digits.
pub fn vectors(script: &mut Script) -> io::Result<()> {
    let rising: Vec<u8> = (0..32).collect();
    let falling: Vec<u8> = (0..32).rev().collect();
    let all: [&[u8]; 6] = [&[0; 32], &[0xFF; 32], &rising, &falling, &READ_COMMAND, b"123456789"];
    for vector in all {
        script.call("crc", &[Word::Bytes(vector)])?;
    }
    Ok(())
}

/// The CRC of no byte and of each byte.
pub fn bytes_singly(script: &mut Script) -> io::Result<()> {
    script.call("crc", &[Word::Bytes(b"")])?;
    for byte in 0..=255 {
        script.call("crc", &[Word::Bytes(&[byte])])?;
    }
    Ok(())
}

/// Every call on one path, for all paths of at most `longest` bytes, and for a place the places up to `farthest`.
pub fn paths_up_to(script: &mut Script, longest: usize, farthest: u64) -> io::Result<()> {
    let paths = bytes::all_up_to(longest);
    for name in ONE_PATH {
        for path in &paths {
            script.call(name, &[Word::Bytes(path)])?;
        }
    }
    for path in &paths {
        for place in 0..=farthest {
            script.call("lsplit_at", &[Word::Bytes(path), Word::Number(place.into())])?;
        }
    }
    Ok(())
}

/// Every call on two paths, for all pairs of paths of at most `longest` bytes.
pub fn pairs_up_to(script: &mut Script, longest: usize) -> io::Result<()> {
    pairs(script, &bytes::all_up_to(longest))
}

/// Every call on two paths, for all pairs of some.
pub fn pairs<T: AsRef<[u8]>>(script: &mut Script, paths: &[T]) -> io::Result<()> {
    for name in TWO_PATHS {
        for first in paths {
            for second in paths {
                script.call(name, &[Word::Bytes(first.as_ref()), Word::Bytes(second.as_ref())])?;
            }
        }
    }
    Ok(())
}

/// As many random inputs as wanted for each call on paths and hashes.
pub fn random(script: &mut Script, random: &mut Random, count: usize) -> io::Result<()> {
    for _ in 0..count {
        for name in ONE_PATH {
            script.call(name, &[Word::Bytes(&bytes::path(random))])?;
        }
        for name in TWO_PATHS {
            let (first, second) = (bytes::path(random), bytes::path(random));
            script.call(name, &[Word::Bytes(&first), Word::Bytes(&second)])?;
        }
        let path = bytes::path(random);
        let place = place(random, path.len());
        script.call("lsplit_at", &[Word::Bytes(&path), Word::Number(place.into())])?;
        script.call("crc", &[Word::Bytes(&bytes::any(random))])?;
    }
    Ok(())
}

/// A place in a path of that length, at its end, a little behind it, or anywhere at all.
fn place(random: &mut Random, length: usize) -> u64 {
    match random.below(8) {
        0 => random.number(),
        1 => u64::MAX,
        2 => length as u64,
        _ => random.below(length + 3) as u64,
    }
}
