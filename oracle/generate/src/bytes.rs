//! Byte strings to ask about: all short ones over a few bytes, and random ones over several alphabets.

use crate::random::Random;

/// The bytes that decide something in paths, and one that doesn't.
pub const ALPHABET: &[u8] = b"a./\\";

/// All strings of at most `longest` bytes over ALPHABET, the shorter first.
pub fn all_up_to(longest: usize) -> Vec<Vec<u8>> {
    let mut all = vec![Vec::new()];
    let mut start = 0;
    for _ in 0..longest {
        let end = all.len();
        for i in start..end {
            for &c in ALPHABET {
                let mut longer = all[i].clone();
                longer.push(c);
                all.push(longer);
            }
        }
        start = end;
    }
    all
}

/// Lengths around which something may change.
const EDGES: [usize; 8] = [0, 1, 2, 255, 256, 4095, 4096, 4097];

/// A random length: mostly short, at times one of EDGES.
fn length(random: &mut Random) -> usize {
    if random.once_in(64) {
        return random.one_of(&EDGES);
    }
    let most = random.one_of(&[4, 8, 16, 40]);
    random.below(most + 1)
}

/// A random byte string for a path.
pub fn path(random: &mut Random) -> Vec<u8> {
    let length = length(random);
    let kind = random.below(6);
    let mut path: Vec<u8> = (0..length).map(|_| byte(random, kind)).collect();
    if length > 0 && random.once_in(4) {
        path[length - 1] = b'/';
    }
    if length > 1 && random.once_in(8) {
        path[length - 2] = b'/';
    }
    if length > 0 && random.once_in(6) {
        path[0] = b'/';
    }
    if length > 1 && random.once_in(8) {
        path[1] = b'/';
    }
    path
}

/// A random byte string of any bytes.
pub fn any(random: &mut Random) -> Vec<u8> {
    let length = length(random);
    (0..length).map(|_| random.next() as u8).collect()
}

/// A random byte of a kind of path: few separators, many, dots, `%` and blanks, high bytes, or any byte.
fn byte(random: &mut Random, kind: usize) -> u8 {
    match kind {
        0 => random.one_of(b"abcdefghijklmnop./"),
        1 => random.one_of(b"ab//\\"),
        2 => random.one_of(b"a../"),
        3 => random.one_of(b"a%/ %25\\~!\x7f"),
        4 => random.one_of(b"/a\x80\xC3\xA9\xFF\x00\x2E\xAF\xDC"),
        _ => random.next() as u8,
    }
}
