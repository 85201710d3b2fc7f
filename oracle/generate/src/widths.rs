//! Calls on the width of a tree.

use std::io;

use crate::random::Random;
use crate::script::{Script, Word};

/// The most leaves of a tree.
const MOST: u64 = 1_073_741_823;

/// The numbers around 0, around each power of two up to 2^40, and around the most leaves of a tree.
pub fn fixed(script: &mut Script) -> io::Result<()> {
    let powers = (0..=40).map(|k| 1 << k);
    let around = powers.flat_map(|n: u64| [n - 1, n, n + 1]);
    for n in around.chain([MOST - 1, MOST, MOST + 1, u64::MAX - 1, u64::MAX]) {
        script.call("width", &[Word::Number(n.into())])?;
    }
    Ok(())
}

/// Random numbers of all sizes.
pub fn random(script: &mut Script, random: &mut Random, count: usize) -> io::Result<()> {
    for _ in 0..count {
        let n = if random.once_in(2) { random.number() } else { random.next() % (MOST + 2) };
        script.call("width", &[Word::Number(n.into())])?;
    }
    Ok(())
}
