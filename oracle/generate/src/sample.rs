//! The short scripts whose answers are stored beside the program that answers them.

use std::io;

use crate::calls;
use crate::cleanings;
use crate::firsts;
use crate::layout;
use crate::malformed;
use crate::random::Random;
use crate::script::Script;
use crate::sets;
use crate::times;
use crate::widths;

const HEAD: &[&str] = &[
    "# A sample of calls on paths, hashes and tree widths, printed by `generate sample` of the folder oracle; the answers",
    "# beside it are those of the unchanged Rust. `oracle/store` writes both files. First come the vectors of RFC 3720",
    "# and short inputs, then random ones.",
];

/// Paths whose pairs are asked for.
const JOINED: [&[u8]; 12] = [b"", b".", b"/", b"a", b"\\", b"..", b"a/", b"/a", b"./", b"a.", b"a//", b"a/b"];

const SETS_HEAD: &[&str] = &[
    "# A sample of calls on sets, printed by `generate sample sets` of the folder oracle; the answers beside it are those of",
    "# the Rust, unchanged but for the line that ends a walk, and of the times kept beside it (oracle/README.md).",
    "# `oracle/store` writes both files. First come the lines out of form, then sets that show one rule each, then all rows of",
    "# at most three changes that move times and of two that move places of a table, then random changes, then cleanings.",
];

pub fn write_sets(script: &mut Script) -> io::Result<()> {
    let mut random = start(script, SETS_HEAD)?;
    malformed::fixed_sets(script)?;
    sets::scenes(script, &mut random)?;
    times::small(script, 3)?;
    firsts::small(script, 2)?;
    long_names(script)?;
    sets::random(script, &mut random, 50)?;
    cleanings::random(script, &mut random, 50)
}

/// A name of 4096 bytes, which is refused, and one of 4095, which is not.
fn long_names(script: &mut Script) -> io::Result<()> {
    script.line(b"open 10")?;
    for length in [4096, 4095] {
        let line = [b"add - :s/", &*vec![b'n'; length], b" 1 0 0 : -"].concat();
        script.line(&line)?;
    }
    script.line(b"text_bytes")
}

const LAYOUT_HEAD: &[&str] = &[
    "# A sample of calls on layouts, printed by `generate sample layout` of the folder oracle; the answers beside it are those",
    "# of the same Rust. `oracle/store` writes both files. First come the lines out of form, then all sets of at most two files",
    "# of at most one byte, then sets that show one corner each, then random ones.",
];

pub fn write_layout(script: &mut Script) -> io::Result<()> {
    let mut random = start(script, LAYOUT_HEAD)?;
    malformed::fixed_layout(script)?;
    layout::small(script, 2, 2, 3)?;
    layout::scenes(script, &mut random)?;
    layout::random(script, &mut random, 5)
}

pub fn write(script: &mut Script) -> io::Result<()> {
    let mut random = start(script, HEAD)?;
    calls::vectors(script)?;
    calls::paths_up_to(script, 3, 3)?;
    calls::pairs(script, &JOINED)?;
    widths::fixed(script)?;
    malformed::fixed(script)?;
    calls::random(script, &mut random, 50)?;
    widths::random(script, &mut random, 20)?;
    malformed::random(script, &mut random, 50)
}

/// Begins a plain text with its head, and gives the source of its random numbers.
fn start(script: &mut Script, head: &[&str]) -> io::Result<Random> {
    script.keep_to_text();
    head.iter().try_for_each(|line| script.line(line.as_bytes()))?;
    Ok(Random::new(1))
}
