//! Sets that keep the first file of each piece in a table: all short rows of changes with tables of every length, scenes,
//! and random changes in which files begin where pieces do, and pads are longer than a piece.

use std::io;

use driver::{Set, Sets, piece_count};

use crate::additions::{time, timed};
use crate::layout_questions;
use crate::playing::{ask, current, play};
use crate::random::Random;
use crate::script::Script;

/// The most places that every program has for a set's table.
const MOST: usize = 1024;

/// The additions of a short row, by size and flags: files within a piece, of a piece, of several and of no bytes, and a
/// pad longer than a piece, whose trim gives places back.
const ADDITIONS: [(i64, u8); 5] = [(5, 0), (10, 0), (25, 0), (0, 0), (25, 1)];

/// All rows of at most `most` changes, additions and trims, with roots and without, each with a table of every length up
/// to what it needs.
pub fn small(script: &mut Script, most: u32) -> io::Result<()> {
    let kinds = ADDITIONS.len() + 1;
    for root in ["-", "*01"] {
        for changes in 1..=most {
            for code in 0..kinds.pow(changes) {
                let kind = |i: u32| code / kinds.pow(i) % kinds;
                let lines: Vec<Vec<u8>> = (0..changes).map(|i| change(kind(i), i, root)).collect();
                every_length(script, 10, &lines, layout_questions::on_pieces)?;
            }
        }
    }
    Ok(())
}

/// The line of a change of a short row, by its kind.
fn change(kind: usize, i: u32, root: &str) -> Vec<u8> {
    match ADDITIONS.get(kind) {
        Some(&(size, flags)) => timed(format!("s/{i}").as_bytes(), size, flags, 0, b"", root.as_bytes()),
        None => b"trim".to_vec(),
    }
}

/// A set of those changes for each length of its table, from 0 places to as many as it ever needs. The table is asked for
/// after each change, and with the most places the questions that are handed over come last.
pub fn every_length(
    script: &mut Script,
    piece_length: i32,
    changes: &[Vec<u8>],
    asked: impl Fn(&mut Script, &Set) -> io::Result<()>,
) -> io::Result<()> {
    let mut sets = Sets::default();
    let most = need(piece_length, changes);
    for places in 0..=most {
        ask(script, &mut sets, format!("open {piece_length} pieces={places}").as_bytes())?;
        for line in changes {
            ask(script, &mut sets, line)?;
            script.call("first_files", &[])?;
        }
    }
    asked(script, current(&mut sets))
}

/// The most pieces that a set of those changes ever has.
fn need(piece_length: i32, changes: &[Vec<u8>]) -> i64 {
    let mut sets = Sets::default();
    play(&mut sets, format!("open {piece_length}").as_bytes());
    let pieces = changes.iter().map(|line| {
        play(&mut sets, line);
        piece_count(&current(&mut sets).files)
    });
    pieces.max().unwrap_or(0)
}

/// The word by which a table is named: with about as many places as are needed, none, or the most; at times no word.
pub fn word(random: &mut Random, need: i64) -> String {
    let near = need.clamp(0, MOST as i64) as usize + random.below(3);
    match random.below(12) {
        0..5 => String::new(),
        5 => " pieces=0".to_owned(),
        6 => format!(" pieces={MOST}"),
        _ => format!(" pieces={}", near.saturating_sub(1).min(MOST)),
    }
}

/// A random change: a trim or a cleaning; a pad longer than a piece; a file that ends where a piece does, or beside it; one
/// without bytes, within a piece, or of several pieces.
pub fn random(random: &mut Random, set: &Set, i: usize) -> Vec<u8> {
    let (length, total) = (i64::from(set.files.piece_length()), set.files.total_size());
    let left = length - total % length;
    let several = length * random.one_of(&[1, 1, 2, 3, 20]);
    let (size, flags) = match random.below(16) {
        0..3 => return b"trim".to_vec(),
        3 => return b"clean".to_vec(),
        4 | 5 => (several + random.one_of(&[0, 1, left]), 1),
        6..10 => (0, random.one_of(&[0, 0, 0, 1])),
        10 => (left, 0),
        11 => (left + random.one_of(&[-1, 1]), 0),
        12 => (several + random.one_of(&[-1, 0, 1, left]), 0),
        _ => (1 + random.below(length.min(12) as usize) as i64, 0),
    };
    let is_v2 = if total == 0 { random.once_in(2) } else { set.files.v2() };
    let root: &[u8] = if is_v2 != random.once_in(30) { b"*01" } else { b"-" };
    timed(format!("s/{i}").as_bytes(), size, flags, time(random), b"", root)
}

/// Sets that show one rule or corner each, with the table asked for between the changes.
pub const SCENES: &[&[&str]] = &[
    // Document 02: more places than there are get 10, and a trim gives places back, which another file then has.
    &[
        "open 10 pieces=4",
        "add - :s/a 7 0 5 : -",
        "add - :s/x/c 15 0 0 : -",
        "dirs",
        "first_files",
        "add - :s/x/p 18 1 9 : -",
        "first_files",
        "add - :s/q 1 0 0 : -",
        "first_files",
        "add - :s/e 0 0 3 : -",
        "trim",
        "mtime 2",
        "first_files",
        "add - :s/f 19 0 0 : -",
        "add - :s/f 18 0 0 : -",
        "first_files",
    ],
    // No places: files without bytes alone.
    &[
        "open 10 pieces=0",
        "first_files",
        "add - :s/a 0 0 0 : -",
        "add - :s/b 1 0 0 : -",
        "add - :s/c 0 1 0 : -",
        "trim",
    ],
    // Files without bytes before, at and behind piece starts, and a file over several pieces.
    &[
        "open 10 pieces=6",
        "add - :s/a 0 0 0 : -",
        "add - :s/b 10 0 0 : -",
        "add - :s/c 0 0 0 : -",
        "add - :s/d 0 1 0 : -",
        "add - :s/e 9 0 0 : -",
        "add - :s/f 0 0 0 : -",
        "add - :s/g 1 0 0 : -",
        "add - :s/h 31 0 0 : -",
        "add - :s/i 0 0 0 : -",
        "add - :s/j 9 0 0 : -",
        "add - :s/k 1 0 0 : -",
        "first_files",
    ],
    // v2: a pad that is made ends a piece, and begins none; without it a file fits into the same piece.
    &["open 10 pieces=1", "add - :s/a 5 0 0 : *01", "add - :s/b 5 0 0 : *01", "trim", "add - :s/b 6 0 0 : *01"],
    &["open 10 pieces=1", "add - :s/a 5 0 0 : *01", "trim", "add - :s/b 5 0 0 : *01", "first_files"],
    &["open 10 pieces=3", "add - :s/a 11 0 0 : *01", "first_files", "add - :s/b 1 0 0 : *01", "trim", "first_files"],
    // A pad longer than a piece is trimmed away, and files without bytes behind it move.
    &[
        "open 7 pieces=4",
        "add - :s/a 6 0 0 : -",
        "add - :s/p 22 1 0 : -",
        "first_files",
        "add - :s/e 0 0 0 : -",
        "trim",
        "first_files",
        "add - :s/b 8 0 0 : -",
        "first_files",
        "trim",
    ],
    // The order of refusals: 10 is the last, also where the table alone is short.
    &[
        "open 10 pieces=1",
        "add - :s/a 5 0 0 : *01",
        "add - :s/b -1 0 0 : -",
        "add - :s/b 281474976710656 0 0 : -",
        "add - :s/b 281474976710655 0 0 : -",
        "add :/n :s/b 20 0 0 : -",
        "add - :b 20 0 0 : -",
        "add - :s/b 20 0 0 : -",
        "add - :s/b 281474976710641 0 0 : *01",
        "add - :s/b 20 0 0 : *01",
        "first_files",
    ],
    &["open 10 pieces=1 files=1", "add - :s/a 5 0 0 : *01", "add - :s/a 5 0 0 : -", "add - :s/b 1 0 0 : -"],
    // More pieces than a question can name are more than any table has.
    &["open 1 pieces=1024", "add - :s/a 2147483648 0 0 : -", "add - :s/a 281474976710655 0 0 : -", "first_files"],
    &["open 2147483647 pieces=1", "add - :s/a 2147483647 0 0 : -", "add - :s/b 1 0 0 : -", "first_files"],
    &["open 2147483647 pieces=3", "add - :s/a 5 0 0 : *01", "add - :s/b 2147483648 0 0 : *01", "first_files"],
    // Opened anew: with other places, without a table, and with one again, over what an earlier set left.
    &[
        "open 10 pieces=3",
        "add - :s/a 5 0 0 : -",
        "add - :s/b 25 0 0 : -",
        "first_files",
        "open 0 pieces=1",
        "first_files",
        "open 10",
        "first_files",
        "add - :s/a 50 0 0 : -",
        "first_files",
        "open 10 pieces=5",
        "first_files",
        "add - :s/a 0 0 0 : -",
        "add - :s/b 15 0 0 : -",
        "first_files",
    ],
    // Four sets beside one another, each with all places.
    &[
        "use 1",
        "open 1 pieces=1024",
        "add - :s/a 0 0 0 : -",
        "add - :s/b 1024 0 0 : -",
        "use 2",
        "open 1 pieces=1024",
        "add - :s/a 2 0 0 : -",
        "add - :s/b 1022 0 0 : -",
        "use 3",
        "open 1 pieces=1024",
        "add - :s/a 1023 0 0 : -",
        "add - :s/b 2 0 0 : -",
        "add - :s/b 1 0 0 : -",
        "use 0",
        "open 1 pieces=1024",
        "add - :s/a 1025 0 0 : -",
        "add - :s/a 1024 0 0 : -",
        "add - :s/b 1 0 0 : -",
        "use 1",
        "first_files",
        "use 2",
        "first_files",
        "use 3",
        "first_files",
        "use 0",
        "first_files",
    ],
];
