//! Questions on the layout of a set: every small one, those at its boundaries, random ones, and some after a change.

use std::io;

use driver::{Set, piece_count};

use crate::random::Random;
use crate::script::{Script, Word};

/// The questions that take no number.
const PLAIN: [&str; 6] = ["num_pieces", "last_piece", "piece_range", "file_range", "blocks_per_piece", "first_files"];

/// The questions on one piece.
const ON_PIECE: [&str; 5] =
    ["piece_size", "piece_size2", "blocks_in_piece2", "file_index_at_piece", "last_file_index_at_piece"];

/// The questions on a block of a piece: its slices, by each of the two functions that give them.
const ON_BLOCK: [&str; 2] = ["map_block", "map_block_core"];

/// The questions on one file.
const ON_FILE: [&str; 9] = [
    "exclusive",
    "inclusive",
    "file_piece_range",
    "piece_index_at_file",
    "last_piece_index_at_file",
    "file_num_pieces",
    "file_num_blocks",
    "file_first_piece_node",
    "file_first_block_node",
];

/// Roots that are asked for: those that files have, and others.
const ROOTS: [&str; 6] =
    ["*00", "*01", "*02", "*03", "*FF", "0000000000000000000000000000000000000000000000000000000000000001"];

/// The largest offset.
const LIMIT: i64 = 281_474_976_710_655;

/// A set of at most so many files is asked about all of them at the boundaries.
const FEW: i32 = 12;

/// Every question on a small set: all pieces and one on either side, all offsets in a piece and a few more, all sizes up
/// to the piece length and two more; all files, offsets and roots.
pub fn every(script: &mut Script, set: &Set) -> io::Result<()> {
    let (length, total, files) = sizes(set);
    plain(script)?;
    let pieces = piece_count(&set.files);
    for piece in [-1, pieces] {
        on_piece(script, piece)?;
        on_block(script, [piece, 0, 1])?;
    }
    for piece in 0..pieces {
        on_piece(script, piece)?;
        for offset in 0..=length {
            for size in 0..=length + 2 {
                on_block(script, [piece, offset, size])?;
            }
        }
    }
    for file in [-1, files] {
        on_file(script, file)?;
        numbers(script, "map_file", &[file, 0, 1])?;
    }
    for file in 0..files {
        on_file(script, file)?;
        for offset in -1..=total + 1 {
            for size in [0, 1, length + 1] {
                numbers(script, "map_file", &[file, offset, size])?;
            }
        }
    }
    (-1..=total + 1).try_for_each(|offset| numbers(script, "file_index_at_offset", &[offset]))?;
    ROOTS.iter().try_for_each(|root| for_root(script, root))
}

/// Every question on each piece, and the blocks and files at its start and its last byte.
pub fn on_pieces(script: &mut Script, set: &Set) -> io::Result<()> {
    let (length, _, _) = sizes(set);
    for piece in 0..=piece_count(&set.files) {
        on_piece(script, piece)?;
        for (offset, size) in [(0, 1), (0, length), (length - 1, 2 * length)] {
            on_block(script, [piece, offset, size])?;
            numbers(script, "file_index_at_offset", &[piece * length + offset])?;
        }
    }
    Ok(())
}

/// Every question on the numbers at the boundaries of a set.
pub fn boundary(script: &mut Script, random: &mut Random, set: &Set) -> io::Result<()> {
    let (length, total, files) = sizes(set);
    plain(script)?;
    let mut all: Vec<i64> = if files <= FEW.into() { (0..files).collect() } else { vec![0, files - 2, files - 1] };
    all.extend([-1, files, i32::MIN.into(), i32::MAX.into()]);
    for file in all {
        on_file(script, file)?;
        numbers(script, "map_file", &[file, 0, 1])?;
    }
    let last = piece_count(&set.files) - 1;
    for piece in [-1, 0, 1, last - 1, last, last + 1, i32::MIN.into(), i32::MAX.into()] {
        if i32::try_from(piece).is_ok() {
            on_piece(script, piece)?;
            on_block(script, [piece, 0, length])?;
        }
    }
    for offset in [-1, 0, 1, total - 1, total, total + 1, LIMIT, LIMIT + 1, i64::MIN, i64::MAX] {
        numbers(script, "file_index_at_offset", &[offset])?;
        on_block(script, [0, offset, total])?;
        numbers(script, "map_file", &[0, offset, random.one_of(&[0, 1, 16384, i32::MAX]).into()])?;
    }
    for size in [-1, 0, 1, 16384, total, i32::MAX.into(), i64::MIN, i64::MAX] {
        on_block(script, [last.clamp(0, i32::MAX.into()), 0, size])?;
        if i32::try_from(size).is_ok() {
            numbers(script, "map_file", &[(files - 1).max(0), 0, size])?;
        }
    }
    for_root(script, random.one_of(&ROOTS))
}

/// Random questions after a change, as many as wanted, and once in `rarely` times those at the boundaries.
pub fn some(script: &mut Script, random: &mut Random, set: &Set, count: usize, rarely: usize) -> io::Result<()> {
    if random.once_in(rarely) {
        boundary(script, random, set)?;
    }
    self::random(script, random, set, count)
}

/// As many random questions as wanted.
pub fn random(script: &mut Script, random: &mut Random, set: &Set, count: usize) -> io::Result<()> {
    for _ in 0..count {
        match random.below(21) {
            0..=6 => {
                let piece = piece(random, set);
                on_block(script, [piece, place(random, set), size(random, set, i64::MAX)])?;
            }
            7..=9 => {
                let file = file(random, set);
                numbers(script, "map_file", &[file, place(random, set), size(random, set, i32::MAX.into())])?;
            }
            10..=12 => numbers(script, random.one_of(&ON_PIECE), &[piece(random, set)])?,
            13..=15 => numbers(script, random.one_of(&ON_FILE), &[file(random, set)])?,
            16..=18 => numbers(script, "file_index_at_offset", &[place(random, set)])?,
            19 => for_root(script, random.one_of(&ROOTS))?,
            _ => script.call(random.one_of(&PLAIN), &[])?,
        }
    }
    Ok(())
}

/// Piece length, total size and number of files.
fn sizes(set: &Set) -> (i64, i64, i64) {
    (set.files.piece_length().into(), set.files.total_size(), set.files.num_files().into())
}

fn numbers(script: &mut Script, name: &str, numbers: &[i64]) -> io::Result<()> {
    let words: Vec<Word> = numbers.iter().map(|&n| Word::Number(n.into())).collect();
    script.call(name, &words)
}

fn plain(script: &mut Script) -> io::Result<()> {
    PLAIN.iter().try_for_each(|name| script.call(name, &[]))
}

fn on_piece(script: &mut Script, piece: i64) -> io::Result<()> {
    ON_PIECE.iter().try_for_each(|name| numbers(script, name, &[piece]))
}

fn on_file(script: &mut Script, file: i64) -> io::Result<()> {
    ON_FILE.iter().try_for_each(|name| numbers(script, name, &[file]))
}

/// Both calls that give the slices of a block, which the Rust answers alike.
fn on_block(script: &mut Script, block: [i64; 3]) -> io::Result<()> {
    ON_BLOCK.iter().try_for_each(|name| numbers(script, name, &block))
}

fn for_root(script: &mut Script, root: &str) -> io::Result<()> {
    script.call("file_index_for_root", &[Word::Plain(root.as_bytes())])
}

/// A file's number, rarely one where no file is.
fn file(random: &mut Random, set: &Set) -> i64 {
    let files = set.files.num_files();
    if files == 0 || random.once_in(12) {
        return random.one_of(&[-1, files, files + 1, i32::MIN, i32::MAX]).into();
    }
    below(random, files.into())
}

/// A piece's number, often where a file begins or ends, rarely one where no piece is.
fn piece(random: &mut Random, set: &Set) -> i64 {
    let pieces = piece_count(&set.files);
    let piece = match random.below(12) {
        _ if pieces == 0 => 0,
        0 => random.one_of(&[-1, pieces, pieces + 1, i32::MIN.into(), i32::MAX.into()]),
        1 => pieces - 1,
        2..=6 => edge(random, set) / i64::from(set.files.piece_length()),
        _ => below(random, pieces),
    };
    piece.clamp(i32::MIN.into(), i32::MAX.into())
}

/// An offset: in a piece, in a file, in the set, or at a limit.
fn place(random: &mut Random, set: &Set) -> i64 {
    let (length, total, _) = sizes(set);
    let near = random.one_of(&[-1, 0, 0, 0, 1]);
    match random.below(16) {
        0 => random.one_of(&[-1, LIMIT, LIMIT + 1, LIMIT - total, i64::MIN, i64::MAX]),
        1 => total + near,
        2 => length + near,
        3..=5 => edge(random, set) + near,
        6..=8 => edge(random, set) % length + near,
        9..=11 => below(random, length),
        12 => 0,
        _ => below(random, total.max(1)),
    }
}

/// A size of at most `most`.
fn size(random: &mut Random, set: &Set, most: i64) -> i64 {
    let (length, total, _) = sizes(set);
    let size = match random.below(12) {
        0 => random.one_of(&[-1, -2, i32::MIN.into(), i32::MAX.into(), i64::MIN, i64::MAX]),
        1 => 0,
        2 => 1,
        3 => 16384,
        4 => length + random.one_of(&[-1, 0, 1, 2]),
        5 => total + random.one_of(&[-1, 0, 1]),
        6 => edge(random, set),
        7 => (random.number() >> 1) as i64,
        8..=9 => below(random, length + 3),
        _ => below(random, total.max(1)),
    };
    size.clamp(-most - 1, most)
}

/// Where a file begins or ends.
fn edge(random: &mut Random, set: &Set) -> i64 {
    if set.files.num_files() == 0 {
        return 0;
    }
    let file = driver::FileIndex(below(random, set.files.num_files().into()) as i32);
    set.files.file_offset(file) + if random.once_in(2) { set.files.file_size(file) } else { 0 }
}

fn below(random: &mut Random, n: i64) -> i64 {
    random.below(n as usize) as i64
}
