//! The additions that both sides are given, and random numbers, made before any clock starts.

use bitdaemon_common::Sha256Hash;

/// The piece length of every set.
pub const PIECE_LENGTH: i32 = 1 << 16;

/// One cell of the table.
#[derive(Clone, Copy)]
pub struct Case {
    /// Whether files have roots, so that a pad follows each.
    pub v2: bool,
    /// How many directories the files lie in, in turn.
    pub directories: usize,
    /// Whether files have a time other than 0.
    pub timed: bool,
    /// How many files the set has in the end, pads among them.
    pub files: usize,
}

impl Case {
    /// How many additions make the set.
    pub fn additions(self) -> usize {
        if self.v2 { self.files / 2 } else { self.files }
    }
}

/// One addition.
pub struct Input {
    pub path: Vec<u8>,
    pub size: i64,
    pub time: i64,
    pub root: Option<Sha256Hash>,
}

/// A size from 1 to a million, no multiple of the piece length, so that every file of a v2 set has a pad behind it.
fn size(i: usize) -> i64 {
    let size = (i as i64 * 611_953) % 1_000_000;
    size + i64::from(size % i64::from(PIECE_LENGTH) == 0)
}

/// A root in which the file's number stands.
fn root(i: usize) -> Sha256Hash {
    let mut bytes = [0xa5; 32];
    bytes[..8].copy_from_slice(&(i as u64).to_be_bytes());
    Sha256Hash::from_bytes(&bytes).expect("32 bytes")
}

/// The additions of a case, in order.
pub fn inputs(case: Case) -> Vec<Input> {
    (0..case.additions())
        .map(|i| Input {
            path: format!("set/dir{:02}/name{i:06}.wav", i % case.directories).into_bytes(),
            size: size(i),
            time: if case.timed { 1_700_000_000 + i as i64 } else { 0 },
            root: case.v2.then(|| root(i)),
        })
        .collect()
}

/// The times of the set's files: an addition's own, and 0 for the pad behind each file of a v2 set.
pub fn times(inputs: &[Input]) -> Vec<i64> {
    inputs.iter().flat_map(|i| [Some(i.time), i.root.map(|_| 0)]).flatten().collect()
}

/// How many pieces the set has.
pub fn pieces(inputs: &[Input], length: i64) -> usize {
    let padded = |i: &Input| if i.root.is_some() { (i.size + length - 1) / length * length } else { i.size };
    ((inputs.iter().map(padded).sum::<i64>() + length - 1) / length) as usize
}

/// Random numbers, the same in every run (the generator SplitMix64).
pub struct Random(u64);

impl Random {
    pub fn new() -> Self {
        Self(16384)
    }

    pub fn next(&mut self) -> u64 {
        self.0 = self.0.wrapping_add(0x9e37_79b9_7f4a_7c15);
        let mut x = self.0;
        x = (x ^ (x >> 30)).wrapping_mul(0xbf58_476d_1ce4_e5b9);
        x = (x ^ (x >> 27)).wrapping_mul(0x94d0_49bb_1331_11eb);
        x ^ (x >> 31)
    }
}

/// The additions of a v1 set whose sizes vary from a few bytes to a million; one file in sixteen is empty.
pub fn layout_inputs(files: usize) -> Vec<Input> {
    let mut random = Random::new();
    (0..files)
        .map(|i| {
            let (most, size) = (1 << (8 + random.next() % 13), random.next() as i64);
            let path = format!("set/name{i:06}.wav").into_bytes();
            Input { path, size: if i % 16 == 5 { 0 } else { 1 + (size & (most - 1)) }, time: 0, root: None }
        })
        .collect()
}

/// The additions of a v1 set whose files are empty but for the first and the last: all but those at the end lie in one
/// piece, between two of the blocks of a size.
pub fn empty_inputs(files: usize, block: i64) -> Vec<Input> {
    let size = |i| match i {
        0 => 2 * block,
        i if i + 1 == files => 2 * block + 3 * i64::from(PIECE_LENGTH),
        _ => 0,
    };
    (0..files)
        .map(|i| Input { path: format!("set/name{i:06}.wav").into_bytes(), size: size(i), time: 0, root: None })
        .collect()
}
