//! Scripts on layouts: all small sets with all small questions, sets that show one corner each, and random sets, cleaned
//! and renamed ones among them, with random questions and those at the boundaries.

use std::io;

use driver::{Set, Sets};

use crate::additions::{time, timed};
use crate::asking;
use crate::firsts;
use crate::layout_questions as questions;
use crate::layout_scenes::SCENES;
use crate::playing::{self, ask, current};
use crate::random::Random;
use crate::renames;
use crate::script::{Script, Word, call};

/// Piece lengths: the smallest, usual ones, and those around which a size can no longer be rounded up to blocks in an
/// i32.
const LENGTHS: [i32; 9] = [1, 2, 10, 16384, 16384, 65536, 2_147_467_264, 2_147_467_265, i32::MAX];

/// The largest size and total.
const LIMIT: i64 = 281_474_976_710_655;

/// A set of at most so many bytes and files, and of at most that piece length, may be asked every small question.
const FEW_BYTES: i64 = 40;
const FEW_FILES: i32 = 12;
const LONG: i32 = 12;

/// Link texts: those that a cleaning keeps, joins to the link's directory, or gives way to the link's own path.
const LINKS: [&str; 8] = ["t", "0", "1", "x", "x/1", "../0", "/etc", "."];

/// How many random questions a set is asked.
const ASKED: usize = 60;

/// All sets of at most `most` files whose sizes are below `sizes`, at the piece lengths below `lengths`: v1, v2, and v2
/// with its padding trimmed. Each is asked every small question, without a table of first files and with one; tables of
/// every length are asked for.
pub fn small(script: &mut Script, most: u32, sizes: i64, lengths: i32) -> io::Result<()> {
    for length in 1..lengths {
        for (root, is_trimmed) in [("-", false), ("*01", false), ("*01", true)] {
            for files in 1..=most {
                for code in 0..sizes.pow(files) {
                    let size = |i| code / sizes.pow(i) % sizes;
                    let addition = |i| format!("add - :s/{i} {} 0 0 : {root}", size(i)).into_bytes();
                    let mut changes: Vec<Vec<u8>> = (0..files).map(addition).collect();
                    changes.extend(is_trimmed.then(|| b"trim".to_vec()));
                    without_table(script, length, &changes)?;
                    firsts::every_length(script, length, &changes, questions::every)?;
                }
            }
        }
    }
    Ok(())
}

/// A set of those changes that keeps no table of first files, and every small question.
fn without_table(script: &mut Script, length: i32, changes: &[Vec<u8>]) -> io::Result<()> {
    let mut sets = Sets::default();
    open(script, &mut sets, length)?;
    changes.iter().try_for_each(|line| ask(script, &mut sets, line).map(drop))?;
    questions::every(script, current(&mut sets))
}

/// The sets of SCENES, each with the questions at its boundaries and a few random ones.
pub fn scenes(script: &mut Script, random: &mut Random) -> io::Result<()> {
    playing::scenes(script, &mut Sets::default(), SCENES, |script, set| {
        questions::boundary(script, random, set)?;
        questions::random(script, random, set, ASKED / 6)
    })
}

/// As many random sets as wanted, each with its questions; a set that grows is asked now and then.
pub fn random(script: &mut Script, random: &mut Random, count: usize) -> io::Result<()> {
    let mut sets = Sets::default();
    for _ in 0..count {
        let length = if random.once_in(3) { 1 + random.below(12) as i32 } else { random.one_of(&LENGTHS) };
        let taste = Taste::new(random);
        let changes = if random.once_in(50) { 120 } else { 1 + random.below(9) };
        let slices = if random.once_in(4) { format!(" slices={}", random.below(5)) } else { String::new() };
        let table = if taste.has_table { firsts::word(random, 1000) } else { String::new() };
        ask(script, &mut sets, format!("open {length}{slices}{table}").as_bytes())?;
        for i in 0..changes {
            let line = taste.change(random, current(&mut sets), i);
            ask(script, &mut sets, &line)?;
            if random.once_in(if line.starts_with(b"add ") { 8 } else { 3 }) {
                questions::random(script, random, current(&mut sets), ASKED / 6)?;
            }
        }
        for last in [b"trim".as_slice(), b"clean"] {
            if random.once_in(4) {
                ask(script, &mut sets, last)?;
            }
        }
        answered(script, random, current(&mut sets))?;
    }
    Ok(())
}

/// The questions on a set that is built.
fn answered(script: &mut Script, random: &mut Random, set: &Set) -> io::Result<()> {
    if is_small(set) && random.once_in(4) {
        questions::every(script, set)?;
    }
    questions::boundary(script, random, set)?;
    questions::random(script, random, set, ASKED)?;
    asking::times(script, set)
}

/// Whether a set is small enough for every small question.
fn is_small(set: &Set) -> bool {
    set.files.piece_length() <= LONG && set.files.total_size() <= FEW_BYTES && set.files.num_files() <= FEW_FILES
}

fn open(script: &mut Script, sets: &mut Sets, length: i32) -> io::Result<()> {
    ask(script, sets, &call("open", &[Word::Number(length.into())]))?;
    Ok(())
}

/// Which sizes files have.
#[derive(Clone, Copy)]
enum Sizes {
    Few,
    Pieces,
    Blocks,
    Many,
    Any,
}

/// What the files of a set are like, and whether it may keep a table of first files; of the numbers, once in so many times.
struct Taste {
    is_v2: bool,
    has_table: bool,
    sizes: Sizes,
    empty: usize,
    pads: usize,
    links: usize,
    trims: usize,
    cleanings: usize,
    renames: usize,
}

impl Taste {
    fn new(random: &mut Random) -> Self {
        let sizes = random.one_of(&[
            Sizes::Few,
            Sizes::Few,
            Sizes::Pieces,
            Sizes::Pieces,
            Sizes::Blocks,
            Sizes::Many,
            Sizes::Any,
        ]);
        let has_few = matches!(sizes, Sizes::Few | Sizes::Pieces);
        Self {
            is_v2: random.once_in(2),
            has_table: random.once_in(if has_few { 2 } else { 8 }),
            sizes,
            empty: random.one_of(&[2, 4, 20]),
            pads: random.one_of(&[3, 8, 40]),
            links: random.one_of(&[3, 8, 40]),
            trims: random.one_of(&[4, 12, 40]),
            cleanings: random.one_of(&[4, 12, 40]),
            renames: random.one_of(&[4, 12, 40]),
        }
    }

    /// The line of an addition, a trim, a cleaning, a rename or an import.
    fn change(&self, random: &mut Random, set: &Set, i: usize) -> Vec<u8> {
        if random.once_in(self.trims) {
            return b"trim".to_vec();
        }
        if random.once_in(self.cleanings) {
            return b"clean".to_vec();
        }
        if random.once_in(self.renames) {
            let change = random.one_of(&[renames::rename, renames::import]);
            return change(random, set);
        }
        let is_link = random.once_in(self.links);
        let is_pad = random.once_in(self.pads);
        let is_empty = random.once_in(self.empty) || is_link && random.once_in(2);
        let size = if is_empty { 0 } else { self.size(random, set) };
        let has_root = if random.once_in(20) { random.once_in(2) } else { self.is_v2 && !is_pad };
        let root = if has_root { random.one_of(&["*00", "*01", "*02", "*FF"]) } else { "-" };
        let (flags, link) =
            (u8::from(is_pad) + 8 * u8::from(is_link), if is_link { random.one_of(&LINKS) } else { "" });
        let path = format!("s/{}{i}", random.one_of(&["", "", "x/", "x/y/"]));
        timed(path.as_bytes(), size, flags, time(random), link.as_bytes(), root.as_bytes())
    }

    fn size(&self, random: &mut Random, set: &Set) -> i64 {
        let (length, total) = (i64::from(set.files.piece_length()), set.files.total_size());
        let size = match self.sizes {
            Sizes::Few => 1 + random.below(12) as i64,
            Sizes::Pieces => length * random.one_of(&[1, 1, 2, 3]) + random.one_of(&[-1, 0, 0, 1]),
            Sizes::Blocks => 16384 * random.one_of(&[1, 2, 7, 131_072, 1_073_741_823]) + random.one_of(&[-1, 0, 1]),
            Sizes::Many => {
                length * random.one_of(&[1_073_741_823, 1_073_741_824, i32::MAX.into()]) + random.one_of(&[-1, 0, 1])
            }
            Sizes::Any => (random.number() >> 16) as i64,
        };
        if random.once_in(40) { LIMIT - total } else { size.clamp(1, LIMIT) }
    }
}
