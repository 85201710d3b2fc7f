//! Random additions to a set. What they are like is a taste, chosen once for a set, so that some sets are plain and
//! long-lived and others are refused something at every turn.

use driver::Set;

use crate::bytes;
use crate::random::Random;
use crate::script::{Word, call, is_short};

/// The largest size and total.
const LIMIT: i64 = 281_474_976_710_655;

/// Times: none, small ones, and those at the limits.
pub const TIMES: [i64; 9] = [3, 0, -1, i64::MAX, i64::MIN, 1, -2, i64::MAX - 1, i64::MIN + 1];

/// Which files get a root.
#[derive(Clone, Copy)]
enum Roots {
    None,
    All,
    Fitting,
    Any,
}

/// Which sizes files have.
#[derive(Clone, Copy)]
enum Sizes {
    Small,
    Pieces,
    Limit,
}

/// What the additions to a set are like; of the numbers, once in so many times.
pub struct Taste {
    roots: Roots,
    sizes: Sizes,
    given: usize,
    odd_paths: usize,
    links: usize,
    flags: usize,
    times: usize,
}

impl Taste {
    pub fn new(random: &mut Random) -> Self {
        Self {
            roots: random.one_of(&[Roots::None, Roots::All, Roots::All, Roots::Fitting, Roots::Any]),
            sizes: random.one_of(&[Sizes::Small, Sizes::Small, Sizes::Pieces, Sizes::Pieces, Sizes::Limit]),
            given: random.one_of(&[2, 8, 40]),
            odd_paths: random.one_of(&[2, 6, 40]),
            links: random.one_of(&[2, 5, 40]),
            flags: random.one_of(&[2, 4, 12]),
            times: random.one_of(&[2, 4, 40]),
        }
    }
}

/// The line of a random addition.
pub fn addition(random: &mut Random, taste: &Taste, set: &Set) -> Vec<u8> {
    loop {
        let name = random.once_in(taste.given).then(|| given_name(random));
        let link = if random.once_in(taste.links) { link(random) } else { Vec::new() };
        let root = root(random, taste.roots, set);
        let line = call(
            "add",
            &[
                name.as_ref().map_or(Word::Plain(b"-"), |name| Word::Bytes(name)),
                Word::Bytes(&path(random, taste.odd_paths)),
                Word::Number(size(random, taste.sizes, set).into()),
                Word::Number(flags(random, taste.flags).into()),
                Word::Number(if random.once_in(taste.times) { time(random) } else { 0 }.into()),
                Word::Bytes(&link),
                Word::Plain(root.as_deref().unwrap_or(b"-")),
            ],
        );
        if is_short(&line) {
            return line;
        }
    }
}

/// The line of an addition without a given name, a time and a root.
pub fn plain(path: &[u8], size: i64, flags: u8, link: &[u8]) -> Vec<u8> {
    unnamed(path, size, flags, link, b"-")
}

/// The line of an addition without a given name and a time.
pub fn unnamed(path: &[u8], size: i64, flags: u8, link: &[u8], root: &[u8]) -> Vec<u8> {
    timed(path, size, flags, 0, link, root)
}

/// The line of an addition without a given name.
pub fn timed(path: &[u8], size: i64, flags: u8, time: i64, link: &[u8], root: &[u8]) -> Vec<u8> {
    let (size, flags, time) = (Word::Number(size.into()), Word::Number(flags.into()), Word::Number(time.into()));
    call("add", &[Word::Plain(b"-"), Word::Bytes(path), size, flags, time, Word::Bytes(link), Word::Plain(root)])
}

/// A string of one byte many times, of a length around the limit of names.
fn long(random: &mut Random) -> Vec<u8> {
    vec![random.one_of(b"ab"); random.one_of(&[4094, 4095, 4096, 4097])]
}

fn given_name(random: &mut Random) -> Vec<u8> {
    match random.below(10) {
        0 | 1 => Vec::new(),
        2 => random.one_of::<&[u8]>(&[b"/", b"/n", b"//"]).to_vec(),
        3 => random.one_of::<&[u8]>(&[b"n/", b"n/m", b".", b"\\n"]).to_vec(),
        4 => bytes::path(random),
        5 if random.once_in(4) => long(random),
        _ => random.one_of::<&[u8]>(&[b"n", b"m", b"a"]).to_vec(),
    }
}

/// Parts of a path, with few that differ, so that names and directories come again.
const PARTS: [&[u8]; 9] = [b"s", b"a", b"b", b"x", b"xy", b"Xy", b".", b".pad", b"t"];

/// Paths with runs of separators, at an end or inside, and paths of no part at all.
const ODD: [&[u8]; 32] = [
    b"", b"/", b"//", b"///", b"a", b"s", b"s/", b"s//", b"s///", b"s//a", b"s///a", b"s//x/a", b"s/x//a", b"s/x///a",
    b"s/a/", b"s/a//", b"s/x/a/", b"/a", b"/s/a", b"//a", b"///a", b"/a/", b"/s/x/a", b"./a", b"s/./a", b"s/.",
    b"s/..", b"\\", b"s\\", b"s\\a", b"s/a\\b", b"\\s/a",
];

fn path(random: &mut Random, odd: usize) -> Vec<u8> {
    if !random.once_in(odd) {
        return plain_path(random);
    }
    match random.below(12) {
        0 | 1 => bytes::path(random),
        2 if random.once_in(4) => [b"s/".to_vec(), long(random)].concat(),
        3 if random.once_in(4) => [b"s/".to_vec(), long(random), b"/a".to_vec()].concat(),
        4 if random.once_in(4) => [b"/".to_vec(), long(random)].concat(),
        5 if random.once_in(4) => [b"/".to_vec(), long(random), b"/a".to_vec()].concat(),
        6 if random.once_in(4) => [b"s/".to_vec(), long(random), b"/".to_vec()].concat(),
        7 if random.once_in(4) => long(random),
        _ => random.one_of(&ODD).to_vec(),
    }
}

/// A path of two to four parts, mostly in the set `s`.
fn plain_path(random: &mut Random) -> Vec<u8> {
    let first: &[u8] = if random.once_in(8) { random.one_of(&PARTS) } else { b"s" };
    let mut path = first.to_vec();
    let most = random.one_of(&[1, 2, 3]);
    for _ in 0..=random.below(most) {
        path.push(b'/');
        path.extend_from_slice(random.one_of(&PARTS));
    }
    path
}

fn size(random: &mut Random, sizes: Sizes, set: &Set) -> i64 {
    let (length, total) = (i64::from(set.files.piece_length()), set.files.total_size());
    match sizes {
        _ if random.once_in(40) => random.one_of(&[-1, i64::MIN, i64::MAX, LIMIT, LIMIT + 1, LIMIT - 1]),
        Sizes::Small => random.one_of(&[0, 0, 1, 1, 2, 3, 5, 7, 10, 11]),
        Sizes::Pieces => {
            let multiple = length * random.one_of(&[0, 1, 1, 1, 2, 3]);
            (multiple + random.one_of(&[-1, 0, 0, 1])).max(0)
        }
        Sizes::Limit => {
            let left = random.one_of(&[LIMIT, LIMIT / length * length, LIMIT / 2]) - total;
            (left + random.one_of(&[-length, -2, -1, 0, 0, 0, 1, 2])).max(0)
        }
    }
}

fn flags(random: &mut Random, odd: usize) -> u8 {
    if !random.once_in(odd) {
        return 0;
    }
    let any = random.next() as u8;
    random.one_of(&[1, 1, 2, 4, 8, 8, 9, 15, 16, 255, any])
}

/// A time of any kind.
pub fn time(random: &mut Random) -> i64 {
    match random.below(8) {
        0 => 0,
        1 => random.next() as i64,
        2 => random.number() as i64,
        3 => !(random.number() as i64),
        4 => random.one_of(&[1_600_000_000, -1_600_000_000]),
        _ => random.one_of(&TIMES),
    }
}

fn link(random: &mut Random) -> Vec<u8> {
    match random.below(8) {
        0 => bytes::path(random),
        1 if random.once_in(4) => long(random),
        _ => random.one_of::<&[u8]>(&[b"t", b"a", b"x", b"x/a", b"../a", b".", b"/etc", b"/", b"s/a"]).to_vec(),
    }
}

/// The word of a root, or nothing.
fn root(random: &mut Random, roots: Roots, set: &Set) -> Option<Vec<u8>> {
    let is_given = match roots {
        Roots::None => random.once_in(40),
        Roots::All => !random.once_in(40),
        Roots::Fitting => set.files.v2() != random.once_in(8),
        Roots::Any => random.once_in(2),
    };
    is_given.then(|| match random.below(4) {
        0 => b"*00".to_vec(),
        1 => (0..64).map(|_| random.one_of(b"0123456789abcdef")).collect(),
        2 => format!("*{:02X}", random.next() as u8).into_bytes(),
        _ => b"*01".to_vec(),
    })
}
