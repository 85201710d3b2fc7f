//! Renames of a set's files, one at a time and imported: random ones, and ones that fill their tables to the last byte.

use std::io;

use driver::{FileIndex, Set, Sets};

use crate::additions::{plain, unnamed};
use crate::asking;
use crate::bytes;
use crate::playing::{ask, current};
use crate::random::Random;
use crate::script::{Script, Word, call, is_short};

/// Other paths: of one part and of more, with separators at the ends, absolute, of no bytes, and those that vanish in joins.
const NAMES: [&[u8]; 18] = [
    b"", b"n", b"n/m", b"N/M/o", b"s/a", b"n/", b"n//", b"/n", b"/n/m", b"/", b"//", b"//n", b".", b"./n", b"..",
    b"n//m", b"\\n", b"n\xFF",
];

/// The most files of a set that has the usual room.
const MOST: usize = 256;

/// The most bytes of their texts.
const MOST_BYTES: usize = 65536;

/// Sets whose renames fill their text area to the last byte, or would pass it by one: names that come in place of others,
/// imports in which one name grows as another shrinks, repeats, numbers past the end, a name that is kept through a trim,
/// and as many names as there can be. Every name is asked for after each change.
pub fn scenes(script: &mut Script, random: &mut Random, sets: &mut Sets) -> io::Result<()> {
    for lines in [in_place(), through_trim(), all_places()] {
        ask(script, sets, b"open 10")?;
        for line in lines {
            ask(script, sets, &line)?;
            if !line.starts_with(b"add ") {
                script.call("export", &[])?;
            }
        }
        asking::all(script, random, current(sets))?;
    }
    Ok(())
}

/// Six files, whose names have 4 times 16000 bytes and twice 768 where they fill the text area.
fn in_place() -> Vec<Vec<u8>> {
    let mut lines: Vec<Vec<u8>> = (0..6).map(|i| plain(format!("s/{i}").as_bytes(), 1, 0, b"")).collect();
    lines.extend((0..4).map(|file| line(file, &[b'a'; 16000])));
    lines.extend([
        line(4, &[b'b'; 768]),
        line(5, &[b'c'; 769]),
        line(5, &[b'c'; 768]),
        line(5, &[b'd'; 769]),
        line(5, &[b'd'; 768]),
        line(0, &[b'd'; 16001]),
        line(0, &[b'd'; 16000]),
        imported(&[(4, b'e', 1000), (5, b'e', 537)]),
        imported(&[(4, b'e', 1000), (5, b'e', 536)]),
        imported(&[(5, b'f', 536), (5, b'g', 537)]),
        imported(&[(5, b'f', 9000), (5, b'g', 536)]),
        imported(&[(6, b'h', 1), (i32::MAX, b'h', 1)]),
        imported(&[(4, b'i', 1001), (6, b'i', 1)]),
        imported(&[(3, b'j', 15999), (6, b'j', 1)]),
        line(5, &[b'k'; 538]),
        line(5, &[b'k'; 537]),
        line(0, b""),
        imported(&[(0, b'l', 16001)]),
        imported(&[(0, b'l', 16000)]),
    ]);
    lines
}

/// Three files with their pads, of which the last is trimmed: its name still takes room.
fn through_trim() -> Vec<Vec<u8>> {
    let mut lines: Vec<Vec<u8>> = (0..3).map(|i| unnamed(format!("s/{i}").as_bytes(), 7, 0, b"", b"*01")).collect();
    lines.extend([5, 0, 1, 2].map(|file| line(file, &[b'a'; 16000])));
    lines.extend([
        b"trim".to_vec(),
        line(3, &[b'b'; 1537]),
        line(3, &[b'b'; 1536]),
        imported(&[(5, b'c', 1), (4, b'c', 0), (3, b'c', 1536)]),
        imported(&[(4, b'd', 1)]),
    ]);
    lines
}

/// A name for each place of a set, of 256 bytes each.
fn all_places() -> Vec<Vec<u8>> {
    let mut lines: Vec<Vec<u8>> = (0..MOST).map(|i| plain(format!("s/{i}").as_bytes(), 1, 0, b"")).collect();
    let names: Vec<(i32, u8, usize)> = (0..MOST as i32).map(|file| (file, b'a', MOST_BYTES / MOST)).collect();
    lines.extend(names.chunks(60).map(imported));
    lines.extend([
        line(255, &[b'b'; 257]),
        line(255, &[b'b'; 256]),
        imported(&[(0, b'c', 255), (255, b'c', 258)]),
        imported(&[(0, b'c', 255), (255, b'c', 257)]),
        imported(&[(256, b'd', 1), (255, b'd', 256), (0, b'd', 256)]),
    ]);
    lines
}

/// The line of an import of names of one byte many times.
fn imported(names: &[(i32, u8, usize)]) -> Vec<u8> {
    let pairs: Vec<(i32, Vec<u8>)> = names.iter().map(|&(file, byte, length)| (file, vec![byte; length])).collect();
    imports(&pairs)
}

/// The line of a random rename, mostly of a file that is there.
pub fn rename(random: &mut Random, set: &Set) -> Vec<u8> {
    let files = set.files.num_files();
    let file = match random.below(12) {
        0 => random.one_of(&[-1, files, files + 1, i32::MIN, i32::MAX]),
        _ => one_of_files(random, files),
    };
    line(file, &name(random))
}

/// The line of a random import: none, a few or many names, for files that are there and past the end, many of them
/// more than once. Once in a while a number is below 0.
pub fn import(random: &mut Random, set: &Set) -> Vec<u8> {
    let files = set.files.num_files();
    let most = random.one_of(&[0, 1, 2, 2, 3, 5, 9, 40]);
    let mut pairs: Vec<(i32, Vec<u8>)> = (0..random.below(most + 1))
        .map(|_| {
            let file = match random.below(8) {
                0 => random.one_of(&[files, files + 1, i32::MAX]),
                _ => one_of_files(random, files),
            };
            (file, name(random))
        })
        .collect();
    if random.once_in(12) {
        let at = random.below(pairs.len() + 1);
        pairs.insert(at, (random.one_of(&[-1, -2, i32::MIN]), name(random)));
    }
    while !is_short(&imports(&pairs)) {
        pairs.pop();
    }
    imports(&pairs)
}

/// Five files, and then long names for them, which fill the text area of the renames: it has 5 times 13107 bytes and 1.
/// Where a name can fill what is left, it is at times that long, or one shorter or longer.
pub fn long(random: &mut Random, set: &Set, i: usize) -> Vec<u8> {
    if i < 5 {
        return plain(format!("s/{i}").as_bytes(), 1, 0, b"");
    }
    let file = if i < 10 { i as i32 - 5 } else { random.below(5) as i32 };
    let left = left(set, file);
    let length = match random.below(6) {
        0..3 if left < 16000 => (left + random.below(3)).saturating_sub(1),
        3 if i >= 10 => random.one_of(&[0, 16000]),
        _ => random.one_of(&[13106, 13107, 13107, 13108, 13109]),
    };
    let name = vec![b'a' + i as u8 % 26; length];
    if random.once_in(3) {
        return line(file, &name);
    }
    let mut pairs = vec![(file, name)];
    for _ in 0..random.below(4) {
        let other = if random.once_in(6) { random.below(6) as i32 } else { file };
        let short = vec![b'A' + i as u8 % 26; random.one_of(&[0, 1, 2, 100])];
        pairs.insert(usize::from(random.once_in(8)), (other, short));
    }
    imports(&pairs)
}

/// How many bytes a file's name may have, by the names of the others.
fn left(set: &Set, file: i32) -> usize {
    let texts = set.renames.export_filenames(&set.files);
    let others: usize = texts.iter().filter(|(other, _)| **other != FileIndex(file)).map(|(_, text)| text.len()).sum();
    MOST_BYTES - others
}

/// As many files as a set has places for, and then names for all of them at once, and for some.
pub fn many(random: &mut Random, set: &Set, i: usize) -> Vec<u8> {
    if i < MOST {
        return plain(format!("s/{i}").as_bytes(), 1, 0, b"");
    }
    if random.once_in(3) {
        return import(random, set);
    }
    let step = 1 + random.below(3);
    let length = random.below(40);
    let pairs: Vec<(i32, Vec<u8>)> =
        (random.below(step)..=MOST).step_by(step).map(|file| (file as i32, vec![b'n'; length])).collect();
    imports(&pairs)
}

/// A file that is there, or 0.
fn one_of_files(random: &mut Random, files: i32) -> i32 {
    random.below(files.max(1) as usize) as i32
}

fn name(random: &mut Random) -> Vec<u8> {
    if random.once_in(6) {
        return bytes::path(random);
    }
    random.one_of(&NAMES).to_vec()
}

fn line(file: i32, name: &[u8]) -> Vec<u8> {
    call("rename", &[Word::Number(file.into()), Word::Bytes(name)])
}

fn imports(pairs: &[(i32, Vec<u8>)]) -> Vec<u8> {
    let words: Vec<Word> =
        pairs.iter().flat_map(|(file, name)| [Word::Number((*file).into()), Word::Bytes(name)]).collect();
    call("import", &words)
}
