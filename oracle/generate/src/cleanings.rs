//! Scripts on cleanings: small sets of files, directories and links whose texts loop, repeat, climb, are absolute or
//! run through one another, each cleaned and then asked for every link text and time and about its layout. Some stand
//! beside a set that was built by the same changes, with which they are compared.

use std::io;

use driver::Sets;

use crate::additions::{plain, time, timed};
use crate::asking;
use crate::firsts;
use crate::layout_questions;
use crate::playing::{ask, current, play, turn_to};
use crate::random::Random;
use crate::renames;
use crate::script::{Script, Word, call};

/// Parts of paths and of texts, with few that differ, so that texts meet what is there.
const PARTS: [&[u8]; 12] = [b"a", b"b", b"k", b"l", b"m", b"x", b"y", b"..", b".", b"", b"a.b", b".pad"];

/// What stands between parts, mostly one separator.
const SEPARATORS: [&[u8]; 6] = [b"/", b"/", b"/", b"/", b"//", b"///"];

/// Texts that show one rule or corner each.
const TEXTS: [&[u8]; 14] =
    [b"/etc", b"/", b"//", b"///b", b".", b"./", b"k///b", b"k/", b"/a", b"a/b/k", b"../a", b"k/k/k", b"l/m/k", b"x/"];

/// How many of the parts, of the separators and of the first parts below a set's paths are made of, and the root of its
/// files.
struct Taste {
    parts: usize,
    separators: usize,
    firsts: usize,
    root: &'static [u8],
}

impl Taste {
    fn new(random: &mut Random) -> Self {
        Self {
            parts: random.one_of(&[3, 4, 5, 7, PARTS.len()]),
            separators: random.one_of(&[1, 1, SEPARATORS.len()]),
            firsts: random.one_of(&[1, 1, 6]),
            root: random.one_of::<&[u8]>(&[b"-", b"-", b"-", b"*01"]),
        }
    }
}

/// Parts and separators, at least one part and mostly few.
fn parts(random: &mut Random, taste: &Taste, most: usize) -> Vec<u8> {
    let mut path = random.one_of(&PARTS[..taste.parts]).to_vec();
    for _ in 0..random.below(most) {
        path.extend_from_slice(random.one_of(&SEPARATORS[..taste.separators]));
        path.extend_from_slice(random.one_of(&PARTS[..taste.parts]));
    }
    path
}

/// The line of a random addition: a file, a link, a pad, or a link by an absolute path.
fn addition(random: &mut Random, taste: &Taste) -> Vec<u8> {
    let firsts: [&[u8]; 6] = [b"s/", b"s/", b"s/", b"s//", b"/s/", b"t/"];
    let path = [random.one_of(&firsts[..taste.firsts]), &parts(random, taste, 3)].concat();
    let is_link = !random.once_in(3);
    let text = match random.below(4) {
        _ if !is_link => Vec::new(),
        0 => random.one_of(&TEXTS).to_vec(),
        _ => parts(random, taste, 4),
    };
    let flags = if is_link { random.one_of(&[8, 8, 8, 8, 8, 0, 9]) } else { random.one_of(&[0, 0, 0, 1, 8]) };
    timed(&path, random.one_of(&[0, 0, 3]), flags, time(random), &text, taste.root)
}

/// Links in one long directory: as many as a set has places for, and a few whose directory is longer.
const LONG: [(usize, usize); 2] = [(255, 4096), (99, 5300)];

/// Sets whose links need much work space, with texts that are kept and that give way to the link's own path. The text area
/// has room for a few own paths only, so more of them are 10.
pub fn scenes(script: &mut Script, random: &mut Random, sets: &mut Sets) -> io::Result<()> {
    for (links, length) in LONG {
        for own in [0, 40, links] {
            ask(script, sets, b"open 10")?;
            ask(script, sets, &plain(b"s/f", 3, 0, b""))?;
            for i in 0..links {
                let path = [b"s/", vec![b'd'; length].as_slice(), format!("/{i}").as_bytes()].concat();
                ask(script, sets, &plain(&path, 0, 8, if i < own { b"/etc" } else { b"f" }))?;
            }
            ask(script, sets, b"clean")?;
            asking::all(script, random, current(sets))?;
        }
    }
    Ok(())
}

/// As many cleanings as wanted, most of them the first of their set.
pub fn random(script: &mut Script, random: &mut Random, count: usize) -> io::Result<()> {
    let mut sets = Sets::default();
    spaces(script, random, &mut sets, count / 5)?;
    let mut left = count;
    while left > 0 {
        let taste = Taste::new(random);
        let lines = lines(random, &taste);
        let places = random.one_of::<&[usize]>(&[&[0], &[0], &[1], &[0, 1]]);
        for &place in places {
            turn_to(script, &mut sets, place)?;
            lines.iter().try_for_each(|line| ask(script, &mut sets, line).map(drop))?;
        }
        for _ in 0..random.one_of(&[1, 1, 1, 2, 3]).min(left) {
            if places.len() > 1 {
                turn_to(script, &mut sets, random.one_of(places))?;
            }
            ask(script, &mut sets, b"clean")?;
            left -= 1;
            cleaned(script, random, &mut sets, places)?;
            if random.once_in(3) {
                ask(script, &mut sets, &addition(random, &taste))?;
            }
            if random.once_in(6) {
                let change = random.one_of(&[renames::rename, renames::import]);
                let line = change(random, current(&mut sets));
                ask(script, &mut sets, &line)?;
                layout_questions::some(script, random, current(&mut sets), 2, 20)?;
            }
        }
    }
    Ok(())
}

/// Sets of links, as many as wanted, each cleaned with about the work space that it needs: marks and sum, one less and
/// one more. No directory is `.` or ends with a separator.
pub fn spaces(script: &mut Script, random: &mut Random, sets: &mut Sets, count: usize) -> io::Result<()> {
    const DIRECTORIES: [&str; 4] = ["", "x/", "x/y/", "long/"];
    for _ in 0..count {
        let mut lines = vec![plain(b"s/x/f", 3, 0, b"")];
        for i in 0..1 + random.below(4) {
            let path = format!("s/{}{i}", random.one_of(&DIRECTORIES));
            lines.push(plain(
                path.as_bytes(),
                0,
                random.one_of(&[8, 8, 0]),
                random.one_of::<&[u8]>(&[b"x/f", b"f", b"/etc"]),
            ));
        }
        play(sets, b"open 10");
        for line in &lines {
            play(sets, line);
        }
        let (marks, sum) = current(sets).work_space();
        let mut near = |n: usize| (n + random.below(3)).saturating_sub(1);
        let opening = format!("open 10 marks={} sum={}", near(marks), near(sum));
        ask(script, sets, opening.as_bytes())?;
        lines.iter().try_for_each(|line| ask(script, sets, line).map(drop))?;
        ask(script, sets, b"clean")?;
        texts(script, current(sets).files.num_files())?;
    }
    Ok(())
}

/// The lines that open and build a set.
fn lines(random: &mut Random, taste: &Taste) -> Vec<Vec<u8>> {
    let mut changes = Vec::new();
    for _ in 0..=random.below(9) {
        changes.push(addition(random, taste));
        if random.once_in(12) {
            changes.push(b"trim".to_vec());
        }
    }
    let mut opening = format!("open {}", random.one_of(&[10, 10, 10, 1, 2, 3, 16384]));
    match random.below(8) {
        0 | 1 => opening += &format!(" text={}", 8 + random.below(60)),
        2 => opening += &format!(" text={}", (need(&opening, &changes) + random.below(3)).saturating_sub(1)),
        _ => {}
    }
    if random.once_in(2) {
        opening += &firsts::word(random, 10);
    }
    changes.insert(0, opening.into_bytes());
    changes
}

/// The bytes of text that a set needs for those changes and a cleaning.
fn need(opening: &str, changes: &[Vec<u8>]) -> usize {
    let mut sets = Sets::default();
    let mut most = 0;
    play(&mut sets, opening.as_bytes());
    for line in changes.iter().map(Vec::as_slice).chain([b"clean".as_slice()]) {
        play(&mut sets, line);
        most = most.max(current(&mut sets).need().text);
    }
    most
}

/// The questions after a cleaning; of sets at several places also whether they are compatible.
fn cleaned(script: &mut Script, random: &mut Random, sets: &mut Sets, places: &[usize]) -> io::Result<()> {
    let set = current(sets);
    if random.once_in(20) {
        asking::all(script, random, set)?;
    } else {
        texts(script, set.files.num_files())?;
    }
    asking::times(script, set)?;
    layout_questions::some(script, random, set, 3, 60)?;
    for &first in places {
        places
            .iter()
            .filter(|&&second| first != second)
            .try_for_each(|&second| asking::compatible(script, first, second))?;
    }
    Ok(())
}

/// The link text of every file, and the bytes of text held.
fn texts(script: &mut Script, files: i32) -> io::Result<()> {
    for file in 0..files {
        script.line(&call("internal_symlink", &[Word::Number(file.into())]))?;
    }
    script.call("text_bytes", &[])
}
