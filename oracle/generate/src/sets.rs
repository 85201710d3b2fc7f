//! Scripts on sets: random changes, and questions after each, on layouts and on two sets too. Changes are tried out beforehand, which says how much room
//! a set needs at each step.

use std::io;

use driver::{Room, SETS, Set, Sets, USUAL_ROOM, piece_count};

use crate::additions::{Taste, addition, plain};
use crate::asking;
use crate::cleanings;
use crate::firsts;
use crate::layout_questions;
use crate::playing::{self, ask, current, play, turn_to};
use crate::random::Random;
use crate::renames;
use crate::scenes::SCENES;
use crate::script::{Script, Word, call};
use crate::times;
use crate::twins;

/// Piece lengths: the smallest, small ones, some by which the largest total can be divided, usual ones, the largest.
const LENGTHS: [i32; 12] = [1, 2, 3, 7, 10, 10, 15, 255, 16384, 16384, 65536, i32::MAX];

/// The words by which room is named.
const KINDS: [&str; 3] = ["files", "dirs", "text"];

/// The words by which little is lent to renames and to answers, each with a number that few sets need.
const LENT: [(&str, usize); 5] = [("renames", 5), ("names", 30), ("output", 40), ("slices", 5), ("hashes", 8)];

/// A set to be built: its piece length, its changes, and what it has after each where there is room for all, pieces too.
struct Plan {
    piece_length: i32,
    changes: Vec<Vec<u8>>,
    needs: Vec<Room>,
    pieces: Vec<i64>,
}

/// As many random changes as wanted, to sets that are built one at a time or side by side, alike ones among them.
pub fn random(script: &mut Script, random: &mut Random, count: usize) -> io::Result<()> {
    let mut sets = Sets::default();
    let mut left = count;
    while left > 0 {
        if random.once_in(4) {
            let plan = Plan::few(random, left);
            left -= plan.changes.len();
            twins::random(script, random, &mut sets, plan.piece_length, &plan.changes)?;
            continue;
        }
        let sides = if random.once_in(6) { 1 + random.below(SETS) } else { 1 };
        let mut plans = Vec::new();
        while plans.len() < sides && left > 0 {
            let plan = Plan::new(random, left);
            left -= plan.changes.len();
            plans.push(plan);
        }
        build(script, random, &mut sets, &plans)?;
        if random.once_in(8) {
            ask(script, &mut sets, b"reset")?;
            asking::few(script, random)?;
        }
    }
    Ok(())
}

/// The sets of SCENES, each with every question at the end, those with tables of first files, and those of FAMILIES. The
/// first set is spoken of.
pub fn scenes(script: &mut Script, random: &mut Random) -> io::Result<()> {
    let mut sets = Sets::default();
    playing::scenes(script, &mut sets, SCENES, |script, set| asking::all(script, random, set))?;
    playing::scenes(script, &mut sets, firsts::SCENES, |script, set| {
        asking::some(script, random, set)?;
        layout_questions::boundary(script, random, set)
    })?;
    twins::scenes(script, &mut sets)
}

/// Sets with so much text that no sample has them.
pub fn long_scenes(script: &mut Script, random: &mut Random) -> io::Result<()> {
    let mut sets = Sets::default();
    renames::scenes(script, random, &mut sets)?;
    cleanings::scenes(script, random, &mut sets)
}

/// Opens a set for each plan, and makes the changes of all plans, mixed.
fn build(script: &mut Script, random: &mut Random, sets: &mut Sets, plans: &[Plan]) -> io::Result<()> {
    let first = if plans.len() == 1 { random.below(SETS) } else { 0 };
    for (i, plan) in plans.iter().enumerate() {
        turn_to(script, sets, first + i)?;
        if random.once_in(16) {
            let length = random.one_of(&[0, -1, i32::MIN]);
            ask(script, sets, &call("open", &[Word::Number(length.into())]))?;
            asking::few(script, random)?;
        }
        ask(script, sets, &plan.opening(random))?;
        asking::all(script, random, current(sets))?;
    }
    let mut made = vec![0; plans.len()];
    loop {
        let open: Vec<usize> = (0..plans.len()).filter(|&i| made[i] < plans[i].changes.len()).collect();
        if open.is_empty() {
            return Ok(());
        }
        let i = random.one_of(&open);
        if plans.len() > 1 {
            turn_to(script, sets, i)?;
        }
        let line = &plans[i].changes[made[i]];
        let is_made = ask(script, sets, line)?;
        made[i] += 1;
        let asked = if is_made { asking::all } else { asking::some };
        asked(script, random, current(sets))?;
        let is_addition = line.starts_with(b"add ");
        if !is_addition {
            asking::times(script, current(sets))?;
        }
        let rarely = if is_addition { 30 } else { 5 };
        layout_questions::some(script, random, current(sets), 5, rarely)?;
        if random.once_in(6) {
            asking::compatible(script, random.below(SETS), random.below(SETS))?;
        }
    }
}

impl Plan {
    /// A random plan of at most `most` changes, and at least one.
    fn new(random: &mut Random, most: usize) -> Self {
        let taste = Taste::new(random);
        match random.below(200) {
            3 | 4 => Self::by(random, most, 24, renames::long),
            5 => Self::by(random, most, 270, renames::many),
            6..40 => {
                let additions = 1 + random.below(6);
                let count = additions + 1 + random.below(20);
                Self::by(random, most, count, |random, set, i| match random.below(12) {
                    _ if i < additions => addition(random, &taste, set),
                    0 => addition(random, &taste, set),
                    1 => b"trim".to_vec(),
                    2 => b"clean".to_vec(),
                    3 | 4 => renames::rename(random, set),
                    _ => renames::import(random, set),
                })
            }
            40..60 => {
                let count = 1 + random.below(30);
                Self::by(random, most, count, times::random)
            }
            60..100 => {
                let count = 1 + random.below(24);
                Self::by(random, most, count, firsts::random)
            }
            0 => Self::by(random, most, 300, |random, set, _| addition(random, &taste, set)),
            1 => Self::by(random, most, 600, many_directories),
            2 => Self::by(random, most, 300, much_text),
            _ => {
                let count = 1 + random.below(12);
                let trims = random.one_of(&[2, 4, 8, 30]);
                let renames = random.one_of(&[2, 3, 8]);
                let cleanings = random.one_of(&[3, 6, 30]);
                Self::by(random, most, count, |random, set, _| {
                    if random.once_in(trims) {
                        b"trim".to_vec()
                    } else if random.once_in(cleanings) {
                        b"clean".to_vec()
                    } else if random.once_in(renames) {
                        let change = random.one_of(&[renames::rename, renames::import]);
                        change(random, set)
                    } else {
                        addition(random, &taste, set)
                    }
                })
            }
        }
    }

    /// A plan of a few changes, most of them additions.
    fn few(random: &mut Random, most: usize) -> Self {
        let taste = Taste::new(random);
        let count = 1 + random.below(5);
        Self::by(random, most, count, |random, set, i| match random.below(4) {
            0 if i > 0 => other(random, set),
            _ => addition(random, &taste, set),
        })
    }

    /// A plan of at most `most` and at most `count` changes; each is chosen by the set before it and its place.
    fn by(
        random: &mut Random,
        most: usize,
        count: usize,
        mut change: impl FnMut(&mut Random, &Set, usize) -> Vec<u8>,
    ) -> Self {
        let piece_length = match random.below(4) {
            0 => 1 + random.below(40) as i32,
            _ => random.one_of(&LENGTHS),
        };
        let mut sets = Sets::default();
        play(&mut sets, format!("open {piece_length} files=65535 dirs=65535 text=1000000000").as_bytes());
        let mut plan = Self { piece_length, changes: Vec::new(), needs: Vec::new(), pieces: Vec::new() };
        for i in 0..count.min(most) {
            let line = change(random, current(&mut sets), i);
            play(&mut sets, &line);
            plan.changes.push(line);
            plan.needs.push(current(&mut sets).need());
            plan.pieces.push(piece_count(&current(&mut sets).files));
        }
        plan
    }

    /// The line that opens the set: with the usual room, or with what a late step needs, or one less or more, also for a
    /// table of first files; at times little is lent to its renames and its answers.
    fn opening(&self, random: &mut Random) -> Vec<u8> {
        let mut line = call("open", &[Word::Number(self.piece_length.into())]);
        let pieces = self.pieces[self.late(random)];
        line.extend_from_slice(firsts::word(random, pieces).as_bytes());
        if self.changes.len() > 20 || random.once_in(3) {
            return line;
        }
        for (kind, (name, most)) in KINDS.into_iter().zip(numbers(&USUAL_ROOM)).enumerate() {
            if random.once_in(3) {
                let need = numbers(&self.needs[self.late(random)])[kind];
                let room = (need + random.below(3)).saturating_sub(1).min(most);
                line.extend_from_slice(format!(" {name}={room}").as_bytes());
            }
        }
        for (name, most) in LENT {
            if random.once_in(6) {
                line.extend_from_slice(format!(" {name}={}", random.below(most)).as_bytes());
            }
        }
        line
    }

    /// A step of the plan, more often a late one.
    fn late(&self, random: &mut Random) -> usize {
        random.below(self.needs.len()).max(random.below(self.needs.len()))
    }
}

/// The line of a change that is no addition.
pub fn other(random: &mut Random, set: &Set) -> Vec<u8> {
    match random.below(8) {
        0 => b"trim".to_vec(),
        1 | 2 => renames::rename(random, set),
        3 | 4 => renames::import(random, set),
        _ => b"clean".to_vec(),
    }
}

/// The numbers of a room, in the order of KINDS.
fn numbers(room: &Room) -> [usize; 3] {
    [room.files, room.directories, room.text]
}

/// A pad in a directory of its own, and its trim, in turn: directories without files.
fn many_directories(_: &mut Random, _: &Set, i: usize) -> Vec<u8> {
    if i % 2 == 1 {
        return b"trim".to_vec();
    }
    plain(format!("s/d{i}/p").as_bytes(), 5, 1, if i.is_multiple_of(3) { b"t" } else { b"" })
}

/// Long names and link texts, which fill the text area before the table of files.
fn much_text(random: &mut Random, _: &Set, i: usize) -> Vec<u8> {
    let leaf = vec![b'n'; 1000 + random.below(3000)];
    let link = vec![b'l'; random.below(2) * random.below(4000)];
    plain(&[format!("s/{}/", i % 7).into_bytes(), leaf].concat(), 1, 8, &link)
}
