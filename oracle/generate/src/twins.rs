//! Sets side by side that are alike but for one thing, and `compat` of each two, also after changes of some of them.

use std::io;

use driver::{SETS, Sets};

use crate::asking;
use crate::firsts;
use crate::layout_questions;
use crate::playing::{ask, current, turn_to};
use crate::random::Random;
use crate::script::Script;
use crate::sets::other;

/// Sets each: the first is compared with each behind it. Those that differ in what doesn't count come first, then those
/// that differ in what counts; a link counts only where the first set is flagged.
pub const FAMILIES: &[&[&[&str]]] = &[
    &[
        &["open 10", "add - :s/l 5 0 0 : -"],
        &["open 10", "add - :s/l 5 8 0 :t -"],
        &["open 10", "add - :s/l 5 8 0 : -"],
        &["open 10", "add - :s/l 5 0 0 :t -"],
    ],
    &[
        &["open 10", "add - :s/a 5 0 0 : -", "add - :s/e 0 0 0 : -"],
        &["open 10", "add - :s/a 5 6 7 : -", "add - :t/f 0 8 7 :t -"],
        &["open 10", "add - :s/a 5 0 0 : *01", "add - :e/e 0 1 0 : -"],
        &["open 10", "add - :s//a 5 0 0 : -", "add - :s/e 0 0 0 : -"],
    ],
    &[
        &["open 10", "add - :s/a 5 0 0 : *01", "add - :s/b 5 0 0 : *01"],
        &["open 10", "add - :s/a 5 0 0 : -", "add - :s/p 5 1 0 : -", "add - :s/b 5 0 0 : -"],
        &["open 10", "add - :s/a 5 0 0 : *01", "add - :s/b 4 0 0 : *01"],
        &["open 11", "add - :s/a 5 0 0 : *01", "add - :s/b 5 0 0 : *01"],
    ],
    &[
        &["open 10", "add - :s/p 3 1 0 : -", "add - :s/a 5 0 0 : -", "add - :s/q 4 1 0 : -"],
        &["open 10", "add - :s/p 4 1 0 : -", "add - :s/a 5 0 0 : -", "add - :s/q 3 1 0 : -"],
        &["open 10", "add - :t/x 3 1 0 : -", "add - :s/a 5 0 0 : -", "add - :s/y 4 1 0 :t -"],
        &["open 10", "add - :s/p 3 1 0 : -", "add - :s/a 4 0 0 : -", "add - :s/q 5 1 0 : -"],
    ],
    &[
        &["open 10", "add - :s/a/b 5 0 0 : -", "add - :s/c 5 0 0 : -"],
        &["open 10", "add :b :s/a 5 0 0 : -", "add - :s/c 5 0 0 : -"],
        &["open 10", "add - :s/a/b 4 0 0 : -", "add - :s/c 6 0 0 : -"],
        &["open 10", "add - :s/a/B 5 0 0 : -", "add - :s/c 5 0 0 : -"],
    ],
    &[
        &["open 10", "add - : 5 0 0 : *01", "add - :x/a 5 0 0 : *01"],
        &["open 10", "add - :// 5 0 0 : *01", "add - :x/a 5 0 0 : *01"],
        &["open 10", "add - ://x 5 0 0 : *01", "add - :x/a 5 0 0 : *01"],
        &["open 10", "add - :/x 5 0 0 : *01", "add - :/x/a 5 0 0 : *01"],
    ],
    &[
        &["open 10", "add - :s/x/l 5 8 0 :/t -"],
        &["open 10", "add - :s/x/l 5 8 0 :t -"],
        &["open 10", "add - :s//x/l 5 8 0 :t/ -"],
        &["open 10", "add - :s/x/l 5 8 0 :./t -"],
    ],
];

/// The sets of FAMILIES, and every two of each compared.
pub fn scenes(script: &mut Script, sets: &mut Sets) -> io::Result<()> {
    for family in FAMILIES {
        for (place, lines) in family.iter().enumerate() {
            turn_to(script, sets, place)?;
            lines.iter().try_for_each(|line| ask(script, sets, line.as_bytes()).map(drop))?;
        }
        compare(script)?;
    }
    turn_to(script, sets, 0)
}

/// The set of those changes in the first place, and in each other the same with one thing changed; every two compared,
/// and again after cleanings and other changes of some of them.
pub fn random(
    script: &mut Script,
    random: &mut Random,
    sets: &mut Sets,
    piece_length: i32,
    changes: &[Vec<u8>],
) -> io::Result<()> {
    let changed = random.below(changes.len() + 1);
    for place in 0..SETS {
        turn_to(script, sets, place)?;
        let is_longer = place > 0 && changed == changes.len() && random.once_in(4) && piece_length < i32::MAX;
        let length = if is_longer { piece_length + 1 } else { piece_length };
        let table = if random.once_in(2) { firsts::word(random, 100) } else { String::new() };
        ask(script, sets, format!("open {length}{table}").as_bytes())?;
        for (i, line) in changes.iter().enumerate() {
            let line = if place > 0 && i == changed { varied(random, line) } else { line.clone() };
            ask(script, sets, &line)?;
        }
    }
    compare(script)?;
    for _ in 0..random.below(4) {
        turn_to(script, sets, random.below(SETS))?;
        let line = other(random, current(sets));
        ask(script, sets, &line)?;
        asking::times(script, current(sets))?;
        layout_questions::some(script, random, current(sets), 5, 5)?;
        compare(script)?;
    }
    Ok(())
}

/// Every two sets compared, also each with itself.
fn compare(script: &mut Script) -> io::Result<()> {
    (0..SETS * SETS).try_for_each(|i| asking::compatible(script, i / SETS, i % SETS))
}

/// What each word of an addition is changed to: name, path, size, flags, time, link and root.
const OTHERS: [&[&[u8]]; 7] = [
    &[b"-", b":", b":n"],
    &[b":s/a", b":s//a", b":s/x/a", b":s/A", b":t/a", b":/s/a", b":s/a/", b":", b"://a"],
    &[b"0", b"1", b"5"],
    &[b"0", b"1", b"2", b"4", b"8", b"9"],
    &[b"0", b"1", b"-1", b"9223372036854775807", b"-9223372036854775808"],
    &[b":", b":t", b":/t", b":t/", b":x/t"],
    &[b"-", b"*01", b"*02"],
];

/// A change with one word changed, or another change.
fn varied(random: &mut Random, line: &[u8]) -> Vec<u8> {
    let mut words: Vec<&[u8]> = line.split(|&c| c == b' ').collect();
    if words.len() <= OTHERS.len() || random.once_in(16) {
        return random.one_of::<&[u8]>(&[b"trim", b"clean", b"add - :s/a 5 0 0 : -", b"add - :s/p 5 1 0 : -"]).to_vec();
    }
    let i = random.below(OTHERS.len());
    words[i + 1] = random.one_of(OTHERS[i]);
    words.join(&b' ')
}
