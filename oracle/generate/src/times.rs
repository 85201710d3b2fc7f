//! Changes that move files with times: all short rows of them, trims and cleanings among them, and random ones in which
//! files without bytes stand behind pads.

use std::io;

use driver::{Set, Sets};

use crate::additions::{TIMES, time, timed};
use crate::asking;
use crate::playing::{ask, current};
use crate::random::Random;
use crate::script::Script;

/// The additions of a short row, by size, flags and link text: a file, one without bytes, a pad and a link. In a set
/// with roots a file makes a pad behind it.
const ADDITIONS: [(i64, u8, &[u8]); 4] = [(5, 0, b""), (0, 0, b""), (10, 1, b""), (0, 8, b"/etc")];

/// The other changes of a short row.
const OTHERS: [&[u8]; 2] = [b"trim", b"clean"];

/// All rows of at most `most` changes, with roots and without. The times in a row differ, and every file is asked for
/// its own at the end.
pub fn small(script: &mut Script, most: u32) -> io::Result<()> {
    let kinds = ADDITIONS.len() + OTHERS.len();
    let mut sets = Sets::default();
    for root in ["*01", "-"] {
        for changes in 1..=most {
            for code in 0..kinds.pow(changes) {
                ask(script, &mut sets, b"open 10")?;
                for i in 0..changes {
                    let time = TIMES[(code + i as usize) % TIMES.len()];
                    let line = change(code / kinds.pow(i) % kinds, format!("s/{i}").as_bytes(), time, root.as_bytes());
                    ask(script, &mut sets, &line)?;
                }
                asking::times(script, current(&mut sets))?;
            }
        }
    }
    Ok(())
}

/// The line of a change of a short row, by its kind.
fn change(kind: usize, path: &[u8], time: i64, root: &[u8]) -> Vec<u8> {
    match ADDITIONS.get(kind) {
        Some(&(size, flags, link)) => timed(path, size, flags, time, link, root),
        None => OTHERS[kind - ADDITIONS.len()].to_vec(),
    }
}

/// A random change: a file without bytes more often than one with bytes, a pad or a link; a trim or a cleaning.
pub fn random(random: &mut Random, set: &Set, i: usize) -> Vec<u8> {
    let (size, flags, link): (i64, u8, &[u8]) = match random.below(16) {
        0..4 => return b"trim".to_vec(),
        4 => return b"clean".to_vec(),
        5..8 => (random.one_of(&[5, 7, 10]), 0, b""),
        8 | 9 => (random.one_of(&[0, 3, 10]), 1, random.one_of::<&[u8]>(&[b"", b"", b"0"])),
        10 => (0, 8, random.one_of::<&[u8]>(&[b"/etc", b"0", b"x", b".."])),
        _ => (0, random.one_of(&[0, 0, 2, 4]), b""),
    };
    let is_v2 = if set.files.total_size() == 0 { !random.once_in(4) } else { set.files.v2() };
    let directory = random.one_of(&["", "", "x/"]);
    let root: &[u8] = if is_v2 { b"*01" } else { b"-" };
    timed(format!("s/{directory}{i}").as_bytes(), size, flags, time(random), link, root)
}
