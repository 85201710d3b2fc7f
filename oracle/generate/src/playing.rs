//! Changes that a script makes, tried out on sets of the driver, which stand for the script's: they say how many files
//! there are to ask about, and what is where.

use std::io;

use driver::{Set, Sets};

use crate::script::{Script, Word, call};

/// Writes a line that changes something, and changes the sets that stand for the script's.
pub fn ask(script: &mut Script, sets: &mut Sets, line: &[u8]) -> io::Result<bool> {
    script.line(line)?;
    Ok(play(sets, line))
}

/// Changes sets by a line, and says whether it was taken.
pub fn play(sets: &mut Sets, line: &[u8]) -> bool {
    let mut answer = Vec::new();
    driver::answer(line, sets, &mut answer);
    answer.starts_with(b"ok")
}

/// Speaks of the set at a place.
pub fn turn_to(script: &mut Script, sets: &mut Sets, place: usize) -> io::Result<()> {
    ask(script, sets, &call("use", &[Word::Number(place as i128)])).map(drop)
}

/// The set that is spoken of, which was opened.
pub fn current(sets: &mut Sets) -> &Set {
    sets.current().expect("a set was opened")
}

/// Some sets, each built by its lines and then asked about.
pub fn scenes(
    script: &mut Script,
    sets: &mut Sets,
    scenes: &[&[&str]],
    mut asked: impl FnMut(&mut Script, &Set) -> io::Result<()>,
) -> io::Result<()> {
    for lines in scenes {
        lines.iter().try_for_each(|line| ask(script, sets, line.as_bytes()).map(drop))?;
        asked(script, current(sets))?;
    }
    Ok(())
}
