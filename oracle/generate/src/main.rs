//! Prints a script of calls: `generate SEED COUNT` a long one with COUNT random inputs for each call without a set,
//! `generate sets SEED COUNT` one with COUNT changes of sets, `generate layout SEED COUNT` one with questions on the
//! layout of COUNT random sets behind those of all small ones, `generate cleanings SEED COUNT` one with COUNT cleanings,
//! `generate links` one that passes the most link texts,
//! `generate sample`, `generate sample sets` and `generate sample layout` the short ones that are stored with their
//! answers. The same arguments always give the same script.

mod additions;
mod asking;
mod bytes;
mod calls;
mod cleanings;
mod firsts;
mod layout;
mod layout_questions;
mod layout_scenes;
mod links;
mod malformed;
mod playing;
mod random;
mod renames;
mod sample;
mod scenes;
mod script;
mod sets;
mod times;
mod twins;
mod widths;

use std::io::{self, BufWriter};
use std::process::ExitCode;

use random::Random;
use script::Script;

fn main() -> ExitCode {
    let words: Vec<String> = std::env::args().skip(1).collect();
    let words: Vec<&str> = words.iter().map(String::as_str).collect();
    let mut script = Script::new(BufWriter::with_capacity(1 << 20, io::stdout().lock()));
    let written = match words.as_slice() {
        ["sample"] => sample::write(&mut script),
        ["sample", "sets"] => sample::write_sets(&mut script),
        ["sample", "layout"] => sample::write_layout(&mut script),
        ["links"] => links::write(&mut script),
        ["cleanings", seed, count] => {
            with_numbers(seed, count, |seed, count| cleanings::random(&mut script, &mut Random::new(seed), count))
        }
        ["sets", seed, count] => with_numbers(seed, count, |seed, count| sets(&mut script, seed, count)),
        ["layout", seed, count] => with_numbers(seed, count, |seed, count| layout(&mut script, seed, count)),
        [seed, count] => with_numbers(seed, count, |seed, count| long(&mut script, seed, count)),
        _ => Err(wrong_use()),
    };
    match written.and_then(|()| script.finish()) {
        Ok(()) => ExitCode::SUCCESS,
        Err(error) => {
            eprintln!("generate: {error}");
            ExitCode::FAILURE
        }
    }
}

fn wrong_use() -> io::Error {
    io::Error::other(
        "usage: generate [sets|layout|cleanings] SEED COUNT, generate links, or generate sample [sets|layout]",
    )
}

/// Writes a script that depends on two numbers.
fn with_numbers(seed: &str, count: &str, write: impl FnOnce(u64, usize) -> io::Result<()>) -> io::Result<()> {
    match (seed.parse(), count.parse()) {
        (Ok(seed), Ok(count)) => write(seed, count),
        _ => Err(wrong_use()),
    }
}

/// Lines out of form, then sets that show one rule each, then all short rows of changes that move times or places of a
/// table, then random changes.
fn sets(script: &mut Script, seed: u64, count: usize) -> io::Result<()> {
    let mut random = Random::new(seed);
    malformed::fixed_sets(script)?;
    sets::scenes(script, &mut random)?;
    sets::long_scenes(script, &mut random)?;
    times::small(script, 5)?;
    firsts::small(script, 4)?;
    sets::random(script, &mut random, count)
}

/// Lines out of form, then all small sets, then sets that show one corner each, then random ones.
fn layout(script: &mut Script, seed: u64, count: usize) -> io::Result<()> {
    let mut random = Random::new(seed);
    malformed::fixed_layout(script)?;
    layout::small(script, 3, 4, 5)?;
    layout::scenes(script, &mut random)?;
    layout::random(script, &mut random, count)
}

/// Published vectors, then short inputs exhaustively, then random ones.
fn long(script: &mut Script, seed: u64, count: usize) -> io::Result<()> {
    let mut random = Random::new(seed);
    calls::vectors(script)?;
    calls::bytes_singly(script)?;
    calls::paths_up_to(script, 6, 8)?;
    calls::pairs_up_to(script, 4)?;
    widths::fixed(script)?;
    malformed::fixed(script)?;
    calls::random(script, &mut random, count)?;
    widths::random(script, &mut random, count)?;
    malformed::random(script, &mut random, count)
}
