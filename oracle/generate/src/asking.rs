//! Questions on a set, after a change of it.

use std::io;

use driver::{SETS, Set};

use crate::random::Random;
use crate::script::{Script, Word};

/// The questions on a set as a whole.
const ON_SET: [&str; 11] = [
    "name",
    "num_files",
    "total_size",
    "size_on_disk",
    "piece_length",
    "v2",
    "dirs",
    "text_bytes",
    "all_path_hashes",
    "export",
    "first_files",
];

/// The questions on one file.
const ON_FILE: [&str; 13] = [
    "file_name",
    "file_size",
    "file_offset",
    "pad_file_at",
    "file_flags",
    "mtime",
    "root",
    "file_absolute_path",
    "internal_file_path",
    "symlink",
    "internal_symlink",
    "renamed_name",
    "renamed_absolute",
];

/// The questions on the whole path of one file, behind a save path.
const ON_PATH: [&str; 3] = ["file_path", "file_path_hash", "renamed_path"];

/// Save paths: with and without separators at the ends, those that vanish in a join, and upper case.
const SAVES: [&[u8]; 12] =
    [b"", b".", b"/", b"a", b"a/", b"/x/y", b"/X/Yz/", b"//", b"./", b"..", b"%\\", b"\xC3\x84\xFF"];

/// A set of at most so many files is asked about all of them.
const FEW: i32 = 8;

/// Every question on the set and on each of its files; in a long set on the last two and a random one.
pub fn all(script: &mut Script, random: &mut Random, set: &Set) -> io::Result<()> {
    on_set(script)?;
    let files = set.files.num_files();
    if files <= FEW {
        for file in 0..files {
            on_file(script, random, file)?;
        }
    } else {
        for file in [files - 2, files - 1, below(random, files)] {
            on_file(script, random, file)?;
        }
    }
    on_no_file(script, random, files)
}

/// Every question on the set and on one of its files: enough where a change was refused.
pub fn some(script: &mut Script, random: &mut Random, set: &Set) -> io::Result<()> {
    on_set(script)?;
    let files = set.files.num_files();
    if files > 0 {
        let file = below(random, files);
        on_file(script, random, file)?;
    }
    on_no_file(script, random, files)
}

/// A few questions, on a set that may not be open.
pub fn few(script: &mut Script, random: &mut Random) -> io::Result<()> {
    script.call(random.one_of(&ON_SET), &[])?;
    one(script, random.one_of(&ON_FILE), 0)?;
    on_path(script, random, 0)?;
    compatible(script, random.below(SETS), random.below(SETS))
}

/// The time of every file.
pub fn times(script: &mut Script, set: &Set) -> io::Result<()> {
    (0..set.files.num_files()).try_for_each(|file| one(script, "mtime", file))
}

/// Whether the sets at two places are compatible.
pub fn compatible(script: &mut Script, first: usize, second: usize) -> io::Result<()> {
    script.call("compat", &[Word::Number(first as i128), Word::Number(second as i128)])
}

fn on_set(script: &mut Script) -> io::Result<()> {
    ON_SET.iter().try_for_each(|name| script.call(name, &[]))
}

fn on_file(script: &mut Script, random: &mut Random, file: i32) -> io::Result<()> {
    ON_FILE.iter().try_for_each(|name| one(script, name, file))?;
    on_path(script, random, file)
}

/// Every question on a path, behind a random save path.
fn on_path(script: &mut Script, random: &mut Random, file: i32) -> io::Result<()> {
    let save = random.one_of(&SAVES);
    ON_PATH.iter().try_for_each(|name| script.call(name, &[Word::Number(file.into()), Word::Bytes(save)]))
}

/// A question on the place behind the last file; at times every question on a place where no file is.
fn on_no_file(script: &mut Script, random: &mut Random, files: i32) -> io::Result<()> {
    if random.once_in(16) {
        let file = random.one_of(&[-1, files, files + 1, i32::MIN, i32::MAX]);
        return on_file(script, random, file);
    }
    one(script, random.one_of(&ON_FILE), files)
}

fn one(script: &mut Script, name: &str, file: i32) -> io::Result<()> {
    script.call(name, &[Word::Number(file.into())])
}

fn below(random: &mut Random, n: i32) -> i32 {
    random.below(n as usize) as i32
}
