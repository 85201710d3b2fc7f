//! Imports of names, path hashes and paths through renames, on the random sets of calls.rs on both sides. 10 and 11 are
//! those that document 01's words ask for: the Rust keeps a number below 0. A refused call must leave all that is lent
//! as it was, and one that is done what lies behind the answer.

use std::collections::HashMap;

use bitdaemon_common::FileIndex;
use bitdaemon_core::file_storage::{FileStorage, RenamedFiles};

use crate::calls::{once_in, one_of};
use crate::inputs::Random;
use crate::names::{compare_renames, hashes};
use crate::port::{ENTRY, Names, Renames, Set};

const NAMES: [&[u8]; 9] = [b"", b"n", b"x/n", b"x//n/", b"/abs/n", b".", b"..", b"\\n", b"x/y/z/some longer name.wav"];

const SAVE_PATHS: [&[u8]; 5] = [b"", b".", b"/save", b"/save/", b"save"];

/// The renames of a set on both sides. The port's tables have just the room that they need.
pub struct Renamed {
    rust: RenamedFiles,
    port: Renames,
}

impl Renamed {
    /// No renames.
    pub fn new() -> Self {
        Self { rust: RenamedFiles::default(), port: Renames::new(0, 0) }
    }

    /// An import, paths of files and the hashes of all paths.
    pub fn play(&mut self, random: &mut Random, rust: &FileStorage, port: &Set) {
        self.import(random, rust, port);
        for _ in 0..4 {
            self.ask_path(random, rust, port);
        }
        ask_hashes(random, rust, port);
    }

    /// An import of a random list, which may lack a length or a byte of names, into tables that may be too short.
    fn import(&mut self, random: &mut Random, rust: &FileStorage, port: &Set) {
        let mut given = names(random, rust.num_files());
        let mut after = self.rust.clone();
        after.import_filenames(rust, &last_names(&given));
        let texts = after.export_filenames(rust);
        let (words, bytes) = (texts.len() * ENTRY, texts.values().map(Vec::len).sum::<usize>());
        let is_whole = match random.next() % 8 {
            0 => given.lengths.pop().is_none(),
            1 => given.text.pop().is_none(),
            2 => {
                given.lengths.push(u64::MAX);
                given.text.push(7);
                true
            }
            _ => true,
        };
        let room = |random: &mut Random, least: usize, needed: usize| match random.next() % 4 {
            0 => needed.saturating_sub(1).max(least),
            1 => needed.max(least) + 9,
            _ => needed.max(least),
        };
        let mut ours =
            self.port.lent(room(random, self.port.entries.len(), words), room(random, self.port.text.len(), bytes));
        let has_room = ours.entries.len() / ENTRY * ENTRY >= words && ours.text.len() >= bytes;
        let refusal = if given.numbers.iter().any(|&number| number < 0) {
            11
        } else if !is_whole || !has_room {
            10
        } else {
            0
        };
        let before = ours.clone();
        assert_eq!(port.import_filenames(&mut ours, &given), refusal, "the number of the refusal");
        if refusal != 0 {
            assert!(ours == before, "a refusal changes what was lent");
            return;
        }
        self.rust = after;
        compare_renames(rust, &self.rust, &ours);
        assert_eq!(ours.entries[words..], before.entries[words..], "words behind the entries");
        assert_eq!(ours.text[bytes..], before.text[bytes..], "bytes behind the texts");
        self.port = ours.lent(words, bytes);
    }

    /// The path of a random file, or of none, into a buffer that may be too short.
    fn ask_path(&self, random: &mut Random, rust: &FileStorage, port: &Set) {
        let files = rust.num_files();
        let file = one_of(random, &[-1, 0, files / 2, files - 1, files, i32::MAX]);
        let save_path = one_of(random, &SAVE_PATHS);
        let path = (0..files).contains(&file).then(|| self.rust.file_path(rust, FileIndex(file), save_path));
        let length = path.as_ref().map_or(0, Vec::len);
        let mut buf = vec![7; one_of(random, &[length.saturating_sub(1), length, length + 3])];
        let answer = match &path {
            None => -11,
            Some(path) if path.len() > buf.len() => -10,
            Some(path) => path.len() as i64,
        };
        assert_eq!(port.file_path(&self.port, file, save_path, &mut buf), answer, "`file_path`");
        let filled = answer.max(0) as usize;
        assert_eq!(buf[..filled], path.unwrap_or_default()[..filled], "the path of file {file}");
        assert!(buf[filled..].iter().all(|&byte| byte == 7), "bytes that are not asked for");
    }
}

/// The hashes of all paths, into a table that may be too short.
fn ask_hashes(random: &mut Random, rust: &FileStorage, port: &Set) {
    let wanted = hashes(rust);
    let count = wanted.len();
    let mut out = vec![7; one_of(random, &[count.saturating_sub(1), count, count + 1, count + 20])];
    let answer = if out.len() < count { -10 } else { count as i64 };
    assert_eq!(port.all_path_hashes(&mut out), answer, "`all_path_hashes`");
    let filled = answer.max(0) as usize;
    assert_eq!(out[..filled], wanted[..filled], "the hashes");
    assert!(out[filled..].iter().all(|&hash| hash == 7), "places that are not asked for");
}

/// Names for random files, some of them past the end, at times more than one for a file, and rarely a number below 0.
fn names(random: &mut Random, files: i32) -> Names {
    let mut given = Names::default();
    for _ in 0..random.next() % 6 {
        let file = if once_in(random, 30) {
            one_of(random, &[-1, i32::MIN, i32::MAX])
        } else {
            (random.next() % (files as u64 + 2)) as i32
        };
        given.push(file, one_of(random, &NAMES));
    }
    given
}

/// The names as the Rust takes them: a later name of a file comes in place of an earlier one.
fn last_names(given: &Names) -> HashMap<FileIndex, Vec<u8>> {
    let mut map = HashMap::new();
    let mut rest = given.text.as_slice();
    for (&number, &length) in given.numbers.iter().zip(&given.lengths) {
        let (name, behind) = rest.split_at(length as usize);
        map.insert(FileIndex(number), name.to_vec());
        rest = behind;
    }
    map
}

/// What is refused whatever the renames: tables of a set that are too short, renames out of order or not held, and a
/// set without a piece length.
pub fn refusals() {
    let mut set = Set::new(2, 2, 16);
    for path in [b"s/d/a", b"s/d/b"] {
        assert_eq!(set.add(&crate::port::Addition { path: path.to_vec(), ..Default::default() }), 0);
    }
    let mut given = Names::default();
    given.push(0, b"n");
    given.push(1, b"other");
    let mut renames = Renames::new(2, 6);
    assert_eq!(set.import_filenames(&mut renames, &given), 0);
    assert_eq!(renames.state, [2, 6], "the record of the renames");
    let [rows, dirs, text] = set.cuts();
    for (short, hashed) in [(&rows, 1), (&dirs, -10), (&text, -10)] {
        refuses_path(short, &renames, -10, "a short table");
        assert_eq!(short.all_path_hashes(&mut [7]), hashed, "a short table");
    }
    let broken = |change: fn(&mut Renames)| {
        let mut broken = renames.clone();
        change(&mut broken);
        broken
    };
    for lent in [broken(|r| _ = r.entries.pop()), broken(|r| _ = r.text.pop())] {
        refuses_path(&set, &lent, -10, "short tables of renames");
        refuses_import(&set, &lent, &given, 10, "short tables of renames");
    }
    for lent in [
        broken(|r| r.entries.swap(0, ENTRY)),
        broken(|r| r.entries[1] = 3),
        broken(|r| r.entries[2] += 1),
        broken(|r| r.entries[ENTRY + 3] += 1),
        broken(|r| r.state[0] = 1),
        broken(|r| r.state[1] = 5),
    ] {
        refuses_import(&set, &lent, &given, 10, "renames out of order");
    }
    set.set_piece_length(0);
    refuses_path(&set, &renames, -1, "no piece length");
    refuses_import(&set, &renames, &given, 1, "no piece length");
    let mut out = [7; 4];
    assert_eq!(set.all_path_hashes(&mut out), -1, "no piece length");
    assert_eq!(out, [7; 4], "a refusal changes what was lent");
}

fn refuses_path(set: &Set, renames: &Renames, number: i64, why: &str) {
    let mut buf = [7; 64];
    assert_eq!(set.file_path(renames, 0, b"/save", &mut buf), number, "{why}");
    assert_eq!(buf, [7; 64], "{why}: a refusal changes what was lent");
}

fn refuses_import(set: &Set, renames: &Renames, given: &Names, number: u32, why: &str) {
    let mut ours = renames.clone();
    assert_eq!(set.import_filenames(&mut ours, given), number, "{why}");
    assert!(ours == *renames, "{why}: a refusal changes what was lent");
}
