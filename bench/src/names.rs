//! `import_filenames`, `all_path_hashes` and `file_path` through renames, of the unchanged Rust and of the port on the
//! same sets and names; all answers are compared.

use std::collections::{HashMap, HashSet};
use std::hint::black_box;
use std::time::{Duration, Instant};

use bitdaemon_common::FileIndex;
use bitdaemon_core::file_storage::{FileStorage, RenamedFiles};

use crate::additions::{add_port, add_rust, rust_sets};
use crate::best::{Best, STRETCH};
use crate::compare;
use crate::inputs::{self, Case, Input, Random};
use crate::port::{Names, Renames, Set};

/// How many files or directories the sets have, how many calls are timed together, and how often.
const SIZES: [(usize, usize, usize); 3] = [(10, 100, 60), (1_000, 10, 60), (65_000, 1, 12)];

/// How many paths are asked for, and how often.
const QUESTIONS: usize = 64_000;
const REPETITIONS: usize = 40;

const SAVE_PATH: &[u8] = b"/home/user/downloads";

/// The orders of a list of names.
const ORDERS: [&str; 2] = ["ascending", "shuffled"];

/// The directories of a set: the length of their two names, and how many first names there are, 0 for one each.
struct Directories {
    kind: &'static str,
    length: usize,
    parents: usize,
}

/// Beginnings are repeated where directories share their first names.
const DIRECTORIES: [Directories; 2] = [
    Directories { kind: "short names", length: 6, parents: 97 },
    Directories { kind: "two long names each", length: 100, parents: 0 },
];

/// The same set on both sides.
struct Sets {
    rust: FileStorage,
    port: Set,
}

/// The sets of those files, in so many directories, compared.
fn sets(inputs: &[Input], directories: usize) -> Sets {
    let text = inputs.iter().map(|i| i.path.len()).sum::<usize>() + 64;
    let mut rust = rust_sets(1, inputs.len(), false).remove(0);
    let mut port = Set::new(inputs.len(), directories, text);
    for input in inputs {
        add_rust(&mut rust, input);
        add_port(&mut port, input);
    }
    compare::compare(&rust, &inputs::times(inputs), &port);
    Sets { rust, port }
}

/// The sets of so many files in 50 directories.
fn file_sets(files: usize) -> Sets {
    sets(&inputs::inputs(Case { v2: false, directories: 50, timed: false, files }), 50)
}

/// The sets of so many directories with a file each, whose paths have two names.
fn directory_sets(count: usize, kind: &Directories) -> Sets {
    let name = |i: usize| format!("{i:0width$}", width = kind.length);
    let parent = |i: usize| if kind.parents == 0 { i } else { i % kind.parents };
    let path = |i| format!("set/{}/{}/file.wav", name(parent(i)), name(i)).into_bytes();
    let inputs: Vec<Input> = (0..count).map(|i| Input { path: path(i), size: 1, time: 0, root: None }).collect();
    sets(&inputs, count)
}

/// The list of names that both sides are given, as each takes it.
struct Given {
    rust: HashMap<FileIndex, Vec<u8>>,
    port: Names,
}

/// A name for each of so many files.
fn given(files: usize, order: &str, word: &str) -> Given {
    let mut numbers: Vec<usize> = (0..files).collect();
    if order == "shuffled" {
        let mut random = Random::new();
        for i in (1..files).rev() {
            numbers.swap(i, (random.next() % (i as u64 + 1)) as usize);
        }
    }
    let mut given = Given { rust: HashMap::new(), port: Names::default() };
    for i in numbers {
        let name = format!("{word}/name{i:06}.wav").into_bytes();
        given.port.push(i as i32, &name);
        given.rust.insert(FileIndex(i as i32), name);
    }
    given
}

/// Renames on both sides, with room for what is imported next.
#[derive(Clone)]
struct Renamed {
    rust: RenamedFiles,
    port: Renames,
}

impl Renamed {
    fn new(files: usize) -> Self {
        Self { rust: RenamedFiles::default(), port: Renames::new(files, files * 32) }
    }

    fn import(&mut self, sets: &Sets, given: &Given) {
        self.rust.import_filenames(&sets.rust, &given.rust);
        assert_eq!(sets.port.import_filenames(&mut self.port, &given.port), 0, "the import is refused");
        compare_renames(&sets.rust, &self.rust, &self.port);
    }
}

/// Compares the renames of both sides: the port's ascend, and have the mode of an import.
pub fn compare_renames(set: &FileStorage, rust: &RenamedFiles, port: &Renames) {
    let mut wanted: Vec<(FileIndex, Vec<u8>)> = rust.export_filenames(set).into_iter().collect();
    wanted.sort_unstable();
    assert_eq!(wanted.len() as u64, port.state[0], "number of renames");
    for ((file, name), (number, mode, text)) in wanted.iter().zip(port.list()) {
        assert_eq!((file.0, 0, name.as_slice()), (number, mode, text), "a rename");
    }
}

/// The best times of a row: the Rust and the port.
#[derive(Default)]
struct Times {
    rust: Best,
    port: Best,
}

impl Times {
    /// Prints the row: nanoseconds for each of so many names, directories or paths.
    fn print(&self, call: &str, kind: &str, size: usize, count: usize) {
        let (rust, port) = (self.rust.each(count), self.port.each(count));
        println!("| {call} | {kind} | {size} | {rust:.1} | {port:.1} | {:.2} |", port / rust);
    }
}

/// The time of one call for each of these states.
fn timed<S>(mut states: Vec<S>, call: impl FnMut(&mut S)) -> Duration {
    let start = Instant::now();
    states.iter_mut().for_each(call);
    start.elapsed()
}

/// Imports names into renames, on both sides.
fn time_imports(sets: &Sets, before: &Renamed, given: &Given, calls: usize, repetitions: usize) -> Times {
    before.clone().import(sets, given);
    let mut times = Times::default();
    for _ in 0..repetitions {
        times.rust.keep(vec![timed(vec![before.rust.clone(); calls], |renames| {
            renames.import_filenames(&sets.rust, &given.rust);
        })]);
        times.port.keep(vec![timed(vec![before.port.clone(); calls], |renames| {
            assert_eq!(sets.port.import_filenames(renames, &given.port), 0, "the import is refused");
        })]);
    }
    times
}

/// The rows of imports: into no renames, and into those of every file.
fn imports(size: (usize, usize, usize), mut row: impl FnMut(&str, usize, usize, &Times)) {
    let (files, calls, repetitions) = size;
    let sets = file_sets(files);
    for order in ORDERS {
        let given = given(files, order, "other");
        let empty = Renamed::new(files);
        let mut full = empty.clone();
        full.import(&sets, &self::given(files, "ascending", "first"));
        for (kind, before) in [("no renames", empty), ("all renamed", full)] {
            let times = time_imports(&sets, &before, &given, calls, repetitions);
            row(&format!("{order}, {kind}"), files, files * calls, &times);
        }
    }
}

/// The hashes of the Rust, ascending.
pub fn hashes(rust: &FileStorage) -> Vec<u32> {
    let mut table = HashSet::new();
    rust.all_path_hashes(&mut table);
    let mut hashes: Vec<u32> = table.into_iter().collect();
    hashes.sort_unstable();
    hashes
}

/// Hashes all paths on both sides, the port's into a table with so many places.
fn time_hashes(sets: &Sets, places: usize, calls: usize, repetitions: usize) -> Times {
    let wanted = hashes(&sets.rust);
    let mut times = Times::default();
    for _ in 0..repetitions {
        times.rust.keep(vec![timed(vec![HashSet::new(); calls], |table| sets.rust.all_path_hashes(table))]);
        let mut out = vec![0; places];
        let mut answers = Vec::with_capacity(calls);
        times.port.keep(vec![timed(vec![(); calls], |()| answers.push(sets.port.all_path_hashes(&mut out)))]);
        assert!(answers.iter().all(|&answer| answer == wanted.len() as i64), "number of hashes");
        assert_eq!(out[..wanted.len()], wanted, "the hashes");
    }
    times
}

/// The rows of hashes: into a table with a place for each directory's two beginnings, and into one for as many as there
/// are hashes.
fn path_hashes(
    size: (usize, usize, usize),
    directories: &Directories,
    mut row: impl FnMut(&str, usize, usize, &Times),
) {
    let (count, calls, repetitions) = size;
    let sets = directory_sets(count, directories);
    for (kind, places) in [("room for repeats", 2 * count), ("just room", hashes(&sets.rust).len())] {
        let times = time_hashes(&sets, places, calls, repetitions);
        row(&format!("{}, {kind}", directories.kind), count, count * calls, &times);
    }
}

/// Asks for the paths of files on both sides, and compares them before any clock starts.
fn time_paths(sets: &Sets, renames: &Renamed, files: &[i32], repetitions: usize) -> Times {
    let mut buf = vec![0; 256];
    for &file in files {
        let wanted = renames.rust.file_path(&sets.rust, FileIndex(file), SAVE_PATH);
        let length = sets.port.file_path(&renames.port, file, SAVE_PATH, &mut buf);
        assert_eq!(buf[..length as usize], wanted, "the path of file {file}");
    }
    let mut times = Times::default();
    for _ in 0..repetitions {
        let stretches = || files.chunks(STRETCH).map(<[i32]>::to_vec);
        let rust = |file: &mut i32| drop(black_box(renames.rust.file_path(&sets.rust, FileIndex(*file), SAVE_PATH)));
        times.rust.keep(stretches().map(|stretch| timed(stretch, rust)).collect());
        let mut port = |file: &mut i32| {
            _ = black_box(sets.port.file_path(&renames.port, *file, SAVE_PATH, &mut buf));
        };
        times.port.keep(stretches().map(|stretch| timed(stretch, &mut port)).collect());
    }
    times
}

/// The rows of paths: of files that are all renamed, and of files of which none is.
fn paths(files: usize, repetitions: usize, mut row: impl FnMut(&str, usize, usize, &Times)) {
    let sets = file_sets(files);
    let mut random = Random::new();
    let asked: Vec<i32> = (0..QUESTIONS).map(|_| (random.next() % files as u64) as i32).collect();
    let none = Renamed::new(files);
    let mut all = none.clone();
    all.import(&sets, &given(files, "ascending", "other"));
    for (kind, renames) in [("all renamed", all), ("no renames", none)] {
        row(kind, files, QUESTIONS, &time_paths(&sets, &renames, &asked, repetitions));
    }
}

/// Compares all rows' answers but those of sets with the most directories, which are long in the making.
pub fn check() {
    let unseen = |_: &str, _, _, _: &Times| ();
    for (size, _, _) in SIZES {
        imports((size, 1, 1), unseen);
        paths(size, 1, unseen);
    }
    for (count, _, _) in &SIZES[..2] {
        DIRECTORIES.iter().for_each(|directories| path_hashes((*count, 1, 1), directories, unseen));
    }
}

/// Prints the table: nanoseconds for a name of an import, for a directory that is hashed, and for a path.
pub fn table() {
    println!("| call | kind | names, directories or files | Rust | port | port / Rust |");
    println!("|---|---|---:|---:|---:|---:|");
    for size in SIZES {
        imports(size, |kind, size, count, times| times.print("`import_filenames`", kind, size, count));
    }
    for (k, size) in SIZES.into_iter().enumerate() {
        let kinds = if k == 2 { &DIRECTORIES[..] } else { &DIRECTORIES[..1] };
        for directories in kinds {
            let print = |kind: &str, size, count, times: &Times| times.print("`all_path_hashes`", kind, size, count);
            path_hashes(size, directories, print);
        }
    }
    for (size, _, _) in SIZES {
        let print = |kind: &str, size, count, times: &Times| times.print("`file_path`", kind, size, count);
        paths(size, REPETITIONS, print);
    }
}
