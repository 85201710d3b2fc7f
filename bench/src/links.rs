//! `sanitize_symlinks` of the unchanged Rust and of the port on the same sets; flags, texts and times are compared
//! afterwards. A refusal must leave all that was lent as it was.

use std::time::{Duration, Instant};

use bitdaemon_core::file_storage::{FileFlags, FileStorage};

use crate::compare;
use crate::inputs::PIECE_LENGTH;
use crate::port::{Addition, Set};

/// How many links, how many cleanings are timed together, and how often.
const SIZES: [(usize, usize, usize); 4] = [(0, 1000, 50), (100, 50, 50), (1_000, 2, 20), (10_000, 1, 3)];

const SYMLINK: u8 = 8;

/// The times of files, in turn.
const TIMES: [i64; 5] = [1_700_000_000, 0, -1, i64::MIN, i64::MAX];

/// Files, links to directories, and links of four kinds in turn: to a file, to a link beside it, to a file through a link, and to
/// nothing in the set.
fn additions(links: usize) -> Vec<Addition> {
    let file = |i: usize| format!("set/dir{}/name{i:06}.wav", i % 8);
    let link = |path: String, text: String| Addition {
        path: path.into_bytes(),
        link: text.into_bytes(),
        flags: SYMLINK,
        ..Addition::default()
    };
    let files = (0..1_000).map(|i| Addition { path: file(i).into_bytes(), size: 7, ..Addition::default() });
    let ways = (0..links.min(8)).map(|i| link(format!("set/links/way{i}"), format!("set/dir{i}")));
    let others = (8..links.max(8)).map(|i| {
        let text = match i % 4 {
            0 => file(i % 1_000),
            1 => format!("link{:06}", i - 1),
            2 => format!("set/links/way{}/name{:06}.wav", i % 8, i % 1_000),
            _ => format!("set/none/link{i:06}"),
        };
        link(format!("set/links/link{i:06}"), text)
    });
    let timed = |(i, a): (usize, Addition)| Addition { time: TIMES[i % TIMES.len()], ..a };
    files.chain(ways).chain(others).enumerate().map(timed).collect()
}

/// The sets before a cleaning, with room for each link's own path, and the times that were given.
fn sets(links: usize) -> (FileStorage, Vec<i64>, Set) {
    let all = additions(links);
    let text = all.iter().map(|a| 2 * a.path.len() + a.link.len() + 8).sum::<usize>() + 64;
    let mut port = Set::new(all.len(), 16, text).with_table(1);
    let mut rust = FileStorage::new();
    rust.set_piece_length(PIECE_LENGTH);
    for a in &all {
        assert_eq!(port.add(a), 0, "the port refuses");
        let answer = rust.add_file(None, &a.path, a.size, FileFlags::from_bits(a.flags), a.time, &a.link, None);
        assert!(answer.is_ok(), "the Rust refuses");
    }
    (rust, all.iter().map(|a| a.time).collect(), port)
}

/// The best times of so many cleanings by the Rust and by the port.
fn run(links: usize, count: usize, repetitions: usize) -> (Duration, Duration) {
    let (rust, times, mut port) = sets(links);
    port.mark_otherwise();
    let (mut best_rust, mut best_port) = (Duration::MAX, Duration::MAX);
    for _ in 0..repetitions {
        let mut cleaned = vec![rust.clone(); count];
        let start = Instant::now();
        cleaned.iter_mut().for_each(FileStorage::sanitize_symlinks);
        best_rust = best_rust.min(start.elapsed());
        let mut ours = vec![port.clone(); count];
        let mut work = port.work_space(7);
        let start = Instant::now();
        for set in &mut ours {
            assert_eq!(set.sanitize_symlinks(&mut work), 0, "the cleaning is refused");
        }
        best_port = best_port.min(start.elapsed());
        assert!(work == port.work_space(0), "the work space is not cleared");
        assert!(ours[0].is_marked_plainly(true), "whether there is a table");
        compare::compare(&cleaned[0], &times, &ours[0]);
        compare::compare_times(&cleaned[0], &times);
        compare::compare_links(&cleaned[0], &ours[0]);
    }
    (best_rust, best_port)
}

/// Cleans a set of each size but the largest on both sides, and asks the port for cleanings that are refused.
pub fn check() {
    for (links, _, _) in &SIZES[..3] {
        run(*links, 1, 1);
    }
    refusals();
}

/// Document 01's 10, for each part of the work space and for the text area, and 1; a refusal changes nothing that was lent.
fn refusals() {
    let mut set = Set::new(1, 1, 4).with_table(0);
    let link = Addition { path: b"s/d/n".to_vec(), link: b"/".to_vec(), flags: SYMLINK, ..Addition::default() };
    assert_eq!(set.add(&link), 0);
    set.mark_otherwise();
    let refused = |set: &Set, short: fn(&mut crate::port::WorkSpace), number: u32, why: &str| {
        let (mut ours, mut work, mut lent) = (set.clone(), set.work_space(7), set.work_space(7));
        short(&mut work);
        short(&mut lent);
        assert_eq!(ours.sanitize_symlinks(&mut work), number, "{why}");
        assert!(ours == *set && work == lent, "{why}: a refusal changes what was lent");
    };
    refused(&set, |work| _ = work.marks.pop(), 10, "no mark");
    refused(&set, |work| _ = work.scratch.pop(), 10, "a short scratch space");
    refused(&set, |work| _ = work.walk_path.pop(), 10, "a short walk path");
    refused(&set, |_| (), 10, "no room for the link's own path");
    set.set_piece_length(0);
    refused(&set, |_| (), 1, "no piece length");
}

/// Prints the table: microseconds for one cleaning.
pub fn table() {
    println!("| links | files besides | Rust | port | port / Rust |");
    println!("|---:|---:|---:|---:|---:|");
    for (links, count, repetitions) in SIZES {
        let (rust, port) = run(links, count, repetitions);
        let each = |time: Duration| time.as_nanos() as f64 / 1_000.0 / count as f64;
        let (rust, port) = (each(rust), each(port));
        println!("| {links} | 1000 | {rust:.1} | {port:.1} | {:.2} |", port / rust);
    }
}
