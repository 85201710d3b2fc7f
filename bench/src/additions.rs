//! `add_file` of the unchanged Rust and of the port on the same additions, without a table of first files and with one;
//! all that both built is compared.

use std::time::{Duration, Instant};

use bitdaemon_core::file_storage::{FileFlags, FileStorage};

use crate::best::{Best, STRETCH};
use crate::compare;
use crate::inputs::{self, Case, Input, PIECE_LENGTH};
use crate::port::Set;

/// So many files, so many sets at a time, and so many repetitions.
const SIZES: [(usize, usize, usize); 3] = [(10, 400, 400), (1_000, 8, 400), (65_000, 1, 60)];

/// Runs `add` for each addition to each set, and gives the time of each stretch.
fn stretches<S>(sets: &mut [S], inputs: &[Input], add: impl Fn(&mut S, &Input)) -> Vec<Duration> {
    let mut times = Vec::new();
    for group in sets.chunks_mut(STRETCH.div_ceil(inputs.len())) {
        for stretch in inputs.chunks(STRETCH) {
            let start = Instant::now();
            for set in &mut *group {
                for input in stretch {
                    add(set, input);
                }
            }
            times.push(start.elapsed());
        }
    }
    times
}

/// The best times of a case.
#[derive(Default)]
struct Times {
    rust: Best,
    reserved: Best,
    port: Best,
    table: Best,
}

/// Sets of the Rust without files, with room for so many files if `reserved`.
pub fn rust_sets(count: usize, files: usize, reserved: bool) -> Vec<FileStorage> {
    (0..count)
        .map(|_| {
            let mut set = FileStorage::new();
            set.set_piece_length(PIECE_LENGTH);
            if reserved {
                set.reserve(files);
            }
            set
        })
        .collect()
}

/// One addition by the Rust.
pub fn add_rust(set: &mut FileStorage, i: &Input) {
    let answer = set.add_file(None, &i.path, i.size, FileFlags::NONE, i.time, &[], i.root);
    assert!(answer.is_ok(), "the Rust refuses");
}

/// One addition by the port.
pub fn add_port(set: &mut Set, i: &Input) {
    assert_eq!(set.add_file(i), 0, "the port refuses");
}

/// Runs a case: in each repetition the Rust, the Rust with `reserve`, the port without and with a table of first files,
/// and the comparison.
fn run(case: Case, sets: usize, repetitions: usize) -> Times {
    let inputs = inputs::inputs(case);
    let given = inputs::times(&inputs);
    let text = inputs.iter().map(|i| i.path.len() + 8).sum::<usize>() + 64;
    let pieces = inputs::pieces(&inputs, PIECE_LENGTH.into());
    let empty = || Set::new(case.files, case.directories + 1, text);
    let mut port: Vec<Set> = (0..sets).map(|_| empty()).collect();
    let mut tables: Vec<Set> = (0..sets).map(|_| empty().with_table(pieces)).collect();
    let mut times = Times::default();
    for _ in 0..repetitions {
        let mut rust = rust_sets(sets, case.files, false);
        times.rust.keep(stretches(&mut rust, &inputs, add_rust));
        let mut reserved = rust_sets(sets, case.files, true);
        times.reserved.keep(stretches(&mut reserved, &inputs, add_rust));
        port.iter_mut().for_each(Set::clear);
        times.port.keep(stretches(&mut port, &inputs, add_port));
        tables.iter_mut().for_each(Set::clear);
        times.table.keep(stretches(&mut tables, &inputs, add_port));
        for (mut rust, ports) in rust.into_iter().zip(port.iter_mut().zip(&mut tables)) {
            let mut reserved = rust.clone();
            compare_built(&mut rust, &given, ports.0);
            compare_built(&mut reserved, &given, ports.1);
        }
    }
    times
}

/// Compares a set, and again once the pad at the end is removed.
fn compare_built(rust: &mut FileStorage, given: &[i64], port: &mut Set) {
    compare::compare(rust, given, port);
    compare::compare_times(rust, given);
    compare::compare_trimmed(rust, &mut given.to_vec(), port);
}

/// Prints a case's row of the table.
fn print(case: Case, sets: usize, times: &Times) {
    let additions = sets * case.additions();
    let (rust, reserved) = (times.rust.each(additions), times.reserved.each(additions));
    let (port, table) = (times.port.each(additions), times.table.each(additions));
    println!(
        "| {} | {} | {} | {} | {rust:.1} | {reserved:.1} | {port:.1} | {table:.1} | {:.2} | {:.2} | {:.2} |",
        if case.v2 { "v2" } else { "v1" },
        case.directories,
        if case.timed { "set" } else { "0" },
        case.files,
        port / rust,
        port / reserved,
        table / rust,
    );
}

/// Hands over each case, with how many sets of it are built at a time and how often.
fn each(mut case: impl FnMut(Case, usize, usize)) {
    for v2 in [false, true] {
        for directories in [1, 50] {
            for timed in [false, true] {
                for (files, sets, repetitions) in SIZES {
                    case(Case { v2, directories, timed, files }, sets, repetitions);
                }
            }
        }
    }
}

/// Builds one set of each case on both sides, and compares them.
pub fn check() {
    each(|case, _, _| _ = run(case, 1, 1));
}

/// Prints the table: nanoseconds for one addition.
pub fn table() {
    println!(
        "| kind | directories | time | files | Rust | Rust, `reserve` | port | port, table | port / Rust | port / `reserve` \
         | table / Rust |"
    );
    println!("|---|---:|---|---:|---:|---:|---:|---:|---:|---:|---:|");
    each(|case, sets, repetitions| print(case, sets, &run(case, sets, repetitions)));
}
