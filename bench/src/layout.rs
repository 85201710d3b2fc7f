//! `map_block`, `map_file` and `file_index_at_offset` of the unchanged Rust and of the port on the same sets and the same
//! questions; all answers are compared before any clock starts. A table of first files that is not true must change none.

use std::hint::black_box;
use std::time::{Duration, Instant};

use bitdaemon_common::{FileIndex, PeerRequest, PieceIndex};
use bitdaemon_core::file_storage::{FileSlice, FileStorage, calc_num_pieces};

use crate::additions::{add_port, add_rust, rust_sets};
use crate::best::{Best, STRETCH};
use crate::compare;
use crate::inputs::{self, Input, PIECE_LENGTH, Random, empty_inputs, layout_inputs};
use crate::port::{Columns, Set, Slice};

/// How many files the sets have.
const FILES: [usize; 3] = [10, 1_000, 65_000];

/// How many questions of a kind are asked: too many for a processor to remember which way each goes.
const QUESTIONS: usize = 64_000;

/// How often they are asked.
const REPETITIONS: usize = 120;

/// The size of a block, and what `map_file` is asked for.
const BLOCK: i64 = 16384;

/// The port's sets, as a row names them.
const KINDS: [(&str, fn(&Sets) -> &Set); 2] = [("", |s| &s.port), (", table", |s| &s.table)];

/// A block of a piece.
struct Block {
    piece: i32,
    offset: i64,
}

/// A place in a file.
struct Place {
    file: i32,
    offset: i64,
}

/// The places again, in the columns that `map_files` takes, a stretch at a time; and a table for a stretch's answers.
struct Lists {
    files: Vec<i32>,
    offsets: Vec<i64>,
    sizes: Vec<i32>,
    answers: Vec<u32>,
}

impl Lists {
    fn new(places: &[Place]) -> Self {
        Self {
            files: places.iter().map(|p| p.file).collect(),
            offsets: places.iter().map(|p| p.offset).collect(),
            sizes: vec![BLOCK as i32; places.len()],
            answers: vec![0; STRETCH * 4],
        }
    }

    /// Asks the port the k-th stretch of questions in one call, and gives how many there were.
    fn ask(&mut self, set: &Set, k: usize) -> i64 {
        let (from, to) = (k * STRETCH, ((k + 1) * STRETCH).min(self.files.len()));
        set.map_files(&self.files[from..to], &self.offsets[from..to], &self.sizes[from..to], &mut self.answers)
    }
}

/// The same files on both sides, the port's without a table of first files and with one, and the questions.
struct Sets {
    rust: FileStorage,
    port: Set,
    table: Set,
    blocks: Vec<Block>,
    places: Vec<Place>,
    offsets: Vec<i64>,
}

/// The sets of those files and that piece length, compared, and questions about them.
fn sets(inputs: &[Input], length: i32) -> Sets {
    let text = inputs.iter().map(|i| i.path.len()).sum::<usize>() + 64;
    let pieces = inputs::pieces(inputs, length.into());
    let mut rust = rust_sets(1, inputs.len(), false).remove(0);
    let mut port = Set::new(inputs.len(), 1, text);
    let mut table = Set::new(inputs.len(), 1, text).with_table(pieces);
    rust.set_piece_length(length);
    port.set_piece_length(length as u64);
    table.set_piece_length(length as u64);
    for input in inputs {
        add_rust(&mut rust, input);
        add_port(&mut port, input);
        add_port(&mut table, input);
    }
    rust.set_num_pieces(calc_num_pieces(&rust));
    compare::compare(&rust, &inputs::times(inputs), &port);
    compare::compare(&rust, &inputs::times(inputs), &table);
    let (blocks, places, offsets) = questions(inputs, i64::from(length));
    Sets { rust, port, table, blocks, places, offsets }
}

impl Sets {
    /// The set with tables of first files that are not true: of any numbers, too short, and of none.
    fn false_tables(&self) -> impl Iterator<Item = Set> {
        let (files, places) = (self.table.num_files() as u64, self.table.firsts().len());
        let mut random = Random::new();
        let mut any = move |n: usize| (0..n).map(|_| (random.next() % (files + 2)) as u16).collect::<Vec<u16>>();
        [any(places), any(places / 2), Vec::new()].into_iter().map(|firsts| self.table.clone().lending(firsts))
    }
}

/// Random blocks, places in files, and offsets.
fn questions(inputs: &[Input], length: i64) -> (Vec<Block>, Vec<Place>, Vec<i64>) {
    let total: i64 = inputs.iter().map(|i| i.size).sum();
    let mut random = Random::new();
    let mut below = |n: i64| (random.next() % n as u64) as i64;
    let mut blocks = Vec::new();
    let mut places = Vec::new();
    let mut offsets = Vec::new();
    for _ in 0..QUESTIONS {
        let at = below((total + BLOCK - 1) / BLOCK) * BLOCK;
        blocks.push(Block { piece: (at / length) as i32, offset: at % length });
        let file = below(inputs.len() as i64);
        places.push(Place { file: file as i32, offset: below(inputs[file as usize].size + 1) });
        offsets.push(below(total));
    }
    (blocks, places, offsets)
}

/// Asks the Rust and a set of the port every question, and compares the answers.
fn check_answers(sets: &Sets, port: &Set, columns: &mut Columns) {
    for b in &sets.blocks {
        let rust = sets.rust.map_block(PieceIndex(b.piece), b.offset, BLOCK);
        assert_eq!(port.map_block(b.piece, b.offset, BLOCK, columns), rust.len() as i64, "number of slices");
        for (i, slice) in rust.iter().enumerate() {
            let answer = (slice.file_index.0 as u64, slice.offset as u64, slice.size as u64);
            assert_eq!(columns.slice(i), answer, "slice {i}");
        }
    }
    for p in &sets.places {
        let rust = sets.rust.map_file(FileIndex(p.file), p.offset, BLOCK as i32);
        let request = port.map_file(p.file, p.offset, BLOCK as i32);
        assert_eq!(request.refusal, 0, "`map_file` is refused");
        assert_eq!((request.piece, request.start, request.length), (rust.piece.0, rust.start, rust.length), "request");
    }
    let mut lists = Lists::new(&sets.places);
    for (k, places) in sets.places.chunks(STRETCH).enumerate() {
        assert_eq!(lists.ask(port, k), places.len() as i64, "`map_files` is refused");
        for (p, answer) in places.iter().zip(lists.answers.chunks(4)) {
            let rust = sets.rust.map_file(FileIndex(p.file), p.offset, BLOCK as i32);
            assert_eq!(answer, [0, rust.piece.0 as u32, rust.start as u32, rust.length as u32], "request of a list");
        }
    }
    for &offset in &sets.offsets {
        let rust = sets.rust.file_index_at_offset(offset);
        assert_eq!(port.file_index_at_offset(offset), i64::from(rust.0), "file at an offset");
    }
}

/// Asks the Rust and a set of the port for every block, the port's slices as records, and compares the answers.
fn check_slices(sets: &Sets, port: &Set, slices: &mut [Slice]) {
    for b in &sets.blocks {
        let rust = sets.rust.map_block(PieceIndex(b.piece), b.offset, BLOCK);
        let number = port.map_block_slices(b.piece, b.offset, BLOCK, slices);
        assert_eq!(number, rust.len() as i64, "number of records");
        for (i, (slice, record)) in rust.iter().zip(&*slices).enumerate() {
            let answer = (slice.file_index.0, slice.offset, slice.size);
            assert_eq!((record.file, record.offset, record.size), answer, "record {i}");
        }
    }
}

/// The Rust behind one call, as the port is: what a caller in another crate has where the compiler does not take the
/// function into its own loop.
#[inline(never)]
fn map_block(set: &FileStorage, piece: i32, offset: i64, size: i64) -> Vec<FileSlice> {
    set.map_block(PieceIndex(piece), offset, size)
}

#[inline(never)]
fn map_file(set: &FileStorage, file: i32, offset: i64, size: i32) -> PeerRequest {
    set.map_file(FileIndex(file), offset, size)
}

#[inline(never)]
fn file_index_at_offset(set: &FileStorage, offset: i64) -> FileIndex {
    set.file_index_at_offset(offset)
}

/// Asks the questions a stretch at a time, and gives the time of each stretch.
fn stretches<Q>(questions: &[Q], mut ask: impl FnMut(usize, &[Q])) -> Vec<Duration> {
    let mut times = Vec::new();
    for (k, stretch) in questions.chunks(STRETCH).enumerate() {
        let start = Instant::now();
        ask(k, stretch);
        times.push(start.elapsed());
    }
    times
}

/// The best times of a row: the Rust as the compiler places it in the loop, the Rust behind a call, and the port.
#[derive(Default)]
struct Times {
    rust: Best,
    called: Best,
    port: Best,
}

/// Prints a row: nanoseconds for one question.
fn print(question: &str, files: usize, times: &Times) {
    let (rust, called) = (times.rust.each(QUESTIONS), times.called.each(QUESTIONS));
    let port = times.port.each(QUESTIONS);
    println!(
        "| {question} | {files} | {rust:.1} | {called:.1} | {port:.1} | {:.2} | {:.2} |",
        port / rust,
        port / called,
    );
}

/// Asks all three the same questions in turn, keeps the best times and prints their row. `port` asks the port the
/// questions of a stretch, which has a number.
fn measure_stretches<Q>(
    question: &str,
    files: usize,
    questions: &[Q],
    mut rust: impl FnMut(&Q),
    mut called: impl FnMut(&Q),
    mut port: impl FnMut(usize, &[Q]),
) {
    let mut times = Times::default();
    for _ in 0..REPETITIONS {
        times.rust.keep(stretches(questions, |_, stretch| stretch.iter().for_each(&mut rust)));
        times.called.keep(stretches(questions, |_, stretch| stretch.iter().for_each(&mut called)));
        times.port.keep(stretches(questions, &mut port));
    }
    print(question, files, &times);
}

/// The same, with the port asked one question after another.
fn measure<Q>(
    question: &str,
    files: usize,
    questions: &[Q],
    rust: impl FnMut(&Q),
    called: impl FnMut(&Q),
    mut port: impl FnMut(&Q),
) {
    measure_stretches(question, files, questions, rust, called, |_, stretch| stretch.iter().for_each(&mut port));
}

/// Measures `map_block` beside one of the port's.
fn measure_blocks(question: &str, sets: &Sets, port: impl FnMut(&Block)) {
    measure(
        question,
        sets.port.num_files(),
        &sets.blocks,
        |b| drop(black_box(sets.rust.map_block(PieceIndex(b.piece), b.offset, BLOCK))),
        |b| drop(black_box(map_block(&sets.rust, b.piece, b.offset, BLOCK))),
        port,
    );
}

/// Measures `file_index_at_offset` beside the port's.
fn measure_offsets(question: &str, sets: &Sets, port: &Set) {
    measure(
        question,
        port.num_files(),
        &sets.offsets,
        |&offset| _ = black_box(sets.rust.file_index_at_offset(offset)),
        |&offset| _ = black_box(file_index_at_offset(&sets.rust, offset)),
        |&offset| _ = black_box(port.file_index_at_offset(offset)),
    );
}

/// The sets of each size and, last, one whose files are empty but for two, and tables for the slices of a block; all
/// answers are compared.
fn checked(length: i32) -> (Vec<Sets>, Columns, Vec<Slice>) {
    let sets: Vec<Sets> = FILES
        .iter()
        .map(|&files| layout_inputs(files))
        .chain([empty_inputs(FILES[2], BLOCK)])
        .map(|inputs| sets(&inputs, length))
        .collect();
    let mut columns = Columns::new(BLOCK as usize);
    let mut slices = vec![Slice::default(); BLOCK as usize];
    for s in &sets {
        for port in [s.port.clone(), s.table.clone()].into_iter().chain(s.false_tables()) {
            check_answers(s, &port, &mut columns);
            check_slices(s, &port, &mut slices);
        }
    }
    (sets, columns, slices)
}

/// Compares all answers, with a piece length that is a power of two and with one that is not.
pub fn check() {
    checked(PIECE_LENGTH);
    checked(PIECE_LENGTH - 1);
}

/// Prints the table, for sets of that piece length.
pub fn table(length: i32) {
    println!("| question | files | Rust | Rust, called | port | port / Rust | port / called |");
    println!("|---|---:|---:|---:|---:|---:|---:|");
    let (mut sets, mut columns, mut slices) = checked(length);
    let empty = sets.pop().expect("one set more");
    for (name, set) in KINDS {
        for s in &sets {
            measure_blocks(&format!("`map_block`{name}"), s, |b| {
                _ = black_box(set(s).map_block_slices(b.piece, b.offset, BLOCK, &mut slices));
            });
        }
    }
    for (name, set) in KINDS {
        for s in &sets {
            measure_blocks(&format!("`map_block`, columns{name}"), s, |b| {
                _ = black_box(set(s).map_block(b.piece, b.offset, BLOCK, &mut columns));
            });
        }
    }
    for s in &sets {
        let mut lists = Lists::new(&s.places);
        measure_stretches(
            "`map_file`",
            s.port.num_files(),
            &s.places,
            |p| _ = black_box(s.rust.map_file(FileIndex(p.file), p.offset, BLOCK as i32)),
            |p| _ = black_box(map_file(&s.rust, p.file, p.offset, BLOCK as i32)),
            |k, _| _ = black_box(lists.ask(&s.port, k)),
        );
    }
    for s in &sets {
        measure(
            "`map_file`, a C call each",
            s.port.num_files(),
            &s.places,
            |p| _ = black_box(s.rust.map_file(FileIndex(p.file), p.offset, BLOCK as i32)),
            |p| _ = black_box(map_file(&s.rust, p.file, p.offset, BLOCK as i32)),
            |p| _ = black_box(s.port.map_file(p.file, p.offset, BLOCK as i32)),
        );
    }
    for (name, set) in KINDS {
        for s in &sets {
            measure_offsets(&format!("`file_index_at_offset`{name}"), s, set(s));
        }
    }
    for (name, set) in KINDS {
        measure_blocks(&format!("`map_block`, empty files{name}"), &empty, |b| {
            _ = black_box(set(&empty).map_block_slices(b.piece, b.offset, BLOCK, &mut slices));
        });
    }
    for (name, set) in KINDS {
        measure_offsets(&format!("`file_index_at_offset`, empty files{name}"), &empty, set(&empty));
    }
}
