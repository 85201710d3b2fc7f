//! Additions with given names, link texts, flags and times, trims, layout questions, and refused calls, on both sides:
//! what is refused is compared by document 01's number, and must leave all that is lent as it was; what is built is
//! compared by its rows. 2, 6 and 7, where the Rust has assertions, and 1 and 10 to 14, where it has no counterpart, are
//! those that document 01's words ask for; times are those that the additions gave. A set keeps a table of first files,
//! or is lent one that it does not keep, or none; tables that are not true must change no answer. After each addition
//! names are imported, and paths through renames and the hashes of all paths are asked for (renaming.rs).

use bitdaemon_common::{FileIndex, PieceIndex, Sha256Hash};
use bitdaemon_core::Error;
use bitdaemon_core::error::TorrentError;
use bitdaemon_core::file_storage::{FileFlags, FileStorage, calc_num_pieces};
use bitdaemon_core::path::{has_parent_path, is_complete};

use crate::compare;
use crate::inputs::{PIECE_LENGTH, Random};
use crate::port::{Addition, Columns, Set, Slice};
use crate::renaming::{self, Renamed};

/// How many sets are built, and how many additions each is given at most.
const SETS: usize = 3000;
const ADDITIONS: u64 = 10;

const LIMIT: i64 = FileStorage::MAX_FILE_OFFSET;

const PATHS: [&[u8]; 14] = [
    b"s/a",
    b"s/b",
    b"s/x/a",
    b"s/x/y/b",
    b"s//c",
    b"t/a",
    b"a",
    b"/abs/a",
    b"s/",
    b"",
    b"s\\a",
    b".",
    b"s/.pad/7",
    b"s/x/",
];

const NAMES: [&[u8]; 5] = [b"", b"n", b"m/n", b"/n", b"."];

const LINKS: [&[u8]; 5] = [b"a", b"x/a", b"/etc", b"..", b"."];

const TIMES: [i64; 10] = [0, 0, 0, 1, -1, -2, i64::MIN, i64::MIN + 1, i64::MAX, i64::MAX - 1];

/// Plays random sets on both sides, and asks the port what is refused.
pub fn check() {
    let mut random = Random::new();
    for _ in 0..SETS {
        play(&mut random);
    }
    refusals();
    renaming::refusals();
}

pub fn one_of<T: Copy>(random: &mut Random, all: &[T]) -> T {
    all[(random.next() % all.len() as u64) as usize]
}

pub fn once_in(random: &mut Random, n: u64) -> bool {
    random.next() % n == 0
}

/// A random addition; at times its name has 4095 or 4096 bytes, or its size is at a limit.
fn addition(random: &mut Random, rooted: u64, rust: &FileStorage) -> Addition {
    let (length, total) = (i64::from(rust.piece_length()), rust.total_size());
    let several = length * 3 - total % length;
    let sizes =
        [0, 0, 1, 7, length, length + 1, several, LIMIT, LIMIT + 1, LIMIT - total, LIMIT - total + 1, -1, i64::MIN];
    let usual = if once_in(random, 8) { sizes.len() } else { 7 };
    let long = vec![b'n'; one_of(random, &[4095, 4096])];
    let mut path = one_of(random, &PATHS).to_vec();
    let mut name = once_in(random, 5).then(|| one_of(random, &NAMES).to_vec());
    if once_in(random, 30) {
        path = [b"s/", long.as_slice()].concat();
    } else if once_in(random, 30) {
        name = Some(long);
    }
    Addition {
        name,
        path,
        size: one_of(random, &sizes[..usual]),
        flags: if once_in(random, 3) { random.next() as u8 } else { 0 },
        time: if once_in(random, 4) { random.next() as i64 } else { one_of(random, &TIMES) },
        link: if once_in(random, 4) { one_of(random, &LINKS).to_vec() } else { Vec::new() },
        root: once_in(random, rooted).then(|| [random.next() as u8; 32]),
    }
}

/// A set's table of first files: kept, lent to a set that keeps none, or none. It may hold any numbers.
fn with_table(random: &mut Random, set: Set) -> Set {
    let places = (random.next() % 16) as usize;
    let firsts = numbers(random, 20, places);
    match random.next() % 4 {
        0 => set,
        1 => set.lending(firsts),
        _ => set.with_table(places).lending(firsts),
    }
}

/// So many random numbers of files, most of them among the first.
fn numbers(random: &mut Random, files: u64, count: usize) -> Vec<u16> {
    (0..count).map(|_| if once_in(random, 8) { random.next() } else { random.next() % files } as u16).collect()
}

/// How many pieces a set has.
fn pieces(set: &FileStorage) -> i64 {
    let length = i64::from(set.piece_length());
    (set.total_size() + length - 1) / length
}

/// An addition leaves the places of all pieces but those that it begins, and all where the set keeps no table.
fn compare_places(before: &Set, after: &Set, begun: std::ops::Range<i64>) {
    for (p, (was, is)) in before.firsts().iter().zip(after.firsts()).enumerate() {
        assert!(was == is || after.has_table() && begun.contains(&(p as i64)), "place {p} of the table");
    }
}

/// One set: additions on both sides, with trims among them and one at the end.
fn play(random: &mut Random) {
    let length = one_of(random, &[PIECE_LENGTH, PIECE_LENGTH, 10, 7, 1]);
    let mut rust = FileStorage::new();
    rust.set_piece_length(length);
    let set = Set::new(64, 64, 65536).with_text_of(random.next() as u8);
    let mut port = with_table(random, set);
    port.set_piece_length(length as u64);
    let has_table = port.has_table();
    let (mut times, mut is_trimmed) = (Vec::new(), false);
    let rooted = one_of(random, &[1, 1, 2, 1000]);
    let trims = one_of(random, &[2, 4, 1000]);
    let mut renamed = Renamed::new();
    for _ in 0..1 + random.next() % ADDITIONS {
        if once_in(random, trims) {
            is_trimmed |= compare::compare_trimmed(&mut rust, &mut times, &mut port);
        }
        let addition = addition(random, rooted, &rust);
        let mut after = rust.clone();
        let mut refusal = add(&mut after, &addition);
        let begun = pieces(&rust)..pieces(&after);
        if refusal == 0 && has_table && begun.end > port.firsts().len() as i64 {
            refusal = 10;
        }
        port.mark_otherwise();
        let before = port.clone();
        assert_eq!(port.add(&addition), refusal, "the number of the refusal");
        if refusal == 0 {
            rust = after;
            times.push(addition.time);
            times.resize(rust.num_files() as usize, 0);
            assert!(port.is_marked_plainly(has_table), "whether there is a table");
            compare_places(&before, &port, begun);
            compare::compare_text(&before, &port);
        } else {
            assert!(port == before, "a refusal changes what was lent");
        }
        rust.set_num_pieces(calc_num_pieces(&rust));
        compare::compare(&rust, &times, &port);
        compare::compare_links(&rust, &port);
        if !is_trimmed {
            compare::compare_times(&rust, &times);
        }
        let count = pieces(&rust).clamp(0, 40) as usize;
        for places in [0, count.saturating_sub(1), count, count + 3] {
            let firsts = numbers(random, port.num_files() as u64 + 2, places);
            ask(random, &rust, &port.clone().lending(firsts));
        }
        ask(random, &rust, &port);
        renamed.play(random, &rust, &port);
    }
    compare::compare_trimmed(&mut rust, &mut times, &mut port);
}

/// Random blocks, into columns and into records that may be too short, random places of files, and random offsets.
fn ask(random: &mut Random, rust: &FileStorage, port: &Set) {
    let (length, total, count) = (i64::from(rust.piece_length()), rust.total_size(), pieces(rust));
    let near = [-1, 0, 1, 7, length - 1, length, length + 1, total - 1, total, total + 1, LIMIT, LIMIT + 1];
    for _ in 0..4 {
        let piece = one_of(random, &[-1, 0, 0, 1, count - 1, count]).clamp(-1, i32::MAX.into()) as i32;
        let (offset, size) = (one_of(random, &near), one_of(random, &near));
        let places = (random.next() % 5) as usize;
        let answer = block_refusal(count, piece, offset, size).unwrap_or_else(|| {
            let slices = rust.map_block(PieceIndex(piece), offset, size);
            if slices.len() > places { -10 } else { slices.len() as i64 }
        });
        let mut columns = Columns::new(places);
        assert_eq!(port.map_block(piece, offset, size, &mut columns), answer, "`map_block`");
        let untouched = Slice { file: -7, offset: -7, size: -7 };
        let mut records = vec![untouched; places];
        assert_eq!(port.map_block_slices(piece, offset, size, &mut records), answer, "`map_block`, records");
        let filled = answer.max(0) as usize;
        if filled > 0 {
            for (i, slice) in rust.map_block(PieceIndex(piece), offset, size).into_iter().enumerate() {
                let wanted = (slice.file_index.0, slice.offset, slice.size);
                assert_eq!((records[i].file, records[i].offset, records[i].size), wanted, "record {i}");
                let column = (wanted.0 as u64, wanted.1 as u64, wanted.2 as u64);
                assert_eq!(columns.slice(i), column, "slice {i}");
            }
        }
        for record in &records[filled..] {
            assert_eq!((record.file, record.offset, record.size), (-7, -7, -7), "a record that is not asked for");
        }
        ask_file(random, rust, port, offset, size);
        let file = if (0..total).contains(&offset) { rust.file_index_at_offset(offset).0.into() } else { -14 };
        assert_eq!(port.file_index_at_offset(offset), file, "file at an offset");
    }
}

/// Document 01's number for a block, negated, in the table's order, if it is refused before any slice is made.
fn block_refusal(count: i64, piece: i32, offset: i64, size: i64) -> Option<i64> {
    if count > i32::MAX.into() {
        Some(-13)
    } else if !(0..count).contains(&piece.into()) {
        Some(-12)
    } else if offset < 0 || size < 0 || offset > LIMIT {
        Some(-14)
    } else {
        None
    }
}

/// `map_file` of a random file, or of none.
fn ask_file(random: &mut Random, rust: &FileStorage, port: &Set, offset: i64, size: i64) {
    let size = size.clamp(-1, i32::MAX.into()) as i32;
    let files = rust.num_files();
    let file = one_of(random, &[-1, 0, files / 2, files - 1, files]);
    let count = pieces(rust);
    let given = port.map_file(file, offset, size);
    let wanted = if !(0..files).contains(&file) {
        (11, 0, 0, 0)
    } else if count > i32::MAX.into() {
        (13, 0, 0, 0)
    } else if offset < 0 || size < 0 || offset > LIMIT {
        (14, 0, 0, 0)
    } else {
        let request = rust.map_file(FileIndex(file), offset, size);
        (0, request.piece.0, request.start, request.length)
    };
    assert_eq!((given.refusal, given.piece, given.start, given.length), wanted, "`map_file`");
}

/// An addition by the Rust, and its number in document 01's order; a set of another number may be in any state.
fn add(set: &mut FileStorage, addition: &Addition) -> u32 {
    if addition.size < 0 {
        return 2;
    }
    let named = name_refusal(set, addition);
    let total = set.total_size();
    let root = addition.root.map(|bytes| Sha256Hash::from_bytes(&bytes).expect("32 bytes"));
    let answer = set.add_file(
        addition.name.as_deref(),
        &addition.path,
        addition.size,
        FileFlags::from_bits(addition.flags),
        addition.time,
        &addition.link,
        root,
    );
    match answer {
        Err(Error::FileTooLarge) => 3,
        Err(Error::Torrent(TorrentError::TorrentInvalidLength)) if total + addition.size > LIMIT => 4,
        Err(Error::FilenameTooLong) => 5,
        _ if named != 0 => named,
        Err(Error::Torrent(TorrentError::TorrentMissingPiecesRoot)) => 8,
        Err(Error::Torrent(TorrentError::TorrentInconsistentFiles)) => 9,
        Err(Error::Torrent(TorrentError::TorrentInvalidLength)) => 4,
        Err(other) => unreachable!("add_file has no such error: {other:?}"),
        Ok(()) => 0,
    }
}

/// 6 or 7, where the Rust has assertions, or 0.
fn name_refusal(set: &FileStorage, addition: &Addition) -> u32 {
    let name = addition.name.as_deref().unwrap_or_default();
    if is_complete(name) || !name.is_empty() && is_complete(&addition.path) {
        6
    } else if set.num_files() > 0 && !has_parent_path(&addition.path) {
        7
    } else {
        0
    }
}

/// The refusals of the layout questions, of a set without a piece length, and of tables that are too short.
fn refusals() {
    let plain = |path: &[u8], size| Addition { path: path.to_vec(), size, ..Addition::default() };
    let mut set = Set::new(2, 2, 16).with_table(2);
    assert_eq!(set.add(&plain(b"s/a", 7)), 0);
    assert_eq!(set.add(&plain(b"s/b", i64::from(PIECE_LENGTH))), 0);
    assert_eq!(set.add(&plain(b"s/c", 1)), 10, "a third file");
    let mut columns = Columns::new(1);
    let mut slices = [Slice::default(); 1];
    for (piece, offset, size, number) in [
        (0, 0, 7, 1),
        (0, 0, 8, -10),
        (-1, 0, 1, -12),
        (2, 0, 1, -12),
        (0, -1, 1, -14),
        (0, 0, -1, -14),
        (0, LIMIT + 1, 1, -14),
        (2, -1, 1, -12),
    ] {
        assert_eq!(set.map_block(piece, offset, size, &mut columns), number, "`map_block`");
        assert_eq!(set.map_block_slices(piece, offset, size, &mut slices), number, "`map_block`, records");
    }
    for (file, offset, size, number) in [(0, 0, 1, 0), (-1, 0, 1, 11), (2, -1, 1, 11), (1, -1, 1, 14), (1, 0, -1, 14)] {
        assert_eq!(set.map_file(file, offset, size).refusal, number, "`map_file`");
    }
    let total = set.total_size() as i64;
    for (offset, number) in [(0, 0), (total - 1, 1), (total, -14), (-1, -14)] {
        assert_eq!(set.file_index_at_offset(offset), number, "`file_index_at_offset`");
    }
    let mut many = Set::new(1, 1, 8);
    many.set_piece_length(1);
    assert_eq!(many.add(&plain(b"s/a", 1 << 31)), 0);
    assert_eq!(many.map_block(0, 0, 1, &mut columns), -13, "too many pieces");
    assert_eq!(many.map_block_slices(0, 0, 1, &mut slices), -13, "too many pieces");
    assert_eq!(many.map_file(0, 0, 1).refusal, 13, "too many pieces");
    let mut short = Set::new(2, 2, 3);
    assert_eq!(short.add(&plain(b"s/abc", 1)), 10, "four bytes of text");
    assert_eq!(short.add(&plain(b"s/ab", 1)), 0, "three bytes of text");
    let length = i64::from(PIECE_LENGTH);
    let mut table = Set::new(4, 1, 16).with_table(1);
    assert_eq!(table.add(&plain(b"s/a", length)), 0, "one piece");
    table.mark_otherwise();
    let before = table.clone();
    assert_eq!(table.add(&plain(b"s/b", 1)), 10, "a second piece");
    assert!(table == before, "a refusal changes what was lent");
    assert_eq!(table.add(&plain(b"s/b", 0)), 0, "a file without bytes");
    let mut none = Set::new(4, 1, 16).lending(vec![7; 3]);
    assert_eq!(none.add(&plain(b"s/a", 5 * length)), 0, "no table is kept");
    assert_eq!(none.firsts(), [7; 3], "a table that is not kept");
    set.set_piece_length(0);
    set.mark_otherwise();
    let before = set.clone();
    assert_eq!(set.add(&plain(b"s/d", 1)), 1, "no piece length");
    assert_eq!(set.remove_tail_padding(), 1, "no piece length");
    assert_eq!(set.map_file(0, 0, 1).refusal, 1, "no piece length");
    assert!(set == before, "a refusal changes what was lent");
}
