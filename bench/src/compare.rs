//! Compares what both sides built; a difference ends the program.

use bitdaemon_common::FileIndex;
use bitdaemon_core::file_storage::FileStorage;

use crate::port::Set;

/// The counts, the totals, the set's name, the directories, each file's row, name, time and root, and the first file of
/// each piece. The times are those that additions gave, also where the Rust has others after a trim.
pub fn compare(rust: &FileStorage, times: &[i64], port: &Set) {
    assert_eq!(rust.num_files() as usize, port.num_files(), "number of files");
    assert_eq!(rust.total_size() as u64, port.total_size(), "total size");
    assert_eq!(rust.size_on_disk() as u64, port.size_on_disk(), "size on disk");
    assert_eq!(times.len(), port.num_files(), "number of times given");
    assert_eq!(rust.v2(), port.v2(), "v2");
    assert_eq!(rust.name(), port.name(), "the set's name");
    assert_eq!(rust.paths().len(), port.num_paths(), "number of directories");
    for (i, path) in rust.paths().iter().enumerate() {
        assert_eq!(path, port.directory(i), "directory {i}");
    }
    for i in 0..port.num_files() {
        let (file, row) = (FileIndex(i as i32), port.row(i));
        assert_eq!(rust.file_offset(file) as u64, row.offset, "offset of file {i}");
        assert_eq!(rust.file_size(file) as u64, row.size, "size of file {i}");
        assert_eq!(rust.file_name(file), port.part(row.name.0, row.name.1), "name of file {i}");
        assert_eq!(rust.pad_file_at(file), row.flags & 1 == 1, "pad of file {i}");
        assert_eq!(times[i], row.time, "time of file {i}");
        assert_eq!(rust.root(file).as_bytes(), port.root(i), "root of file {i}");
    }
    compare_firsts(rust, port);
}

/// The first file of each piece, counted off the Rust's sizes, in a set that keeps a table of them.
fn compare_firsts(rust: &FileStorage, port: &Set) {
    if !port.has_table() {
        return;
    }
    let (mut piece, mut start, mut end) = (0, 0, 0);
    for i in 0..rust.num_files() {
        end += rust.file_size(FileIndex(i));
        while start < end {
            assert_eq!(i32::from(port.firsts()[piece]), i, "first file of piece {piece}");
            start += i64::from(rust.piece_length());
            piece += 1;
        }
    }
}

/// An addition leaves every byte of the text area that neither held text before nor holds it after.
pub fn compare_text(before: &Set, after: &Set) {
    let (was, is) = (before.held(), after.held());
    for (k, (old, new)) in before.text().iter().zip(after.text()).enumerate() {
        assert!(was[k] || is[k] || old == new, "byte {k} of the text area, which holds no text");
    }
}

/// The flags that an addition gives, and the link texts held.
pub fn compare_links(rust: &FileStorage, port: &Set) {
    for i in 0..port.num_files() {
        let (file, row) = (FileIndex(i as i32), port.row(i));
        assert_eq!(u64::from(rust.file_flags(file).bits()), row.flags & 15, "flags of file {i}");
        let holds = row.flags & 16 != 0;
        assert_eq!(!rust.symlink(file).is_empty(), holds, "whether file {i} holds a link text");
        if holds {
            assert_eq!(rust.internal_symlink(file), port.part(row.link.0, row.link.1), "link text of file {i}");
        }
    }
}

/// The times that additions gave, beside the Rust's: both are the same until a trim has removed a pad.
pub fn compare_times(rust: &FileStorage, times: &[i64]) {
    for (i, &time) in times.iter().enumerate() {
        assert_eq!(rust.mtime(FileIndex(i as i32)), time, "the Rust's time of file {i}");
    }
}

/// The same once the pad at the end is removed, if there is one, and its time; says whether there was one.
pub fn compare_trimmed(rust: &mut FileStorage, times: &mut Vec<i64>, port: &mut Set) -> bool {
    let last = (0..rust.num_files()).rev().find(|&i| rust.file_size(FileIndex(i)) > 0);
    let pad = last.filter(|&i| rust.pad_file_at(FileIndex(i)));
    if let Some(i) = pad {
        times.remove(i as usize);
    }
    rust.remove_tail_padding();
    let has_table = port.has_table();
    port.mark_otherwise();
    assert_eq!(port.remove_tail_padding(), 0, "the trim is refused");
    assert!(port.is_marked_plainly(has_table), "whether there is a table");
    compare(rust, times, port);
    pad.is_some()
}
