//! Questions on a set, on one of its files and its whole path, also through the set's renames, and on two sets.

use std::collections::HashSet;

use bitdaemon_common::FileIndex;
use bitdaemon_core::file_storage::files_compatible;

use crate::answer::{Answer, Refusal, Value, boolean, bytes, number, one};
use crate::layout::test_file;
use crate::set::Set;

/// A question on a set as a whole.
pub enum SetQuestion {
    Name,
    NumFiles,
    TotalSize,
    SizeOnDisk,
    PieceLength,
    V2,
    Dirs,
    TextBytes,
    AllPathHashes,
    Export,
    FirstFiles,
}

/// A question on one file.
pub enum FileQuestion {
    FileName,
    FileSize,
    FileOffset,
    PadFileAt,
    FileFlags,
    Mtime,
    Root,
    FileAbsolutePath,
    InternalFilePath,
    Symlink,
    InternalSymlink,
    RenamedName,
    RenamedAbsolute,
}

/// A question on the whole path of one file, behind a save path.
pub enum PathQuestion {
    FilePath,
    FilePathHash,
    RenamedPath,
}

/// The answer to a question on a set.
pub fn on_set(set: &Set, question: &SetQuestion) -> Answer {
    let files = &set.files;
    match question {
        SetQuestion::Name => bytes(files.name()),
        SetQuestion::NumFiles => number(files.num_files()),
        SetQuestion::TotalSize => number(files.total_size()),
        SetQuestion::SizeOnDisk => number(files.size_on_disk()),
        SetQuestion::PieceLength => number(files.piece_length()),
        SetQuestion::V2 => boolean(files.v2()),
        SetQuestion::Dirs => Ok(files.paths().iter().map(|path| Value::Bytes(path.clone())).collect()),
        SetQuestion::TextBytes => number(set.text_bytes() as i128),
        SetQuestion::AllPathHashes => all_path_hashes(set),
        SetQuestion::Export => export(set),
        SetQuestion::FirstFiles => first_files(set),
    }
}

/// The hashes of a set's directories, ascending.
fn all_path_hashes(set: &Set) -> Answer {
    let mut table = HashSet::new();
    set.files.all_path_hashes(&mut table);
    let mut hashes: Vec<u32> = table.into_iter().collect();
    hashes.sort_unstable();
    if hashes.len() > set.lent.hashes {
        return Err(Refusal::NoRoom);
    }
    Ok(hashes.into_iter().map(|hash| Value::Number(hash.into())).collect())
}

/// The first file of each piece, or that the set keeps no table of them.
fn first_files(set: &Set) -> Answer {
    match set.first_files() {
        Some(files) => Ok(files.into_iter().map(|file| Value::Number(file.0.into())).collect()),
        None => one(Value::Nothing),
    }
}

/// The numbers and texts of a set's renames, ascending by number.
fn export(set: &Set) -> Answer {
    let mut renames: Vec<_> = set.renames.export_filenames(&set.files).into_iter().collect();
    renames.sort_unstable();
    Ok(renames.into_iter().flat_map(|(file, name)| [Value::Number(file.0.into()), Value::Bytes(name)]).collect())
}

/// Whether two sets are compatible, in this order.
pub fn on_two(first: &Set, second: &Set) -> Answer {
    boolean(files_compatible(&first.files, &second.files))
}

/// The answer to a question on a file, which is 11 if there is no such file.
pub fn on_file(set: &Set, question: &FileQuestion, file: FileIndex) -> Answer {
    let files = &set.files;
    test_file(files, file)?;
    match question {
        FileQuestion::FileName => bytes(files.file_name(file)),
        FileQuestion::FileSize => number(files.file_size(file)),
        FileQuestion::FileOffset => number(files.file_offset(file)),
        FileQuestion::PadFileAt => boolean(files.pad_file_at(file)),
        FileQuestion::FileFlags => number(files.file_flags(file).bits()),
        FileQuestion::Mtime => number(set.time(file)),
        FileQuestion::Root => one(Value::Root(*files.root(file).as_bytes())),
        FileQuestion::FileAbsolutePath => boolean(files.file_absolute_path(file)),
        FileQuestion::InternalFilePath => composed(set, &files.internal_file_path(file)),
        FileQuestion::Symlink => composed(set, &files.symlink(file)),
        FileQuestion::InternalSymlink => bytes(set.link_text(file).ok_or(Refusal::NoLinkText)?),
        FileQuestion::RenamedName => bytes(set.renames.file_name(files, file)),
        FileQuestion::RenamedAbsolute => boolean(set.renames.file_absolute_path(files, file)),
    }
}

/// The answer to a question on a file's path behind a save path, which is 11 if there is no such file.
pub fn on_path(set: &Set, question: &PathQuestion, file: FileIndex, save: &[u8]) -> Answer {
    test_file(&set.files, file)?;
    match question {
        PathQuestion::FilePath => composed(set, &set.files.file_path(file, save)),
        PathQuestion::FilePathHash => number(set.files.file_path_hash(file, save)),
        PathQuestion::RenamedPath => composed(set, &set.renames.file_path(&set.files, file, save)),
    }
}

/// A text that is written to what the set is lent for it, which is 10 if that is shorter.
fn composed(set: &Set, text: &[u8]) -> Answer {
    if text.len() > set.lent.output { Err(Refusal::NoRoom) } else { bytes(text) }
}
