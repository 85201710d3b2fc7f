//! Lines of a script: which give no output, and which call a line is. What single words stand for is in words.rs.

use bitdaemon_common::{FileIndex, PieceIndex};

use crate::layout::{LayoutQuestion, PieceQuestion, RowQuestion};
use crate::questions::{FileQuestion, PathQuestion, SetQuestion};
use crate::set::{Addition, Lent, Room, USUAL_LENT, USUAL_ROOM};
use crate::sets::SETS;
use crate::words::{Words, number};

/// A call with its arguments.
pub enum Call {
    Rsplit(Vec<u8>),
    Lsplit(Vec<u8>),
    LsplitAt(Vec<u8>, usize),
    HasParent(Vec<u8>),
    IsComplete(Vec<u8>),
    Filename(Vec<u8>),
    Append(Vec<u8>, Vec<u8>),
    Combine(Vec<u8>, Vec<u8>),
    Crc(Vec<u8>),
    Width(usize),
    Open(i32, Room, Lent),
    Use(usize),
    Reset,
    Add(Addition),
    Trim,
    Clean,
    Rename(FileIndex, Vec<u8>),
    /// Files and their names, in the line's order.
    Import(Vec<(FileIndex, Vec<u8>)>),
    AskSet(SetQuestion),
    AskFile(FileQuestion, FileIndex),
    /// A question on a file's path behind a save path.
    AskPath(PathQuestion, FileIndex, Vec<u8>),
    /// A question on the sets at two places.
    Compatible(usize, usize),
    AskLayout(LayoutQuestion),
}

/// Whether a line gives no output: it has blanks only, or begins with `#`.
pub fn is_silent(line: &[u8]) -> bool {
    line.first() == Some(&b'#') || line.iter().all(|&c| c == b' ')
}

/// The call that a line is, or nothing.
pub fn call(line: &[u8]) -> Option<Call> {
    let mut words = Words::new(line);
    let call = match words.next()? {
        b"rsplit" => Call::Rsplit(words.string()?),
        b"lsplit" => Call::Lsplit(words.string()?),
        b"lsplit_at" => Call::LsplitAt(words.string()?, words.number()?),
        b"has_parent" => Call::HasParent(words.string()?),
        b"is_complete" => Call::IsComplete(words.string()?),
        b"filename" => Call::Filename(words.string()?),
        b"append" => Call::Append(words.string()?, words.string()?),
        b"combine" => Call::Combine(words.string()?, words.string()?),
        b"crc" => Call::Crc(words.string()?),
        b"width" => Call::Width(words.number()?),
        b"open" => opening(&mut words)?,
        b"use" => Call::Use(place(&mut words)?),
        b"reset" => Call::Reset,
        b"add" => Call::Add(addition(&mut words)?),
        b"trim" => Call::Trim,
        b"clean" => Call::Clean,
        b"rename" => Call::Rename(FileIndex(words.number()?), words.string()?),
        b"import" => Call::Import(namings(&mut words)?),
        b"compat" => Call::Compatible(place(&mut words)?, place(&mut words)?),
        name => question(name, &mut words)?,
    };
    words.next().is_none().then_some(call)
}

/// The place of a set.
fn place(words: &mut Words) -> Option<usize> {
    words.number().filter(|&place| place < SETS)
}

/// A question on a set, a file, a path or the layout.
fn question(name: &[u8], words: &mut Words) -> Option<Call> {
    if let Some(question) = set_question(name) {
        return Some(Call::AskSet(question));
    }
    if let Some(question) = file_question(name) {
        return Some(Call::AskFile(question, FileIndex(words.number()?)));
    }
    if let Some(question) = path_question(name) {
        return Some(Call::AskPath(question, FileIndex(words.number()?), words.string()?));
    }
    Some(Call::AskLayout(layout_question(name, words)?))
}

fn set_question(name: &[u8]) -> Option<SetQuestion> {
    Some(match name {
        b"name" => SetQuestion::Name,
        b"num_files" => SetQuestion::NumFiles,
        b"total_size" => SetQuestion::TotalSize,
        b"size_on_disk" => SetQuestion::SizeOnDisk,
        b"piece_length" => SetQuestion::PieceLength,
        b"v2" => SetQuestion::V2,
        b"dirs" => SetQuestion::Dirs,
        b"text_bytes" => SetQuestion::TextBytes,
        b"all_path_hashes" => SetQuestion::AllPathHashes,
        b"export" => SetQuestion::Export,
        b"first_files" => SetQuestion::FirstFiles,
        _ => return None,
    })
}

fn file_question(name: &[u8]) -> Option<FileQuestion> {
    Some(match name {
        b"file_name" => FileQuestion::FileName,
        b"file_size" => FileQuestion::FileSize,
        b"file_offset" => FileQuestion::FileOffset,
        b"pad_file_at" => FileQuestion::PadFileAt,
        b"file_flags" => FileQuestion::FileFlags,
        b"mtime" => FileQuestion::Mtime,
        b"root" => FileQuestion::Root,
        b"file_absolute_path" => FileQuestion::FileAbsolutePath,
        b"internal_file_path" => FileQuestion::InternalFilePath,
        b"symlink" => FileQuestion::Symlink,
        b"internal_symlink" => FileQuestion::InternalSymlink,
        b"renamed_name" => FileQuestion::RenamedName,
        b"renamed_absolute" => FileQuestion::RenamedAbsolute,
        _ => return None,
    })
}

fn path_question(name: &[u8]) -> Option<PathQuestion> {
    Some(match name {
        b"file_path" => PathQuestion::FilePath,
        b"file_path_hash" => PathQuestion::FilePathHash,
        b"renamed_path" => PathQuestion::RenamedPath,
        _ => return None,
    })
}

fn layout_question(name: &[u8], words: &mut Words) -> Option<LayoutQuestion> {
    if let Some(question) = piece_question(name) {
        return Some(LayoutQuestion::OnPiece(question, PieceIndex(words.number()?)));
    }
    if let Some(question) = row_question(name) {
        return Some(LayoutQuestion::OnFile(question, FileIndex(words.number()?)));
    }
    Some(match name {
        b"num_pieces" => LayoutQuestion::NumPieces,
        b"last_piece" => LayoutQuestion::LastPiece,
        b"piece_range" => LayoutQuestion::PieceRange,
        b"file_range" => LayoutQuestion::FileRange,
        b"blocks_per_piece" => LayoutQuestion::BlocksPerPiece,
        b"file_index_at_offset" => LayoutQuestion::FileIndexAtOffset(words.number()?),
        b"file_index_for_root" => LayoutQuestion::FileIndexForRoot(words.root()?),
        b"map_block" | b"map_block_core" => {
            LayoutQuestion::MapBlock(PieceIndex(words.number()?), words.number()?, words.number()?)
        }
        b"map_file" => LayoutQuestion::MapFile(FileIndex(words.number()?), words.number()?, words.number()?),
        _ => return None,
    })
}

fn piece_question(name: &[u8]) -> Option<PieceQuestion> {
    Some(match name {
        b"piece_size" => PieceQuestion::PieceSize,
        b"piece_size2" => PieceQuestion::PieceSize2,
        b"blocks_in_piece2" => PieceQuestion::BlocksInPiece2,
        b"file_index_at_piece" => PieceQuestion::FileIndexAtPiece,
        b"last_file_index_at_piece" => PieceQuestion::LastFileIndexAtPiece,
        _ => return None,
    })
}

fn row_question(name: &[u8]) -> Option<RowQuestion> {
    Some(match name {
        b"exclusive" => RowQuestion::Exclusive,
        b"inclusive" => RowQuestion::Inclusive,
        b"file_piece_range" => RowQuestion::FilePieceRange,
        b"piece_index_at_file" => RowQuestion::PieceIndexAtFile,
        b"last_piece_index_at_file" => RowQuestion::LastPieceIndexAtFile,
        b"file_num_pieces" => RowQuestion::FileNumPieces,
        b"file_num_blocks" => RowQuestion::FileNumBlocks,
        b"file_first_piece_node" => RowQuestion::FileFirstPieceNode,
        b"file_first_block_node" => RowQuestion::FileFirstBlockNode,
        _ => return None,
    })
}

/// The call of a line `open LENGTH`: each kind of room at most once, in any order.
fn opening(words: &mut Words) -> Option<Call> {
    const KINDS: [&[u8]; 11] = [
        b"files", b"dirs", b"text", b"renames", b"names", b"output", b"slices", b"hashes", b"marks", b"sum", b"pieces",
    ];
    let piece_length = words.number()?;
    let mut named = [None; KINDS.len()];
    while let Some(word) = words.next() {
        let sign = word.iter().position(|&c| c == b'=')?;
        let kind = KINDS.iter().position(|&name| name == &word[..sign])?;
        if named[kind].replace(number(&word[sign + 1..])?).is_some() {
            return None;
        }
    }
    let [files, directories, text, renames, names, output, slices, hashes, marks, sum, pieces] = named;
    let room = Room {
        files: files.unwrap_or(USUAL_ROOM.files),
        directories: directories.unwrap_or(USUAL_ROOM.directories),
        text: text.unwrap_or(USUAL_ROOM.text),
    };
    let lent = Lent {
        renames: renames.unwrap_or(USUAL_LENT.renames),
        names: names.unwrap_or(USUAL_LENT.names),
        output: output.unwrap_or(USUAL_LENT.output),
        slices: slices.unwrap_or(USUAL_LENT.slices),
        hashes: hashes.unwrap_or(USUAL_LENT.hashes),
        marks: marks.unwrap_or(USUAL_LENT.marks),
        sum: sum.unwrap_or(USUAL_LENT.sum),
        pieces,
    };
    Some(Call::Open(piece_length, room, lent))
}

/// The rest of a line `import`: pairs of a file and a name, or none.
fn namings(words: &mut Words) -> Option<Vec<(FileIndex, Vec<u8>)>> {
    let mut pairs = Vec::new();
    while let Some(word) = words.next() {
        pairs.push((FileIndex(number(word)?), words.string()?));
    }
    Some(pairs)
}

/// The words behind `add`: NAME PATH SIZE FLAGS MTIME LINK ROOT.
fn addition(words: &mut Words) -> Option<Addition> {
    Some(Addition {
        name: words.optional_string()?,
        path: words.string()?,
        size: words.number()?,
        flags: words.number()?,
        time: words.number()?,
        link: words.string()?,
        root: words.optional_root()?,
    })
}
