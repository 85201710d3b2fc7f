//! Layout answers: pieces, files at offsets and pieces, trees, and both mappings. The refusals are read from document
//! 01's table and tested in its order, 11, 13, 12, 14, 16, before the Rust is asked; 10 of `map_block` is tested after,
//! by the number of its slices. Where document 01 says that the Rust overflows or loses high bits, the exact number of
//! blocks is counted here.

use bitdaemon_common::{FileIndex, IndexRange, PeerRequest, PieceIndex, Sha256Hash};
use bitdaemon_core::file_storage::{FileSlice, FileStorage, file_piece_range_exclusive, file_piece_range_inclusive};

use crate::answer::{Answer, Refusal, Value, number};
use crate::call::MOST_LEAVES;
use crate::set::Set;

/// The most pieces of a set for which a piece number or a count of pieces is given.
const MOST_PIECES: i64 = 2_147_483_647;

/// The bytes of a block.
const BLOCK: i64 = 16384;

/// The largest size that the Rust can round up to blocks in an i32.
const MOST_ROUNDED: i32 = 2_147_467_264;

/// A question on the layout of a set.
pub enum LayoutQuestion {
    NumPieces,
    LastPiece,
    PieceRange,
    FileRange,
    BlocksPerPiece,
    FileIndexAtOffset(i64),
    FileIndexForRoot([u8; 32]),
    OnPiece(PieceQuestion, PieceIndex),
    OnFile(RowQuestion, FileIndex),
    MapBlock(PieceIndex, i64, i64),
    MapFile(FileIndex, i64, i32),
}

/// A question on one piece.
pub enum PieceQuestion {
    PieceSize,
    PieceSize2,
    BlocksInPiece2,
    FileIndexAtPiece,
    LastFileIndexAtPiece,
}

/// A question on the pieces, blocks or tree of one file.
pub enum RowQuestion {
    Exclusive,
    Inclusive,
    FilePieceRange,
    PieceIndexAtFile,
    LastPieceIndexAtFile,
    FileNumPieces,
    FileNumBlocks,
    FileFirstPieceNode,
    FileFirstBlockNode,
}

/// The answer to a question on the layout.
pub fn on_layout(set: &Set, question: &LayoutQuestion) -> Answer {
    let files = &set.files;
    match *question {
        LayoutQuestion::NumPieces => {
            test_count(files)?;
            number(files.num_pieces())
        }
        LayoutQuestion::LastPiece => {
            test_count(files)?;
            number(files.last_piece().0)
        }
        LayoutQuestion::PieceRange => {
            test_count(files)?;
            pieces(files.piece_range())
        }
        LayoutQuestion::FileRange => {
            let range = files.file_range();
            numbers([range.begin.0, range.end.0])
        }
        LayoutQuestion::BlocksPerPiece => {
            let length = files.piece_length();
            if length > MOST_ROUNDED { number(blocks(length.into())) } else { number(files.blocks_per_piece()) }
        }
        LayoutQuestion::FileIndexAtOffset(offset) => {
            if offset < 0 || offset >= files.total_size() {
                return Err(Refusal::OutOfRange);
            }
            number(files.file_index_at_offset(offset).0)
        }
        LayoutQuestion::FileIndexForRoot(root) => {
            let root = Sha256Hash::from_bytes(&root).expect("a root has 32 bytes");
            number(files.file_index_for_root(&root).0)
        }
        LayoutQuestion::OnPiece(ref question, piece) => on_piece(files, question, piece),
        LayoutQuestion::OnFile(ref question, file) => on_row(files, question, file),
        LayoutQuestion::MapBlock(piece, offset, size) => map_block(set, piece, offset, size),
        LayoutQuestion::MapFile(file, offset, size) => map_file(files, file, offset, size),
    }
}

fn on_piece(files: &FileStorage, question: &PieceQuestion, piece: PieceIndex) -> Answer {
    test_count(files)?;
    test_piece(files, piece)?;
    match question {
        PieceQuestion::PieceSize => number(files.piece_size(piece)),
        PieceQuestion::PieceSize2 => number(files.piece_size2(piece)),
        PieceQuestion::BlocksInPiece2 => {
            let size = files.piece_size2(piece);
            if size > MOST_ROUNDED { number(blocks(size.into())) } else { number(files.blocks_in_piece2(piece)) }
        }
        PieceQuestion::FileIndexAtPiece => number(files.file_index_at_piece(piece).0),
        PieceQuestion::LastFileIndexAtPiece => number(files.last_file_index_at_piece(piece).0),
    }
}

fn on_row(files: &FileStorage, question: &RowQuestion, file: FileIndex) -> Answer {
    test_file(files, file)?;
    match question {
        RowQuestion::Exclusive => {
            test_count(files)?;
            pieces(file_piece_range_exclusive(files, file))
        }
        RowQuestion::Inclusive => {
            test_count(files)?;
            pieces(file_piece_range_inclusive(files, file))
        }
        RowQuestion::FilePieceRange => {
            test_count(files)?;
            test_tree(files, file)?;
            let range = files.file_piece_range(file);
            numbers([range.begin, range.end])
        }
        RowQuestion::PieceIndexAtFile => {
            test_count(files)?;
            number(files.piece_index_at_file(file).0)
        }
        RowQuestion::LastPieceIndexAtFile => {
            test_count(files)?;
            number(files.last_piece_index_at_file(file).0)
        }
        RowQuestion::FileNumPieces => {
            test_count(files)?;
            test_tree(files, file)?;
            number(files.file_num_pieces(file))
        }
        RowQuestion::FileNumBlocks => {
            test_tree(files, file)?;
            let exact = blocks(files.file_size(file));
            if exact > i64::from(i32::MAX) { number(exact) } else { number(files.file_num_blocks(file)) }
        }
        RowQuestion::FileFirstPieceNode => {
            test_tree(files, file)?;
            test_leaves(rounded_up(files.file_size(file), files.piece_length().into()))?;
            number(files.file_first_piece_node(file) as i128)
        }
        RowQuestion::FileFirstBlockNode => {
            test_tree(files, file)?;
            test_leaves(blocks(files.file_size(file)))?;
            number(files.file_first_block_node(file) as i128)
        }
    }
}

fn map_block(set: &Set, piece: PieceIndex, offset: i64, size: i64) -> Answer {
    let files = &set.files;
    test_count(files)?;
    test_piece(files, piece)?;
    test_range(offset, size)?;
    let slices = files.map_block(piece, offset, size);
    if slices.len() > set.lent.slices {
        return Err(Refusal::NoRoom);
    }
    let mut values = vec![Value::Number(slices.len() as i128)];
    values
        .extend(slices.iter().map(|&FileSlice { file_index, offset, size }| Value::Slice(file_index.0, offset, size)));
    Ok(values)
}

fn map_file(files: &FileStorage, file: FileIndex, offset: i64, size: i32) -> Answer {
    test_file(files, file)?;
    test_count(files)?;
    test_range(offset, size.into())?;
    let PeerRequest { piece, start, length } = files.map_file(file, offset, size);
    numbers([piece.0, start, length])
}

fn numbers<const N: usize>(numbers: [i32; N]) -> Answer {
    Ok(numbers.into_iter().map(|n| Value::Number(n.into())).collect())
}

fn pieces(range: IndexRange<PieceIndex>) -> Answer {
    numbers([range.begin.0, range.end.0])
}

/// A quotient rounded up.
fn rounded_up(n: i64, d: i64) -> i64 {
    (n + d - 1) / d
}

/// How many blocks so many bytes have.
fn blocks(bytes: i64) -> i64 {
    rounded_up(bytes, BLOCK)
}

/// How many pieces a set has, of any number.
pub fn piece_count(files: &FileStorage) -> i64 {
    rounded_up(files.total_size(), files.piece_length().into())
}

/// Refusal 11.
pub fn test_file(files: &FileStorage, file: FileIndex) -> Result<(), Refusal> {
    if file < FileIndex(0) || file >= files.end_file() { Err(Refusal::NoSuchFile) } else { Ok(()) }
}

/// Refusal 13.
fn test_count(files: &FileStorage) -> Result<(), Refusal> {
    if piece_count(files) > MOST_PIECES { Err(Refusal::TooManyPieces) } else { Ok(()) }
}

/// Refusal 12.
fn test_piece(files: &FileStorage, piece: PieceIndex) -> Result<(), Refusal> {
    if (0..piece_count(files)).contains(&piece.0.into()) { Ok(()) } else { Err(Refusal::NoSuchPiece) }
}

/// Refusal 14, for an offset in a piece or a file.
fn test_range(offset: i64, size: i64) -> Result<(), Refusal> {
    if offset < 0 || size < 0 || offset > FileStorage::MAX_FILE_OFFSET { Err(Refusal::OutOfRange) } else { Ok(()) }
}

/// Refusal 16: a nonempty pad, or a nonempty file off a piece start.
fn test_tree(files: &FileStorage, file: FileIndex) -> Result<(), Refusal> {
    let is_off = files.file_offset(file) % i64::from(files.piece_length()) != 0;
    if files.file_size(file) > 0 && (files.pad_file_at(file) || is_off) { Err(Refusal::NoTree) } else { Ok(()) }
}

/// Refusal 16: the node of a file with no leaves, or with too many.
fn test_leaves(leaves: i64) -> Result<(), Refusal> {
    if leaves == 0 || leaves > MOST_LEAVES as i64 { Err(Refusal::NoTree) } else { Ok(()) }
}
