//! A call's answer from the Rust. Calls on paths, hashes and widths are answered here, calls on sets in
//! sets.rs, set.rs, questions.rs and layout.rs. Where document 01 has a refusal the Rust isn't asked if a debug assertion
//! would fire there.

use bitdaemon_common::crc32c::crc32c;
use bitdaemon_core::merkle::merkle_num_leafs;
use bitdaemon_core::path::{
    append_path, combine_path, filename, has_parent_path, is_complete, lsplit_path, lsplit_path_at, rsplit_path,
};

use crate::answer::{Answer, Refusal, Value, boolean, bytes, number};
use crate::layout;
use crate::parse::Call;
use crate::questions;
use crate::sets::Sets;

/// The most leaves of a tree, from document 01's table.
pub const MOST_LEAVES: usize = 1_073_741_823;

/// The answer to a call, or nothing if it speaks of a set that was never opened.
pub fn answer(call: &Call, sets: &mut Sets) -> Option<Answer> {
    Some(match call {
        Call::Rsplit(path) => two(rsplit_path(path)),
        Call::Lsplit(path) => two(lsplit_path(path)),
        Call::LsplitAt(path, place) => two(lsplit_path_at(path, *place)),
        Call::HasParent(path) => boolean(has_parent_path(path)),
        Call::IsComplete(path) => boolean(is_complete(path)),
        Call::Filename(path) => bytes(filename(path)),
        Call::Append(branch, leaf) => bytes(&appended(branch, leaf)),
        Call::Combine(left, right) => bytes(&combine_path(left, right)),
        Call::Crc(bytes) => number(crc32c(bytes)),
        Call::Width(leaves) => width(*leaves),
        Call::Open(piece_length, room, lent) => sets.open(*piece_length, *room, *lent),
        Call::Use(place) => sets.turn_to(*place),
        Call::Reset => sets.reset(),
        Call::Add(addition) => sets.current()?.add(addition),
        Call::Trim => sets.current()?.trim(),
        Call::Clean => sets.current()?.clean(),
        Call::Rename(file, name) => sets.current()?.rename(*file, name),
        Call::Import(names) => sets.current()?.import(names),
        Call::AskSet(question) => questions::on_set(sets.current()?, question),
        Call::AskFile(question, file) => questions::on_file(sets.current()?, question, *file),
        Call::AskPath(question, file, save) => questions::on_path(sets.current()?, question, *file, save),
        Call::Compatible(first, second) => questions::on_two(sets.at(*first)?, sets.at(*second)?),
        Call::AskLayout(question) => layout::on_layout(sets.current()?, question),
    })
}

fn two((first, second): (&[u8], &[u8])) -> Answer {
    Ok(vec![Value::Bytes(first.to_vec()), Value::Bytes(second.to_vec())])
}

fn appended(branch: &[u8], leaf: &[u8]) -> Vec<u8> {
    let mut path = branch.to_vec();
    append_path(&mut path, leaf);
    path
}

fn width(leaves: usize) -> Answer {
    if leaves == 0 || leaves > MOST_LEAVES {
        return Err(Refusal::NoTree);
    }
    number(merkle_num_leafs(leaves) as i128)
}
