//! Answers calls in a script's form from the Rust, unchanged but for the line that ends a walk (oracle/README.md).
//! Reading a line is in parse.rs and words.rs, calling the Rust in call.rs and the files that it names, writing an answer
//! in print.rs.

mod answer;
mod call;
mod layout;
mod parse;
mod print;
mod questions;
mod set;
mod sets;
mod words;

pub use answer::Refusal;
pub use bitdaemon_common::FileIndex;
pub use layout::piece_count;
pub use set::{Addition, Room, Set, USUAL_LENT, USUAL_ROOM};
pub use sets::{SETS, Sets};

/// Writes the answer to a line behind `text`; a line of blanks and a comment have none.
pub fn answer(line: &[u8], sets: &mut Sets, text: &mut Vec<u8>) {
    if !parse::is_silent(line) {
        let answer = parse::call(line).and_then(|c| call::answer(&c, sets));
        print::answer(answer.as_ref(), text);
    }
}
