//! Measures the unchanged Rust and the port on the same inputs, and compares all that both built and answered.
//! Prints tables in Markdown: `add` that of additions, `layout` that of questions, `links` that of cleanings, `names`
//! that of imports, path hashes and paths through renames, no word all. A number after `layout` is the piece length of
//! its sets. `check` only compares.

mod additions;
mod best;
mod calls;
mod compare;
mod inputs;
mod layout;
mod links;
mod names;
mod port;
mod renaming;

fn main() {
    match std::env::args().nth(1).as_deref() {
        Some("add") => additions::table(),
        Some("layout") => layout::table(piece_length()),
        Some("links") => links::table(),
        Some("names") => names::table(),
        Some("check") => {
            additions::check();
            layout::check();
            calls::check();
            links::check();
            names::check();
            println!("The C interface and the Rust: no difference");
        }
        None => {
            additions::table();
            println!();
            layout::table(inputs::PIECE_LENGTH);
            println!();
            links::table();
            println!();
            names::table();
        }
        Some(word) => {
            eprintln!("{word}: add, layout, links, names, check, or no word for all tables");
            std::process::exit(2);
        }
    }
}

/// The piece length that the second word gives.
fn piece_length() -> i32 {
    match std::env::args().nth(2) {
        None => inputs::PIECE_LENGTH,
        Some(word) => match word.parse() {
            Ok(length) if length > 0 => length,
            _ => {
                eprintln!("{word}: a piece length from 1 to 2147483647");
                std::process::exit(2);
            }
        },
    }
}
