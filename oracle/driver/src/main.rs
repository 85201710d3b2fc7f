//! Answers a script of calls on standard input from the Rust, a line for each call, in the form that `calls_main` speaks
//! too.

use std::io::{self, BufRead, BufReader, BufWriter, Write};

use driver::Sets;

const BUFFER: usize = 1 << 20;

fn main() -> io::Result<()> {
    let mut input = BufReader::with_capacity(BUFFER, io::stdin().lock());
    let mut output = BufWriter::with_capacity(BUFFER, io::stdout().lock());
    let mut sets = Sets::default();
    let mut line = Vec::new();
    let mut text = Vec::new();
    while input.read_until(b'\n', &mut line)? > 0 {
        driver::answer(line.strip_suffix(b"\n").unwrap_or(&line), &mut sets, &mut text);
        output.write_all(&text)?;
        text.clear();
        line.clear();
    }
    output.flush()
}
