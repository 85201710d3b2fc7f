//! Lines of a script, and words on them. A line that would be longer than every program takes is left out, and so
//! is one with other bytes than graphic ASCII and blanks where the script is to be a plain text.

use std::io::{self, Write};

/// The longest line that every program of the form takes.
const LONGEST: usize = 16384;

/// A script that is written out line by line.
pub struct Script<'a> {
    out: Box<dyn Write + 'a>,
    is_text: bool,
}

/// A word behind a call's name; a plain one stands as it is.
pub enum Word<'a> {
    Bytes(&'a [u8]),
    Number(i128),
    Plain(&'a [u8]),
}

impl<'a> Script<'a> {
    pub fn new(out: impl Write + 'a) -> Self {
        Self { out: Box::new(out), is_text: false }
    }

    /// From here on the script is a plain text.
    pub fn keep_to_text(&mut self) {
        self.is_text = true;
    }

    /// A call.
    pub fn call(&mut self, name: &str, words: &[Word]) -> io::Result<()> {
        self.line(&call(name, words))
    }

    /// Any line.
    pub fn line(&mut self, line: &[u8]) -> io::Result<()> {
        let is_taken = !self.is_text || line.iter().all(|c| (32..=126).contains(c));
        if is_short(line) && is_taken {
            self.out.write_all(line)?;
            self.out.write_all(b"\n")?;
        }
        Ok(())
    }

    pub fn finish(mut self) -> io::Result<()> {
        self.out.flush()
    }
}

/// Whether every program takes a line of that length.
pub fn is_short(line: &[u8]) -> bool {
    line.len() <= LONGEST
}

/// The line of a call.
pub fn call(name: &str, words: &[Word]) -> Vec<u8> {
    let mut line = name.as_bytes().to_vec();
    for word in words {
        line.push(b' ');
        match word {
            Word::Bytes(bytes) => string(bytes, &mut line),
            Word::Number(n) => line.extend_from_slice(n.to_string().as_bytes()),
            Word::Plain(text) => line.extend_from_slice(text),
        }
    }
    line
}

/// `:` and the bytes, all but graphic ASCII and `%` itself as `%XX`.
pub fn string(bytes: &[u8], line: &mut Vec<u8>) {
    line.push(b':');
    for &c in bytes {
        if c == b'%' || !(33..=126).contains(&c) {
            line.extend_from_slice(format!("%{c:02X}").as_bytes());
        } else {
            line.push(c);
        }
    }
}
