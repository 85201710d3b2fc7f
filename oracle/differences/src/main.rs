//! Compares two programs' answers to a script: `differences SCRIPT WANTED GIVEN`. Prints on one line how many calls
//! of each name were compared and how many answers differ, and the first few of those; the exit status is 1 if any does.

use std::collections::BTreeMap;
use std::fs;
use std::io::{self, Write};
use std::process::ExitCode;

/// How many differences are shown.
const SHOWN: usize = 5;

/// How much of a line is shown.
const WIDTH: usize = 300;

/// Counts over a comparison, and the calls that were answered differently.
#[derive(Default)]
struct Comparison<'a> {
    counts: BTreeMap<&'a str, usize>,
    differences: usize,
    first: Vec<[&'a [u8]; 3]>,
}

fn main() -> ExitCode {
    let names: Vec<String> = std::env::args().skip(1).collect();
    let [script, wanted, given] = names.as_slice() else {
        eprintln!("usage: differences SCRIPT WANTED GIVEN");
        return ExitCode::from(2);
    };
    match run(script, wanted, given) {
        Ok(differences) => ExitCode::from(u8::from(differences > 0)),
        Err(error) => {
            eprintln!("differences: {error}");
            ExitCode::from(2)
        }
    }
}

/// Compares the three files, prints the report and gives the number of differences.
fn run(script: &str, wanted: &str, given: &str) -> io::Result<usize> {
    let (script, wanted, given) = (fs::read(script)?, fs::read(wanted)?, fs::read(given)?);
    let comparison = compare(&script, &wanted, &given);
    io::stdout().write_all(report(&comparison).as_bytes())?;
    Ok(comparison.differences)
}

/// The lines of a text; a line feed at its end begins none.
fn lines(text: &[u8]) -> impl Iterator<Item = &[u8]> {
    text.split_inclusive(|&c| c == b'\n').map(|line| line.strip_suffix(b"\n").unwrap_or(line))
}

/// Whether a line of a script gives an answer.
fn is_call(line: &&[u8]) -> bool {
    line.first() != Some(&b'#') && line.iter().any(|&c| c != b' ')
}

/// Compares answer by answer; one that is missing or too many differs from every answer.
fn compare<'a>(script: &'a [u8], wanted: &'a [u8], given: &'a [u8]) -> Comparison<'a> {
    let mut comparison = Comparison::default();
    let (mut calls, mut wanted, mut given) = (lines(script).filter(is_call), lines(wanted), lines(given));
    loop {
        match (calls.next(), wanted.next(), given.next()) {
            (None, None, None) => return comparison,
            (call, wanted, given) => comparison.take(call, wanted, given),
        }
    }
}

impl<'a> Comparison<'a> {
    fn take(&mut self, call: Option<&'a [u8]>, wanted: Option<&'a [u8]>, given: Option<&'a [u8]>) {
        *self.counts.entry(name(call, wanted)).or_default() += 1;
        if call.is_none() || wanted.is_none() || wanted != given {
            self.differences += 1;
            if self.first.len() < SHOWN {
                self.first.push([call, wanted, given].map(|line| line.unwrap_or(b"(no line)")));
            }
        }
    }
}

/// The name under which a call is counted: its first word, or `badcall` if it is none.
fn name<'a>(call: Option<&'a [u8]>, wanted: Option<&[u8]>) -> &'a str {
    let word = call.and_then(|line| line.split(|&c| c == b' ').find(|word| !word.is_empty()));
    match word.map(str::from_utf8) {
        Some(Ok(word)) if wanted != Some(b"badcall") => word,
        _ => "badcall",
    }
}

/// The counts on one line, and the first differences below it.
fn report(comparison: &Comparison) -> String {
    let total: usize = comparison.counts.values().sum();
    let counts: Vec<String> = comparison.counts.iter().map(|(name, n)| format!("{name} {n}")).collect();
    let mut text = format!("{}: {total} calls, {} differences\n", counts.join(", "), comparison.differences);
    for [call, wanted, given] in &comparison.first {
        text += &format!("call   {}\nwanted {}\ngiven  {}\n", shown(call), shown(wanted), shown(given));
    }
    text
}

/// The start of a line, with bytes that can't be shown escaped.
fn shown(line: &[u8]) -> String {
    let start = line[..line.len().min(WIDTH)].escape_ascii().to_string();
    if line.len() > WIDTH { format!("{start}... ({} bytes)", line.len()) } else { start }
}
