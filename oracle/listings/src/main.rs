//! Compares the program `setlist` with a listing made from the Rust: `listings PROGRAM SEED COUNT` runs PROGRAM
//! on COUNT random inputs, malformed ones among them, and prints how many outputs were compared and how many differ.

mod inputs;
mod list;

use std::io::Write;
use std::process::{Command, ExitCode, Stdio};

fn main() -> ExitCode {
    let words: Vec<String> = std::env::args().skip(1).collect();
    let [program, seed, count] = words.as_slice() else {
        eprintln!("usage: listings PROGRAM SEED COUNT");
        return ExitCode::from(2);
    };
    let (Ok(seed), Ok(count)) = (seed.parse::<u64>(), count.parse::<usize>()) else {
        eprintln!("usage: listings PROGRAM SEED COUNT");
        return ExitCode::from(2);
    };
    let mut inputs = inputs::Inputs::new(seed);
    let (mut listed, mut refused, mut differ) = (0, 0, 0);
    for place in 0..count {
        let input = inputs.next(place);
        let wanted = list::listing(&input);
        let given = match run(program, &input) {
            Ok(given) => given,
            Err(error) => {
                eprintln!("{program}: {error}");
                return ExitCode::from(2);
            }
        };
        if list::is_refusal(&wanted) {
            refused += 1
        } else {
            listed += 1
        }
        if wanted != given {
            differ += 1;
            if differ <= 3 {
                println!("input:\n{}", String::from_utf8_lossy(&input));
                println!("the Rust:\n{}", String::from_utf8_lossy(&wanted));
                println!("the port:\n{}", String::from_utf8_lossy(&given));
            }
        }
    }
    println!("{listed} sets listed, {refused} refusals: {count} inputs, {differ} differences");
    if differ == 0 { ExitCode::SUCCESS } else { ExitCode::FAILURE }
}

/// What the program prints for an input.
fn run(program: &str, input: &[u8]) -> std::io::Result<Vec<u8>> {
    let mut child = Command::new(program).stdin(Stdio::piped()).stdout(Stdio::piped()).spawn()?;
    let mut stdin = child.stdin.take().expect("standard input is a pipe");
    let bytes = input.to_vec();
    // The program may stop reading early, so a closed pipe is no fault.
    let writer = std::thread::spawn(move || stdin.write_all(&bytes).is_ok());
    let output = child.wait_with_output()?;
    let _ = writer.join();
    if output.status.success() { Ok(output.stdout) } else { Err(std::io::Error::other("it failed")) }
}
