//! The listing of document 01, made from a set of the Rust. Its form is read here from the document's words; the
//! set, its refusals and its answers are the driver's.

use driver::{Addition, Room, Set, USUAL_LENT};

/// 'It has places for 400 files (pads included), 400 directories and 65536 text bytes.'
const ROOM: Room = Room { files: 400, directories: 400, text: 65_536 };

/// What is printed for an input.
pub fn listing(input: &[u8]) -> Vec<u8> {
    match listed(input) {
        Ok(set) => printed(&set),
        Err((number, line)) => format!("{number:>5}{line:>5}\n").into_bytes(),
    }
}

/// Whether a text is that of a refusal: one line of ten columns.
pub fn is_refusal(text: &[u8]) -> bool {
    text.len() == 11
}

/// The set of an input, or the number of a refusal and its line.
fn listed(input: &[u8]) -> Result<Set, (u32, usize)> {
    if input.len() > 65_536 {
        return Err((17, 0));
    }
    let mut lines: Vec<&[u8]> = input.split(|&byte| byte == b'\n').collect();
    if lines.last().is_some_and(|line| line.is_empty()) {
        lines.pop();
    }
    let (first, rest) = lines.split_first().ok_or((17, 1))?;
    let length = piece_length(first).ok_or((17, 1))?;
    let mut set = Set::open(length, ROOM, USUAL_LENT).map_err(|refusal| (refusal as u32, 1))?;
    for (place, line) in rest.iter().enumerate() {
        let addition = file(line).ok_or((17, place + 2))?;
        set.add(&addition).map_err(|refusal| (refusal as u32, place + 2))?;
    }
    if pieces(&set) > 2_147_483_647 { Err((13, lines.len())) } else { Ok(set) }
}

fn pieces(set: &Set) -> i64 {
    let length = i64::from(set.files.piece_length());
    (set.files.total_size() + length - 1) / length
}

/// The lines of a set.
fn printed(set: &Set) -> Vec<u8> {
    let mut text = Vec::new();
    for file in set.places() {
        let files = &set.files;
        let columns = format!(
            "{:>5}{:>15}{:>15}{:>2} ",
            file.get(),
            files.file_offset(file),
            files.file_size(file),
            u8::from(files.pad_file_at(file))
        );
        text.extend_from_slice(columns.as_bytes());
        text.extend_from_slice(&files.internal_file_path(file));
        text.push(b'\n');
    }
    let files = &set.files;
    let totals =
        format!("{:>5}{:>15}{:>15}{:>10}\n", files.num_files(), files.total_size(), files.size_on_disk(), pieces(set));
    text.extend_from_slice(totals.as_bytes());
    text
}

/// 'piece length in 10 columns'; 'a piece length above 2147483647 is out of form'.
fn piece_length(line: &[u8]) -> Option<i32> {
    if line.len() == 10 { i32::try_from(number(line)?).ok() } else { None }
}

/// 'per file size in 15, blank, flags in 2 (a sum of 1, 2, 4 as above and 16 …), blank, path'.
fn file(line: &[u8]) -> Option<Addition> {
    if line.len() < 19 || line[15] != b' ' || line[18] != b' ' {
        return None;
    }
    let size = i64::try_from(number(&line[..15])?).ok()?;
    let flags = u8::try_from(number(&line[16..18])?).ok()?;
    if flags & !0b1_0111 != 0 {
        return None;
    }
    Some(Addition {
        name: None,
        path: line[19..].to_vec(),
        size,
        flags: flags & 7,
        time: 0,
        link: Vec::new(),
        root: (flags & 16 != 0).then_some([1; 32]),
    })
}

/// 'Numbers are right-justified, with no sign or leading zero'.
fn number(columns: &[u8]) -> Option<u64> {
    let blanks = columns.iter().take_while(|&&byte| byte == b' ').count();
    let digits = &columns[blanks..];
    let is_plain = digits.iter().all(u8::is_ascii_digit) && (digits.len() == 1 || digits.first() != Some(&b'0'));
    if digits.is_empty() || !is_plain { None } else { std::str::from_utf8(digits).ok()?.parse().ok() }
}
