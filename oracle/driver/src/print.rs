//! Answers as lines: `ok` and the values behind it, `refused` and a number, or `badcall` for a line that is no call.

use std::io::Write;

use crate::answer::{Answer, Value};

const HEX: &[u8; 16] = b"0123456789ABCDEF";

/// Writes an answer's line behind `text`.
pub fn answer(answer: Option<&Answer>, text: &mut Vec<u8>) {
    match answer {
        Some(Ok(values)) => {
            text.extend_from_slice(b"ok");
            for v in values {
                text.push(b' ');
                value(v, text);
            }
        }
        Some(Err(refusal)) => {
            text.extend_from_slice(b"refused ");
            number(*refusal as i128, text);
        }
        None => text.extend_from_slice(b"badcall"),
    }
    text.push(b'\n');
}

fn value(value: &Value, text: &mut Vec<u8>) {
    match value {
        Value::Bytes(bytes) => string(bytes, text),
        Value::Number(n) => number(*n, text),
        Value::Boolean(b) => text.push(if *b { b'1' } else { b'0' }),
        Value::Root(bytes) => root(bytes, text),
        Value::Slice(file, offset, size) => slice(*file, *offset, *size, text),
        Value::Nothing => text.push(b'-'),
    }
}

fn number(number: i128, text: &mut Vec<u8>) {
    write!(text, "{number}").expect("a Vec takes what is written");
}

/// `:` and the bytes, all but graphic ASCII and `%` itself as `%XX`.
fn string(bytes: &[u8], text: &mut Vec<u8>) {
    text.push(b':');
    for &c in bytes {
        if c == b'%' || !(33..=126).contains(&c) {
            text.extend_from_slice(&[b'%', HEX[usize::from(c >> 4)], HEX[usize::from(c & 15)]]);
        } else {
            text.push(c);
        }
    }
}

/// `file:offset:size`.
fn slice(file: i32, offset: i64, size: i64, text: &mut Vec<u8>) {
    write!(text, "{file}:{offset}:{size}").expect("a Vec takes what is written");
}

/// The bytes in lower-case hex.
fn root(bytes: &[u8; 32], text: &mut Vec<u8>) {
    for c in bytes {
        write!(text, "{c:02x}").expect("a Vec takes what is written");
    }
}
