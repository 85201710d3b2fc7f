//! The words of a line, and the values that they stand for. A number is in form if it is written as it would be
//! printed: decimal digits with no leading zero, no `+` and no `-0`; anything else is no number.

use std::str::FromStr;

/// The words of a line, parted by blanks.
pub struct Words<'a> {
    rest: &'a [u8],
}

impl<'a> Words<'a> {
    pub fn new(line: &'a [u8]) -> Self {
        Self { rest: line }
    }

    /// The next word, if there is one.
    pub fn next(&mut self) -> Option<&'a [u8]> {
        let start = self.rest.iter().position(|&c| c != b' ')?;
        let word = &self.rest[start..];
        let end = word.iter().position(|&c| c == b' ').unwrap_or(word.len());
        self.rest = &word[end..];
        Some(&word[..end])
    }

    /// The next word as a byte string.
    pub fn string(&mut self) -> Option<Vec<u8>> {
        string(self.next()?)
    }

    /// The next word as a number of the wanted type.
    pub fn number<N: FromStr + ToString>(&mut self) -> Option<N> {
        number(self.next()?)
    }

    /// The next word as a byte string or none.
    pub fn optional_string(&mut self) -> Option<Option<Vec<u8>>> {
        optional(self.next()?, string)
    }

    /// The next word as a root.
    pub fn root(&mut self) -> Option<[u8; 32]> {
        root(self.next()?)
    }

    /// The next word as a root or none.
    pub fn optional_root(&mut self) -> Option<Option<[u8; 32]>> {
        optional(self.next()?, root)
    }
}

/// None for `-`, else what the word stands for.
fn optional<T>(word: &[u8], read: fn(&[u8]) -> Option<T>) -> Option<Option<T>> {
    if word == b"-" { Some(None) } else { read(word).map(Some) }
}

/// The bytes that a word `:..` stands for.
fn string(word: &[u8]) -> Option<Vec<u8>> {
    let mut bytes = Vec::with_capacity(word.len());
    let mut rest = word.strip_prefix(b":")?;
    while let [c, behind @ ..] = rest {
        rest = match (*c, behind) {
            (b'%', [high, low, behind @ ..]) => {
                bytes.push(upper_digit(*high)? << 4 | upper_digit(*low)?);
                behind
            }
            (b'%', _) => return None,
            (33..=126, _) => {
                bytes.push(*c);
                behind
            }
            _ => return None,
        };
    }
    Some(bytes)
}

/// The root that a word is: 64 lower-case hex digits, or `*XX` with two of either case.
fn root(word: &[u8]) -> Option<[u8; 32]> {
    if let [b'*', high, low] = word {
        let digit = |c: u8| upper_digit(c).or(lower_digit(c));
        return Some([digit(*high)? << 4 | digit(*low)?; 32]);
    }
    let (pairs, []) = word.as_chunks::<2>() else { return None };
    let bytes: Option<Vec<u8>> =
        pairs.iter().map(|&[high, low]| Some(lower_digit(high)? << 4 | lower_digit(low)?)).collect();
    bytes?.try_into().ok()
}

/// The value of an upper-case hex digit.
fn upper_digit(c: u8) -> Option<u8> {
    match c {
        b'0'..=b'9' => Some(c - b'0'),
        b'A'..=b'F' => Some(c - b'A' + 10),
        _ => None,
    }
}

/// The value of a lower-case hex digit.
fn lower_digit(c: u8) -> Option<u8> {
    match c {
        b'0'..=b'9' => Some(c - b'0'),
        b'a'..=b'f' => Some(c - b'a' + 10),
        _ => None,
    }
}

/// The number that a word is, if it is one of the type and written as it would be printed.
pub fn number<N: FromStr + ToString>(word: &[u8]) -> Option<N> {
    let text = str::from_utf8(word).ok()?;
    let number: N = text.parse().ok()?;
    (number.to_string() == text).then_some(number)
}
