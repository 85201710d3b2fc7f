//! What a call answers, and document 01's numbers for what is refused.

/// The values of an answer, or why there are none.
pub type Answer = Result<Vec<Value>, Refusal>;

/// A value of an answer.
pub enum Value {
    Bytes(Vec<u8>),
    Number(i128),
    Boolean(bool),
    Root([u8; 32]),
    /// The number of a file, the offset in it and the size of a slice.
    Slice(i32, i64, i64),
    /// What there is not.
    Nothing,
}

/// Document 01's refusals, each with its number.
#[derive(Clone, Copy, PartialEq, Eq)]
pub enum Refusal {
    PieceLength = 1,
    NegativeSize = 2,
    FileTooLarge = 3,
    TotalTooLarge = 4,
    NameTooLong = 5,
    BadName = 6,
    NoParent = 7,
    MissingRoot = 8,
    UnwantedRoot = 9,
    NoRoom = 10,
    NoSuchFile = 11,
    NoSuchPiece = 12,
    TooManyPieces = 13,
    OutOfRange = 14,
    NoLinkText = 15,
    NoTree = 16,
}

/// The answer of a change that was made.
pub fn done() -> Answer {
    Ok(Vec::new())
}

/// The answer of one value.
pub fn one(value: Value) -> Answer {
    Ok(vec![value])
}

pub fn bytes(bytes: &[u8]) -> Answer {
    one(Value::Bytes(bytes.to_vec()))
}

pub fn number(number: impl Into<i128>) -> Answer {
    one(Value::Number(number.into()))
}

pub fn boolean(is_so: bool) -> Answer {
    one(Value::Boolean(is_so))
}
