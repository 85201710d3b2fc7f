//! Stands for the module `utf8` of bitdaemon-core, which path.rs needs for `sanitize_append_path_element` alone.
//! That function isn't compared; if it were called, these would panic instead of answering.

/// Whether a character is left out of paths.
pub fn filter_path_character(_code_point: i32) -> bool {
    unreachable!("utf8 is no part of what is compared")
}

/// The first character of a text and the bytes that it takes.
pub fn parse_utf8_codepoint(_text: &[u8]) -> (i32, usize) {
    unreachable!("utf8 is no part of what is compared")
}

/// Whether a character may stand in a path.
pub fn valid_path_character(_code_point: i32) -> bool {
    unreachable!("utf8 is no part of what is compared")
}
