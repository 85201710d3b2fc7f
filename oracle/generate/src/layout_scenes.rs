//! Sets that show a corner of the layout each: the examples of document 01, limits of pieces, blocks and leaves, and
//! several files at one offset.

/// A set each: the line that opens it, and changes.
pub const SCENES: &[&[&str]] = &[
    // Nothing at all, and empty files alone.
    &["open 10"],
    &["open 1", "add - :s/a 0 0 0 : -", "add - :s/b 0 0 0 : -"],
    &["open 10", "add - :s/a 0 0 0 : *01", "add - :s/b 0 1 0 : *02"],
    // Set A, and the listing's example, with its last file's padding and without.
    &["open 10", "add - :s/a 7 0 0 : -", "add - :s/b 0 0 0 : -", "add - :s/c 15 0 0 : -", "add - :s/d 0 0 0 : -"],
    &["open 16384", "add - :s/a.wav 10000 0 0 : *01", "add - :s/b.wav 16384 0 0 : *01"],
    &["open 16384", "add - :s/a.wav 10000 0 0 : *01", "add - :s/b.wav 1 0 0 : *02", "add - :s/c 0 0 0 : *03"],
    &["open 16384", "add - :s/a.wav 10000 0 0 : *01", "add - :s/b.wav 1 0 0 : *02", "add - :s/c 0 0 0 : *03", "trim"],
    // Several files at one offset: at the start, inside, and at the end.
    &["open 3", "add - :s/a 0 0 0 : -", "add - :s/b 0 0 0 : -", "add - :s/c 4 0 0 : -", "add - :s/d 0 0 0 : -"],
    &["open 2", "add - :s/a 4 0 0 : -", "add - :s/b 0 0 0 : -", "add - :s/c 0 0 0 : -", "add - :s/d 1 0 0 : -"],
    // Pads that are given, links with and without size.
    &["open 4", "add - :s/a 3 0 0 : -", "add - :s/p 1 1 0 : -", "add - :s/b 4 0 0 : -", "add - :s/q 2 1 0 : -"],
    &["open 4", "add - :s/l 3 8 0 :t -", "add - :s/a 5 0 0 : *01", "add - :s/m 2 8 0 :t -", "add - :s/n 0 8 0 :t -"],
    // Around the most pieces, at length 1 and 2; an end of 2147483648 that becomes the begin.
    &["open 1", "add - :s/a 2147483647 0 0 : -", "add - :s/b 0 0 0 : -"],
    &["open 1", "add - :s/a 2147483648 0 0 : -", "add - :s/b 0 0 0 : -"],
    &["open 1", "add - :s/a 281474976710655 0 0 : -"],
    &[
        "open 1",
        "add - :s/z 0 0 0 : -",
        "add - :s/a 1 0 0 : -",
        "add - :s/b 2147483646 0 0 : -",
        "add - :s/c 0 0 0 : -",
    ],
    &["open 2", "add - :s/a 4294967293 0 0 : -", "add - :s/b 1 0 0 : -", "add - :s/c 0 0 0 : -"],
    &["open 2", "add - :s/a 4294967294 0 0 : -", "add - :s/b 1 0 0 : -"],
    &["open 131072", "add - :s/a 281474976710655 0 0 : -"],
    &["open 131073", "add - :s/a 281474976710655 0 0 : -"],
    // Around the most leaves of a tree: pieces, and blocks.
    &["open 1", "add - :s/a 1073741823 0 0 : *01", "add - :s/b 1073741824 0 0 : *02"],
    &["open 16384", "add - :s/a 17592186028032 0 0 : *01", "add - :s/b 17592186028033 0 0 : *02"],
    &["open 65536", "add - :s/a 17592186028032 0 0 : *01", "add - :s/b 35184372072448 0 0 : *02"],
    // Around the length at which a size can no longer be rounded up to blocks in an i32; a piece that is cut short.
    &["open 2147467264", "add - :s/a 2147467264 0 0 : -", "add - :s/b 100 0 0 : -"],
    &["open 2147467265", "add - :s/a 2147467265 0 0 : -", "add - :s/b 100 0 0 : -"],
    &["open 2147483647", "add - :s/a 2147483647 0 0 : -", "add - :s/b 100 0 0 : -", "add - :s/c 2147483600 0 0 : -"],
    &["open 2147483647", "add - :s/a 281474976710655 0 0 : -"],
    &["open 2147483647", "add - :s/a 5 0 0 : *01", "add - :s/b 2147483648 0 0 : *02"],
    // Roots: the first of several, zeros, and none.
    &["open 4", "add - :s/a 4 0 0 : *02", "add - :s/b 4 0 0 : *01", "add - :s/c 4 0 0 : *01", "add - :s/d 4 0 0 : *00"],
    &["open 4", "add - :s/a 4 0 0 : *02", "add - :s/b 3 0 0 : *00", "add - :s/c 4 0 0 : *01"],
];
