//! The port through its C interface, and the tables that are lent to it.

mod names;

pub use names::{ENTRY, Names, Renames};

use crate::inputs::{Input, PIECE_LENGTH};

unsafe extern "C" {
    /// A slice is a pointer and a length; an array, which has its length in its type, is a pointer alone.
    fn niflathen_add_file(
        state: *mut [u64; 12],
        rows: *mut u64,
        rows_len: usize,
        roots: *mut u8,
        roots_len: usize,
        firsts: *mut u16,
        firsts_len: usize,
        dirs: *mut u64,
        dirs_len: usize,
        text: *mut u8,
        text_len: usize,
        given: u8,
        filename: *const u8,
        filename_len: usize,
        path: *const u8,
        path_len: usize,
        file_size: i64,
        file_flags: u8,
        mtime: i64,
        symlink_path: *const u8,
        symlink_path_len: usize,
        rooted: u8,
        root: *const [u8; 32],
    ) -> u32;

    fn niflathen_remove_tail_padding(
        state: *mut [u64; 12],
        rows: *mut u64,
        rows_len: usize,
        roots: *mut u8,
        roots_len: usize,
        dirs: *mut u64,
        dirs_len: usize,
        text: *mut u8,
        text_len: usize,
    ) -> u32;

    fn niflathen_sanitize_symlinks(
        state: *mut [u64; 12],
        rows: *mut u64,
        rows_len: usize,
        dirs: *mut u64,
        dirs_len: usize,
        text: *mut u8,
        text_len: usize,
        marks: *mut u8,
        marks_len: usize,
        scratch: *mut u8,
        scratch_len: usize,
        walk_path: *mut u8,
        walk_path_len: usize,
    ) -> u32;

    fn niflathen_map_block(
        state: *const [u64; 12],
        rows: *const u64,
        rows_len: usize,
        firsts: *const u16,
        firsts_len: usize,
        piece: i32,
        offset: i64,
        size: i64,
        out_file: *mut u64,
        out_file_len: usize,
        out_offset: *mut u64,
        out_offset_len: usize,
        out_size: *mut u64,
        out_size_len: usize,
    ) -> i64;

    fn niflathen_map_block_slices(
        state: *const [u64; 12],
        rows: *const u64,
        rows_len: usize,
        firsts: *const u16,
        firsts_len: usize,
        piece: i32,
        offset: i64,
        size: i64,
        out: *mut Slice,
        out_len: usize,
    ) -> i64;

    fn niflathen_file_index_at_offset(
        state: *const [u64; 12],
        rows: *const u64,
        rows_len: usize,
        firsts: *const u16,
        firsts_len: usize,
        offset: i64,
    ) -> i64;

    fn niflathen_map_file(
        state: *const [u64; 12],
        rows: *const u64,
        rows_len: usize,
        index: i32,
        offset: i64,
        size: i32,
    ) -> FileRequest;

    fn niflathen_map_files(
        state: *const [u64; 12],
        rows: *const u64,
        rows_len: usize,
        files: *const i32,
        files_len: usize,
        offsets: *const i64,
        offsets_len: usize,
        sizes: *const i32,
        sizes_len: usize,
        answers: *mut u32,
        answers_len: usize,
    ) -> i64;
}

/// The bit of a row's flags that says whether the file has a root.
const ROOT: u64 = 128;

/// A file as its row says it.
pub struct Row {
    pub offset: u64,
    pub size: u64,
    pub name: (usize, usize),
    pub link: (usize, usize),
    pub directory: usize,
    pub flags: u64,
    pub time: i64,
}

/// The arguments of an addition.
#[derive(Default)]
pub struct Addition {
    pub name: Option<Vec<u8>>,
    pub path: Vec<u8>,
    pub size: i64,
    pub flags: u8,
    pub time: i64,
    pub link: Vec<u8>,
    pub root: Option<[u8; 32]>,
}

/// A window of a file, as the port lays its `FileSlice`.
#[repr(C)]
#[derive(Clone, Copy, Default)]
pub struct Slice {
    pub file: i32,
    pub offset: i64,
    pub size: i64,
}

/// A request, or zeros and the number of the refusal, as the port lays its `FileRequest`.
#[repr(C)]
#[derive(Clone, Copy)]
pub struct FileRequest {
    pub refusal: u32,
    pub piece: i32,
    pub start: i32,
    pub length: i32,
}

/// The work space of a cleaning.
#[derive(PartialEq)]
pub struct WorkSpace {
    pub marks: Vec<u8>,
    pub scratch: Vec<u8>,
    pub walk_path: Vec<u8>,
}

/// The columns that `map_block` puts its slices into.
pub struct Columns {
    file: Vec<u64>,
    offset: Vec<u64>,
    size: Vec<u64>,
}

impl Columns {
    /// Columns with so many places.
    pub fn new(places: usize) -> Self {
        Self { file: vec![0; places], offset: vec![0; places], size: vec![0; places] }
    }

    /// File, offset and size of a slice.
    pub fn slice(&self, i: usize) -> (u64, u64, u64) {
        (self.file[i], self.offset[i], self.size[i])
    }
}

/// The place of the record's word that says whether the set keeps a table of first files: 0 for no.
const MARK: usize = 5;

/// A set: its record's words and its tables.
#[derive(Clone, PartialEq)]
pub struct Set {
    state: [u64; 12],
    rows: Vec<u64>,
    roots: Vec<u8>,
    firsts: Vec<u16>,
    dirs: Vec<u64>,
    text: Vec<u8>,
}

impl Set {
    /// A set without files, with tables of zeros for so many files, directories and bytes of text. It keeps no table of
    /// first files, and is lent none.
    pub fn new(files: usize, directories: usize, text: usize) -> Self {
        let mut set = Self {
            state: [0; 12],
            rows: vec![0; files * 8],
            roots: vec![0; files * 32],
            firsts: Vec::new(),
            dirs: vec![0; directories * 2],
            text: vec![0; text],
        };
        set.clear();
        set
    }

    /// The set without files, which keeps a table of first files with so many places, of zeros.
    pub fn with_table(mut self, places: usize) -> Self {
        self.state[MARK] = 1;
        self.lending(vec![0; places])
    }

    /// The set with another table of first files, whether it keeps one or not.
    pub fn lending(mut self, firsts: Vec<u16>) -> Self {
        self.firsts = firsts;
        self
    }

    /// The set with a text area of such bytes, before it holds any text.
    pub fn with_text_of(mut self, byte: u8) -> Self {
        self.text.fill(byte);
        self
    }

    /// The set without files again, and zeros in its tables.
    pub fn clear(&mut self) {
        let mark = self.state[MARK];
        self.state.fill(0);
        self.state[0] = PIECE_LENGTH as u64;
        self.state[MARK] = mark;
        self.firsts.fill(0);
        self.rows.fill(0);
        self.roots.fill(0);
        self.dirs.fill(0);
        self.text.fill(0);
    }

    /// Adds a file, and gives the number of the refusal, 0 for none.
    #[inline]
    pub fn add_file(&mut self, input: &Input) -> u32 {
        let root = input.root.as_ref().map_or(&[0; 32], |root| root.as_bytes());
        // SAFETY: each pointer and length are those of one slice, and slices that are written overlap with none.
        unsafe {
            niflathen_add_file(
                &mut self.state,
                self.rows.as_mut_ptr(),
                self.rows.len(),
                self.roots.as_mut_ptr(),
                self.roots.len(),
                self.firsts.as_mut_ptr(),
                self.firsts.len(),
                self.dirs.as_mut_ptr(),
                self.dirs.len(),
                self.text.as_mut_ptr(),
                self.text.len(),
                0,
                [].as_ptr(),
                0,
                input.path.as_ptr(),
                input.path.len(),
                input.size,
                0,
                input.time,
                [].as_ptr(),
                0,
                u8::from(input.root.is_some()),
                root,
            )
        }
    }

    /// Adds a file with all that an addition has, and gives the number of the refusal, 0 for none.
    pub fn add(&mut self, addition: &Addition) -> u32 {
        let name = addition.name.as_deref().unwrap_or_default();
        // SAFETY: as above.
        unsafe {
            niflathen_add_file(
                &mut self.state,
                self.rows.as_mut_ptr(),
                self.rows.len(),
                self.roots.as_mut_ptr(),
                self.roots.len(),
                self.firsts.as_mut_ptr(),
                self.firsts.len(),
                self.dirs.as_mut_ptr(),
                self.dirs.len(),
                self.text.as_mut_ptr(),
                self.text.len(),
                u8::from(addition.name.is_some()),
                name.as_ptr(),
                name.len(),
                addition.path.as_ptr(),
                addition.path.len(),
                addition.size,
                addition.flags,
                addition.time,
                addition.link.as_ptr(),
                addition.link.len(),
                u8::from(addition.root.is_some()),
                addition.root.as_ref().unwrap_or(&[0; 32]),
            )
        }
    }

    /// Removes the pad at the end, and gives the number of the refusal, 0 for none.
    pub fn remove_tail_padding(&mut self) -> u32 {
        // SAFETY: as above.
        unsafe {
            niflathen_remove_tail_padding(
                &mut self.state,
                self.rows.as_mut_ptr(),
                self.rows.len(),
                self.roots.as_mut_ptr(),
                self.roots.len(),
                self.dirs.as_mut_ptr(),
                self.dirs.len(),
                self.text.as_mut_ptr(),
                self.text.len(),
            )
        }
    }

    /// Cleans the links of the set with a work space that is lent, and gives the number of the refusal, 0 for none.
    pub fn sanitize_symlinks(&mut self, work: &mut WorkSpace) -> u32 {
        // SAFETY: as above.
        unsafe {
            niflathen_sanitize_symlinks(
                &mut self.state,
                self.rows.as_mut_ptr(),
                self.rows.len(),
                self.dirs.as_mut_ptr(),
                self.dirs.len(),
                self.text.as_mut_ptr(),
                self.text.len(),
                work.marks.as_mut_ptr(),
                work.marks.len(),
                work.scratch.as_mut_ptr(),
                work.scratch.len(),
                work.walk_path.as_mut_ptr(),
                work.walk_path.len(),
            )
        }
    }

    /// A work space of the length that document 01 asks for, with these bytes in it.
    pub fn work_space(&self, bytes: u8) -> WorkSpace {
        let links: Vec<Row> = (0..self.num_files()).map(|i| self.row(i)).filter(|row| row.flags & 24 == 24).collect();
        let sum: usize = links.iter().map(|row| self.directory_length(row) + row.link.1 + 2).sum();
        WorkSpace { marks: vec![bytes; links.len()], scratch: vec![bytes; sum], walk_path: vec![bytes; 2 * sum] }
    }

    fn directory_length(&self, row: &Row) -> usize {
        if row.directory < self.num_paths() { self.directory(row.directory).len() } else { 0 }
    }

    /// Puts a block's slices into the columns, and gives their number, or minus the number of the refusal.
    #[inline]
    pub fn map_block(&self, piece: i32, offset: i64, size: i64, out: &mut Columns) -> i64 {
        // SAFETY: as above.
        unsafe {
            niflathen_map_block(
                &self.state,
                self.rows.as_ptr(),
                self.rows.len(),
                self.firsts.as_ptr(),
                self.firsts.len(),
                piece,
                offset,
                size,
                out.file.as_mut_ptr(),
                out.file.len(),
                out.offset.as_mut_ptr(),
                out.offset.len(),
                out.size.as_mut_ptr(),
                out.size.len(),
            )
        }
    }

    /// Puts a block's slices into `out`, and gives their number, or minus the number of the refusal.
    #[inline]
    pub fn map_block_slices(&self, piece: i32, offset: i64, size: i64, out: &mut [Slice]) -> i64 {
        // SAFETY: as above, and a `Slice` lies as the port's `FileSlice` does.
        unsafe {
            niflathen_map_block_slices(
                &self.state,
                self.rows.as_ptr(),
                self.rows.len(),
                self.firsts.as_ptr(),
                self.firsts.len(),
                piece,
                offset,
                size,
                out.as_mut_ptr(),
                out.len(),
            )
        }
    }

    /// The file at an offset, or minus the number of the refusal.
    #[inline]
    pub fn file_index_at_offset(&self, offset: i64) -> i64 {
        // SAFETY: as above.
        unsafe {
            niflathen_file_index_at_offset(
                &self.state,
                self.rows.as_ptr(),
                self.rows.len(),
                self.firsts.as_ptr(),
                self.firsts.len(),
                offset,
            )
        }
    }

    /// Gives the request, or the number of the refusal.
    #[inline]
    pub fn map_file(&self, index: i32, offset: i64, size: i32) -> FileRequest {
        // SAFETY: as above.
        unsafe { niflathen_map_file(&self.state, self.rows.as_ptr(), self.rows.len(), index, offset, size) }
    }

    /// Puts four words for each question into `answers`, and gives the number of questions, or minus the number of the
    /// refusal.
    #[inline]
    pub fn map_files(&self, files: &[i32], offsets: &[i64], sizes: &[i32], answers: &mut [u32]) -> i64 {
        // SAFETY: as above.
        unsafe {
            niflathen_map_files(
                &self.state,
                self.rows.as_ptr(),
                self.rows.len(),
                files.as_ptr(),
                files.len(),
                offsets.as_ptr(),
                offsets.len(),
                sizes.as_ptr(),
                sizes.len(),
                answers.as_mut_ptr(),
                answers.len(),
            )
        }
    }

    pub fn set_piece_length(&mut self, length: u64) {
        self.state[0] = length;
    }

    /// Whether the set keeps a table of first files.
    pub fn has_table(&self) -> bool {
        self.state[MARK] != 0
    }

    /// Says by another number than 1 that the set keeps a table, if it does.
    pub fn mark_otherwise(&mut self) {
        if self.has_table() {
            self.state[MARK] = 7;
        }
    }

    /// Whether the record says by 1 or 0 whether the set keeps a table, as it does after a change.
    pub fn is_marked_plainly(&self, has_table: bool) -> bool {
        self.state[MARK] == u64::from(has_table)
    }

    /// The table of first files that is lent.
    pub fn firsts(&self) -> &[u16] {
        &self.firsts
    }

    pub fn v2(&self) -> bool {
        self.state[1] != 0
    }

    pub fn num_files(&self) -> usize {
        self.state[2] as usize
    }

    pub fn num_paths(&self) -> usize {
        self.state[3] as usize
    }

    pub fn name(&self) -> &[u8] {
        self.part(self.state[6] as usize, self.state[7] as usize)
    }

    pub fn total_size(&self) -> u64 {
        self.state[9]
    }

    pub fn size_on_disk(&self) -> u64 {
        self.state[10]
    }

    pub fn row(&self, i: usize) -> Row {
        let w = &self.rows[i * 8..i * 8 + 8];
        let part = |i| (w[i] as usize, w[i + 1] as usize);
        Row {
            offset: w[0],
            size: w[1] & ((1 << 48) - 1),
            name: part(2),
            link: part(4),
            directory: w[6] as usize,
            flags: w[1] >> 48,
            time: unzigzag(w[7]),
        }
    }

    /// The root of a file, zeros where it has none: its place may hold that of a pad that a trim removed.
    pub fn root(&self, i: usize) -> &[u8] {
        if self.row(i).flags & ROOT == 0 { &[0; 32] } else { &self.roots[i * 32..i * 32 + 32] }
    }

    pub fn directory(&self, i: usize) -> &[u8] {
        self.part(self.dirs[i * 2] as usize, self.dirs[i * 2 + 1] as usize)
    }

    /// The text area.
    pub fn text(&self) -> &[u8] {
        &self.text
    }

    /// For each byte of the text area whether a text of the set has it: its name, a directory, a file's name or a link
    /// text.
    pub fn held(&self) -> Vec<bool> {
        let mut held = vec![false; self.text.len()];
        let mut hold = |(at, len): (usize, usize)| held[at..at + len].fill(true);
        hold((self.state[6] as usize, self.state[7] as usize));
        for dir in self.dirs.chunks_exact(2).take(self.num_paths()) {
            hold((dir[0] as usize, dir[1] as usize));
        }
        for i in 0..self.num_files() {
            let row = self.row(i);
            hold(row.name);
            hold(row.link);
        }
        held
    }

    pub fn part(&self, at: usize, len: usize) -> &[u8] {
        &self.text[at..at + len]
    }
}

/// The time that a row's word stands for: 0, 1, 2, 3, … are 0, −1, 1, −2, ….
fn unzigzag(word: u64) -> i64 {
    (word >> 1) as i64 ^ -((word & 1) as i64)
}
