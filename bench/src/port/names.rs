//! The calls on names through the C interface, and the tables of renames that are lent to them.

use super::Set;

unsafe extern "C" {
    /// The state of renames is an array, so a pointer alone.
    fn niflathen_import_filenames(
        state: *const [u64; 12],
        renames: *mut [u64; 2],
        rename_entries: *mut u64,
        rename_entries_len: usize,
        rename_text: *mut u8,
        rename_text_len: usize,
        numbers: *const i32,
        numbers_len: usize,
        lengths: *const u64,
        lengths_len: usize,
        names: *const u8,
        names_len: usize,
    ) -> u32;

    fn niflathen_all_path_hashes(
        state: *const [u64; 12],
        dirs: *const u64,
        dirs_len: usize,
        text: *const u8,
        text_len: usize,
        out: *mut u32,
        out_len: usize,
    ) -> i64;

    fn niflathen_file_path(
        state: *const [u64; 12],
        rows: *const u64,
        rows_len: usize,
        dirs: *const u64,
        dirs_len: usize,
        text: *const u8,
        text_len: usize,
        renames: *const [u64; 2],
        rename_entries: *const u64,
        rename_entries_len: usize,
        rename_text: *const u8,
        rename_text_len: usize,
        index: i32,
        save_path: *const u8,
        save_path_len: usize,
        buf: *mut u8,
        buf_len: usize,
    ) -> i64;
}

/// How many words an entry has: file, mode, length of the text and where it begins.
pub const ENTRY: usize = 4;

/// Names for files as an import takes them: numbers, the lengths of the names, and the names one after the other.
#[derive(Clone, Default)]
pub struct Names {
    pub numbers: Vec<i32>,
    pub lengths: Vec<u64>,
    pub text: Vec<u8>,
}

impl Names {
    /// A name for a file, behind the others.
    pub fn push(&mut self, file: i32, name: &[u8]) {
        self.numbers.push(file);
        self.lengths.push(name.len() as u64);
        self.text.extend_from_slice(name);
    }
}

/// A set's renames: their record's words and their tables.
#[derive(Clone, PartialEq)]
pub struct Renames {
    pub state: [u64; 2],
    pub entries: Vec<u64>,
    pub text: Vec<u8>,
}

impl Renames {
    /// No renames, with tables of zeros for so many entries and bytes of text.
    pub fn new(entries: usize, text: usize) -> Self {
        Self { state: [0; 2], entries: vec![0; entries * ENTRY], text: vec![0; text] }
    }

    /// The same renames in tables of so many words and bytes: cut, or with 7s at their ends.
    pub fn lent(&self, words: usize, bytes: usize) -> Self {
        let mut lent = self.clone();
        lent.entries.resize(words, 7);
        lent.text.resize(bytes, 7);
        lent
    }

    /// The renames as they lie in the tables: file, mode and name.
    pub fn list(&self) -> impl Iterator<Item = (i32, u64, &[u8])> {
        let [count, _] = self.state;
        self.entries.chunks(ENTRY).take(count as usize).map(|words| {
            let (at, length) = (words[3] as usize, words[2] as usize);
            (words[0] as i32, words[1], &self.text[at..at + length])
        })
    }
}

impl Set {
    /// Puts names to the renames of the set's files, and gives the number of the refusal, 0 for none.
    #[inline]
    pub fn import_filenames(&self, renames: &mut Renames, names: &Names) -> u32 {
        // SAFETY: each pointer and length are those of one slice, and slices that are written overlap with none.
        unsafe {
            niflathen_import_filenames(
                &self.state,
                &mut renames.state,
                renames.entries.as_mut_ptr(),
                renames.entries.len(),
                renames.text.as_mut_ptr(),
                renames.text.len(),
                names.numbers.as_ptr(),
                names.numbers.len(),
                names.lengths.as_ptr(),
                names.lengths.len(),
                names.text.as_ptr(),
                names.text.len(),
            )
        }
    }

    /// Puts the hashes of all paths into `out`, and gives their number, or minus the number of the refusal.
    #[inline]
    pub fn all_path_hashes(&self, out: &mut [u32]) -> i64 {
        // SAFETY: as above.
        unsafe {
            niflathen_all_path_hashes(
                &self.state,
                self.dirs.as_ptr(),
                self.dirs.len(),
                self.text.as_ptr(),
                self.text.len(),
                out.as_mut_ptr(),
                out.len(),
            )
        }
    }

    /// Puts the path of a file through its rename into `buf`, and gives its length, or minus the number of the refusal.
    #[inline]
    pub fn file_path(&self, renames: &Renames, index: i32, save_path: &[u8], buf: &mut [u8]) -> i64 {
        // SAFETY: as above.
        unsafe {
            niflathen_file_path(
                &self.state,
                self.rows.as_ptr(),
                self.rows.len(),
                self.dirs.as_ptr(),
                self.dirs.len(),
                self.text.as_ptr(),
                self.text.len(),
                &renames.state,
                renames.entries.as_ptr(),
                renames.entries.len(),
                renames.text.as_ptr(),
                renames.text.len(),
                index,
                save_path.as_ptr(),
                save_path.len(),
                buf.as_mut_ptr(),
                buf.len(),
            )
        }
    }

    /// The set three times, with its rows, directories or text area lent too short for what it counts.
    pub fn cuts(&self) -> [Self; 3] {
        let cut = |rows, dirs, text| {
            let mut set = self.clone();
            set.rows.truncate(self.num_files() * 8 - rows);
            set.dirs.truncate(self.num_paths() * 2 - dirs);
            set.text.truncate(self.state[8] as usize - text);
            set
        };
        [cut(1, 0, 0), cut(0, 1, 0), cut(0, 0, 1)]
    }
}
