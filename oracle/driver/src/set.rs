//! One set: a `FileStorage` and a `RenamedFiles` of the Rust, the room lent, which files hold a link text, and the time of
//! each file. The Rust can't take back what a refused call has changed, so the set is then built again from the changes
//! that were made.

use std::mem;

use bitdaemon_common::{FileIndex, Sha256Hash};
use bitdaemon_core::Error;
use bitdaemon_core::error::TorrentError;
use bitdaemon_core::file_storage::{FileFlags, FileStorage, RenamedFiles, calc_num_pieces};
use bitdaemon_core::path::{has_parent_path, is_complete};

use crate::answer::{Answer, Refusal, done};
use crate::layout::{piece_count, test_file};

/// The most files or directories, from document 01's table.
const MOST_ROWS: usize = 65535;

/// Numbers of files, directories and bytes of text: those that a set has, or that its tables have places for.
#[derive(Clone, Copy)]
pub struct Room {
    pub files: usize,
    pub directories: usize,
    pub text: usize,
}

/// The room that a set has where none is named.
pub const USUAL_ROOM: Room = Room { files: 256, directories: 256, text: 262_144 };

/// What is lent besides: places for renames and bytes of their texts, bytes for a composed text, places for slices and
/// for hashes, and for a cleaning the marks and the sum over the links for which the work space has room; and the places
/// for the first files of pieces, in a set that keeps a table of them.
#[derive(Clone, Copy)]
pub struct Lent {
    pub renames: usize,
    pub names: usize,
    pub output: usize,
    pub slices: usize,
    pub hashes: usize,
    pub marks: usize,
    pub sum: usize,
    pub pieces: Option<usize>,
}

/// What is lent where nothing is named.
pub const USUAL_LENT: Lent = Lent {
    renames: 256,
    names: 65536,
    output: usize::MAX,
    slices: usize::MAX,
    hashes: usize::MAX,
    marks: usize::MAX,
    sum: usize::MAX,
    pieces: None,
};

/// The arguments of an addition.
#[derive(Clone)]
pub struct Addition {
    pub name: Option<Vec<u8>>,
    pub path: Vec<u8>,
    pub size: i64,
    pub flags: u8,
    pub time: i64,
    pub link: Vec<u8>,
    pub root: Option<[u8; 32]>,
}

/// A change of a set.
enum Change {
    Add(Addition),
    Trim,
    Clean,
}

/// A set. The Rust has no way to ask whether a file holds a link text, so that is kept beside it, and so are the times,
/// which the Rust leaves in their places where a trim moves files.
pub struct Set {
    pub files: FileStorage,
    pub renames: RenamedFiles,
    pub lent: Lent,
    holds_link: Vec<bool>,
    times: Vec<i64>,
    /// Whether a trim has removed a pad.
    is_trimmed: bool,
    room: Room,
    changes: Vec<Change>,
}

impl Set {
    /// A set without files, if its piece length is in range.
    pub fn open(piece_length: i32, room: Room, lent: Lent) -> Result<Self, Refusal> {
        if piece_length < 1 { Err(Refusal::PieceLength) } else { Ok(Self::empty(piece_length, room, lent)) }
    }

    fn empty(piece_length: i32, room: Room, lent: Lent) -> Self {
        let mut files = FileStorage::new();
        files.set_piece_length(piece_length);
        let mut set = Self {
            files,
            renames: RenamedFiles::default(),
            lent,
            holds_link: Vec::new(),
            times: Vec::new(),
            is_trimmed: false,
            room,
            changes: Vec::new(),
        };
        set.count_pieces();
        set
    }

    /// Adds a file, if document 01 has no refusal.
    pub fn add(&mut self, addition: &Addition) -> Answer {
        if let Err(refusal) = self.try_to_add(addition) {
            let renames = mem::take(&mut self.renames);
            *self = self.built_again();
            self.renames = renames;
            return Err(refusal);
        }
        self.changes.push(Change::Add(addition.clone()));
        done()
    }

    /// Removes the padding at the end.
    pub fn trim(&mut self) -> Answer {
        let last = self.places().rev().find(|&file| self.files.file_size(file) > 0);
        let before = self.files.num_files();
        self.files.remove_tail_padding();
        if let Some(file) = last.filter(|_| self.files.num_files() < before) {
            self.holds_link.remove(file.get());
            self.times.remove(file.get());
            self.is_trimmed = true;
        }
        self.count_pieces();
        self.changes.push(Change::Trim);
        done()
    }

    /// Cleans the links, if the work space has room for them, and the texts held afterwards have room.
    pub fn clean(&mut self) -> Answer {
        let (marks, sum) = self.work_space();
        if marks > self.lent.marks || sum > self.lent.sum {
            return Err(Refusal::NoRoom);
        }
        self.files.sanitize_symlinks();
        if self.is_beyond_room() {
            let renames = mem::take(&mut self.renames);
            *self = self.built_again();
            self.renames = renames;
            return Err(Refusal::NoRoom);
        }
        self.changes.push(Change::Clean);
        done()
    }

    /// Records another path for a file: 11 if there is no such file, 10 if the tables of renames have no room.
    pub fn rename(&mut self, file: FileIndex, name: &[u8]) -> Answer {
        test_file(&self.files, file)?;
        let mut renames = self.renames.clone();
        renames.rename_file(&self.files, file, name);
        self.keep_renames(renames)
    }

    /// Records other paths for many files: 11 if a number is below 0, which the Rust would keep; 10 as above. The Rust
    /// takes a map, to which a later name of a file comes in place of an earlier one.
    pub fn import(&mut self, names: &[(FileIndex, Vec<u8>)]) -> Answer {
        if names.iter().any(|(file, _)| file.0 < 0) {
            return Err(Refusal::NoSuchFile);
        }
        let mut renames = self.renames.clone();
        renames.import_filenames(&self.files, &names.iter().cloned().collect());
        self.keep_renames(renames)
    }

    /// Takes the renames, unless their tables have no room: 10.
    fn keep_renames(&mut self, renames: RenamedFiles) -> Answer {
        let texts = renames.export_filenames(&self.files);
        if texts.len() > self.lent.renames || texts.values().map(Vec::len).sum::<usize>() > self.lent.names {
            return Err(Refusal::NoRoom);
        }
        self.renames = renames;
        done()
    }

    /// The set that the changes make, without what a refused call left behind.
    fn built_again(&self) -> Self {
        let mut set = Self::empty(self.files.piece_length(), self.room, self.lent);
        for change in &self.changes {
            let made = match change {
                Change::Add(addition) => set.add(addition),
                Change::Trim => set.trim(),
                Change::Clean => set.clean(),
            };
            assert!(made.is_ok(), "a change was made before");
        }
        set
    }

    /// The places of the set's files.
    pub fn places(&self) -> impl DoubleEndedIterator<Item = FileIndex> + use<> {
        (0..self.files.num_files()).map(FileIndex)
    }

    /// The link text that a file holds, if it holds one.
    pub fn link_text(&self, file: FileIndex) -> Option<&[u8]> {
        self.holds_link[file.get()].then(|| self.files.internal_symlink(file))
    }

    /// The time that a file's addition gave, 0 for a pad that an addition made. Until a trim has removed a pad the Rust
    /// is asked too, and must agree.
    pub fn time(&self, file: FileIndex) -> i64 {
        let time = self.times[file.get()];
        if !self.is_trimmed {
            assert_eq!(self.files.mtime(file), time, "the Rust's time of file {}, and the one that was given", file.0);
        }
        time
    }

    /// Document 02's table, in a set that keeps one: for each piece the file that has its first byte, counted off the
    /// sizes.
    pub fn first_files(&self) -> Option<Vec<FileIndex>> {
        self.lent.pieces?;
        let length = i64::from(self.files.piece_length());
        let (mut firsts, mut start, mut end) = (Vec::new(), 0, 0);
        for file in self.places() {
            end += self.files.file_size(file);
            while start < end {
                firsts.push(file);
                start += length;
            }
        }
        Some(firsts)
    }

    /// The flagged links, and the sum over them of directory length, text length and 2.
    pub fn work_space(&self) -> (usize, usize) {
        let is_flagged = |file: &FileIndex| self.files.file_flags(*file).contains(FileFlags::SYMLINK);
        let links: Vec<FileIndex> = self.places().filter(is_flagged).collect();
        let one = |&file: &FileIndex| self.directory_length(file) + self.link_text(file).map_or(0, <[u8]>::len) + 2;
        (links.len(), links.iter().map(one).sum())
    }

    /// The length of a file's directory, which the Rust doesn't give: by its internal path, so not that of a directory
    /// `.` or of one with a separator at its end. Scripts that name a work space have none of these.
    fn directory_length(&self, file: FileIndex) -> usize {
        let (path, name) = (self.files.internal_file_path(file), self.files.file_name(file));
        if path == name { 0 } else { path.len() - name.len() - 1 }
    }

    /// How many files, directories and bytes of text the set has now.
    pub fn need(&self) -> Room {
        Room { files: self.holds_link.len(), directories: self.files.paths().len(), text: self.text_bytes() }
    }

    /// The bytes of the set's name and of all names, directories and link texts that are held.
    pub fn text_bytes(&self) -> usize {
        let directories: usize = self.files.paths().iter().map(Vec::len).sum();
        let names: usize = self.places().map(|file| self.files.file_name(file).len()).sum();
        let links: usize = self.places().filter_map(|file| self.link_text(file)).map(<[u8]>::len).sum();
        self.files.name().len() + directories + names + links
    }

    /// Adds a file, or gives the first refusal in document 01's order and leaves the set in any state. The Rust knows
    /// 3, 4, 5, 8, 9 and 4 for the padding, in that order; 2 comes before them, 6 and 7 behind 5, and 10 last.
    fn try_to_add(&mut self, addition: &Addition) -> Result<(), Refusal> {
        if addition.size < 0 {
            return Err(Refusal::NegativeSize);
        }
        let names = self.test_names(addition);
        let total = self.files.total_size();
        match self.ask_to_add(addition) {
            Err(refusal) if is_before_names(refusal, total, addition.size) => return Err(refusal),
            asked => names.and(asked)?,
        }
        self.keep_links();
        self.keep_times(addition.time);
        self.count_pieces();
        if self.is_beyond_room() { Err(Refusal::NoRoom) } else { Ok(()) }
    }

    /// The Rust's own answer to an addition; it may have changed the set where it gives an error.
    fn ask_to_add(&mut self, addition: &Addition) -> Result<(), Refusal> {
        let root = addition.root.map(|bytes| Sha256Hash::from_bytes(&bytes).expect("a root has 32 bytes"));
        let added = self.files.add_file(
            addition.name.as_deref(),
            &addition.path,
            addition.size,
            FileFlags::from_bits(addition.flags),
            addition.time,
            &addition.link,
            root,
        );
        added.map_err(|error| match error {
            Error::FileTooLarge => Refusal::FileTooLarge,
            Error::FilenameTooLong => Refusal::NameTooLong,
            Error::Torrent(TorrentError::TorrentInvalidLength) => Refusal::TotalTooLarge,
            Error::Torrent(TorrentError::TorrentMissingPiecesRoot) => Refusal::MissingRoot,
            Error::Torrent(TorrentError::TorrentInconsistentFiles) => Refusal::UnwantedRoot,
            other => unreachable!("add_file has no such error: {other:?}"),
        })
    }

    /// Refusals 6 and 7, where the Rust has debug assertions.
    fn test_names(&self, addition: &Addition) -> Result<(), Refusal> {
        let name = addition.name.as_deref().unwrap_or_default();
        if is_complete(name) || !name.is_empty() && is_complete(&addition.path) {
            return Err(Refusal::BadName);
        }
        if self.files.num_files() > 0 && !has_parent_path(&addition.path) {
            return Err(Refusal::NoParent);
        }
        Ok(())
    }

    /// Notes for each new file whether it holds a link text: a text that was given and kept isn't empty, nor is then
    /// what `symlink` makes of it.
    fn keep_links(&mut self) {
        for file in self.places().skip(self.holds_link.len()) {
            self.holds_link.push(!self.files.symlink(file).is_empty());
        }
    }

    /// Notes the time of the new file, and 0 for the pad behind it, if one was made.
    fn keep_times(&mut self, time: i64) {
        self.times.push(time);
        self.times.resize(self.files.num_files() as usize, 0);
    }

    /// Sets the number of pieces, as the Rust's callers do after a change.
    fn count_pieces(&mut self) {
        self.files.set_num_pieces(calc_num_pieces(&self.files));
    }

    /// Refusal 10: whether the set has more than its tables have places for.
    fn is_beyond_room(&self) -> bool {
        let need = self.need();
        need.files > self.room.files.min(MOST_ROWS)
            || need.directories > self.room.directories.min(MOST_ROWS)
            || need.text > self.room.text
            || self.lent.pieces.is_some_and(|places| piece_count(&self.files) as usize > places)
    }
}

/// Whether a refusal of the Rust stands before 6 and 7 in document 01's order: 3, 5, or 4 without padding.
fn is_before_names(refusal: Refusal, total: i64, size: i64) -> bool {
    match refusal {
        Refusal::FileTooLarge | Refusal::NameTooLong => true,
        Refusal::TotalTooLarge => total + size > FileStorage::MAX_FILE_OFFSET,
        _ => false,
    }
}
