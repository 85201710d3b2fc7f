//! The four sets of a script, and which of them is spoken of.

use crate::answer::{Answer, done};
use crate::set::{Lent, Room, Set};

/// How many sets a script has.
pub const SETS: usize = 4;

/// The sets that were opened, and the place of the one that calls speak of.
#[derive(Default)]
pub struct Sets {
    all: [Option<Set>; SETS],
    current: usize,
}

impl Sets {
    /// Puts a new set in place of the one that is spoken of.
    pub fn open(&mut self, piece_length: i32, room: Room, lent: Lent) -> Answer {
        self.all[self.current] = Some(Set::open(piece_length, room, lent)?);
        done()
    }

    /// Speaks of another set, whose place is below SETS.
    pub fn turn_to(&mut self, place: usize) -> Answer {
        self.current = place;
        done()
    }

    /// Forgets all sets, and speaks of the first again.
    pub fn reset(&mut self) -> Answer {
        *self = Self::default();
        done()
    }

    /// The set at a place below SETS, if it was opened.
    pub fn at(&self, place: usize) -> Option<&Set> {
        self.all[place].as_ref()
    }

    /// The set that is spoken of, if it was opened.
    pub fn current(&mut self) -> Option<&mut Set> {
        self.all[self.current].as_mut()
    }
}
