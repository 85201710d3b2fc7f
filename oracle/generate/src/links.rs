//! A script that passes the most link texts that a set can hold. A trimmed pad's text still counts, so few places are
//! enough: pads with a text are added and trimmed in turn, and near the limit texts are held.

use std::io;

use driver::Sets;

use crate::additions::plain;
use crate::asking;
use crate::playing::{ask, current};
use crate::random::Random;
use crate::script::Script;

/// How many additions with link text the script has; document 01's limit is 32766.
const COUNT: usize = 32770;

/// The additions from which on questions are asked, and each other text is held.
const NEAR: usize = 32750;

/// Writes the script.
pub fn write(script: &mut Script) -> io::Result<()> {
    let mut random = Random::new(1);
    let mut sets = Sets::default();
    ask(script, &mut sets, b"open 10")?;
    for i in 0..COUNT {
        ask(script, &mut sets, &plain(b"s/p", 5, 9, b"t"))?;
        if i >= NEAR {
            asking::all(script, &mut random, current(&mut sets))?;
        }
        if i < NEAR || i % 2 == 0 {
            ask(script, &mut sets, b"trim")?;
        }
    }
    Ok(())
}
