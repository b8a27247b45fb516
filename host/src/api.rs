//! What a host calls: check, read and write under a lent table, read under one that was loaded before, and
//! forward a message. Any octets may be lent; no call panics, allocates, or holds anything back. `Refusal`
//! has a name for each refusal's number, and what it means in a sentence. docs/HOST.md has examples.

use crate::codec::{StateOctets, FRESH};
use crate::linked::{self, answer, tables};

pub use crate::codec::{Answer, Refusal, Seen, STATE_SIZE};

/// Whether the table obeys the rules of document 01; if not, its first row that breaks one.
#[inline]
pub fn check(table: &[u8]) -> Answer {
    answer(|numbers| tables::check(table, numbers))
}

/// Reads the message into the value slice. Afterwards the slice is the values, then zeros; after a
/// refusal it is all zeros.
#[inline]
pub fn read(table: &[u8], message: &[u8], values: &mut [i64]) -> Answer {
    read_octets(table, message, linked::octets_mut(values))
}

/// Writes the list into the output. Afterwards the output is the message, then zeros; after a
/// refusal it is all zeros.
#[inline]
pub fn write(table: &[u8], values: &[i64], output: &mut [u8]) -> Answer {
    write_octets(table, linked::octets(values), output)
}

/// Reads into a slice of octets, eight for a value, little-endian, two's complement. Octets after
/// the last whole eight are zeroed.
#[inline]
pub fn read_octets(table: &[u8], message: &[u8], values: &mut [u8]) -> Answer {
    answer(|numbers| tables::read(table, message, values, numbers))
}

/// Writes a list of octets, eight for a value, little-endian, two's complement. Octets after the
/// last whole eight are ignored.
#[inline]
pub fn write_octets(table: &[u8], values: &[u8], output: &mut [u8]) -> Answer {
    answer(|numbers| tables::write(table, values, output, numbers))
}

/// Forwards an N-hop message into the output, with its hop count one lower, at a time in milliseconds. The
/// list remembers what was forwarded; it is the caller's, and begins as `Seen::default()` in each place.
/// Afterwards the output is the message that goes on, then zeros; after a refusal it is all zeros, and the
/// list is as it was.
#[inline]
pub fn forward(message: &[u8], now: u32, seen: &mut [Seen], output: &mut [u8]) -> Answer {
    answer(|numbers| tables::forward(message, now, seen, output, numbers))
}

/// A table that is checked once, for any number of messages: its octets, and what the check found.
///
/// It is `STATE_SIZE` octets, on the stack or wherever a host puts it; what stands where in them is the
/// library's own.
#[derive(Clone)]
pub struct State(StateOctets);

impl State {
    /// Holds no table: reading through it is refused as `Refusal::NO_TABLE`.
    pub const fn fresh() -> State {
        State(FRESH)
    }

    /// Loads a table in place of any other; answers as `check` does. After a refusal the state is as it
    /// was, and so is the table in it.
    #[inline]
    pub fn load(&mut self, table: &[u8]) -> Answer {
        answer(|numbers| tables::load(&mut self.0, table, numbers))
    }

    /// Reads the message under the loaded table, as `api::read` does under a lent one.
    #[inline]
    pub fn read(&self, message: &[u8], values: &mut [i64]) -> Answer {
        self.read_octets(message, linked::octets_mut(values))
    }

    /// The same into a slice of octets, as `api::read_octets` does.
    #[inline]
    pub fn read_octets(&self, message: &[u8], values: &mut [u8]) -> Answer {
        answer(|numbers| tables::read_loaded(&self.0, message, values, numbers))
    }
}

/// A fresh one.
impl Default for State {
    fn default() -> State {
        State::fresh()
    }
}
