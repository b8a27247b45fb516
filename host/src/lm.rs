//! What the smallest unit calls: an LM read with no table. The answers are those of an LM by name: its
//! version and its subtype are looked at first. Any octets may be lent; the call doesn't panic, allocate,
//! or hold anything back. docs/HOST.md has an example.

use crate::linked::{self, answer};

pub use crate::codec::{Answer, Refusal};

/// Reads the LM into the value slice. Afterwards the slice is the values, then zeros; after a refusal
/// it is all zeros.
#[inline]
pub fn read(message: &[u8], values: &mut [i64]) -> Answer {
    read_octets(message, linked::octets_mut(values))
}

/// Reads into a slice of octets, eight for a value, little-endian, two's complement. Octets after
/// the last whole eight are zeroed.
#[inline]
pub fn read_octets(message: &[u8], values: &mut [u8]) -> Answer {
    answer(|numbers| linked::lm::read(message, values, numbers))
}
