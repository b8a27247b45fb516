//! The opened message (document 01, "Refusal numbers", last paragraph).

use super::bits::fetch;
use super::{planted, MESSAGE_MOST};
use crate::codec::Refusal;
use crate::mutants::Fault;

/// A message and a bit place in it.
pub struct Opened<'a> {
    octets: &'a [u8],
    place: usize,
}

/// The widest number that is taken at once.
const TAKE_MOST: u64 = 32;

impl<'a> Opened<'a> {
    /// Opens at place 0. A message that is too long is refused, and opened without its octets.
    pub fn new(message: &'a [u8]) -> (Opened<'a>, Result<(), Refusal>) {
        if message.len() > MESSAGE_MOST {
            let empty = Opened {
                octets: &message[..0],
                place: 0,
            };
            return (empty, Err(Refusal::new(Refusal::TOO_LONG, 0)));
        }
        let opened = Opened {
            octets: message,
            place: 0,
        };
        (opened, Ok(()))
    }

    /// The place of the next bit.
    pub fn place(&self) -> usize {
        self.place
    }

    /// Takes the number in the next bits.
    pub fn take(&mut self, width: u64) -> Result<u64, Refusal> {
        self.take_with::<{ Fault::None as u8 }>(width)
    }

    pub(super) fn take_with<const F: u8>(&mut self, width: u64) -> Result<u64, Refusal> {
        let left = (8 * self.octets.len() - self.place) as u64;
        if planted::<F>(Fault::BitsBeforeWidth) && width > left {
            return Err(Refusal::new(Refusal::MESSAGE_ENDS, self.place));
        }
        if width > TAKE_MOST {
            return Err(Refusal::new(Refusal::OUTSIDE_LIMITS, self.place));
        }
        if width > left {
            return Err(Refusal::new(Refusal::MESSAGE_ENDS, self.place));
        }
        let number = fetch(self.octets, self.place, width as u32);
        self.place += width as usize;
        Ok(number)
    }
}
