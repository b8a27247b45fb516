//! An LM by name read without a table, written out by hand: a yardstick for the readers that have
//! one. Answers, values and zeros are those of `read_lm_into`.
//!
//! Every part of an LM begins and ends with an octet: a choice's index shares one with what follows
//! it, message ID and hop count share three, and all else is whole octets. So the message is taken
//! by octets, and there is never padding.
//!
//! All of it is inlined into one function, where what is left of message and value slice stays in
//! registers: that takes some percent off a short message.

use std::mem;

use super::{LENGTH_MOST, MESSAGE_MOST, VARIABLE_BASES};
use crate::codec::{Answer, Refusal};

/// The version that an LM by name has, and its place.
const VERSION: u8 = 3;
const VERSION_PLACE: usize = 5;
/// The subtypes of an N-Header that holds another, of one with a message ID, and the highest.
const INTERNAL_FORWARDING: u8 = 1;
const N_HOP_FORWARDING: u8 = 2;
const SUBTYPE_MOST: u8 = 2;
/// The octets of a Link-ID.
const LINK_ID: usize = 8;
/// The extension elements that a header may have, and the fewest octets of one's contents.
const ELEMENTS_MOST: i64 = 255;
const CONTENTS_LEAST: u8 = 1;

/// Reads an LM by name into the value slice.
pub fn read_lm_into(message: &[u8], values: &mut [i64]) -> Answer {
    match read(message, values) {
        Ok(count) => {
            values[count..].fill(0);
            Answer::Accepted {
                values: count as u64,
                bits: 8 * message.len() as u64,
                octets: 0,
            }
        }
        Err(refusal) => {
            values.fill(0);
            refusal.into()
        }
    }
}

/// The count of the values. The slice behind them, or after a refusal, may hold anything.
#[inline(always)]
fn read(message: &[u8], values: &mut [i64]) -> Result<usize, Refusal> {
    if message.len() > MESSAGE_MOST {
        return Err(Refusal::new(Refusal::TOO_LONG, 0));
    }
    let Some(first) = message.first() else {
        return Err(Refusal::new(Refusal::MESSAGE_ENDS, 0));
    };
    if first & 0b111 != VERSION {
        return Err(Refusal::new(Refusal::WRONG_VERSION, VERSION_PLACE));
    }
    let subtype = first >> 4;
    if subtype > SUBTYPE_MOST {
        return Err(Refusal::new(Refusal::WRONG_SUBTYPE, 0));
    }
    let room = values.len();
    let mut reader = Reader {
        size: message.len(),
        rest: message,
        room: values,
    };
    reader.n_header(subtype)?;
    reader.t_header()?;
    reader.octets(0)?; // user data
    if !reader.rest.is_empty() {
        return Err(reader.refusal(Refusal::NOT_PADDING));
    }
    Ok(room - reader.room.len())
}

/// The number in the octets, the first of them its highest.
#[inline(always)]
fn joined<const N: usize>(octets: [u8; N]) -> i64 {
    octets
        .into_iter()
        .fold(0, |number, octet| number << 8 | i64::from(octet))
}

struct Reader<'a> {
    /// The octets of the whole message.
    size: usize,
    /// The octets that are not read yet.
    rest: &'a [u8],
    /// The part of the value slice that is not filled yet.
    room: &'a mut [i64],
}

impl Reader<'_> {
    /// A refusal at the next octet's first bit.
    #[cold]
    fn refusal(&self, number: u32) -> Refusal {
        Refusal::new(number, 8 * (self.size - self.rest.len()))
    }

    /// The next octets, which an item needs.
    #[inline(always)]
    fn next<const N: usize>(&self) -> Result<[u8; N], Refusal> {
        match self.rest.first_chunk() {
            Some(&octets) => Ok(octets),
            None => Err(self.refusal(Refusal::MESSAGE_ENDS)),
        }
    }

    /// Keeps the values of the next octets, and goes past these. `bits` tells each value's first bit
    /// in them.
    #[inline(always)]
    fn keep<const N: usize>(
        &mut self,
        octets: usize,
        values: [i64; N],
        bits: [u64; N],
    ) -> Result<(), Refusal> {
        let room = mem::take(&mut self.room);
        let left = room.len();
        let Some((kept, room)) = room.split_first_chunk_mut() else {
            let mut refusal = self.refusal(Refusal::NO_ROOM);
            refusal.place += bits[left];
            return Err(refusal);
        };
        *kept = values;
        self.room = room;
        self.rest = &self.rest[octets..];
        Ok(())
    }

    #[inline(always)]
    fn n_header(&mut self, subtype: u8) -> Result<(), Refusal> {
        if subtype != INTERNAL_FORWARDING {
            return self.original_n_header(subtype);
        }
        let extended = self.opening()?;
        self.number::<1>()?; // direction
        self.number::<2>()?; // ITS-SCU-ID
        self.run(LINK_ID)?;
        self.number::<1>()?; // counter
        if extended {
            self.extensions()?;
        }
        let [first] = self.next()?;
        let subtype = first >> 4;
        if subtype == INTERNAL_FORWARDING || subtype > SUBTYPE_MOST {
            return Err(self.refusal(Refusal::NO_BRANCH));
        }
        self.original_n_header(subtype)
    }

    /// An N-Header that holds no other.
    #[inline(always)]
    fn original_n_header(&mut self, subtype: u8) -> Result<(), Refusal> {
        let extended = self.opening()?;
        if subtype == N_HOP_FORWARDING {
            let number = joined(self.next::<3>()?);
            self.keep(3, [number >> 2, number & 0b11], [0, 22])?; // message ID, hop count
        }
        if extended {
            self.extensions()?;
        }
        Ok(())
    }

    /// The first octet of an N-Header: subtype, whether there are extensions, version.
    #[inline(always)]
    fn opening(&mut self) -> Result<bool, Refusal> {
        let octet = joined(self.next::<1>()?);
        let extended = octet >> 3 & 1;
        self.keep(1, [octet >> 4, extended, octet & 0b111], [0, 4, 5])?;
        Ok(extended == 1)
    }

    #[inline(always)]
    fn t_header(&mut self) -> Result<(), Refusal> {
        let octet = joined(self.next::<1>()?);
        let (selector, extended) = (octet >> 1, octet & 1);
        if selector > 1 {
            return Err(self.refusal(Refusal::NO_BRANCH));
        }
        self.keep(1, [selector, extended], [0, 7])?;
        if selector == 0 {
            self.variable()?; // destination address
        } else {
            self.number::<2>()?; // source port
            self.number::<2>()?; // destination port
        }
        if extended == 1 {
            self.extensions()?;
        }
        Ok(())
    }

    #[inline(always)]
    fn extensions(&mut self) -> Result<(), Refusal> {
        for _ in 0..self.length(0, ELEMENTS_MOST)? {
            self.element()?;
        }
        Ok(())
    }

    /// An extension element. The usual one has a length of one octet, which is taken with its ID.
    #[inline(always)]
    fn element(&mut self) -> Result<(), Refusal> {
        if let &[id, length @ CONTENTS_LEAST..128, ..] = self.rest {
            self.keep(2, [id, length].map(i64::from), [0, 8])?;
            return self.run(usize::from(length));
        }
        self.number::<1>()?;
        self.octets(i64::from(CONTENTS_LEAST))
    }

    #[inline(always)]
    fn number<const N: usize>(&mut self) -> Result<(), Refusal> {
        let number = joined(self.next::<N>()?);
        self.keep(N, [number], [0])
    }

    #[inline(always)]
    fn variable(&mut self) -> Result<(), Refusal> {
        let [first] = self.next()?;
        match first.leading_ones() {
            0 => self.variable_of::<1>(),
            1 => self.variable_of::<2>(),
            2 => self.variable_of::<3>(),
            3 => self.variable_of::<4>(),
            _ => Err(self.refusal(Refusal::BAD_VARIABLE)),
        }
    }

    /// A variable number of so many octets, with seven bits of content for each.
    #[inline(always)]
    fn variable_of<const N: usize>(&mut self) -> Result<(), Refusal> {
        let content = joined(self.next::<N>()?) & ((1 << (7 * N)) - 1);
        self.keep(N, [VARIABLE_BASES[N - 1] + content], [0])
    }

    #[inline(always)]
    fn length(&mut self, least: i64, most: i64) -> Result<usize, Refusal> {
        let [first] = self.next()?;
        let (size, length) = match first >> 6 {
            0b00 | 0b01 => (1, i64::from(first)),
            0b10 => {
                let length = joined(self.next::<2>()?) & 0x3FFF;
                if length < 128 {
                    return Err(self.refusal(Refusal::BAD_LENGTH));
                }
                (2, length)
            }
            _ => return Err(self.refusal(Refusal::BAD_LENGTH)),
        };
        if !(least..=most).contains(&length) {
            return Err(self.refusal(Refusal::OUTSIDE_LIMITS));
        }
        self.keep(size, [length], [0])?;
        Ok(length as usize)
    }

    /// A length, then so many octets.
    #[inline(always)]
    fn octets(&mut self, least: i64) -> Result<(), Refusal> {
        let length = self.length(least, i64::from(LENGTH_MOST))?;
        self.run(length)
    }

    /// Octets, each an item.
    #[inline(always)]
    fn run(&mut self, length: usize) -> Result<(), Refusal> {
        if length > self.rest.len() || length > self.room.len() {
            return Err(self.ends_within(length));
        }
        let (octets, rest) = self.rest.split_at(length);
        let (values, room) = mem::take(&mut self.room).split_at_mut(length);
        for (value, &octet) in values.iter_mut().zip(octets) {
            *value = i64::from(octet);
        }
        self.rest = rest;
        self.room = room;
        Ok(())
    }

    /// The refusal where message or room end within so many octets.
    #[cold]
    fn ends_within(&mut self, length: usize) -> Refusal {
        let there = length.min(self.rest.len()).min(self.room.len());
        self.rest = &self.rest[there..];
        if self.rest.is_empty() {
            self.refusal(Refusal::MESSAGE_ENDS)
        } else {
            self.refusal(Refusal::NO_ROOM)
        }
    }
}
