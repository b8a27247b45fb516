//! Messages for drawn lists, right and wrong, rooms and outputs for them, LMs and frames.

use super::lists::{allowed_list, pack, Drawn, Form, Item};
use super::Random;
use crate::codec::Refusal;
use crate::reference::{branch_row, lm_table, Row, LENGTH_MOST};

/// Bits that are wrong at an item, with the number of the refusal that they meet there.
pub struct Spoilt {
    pub item: usize,
    pub bits: u64,
    pub width: u32,
    pub number: u32,
}

/// Bits for one item that its row refuses, if its row has any.
pub fn wrong_bits(random: &mut Random, table: &[u8], drawn: &Drawn) -> Option<Spoilt> {
    if drawn.items.is_empty() {
        return None;
    }
    let at = random.index(drawn.items.len());
    let item = &drawn.items[at];
    let (bits, width, number) = match item.form {
        Form::Number { span, .. } => {
            let first = u64::from(span) + 1;
            let last = (1u64 << item.width) - 1;
            if first > last {
                return None;
            }
            let any = first + random.below(last - first + 1);
            (
                random.pick(&[first, last, any]),
                item.width,
                Refusal::ABOVE_SPAN,
            )
        }
        Form::Index { row } => {
            let Row::Choice { branches } = Row::at(table, row) else {
                return None;
            };
            let index = random.index(1 << item.width);
            if branches.get(index).and_then(branch_row).is_some() {
                return None;
            }
            (index as u64, item.width, Refusal::NO_BRANCH)
        }
        Form::Length { least, most } => match random.below(4) {
            0 => (0xC0 | random.below(64), 8, Refusal::BAD_LENGTH),
            1 => {
                let any = random.below(128);
                (
                    0x8000 | random.pick(&[0, 127, any]),
                    16,
                    Refusal::BAD_LENGTH,
                )
            }
            _ => {
                let mut outside: Vec<u32> = (0..least).collect();
                if most < LENGTH_MOST {
                    let above = most + 1;
                    let any = above + random.below(u64::from(LENGTH_MOST - most)) as u32;
                    outside.extend([above, any]);
                }
                if outside.is_empty() {
                    return None;
                }
                let length = Item::length(least, most, random.pick(&outside) as usize);
                (length.bits, length.width, Refusal::OUTSIDE_LIMITS)
            }
        },
        Form::Variable => (0xF0 | random.below(16), 8, Refusal::BAD_VARIABLE),
        Form::Presence | Form::Octet => return None,
    };
    Some(Spoilt {
        item: at,
        bits,
        width,
        number,
    })
}

/// The message with the wrong bits in their item's place.
pub fn spoilt_message(drawn: &Drawn, spoilt: &Spoilt) -> Vec<u8> {
    pack(drawn.items.iter().enumerate().map(|(index, item)| {
        if index == spoilt.item {
            (spoilt.bits, spoilt.width)
        } else {
            (item.bits, item.width)
        }
    }))
}

/// A message for a drawn list: its encoding as it is, or cut, damaged, extended or random.
pub fn some_message(random: &mut Random, table: &[u8], drawn: &Drawn) -> Vec<u8> {
    let mut message = drawn.message();
    match random.below(32) {
        0..=11 => (),
        12..=17 => {
            if let Some(spoilt) = wrong_bits(random, table, drawn) {
                message = spoilt_message(drawn, &spoilt);
                if random.one_in(4) {
                    let size = random.index(message.len() + 1);
                    message.truncate(size);
                }
            }
        }
        18..=21 => {
            let size = random.index(message.len());
            message.truncate(size);
        }
        22..=23 => {
            let at = random.index(message.len());
            message[at] ^= 1 << random.below(8);
        }
        24 => {
            let at = random.index(message.len());
            message[at] = random.word() as u8;
        }
        25..=26 => {
            // In the padding, where there is any.
            let padding = 8 * message.len() - drawn.bits();
            let last = message.len() - 1;
            message[last] ^= 1 << random.index(padding.max(1));
        }
        27..=29 => {
            let size = 1 + random.index(3);
            let more = if random.one_in(2) {
                vec![0; size]
            } else {
                random.octets(size)
            };
            message.extend(more);
        }
        _ => {
            let size = random.index(24);
            message = random.octets(size);
        }
    }
    message
}

/// A room for values, around the count that a message needs.
pub fn some_room(random: &mut Random, needed: usize) -> usize {
    match random.below(16) {
        0 => 0,
        1..=4 => random.index(needed + 1),
        5 => needed.saturating_sub(1),
        6..=10 => needed,
        11..=13 => needed + 1 + random.index(4),
        _ => needed + random.index(60),
    }
}

/// A size for an output, around the size that is needed.
pub fn some_output(random: &mut Random, needed: usize) -> usize {
    match random.below(16) {
        0 => 0,
        1..=3 => random.index(needed + 1),
        4..=5 => needed.saturating_sub(1),
        6..=10 => needed,
        11..=13 => needed + 1 + random.index(4),
        _ => needed + random.index(100),
    }
}

/// A list under the LM table, nearly always of version 3.
pub fn lm_list(random: &mut Random) -> Drawn {
    let lm = lm_table();
    let budget = match random.below(64) {
        0 => 1_100,
        1..=3 => 300,
        _ => 30,
    };
    let mut drawn = allowed_list(random, &lm.octets, lm.root, budget);
    if !random.one_in(32) {
        drawn.items[2] = Item::number(0, 7, 3);
    }
    drawn
}

/// A message for an LM list; sometimes of a reserved subtype.
pub fn lm_message(random: &mut Random, drawn: &Drawn) -> Vec<u8> {
    let mut message = some_message(random, &lm_table().octets, drawn);
    if random.one_in(32) {
        if let Some(first) = message.first_mut() {
            *first = *first & 0x0F | (random.word() as u8) << 4;
        }
    }
    message
}

/// Frames for the bench program: LMs and unknown kinds, sometimes cut. SAM and SRM are left out.
pub fn frames(random: &mut Random) -> Vec<u8> {
    let mut stream = Vec::new();
    for _ in 0..random.below(5) {
        let drawn = lm_list(random);
        let message = lm_message(random, &drawn);
        let kind: u16 = match random.below(8) {
            0 => random.pick(&[0, 4, 5, 256, 257, 65_535]),
            _ => 1,
        };
        let length = match random.below(32) {
            0 => random.below(6) as usize,
            _ => message.len() + 4,
        };
        stream.extend((length as u16).to_le_bytes());
        stream.extend(kind.to_le_bytes());
        stream.extend(message);
    }
    if random.one_in(4) {
        let size = random.index(stream.len() + 1);
        stream.truncate(size);
    }
    // A frame of bad length may have moved a kind 2 or 3 into place.
    if kinds(&stream).any(|kind| kind == 2 || kind == 3) {
        stream.clear();
    }
    stream
}

/// The kinds of the frames in a stream, as far as they are whole.
fn kinds(stream: &[u8]) -> impl Iterator<Item = u16> + '_ {
    let mut rest = stream;
    std::iter::from_fn(move || {
        let header = rest.first_chunk::<4>()?;
        let length = usize::from(u16::from_le_bytes([header[0], header[1]]));
        let kind = u16::from_le_bytes([header[2], header[3]]);
        if length < 4 {
            return None;
        }
        rest = rest.get(length..)?;
        Some(kind)
    })
}
