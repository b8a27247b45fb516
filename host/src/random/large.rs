//! Lists and messages that are about as long as a message may be.

use super::lists::{Drawn, Item};
use super::Random;
use crate::assemble::Assembler;
use crate::reference::{lm_table, LENGTH_MOST, MESSAGE_MOST};

/// A table and a list whose encoding is about as long as a message may be.
pub fn large_list(random: &mut Random) -> (Vec<u8>, Drawn) {
    let mut table = Assembler::new();
    let shift = random.one_in(2);
    let bit = table.number(0, 1);
    let (octets, least) = if random.one_in(2) {
        (table.octets(LENGTH_MOST as u16), 0)
    } else {
        (table.open_octets(LENGTH_MOST as u16), 1)
    };
    let four = table.fixed_run(4, octets);
    if shift {
        table.record(&[(bit, false), (four, false)]);
    }
    let mut drawn = Drawn {
        items: Vec::new(),
        whole: true,
    };
    if shift {
        drawn.items.push(Item::number(0, 1, 1));
    }
    // Four lengths of two octets each, and so many octets that the whole is near the limit.
    let mut left = MESSAGE_MOST - 3 + random.index(9) - 4 * 2;
    for _ in 0..4 {
        let length = left.min(LENGTH_MOST as usize);
        left -= length;
        drawn.items.push(Item::length(least, LENGTH_MOST, length));
        let octet = random.word() as u8;
        let octets = (0..length).map(|at| Item::octet(octet.wrapping_add((at / 64) as u8)));
        drawn.items.extend(octets);
    }
    (table.finish(), drawn)
}

/// An LM whose encoding is about as long as a message may be: four extension elements, user data.
pub fn large_lm(random: &mut Random) -> Drawn {
    let mut items = vec![
        Item::index(lm_table().n_header, 0, 16),
        Item::presence(true),
        Item::number(0, 7, 3),
        Item::length(0, 255, 4),
    ];
    let octets = |length: usize| (0..length).map(|at| Item::octet((at / 64) as u8));
    for id in 0..4 {
        let length = if id < 3 { LENGTH_MOST as usize } else { 16_000 };
        items.push(Item::number(0, 255, id));
        items.push(Item::length(1, LENGTH_MOST, length));
        items.extend(octets(length));
    }
    items.push(Item::index(lm_table().t_header, 0, 128));
    items.push(Item::presence(false));
    items.push(Item::variable(32));
    let mut drawn = Drawn { items, whole: true };
    let size = MESSAGE_MOST - 2 + random.index(5);
    let length = size - drawn.bits() / 8 - 2;
    drawn.items.push(Item::length(0, LENGTH_MOST, length));
    drawn.items.extend(octets(length));
    drawn
}

/// A message of about as many octets as one may have, or more.
pub fn large_message(random: &mut Random) -> Vec<u8> {
    let size = match random.below(4) {
        0 => 70_000,
        _ => MESSAGE_MOST - 2 + random.index(5),
    };
    let octet = random.word() as u8;
    let mut message = vec![octet; size];
    let size = random.index(16);
    for (to, from) in message.iter_mut().zip(random.octets(size)) {
        *to = from;
    }
    message
}
