//! Messages that are forwarded over one list, one after another, while the list fills and its records grow
//! old.

use super::messages::some_output;
use super::Random;
use crate::case::Hop;
use crate::codec::Seen;

/// The most records of a list.
const RECORDS: usize = 64;
/// The least ID that a message cannot have.
const IDS: u32 = 1 << 22;
/// The age at which a record is not live any more, and about it.
const OLD: [u32; 5] = [4_998, 4_999, 5_000, 5_001, 5_002];

/// A list of up to 64 records, and up to so many messages that are forwarded over it.
pub fn forwarding(random: &mut Random, most: usize) -> (Vec<Seen>, Vec<Hop>) {
    let size = match random.below(8) {
        0 => random.index(2),
        1..=2 => 1 + random.index(4),
        3..=4 => random.index(RECORDS / 4 + 1),
        5 => RECORDS,
        _ => random.index(RECORDS + 1),
    };
    let mut drive = Drive::new(random, size);
    let seen = match random.below(3) {
        0 => vec![Seen::default(); size],
        _ => drive.records(random, size),
    };
    let count = 1 + random.index(most);
    let steps = (0..count).map(|_| drive.hop(random)).collect();
    (seen, steps)
}

/// What a sequence of messages has in common.
struct Drive {
    /// The IDs that the messages have: few, so that they come again.
    ids: Vec<u32>,
    /// The most milliseconds from one message to the next, where time only goes on.
    pace: u64,
    /// Whether the clock is sometimes set to any time.
    is_set: bool,
    now: u32,
    /// The times that records may have.
    times: Vec<u32>,
}

impl Drive {
    fn new(random: &mut Random, size: usize) -> Drive {
        let count = random.pick(&[2, size / 2 + 1, size + 1, 2 * size + 2, 4 * size + 64]);
        let first = match random.below(4) {
            0 => 0,
            1 => IDS - count as u32,
            _ => random.below(u64::from(IDS)) as u32,
        };
        let step = random.pick(&[1, 1, 0x1_0001, 0x3_FFFF]);
        let ids = (0..count as u32).map(|at| first.wrapping_add(at * step) % IDS);
        let now = some_time(random);
        Drive {
            ids: ids.collect(),
            pace: random.pick(&[0, 20, 80, 400, 2_500, 6_000]),
            is_set: random.one_in(8),
            now,
            times: vec![now],
        }
    }

    /// A list that is partly filled, or wholly.
    fn records(&mut self, random: &mut Random, size: usize) -> Vec<Seen> {
        let unused = random.pick(&[0, 0, 1, 4, 12]);
        let records = (0..size).map(|_| {
            let mut id = random.pick(&self.ids);
            match random.below(8) {
                0 => id |= IDS << random.below(10),
                1..=4 => id = random.below(u64::from(IDS)) as u32,
                _ => (),
            }
            let time = match random.below(16) {
                0 => some_time(random),
                1 => self.now.wrapping_add(random.below(3) as u32),
                2..=3 => self.now.wrapping_sub(random.pick(&OLD)),
                _ => self.now.saturating_sub(random.below(6_000) as u32),
            };
            self.times.push(time);
            let used = random.below(16) >= unused;
            Seen { id, time, used }
        });
        records.collect()
    }

    fn hop(&mut self, random: &mut Random) -> Hop {
        self.go_on(random);
        let message = self.message(random);
        let output = match random.below(256) {
            0 => 70_000,
            1..=80 => some_output(random, message.len()),
            _ => message.len() + random.index(8),
        };
        Hop {
            message,
            now: self.now,
            output,
        }
    }

    /// The time of the next message: mostly a little later.
    fn go_on(&mut self, random: &mut Random) {
        let pace = self.pace + 1;
        self.now = match random.below(32) {
            0..=2 => random.pick(&self.times).wrapping_add(random.pick(&OLD)),
            3 => self.now.wrapping_sub(random.below(6_000) as u32),
            4 if self.is_set => some_time(random),
            _ => self.now.wrapping_add(random.below(pace) as u32),
        };
        self.times.push(self.now);
    }

    /// A message for an N-hop LM; some have another head, some are too short or too long.
    fn message(&self, random: &mut Random) -> Vec<u8> {
        let any = |random: &mut Random, count: u64| random.below(count) as u32;
        let (subtype, version) = match random.below(32) {
            0 => (any(random, 16), 3),
            1 => (2, any(random, 8)),
            2 => (any(random, 16), any(random, 8)),
            _ => (2, 3),
        };
        let extended = u32::from(random.one_in(4));
        let hops = match random.below(16) {
            0 => 0,
            _ => 1 + any(random, 3),
        };
        let id = random.pick(&self.ids);
        let head = subtype << 28 | extended << 27 | version << 24 | id << 2 | hops;
        let mut message = head.to_be_bytes().to_vec();
        match random.below(256) {
            0..=7 => message.truncate(random.index(4)),
            8 => {
                message[0] ^= random.pick(&[0, 0, 1, 0x10]);
                message.resize(65_534 + random.index(4), random.word() as u8);
            }
            _ => {
                let size = random.index(12);
                message.extend(random.octets(size));
            }
        }
        message
    }
}

/// A time, often near an end of 32 bits.
fn some_time(random: &mut Random) -> u32 {
    match random.below(8) {
        0 => random.below(3) as u32,
        1 => random.below(12_000) as u32,
        2 => u32::MAX - random.below(12_000) as u32,
        _ => random.word() as u32,
    }
}
