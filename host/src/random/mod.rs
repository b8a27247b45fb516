//! A seeded generator, and what is drawn with it: tables that pass the check and tables that nearly
//! do, states that nobody loaded, lists of values under a passing table, messages, wrong variants of
//! both, captures, and messages to be forwarded.
//!
//! Lists are drawn together with the bits of each value, so that a message can be put together
//! without a codec, and spoilt at one item. Most of what is drawn is small.

mod broken;
mod captures;
mod forwarding;
mod large;
mod lists;
mod messages;
mod states;
mod tables;

pub use captures::{capture_file, Order};
pub use forwarding::forwarding;
pub use large::{large_list, large_lm, large_message};
pub use lists::{allowed_list, pack, some_budget, wrong_list, Drawn, Form, Item};
pub use messages::{
    frames, lm_list, lm_message, some_message, some_output, some_room, spoilt_message, wrong_bits,
    Spoilt,
};
pub use states::{forged_state, message_through};
pub use tables::{nearly_passing_table, passing_table};

/// The generator splitmix64: small, and the same everywhere.
#[derive(Clone, Debug)]
pub struct Random(u64);

impl Random {
    pub fn new(seed: u64) -> Random {
        Random(seed)
    }

    /// The generator of one case, so that a case can be drawn again without those before it.
    pub fn for_case(seed: u64, number: u64) -> Random {
        Random(mix(seed) ^ mix(number.wrapping_add(STEP)))
    }

    pub fn word(&mut self) -> u64 {
        self.0 = self.0.wrapping_add(STEP);
        mix(self.0)
    }

    /// A number below a bound of at least 1.
    pub fn below(&mut self, bound: u64) -> u64 {
        ((u128::from(self.word()) * u128::from(bound)) >> 64) as u64
    }

    pub fn index(&mut self, bound: usize) -> usize {
        self.below(bound as u64) as usize
    }

    /// A number from low to high, both included, with low at most high.
    pub fn within(&mut self, low: i64, high: i64) -> i64 {
        match (high.wrapping_sub(low) as u64).checked_add(1) {
            Some(count) => low.wrapping_add(self.below(count) as i64),
            None => self.word() as i64,
        }
    }

    pub fn one_in(&mut self, count: u64) -> bool {
        self.below(count) == 0
    }

    pub fn pick<T: Copy>(&mut self, from: &[T]) -> T {
        from[self.index(from.len())]
    }

    pub fn octets(&mut self, count: usize) -> Vec<u8> {
        (0..count).map(|_| self.word() as u8).collect()
    }
}

const STEP: u64 = 0x9E37_79B9_7F4A_7C15;

fn mix(number: u64) -> u64 {
    let number = (number ^ number >> 30).wrapping_mul(0xBF58_476D_1CE4_E5B9);
    let number = (number ^ number >> 27).wrapping_mul(0x94D0_49BB_1331_11EB);
    number ^ number >> 31
}
