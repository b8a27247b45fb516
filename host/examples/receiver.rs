// A receiver: loads a table once, reads each message through it, and meets three refusals.

use teyolxan_host::api::{Answer, Refusal, State};

// A car park, and how many of its places are free: each row with its offset.
const TABLE: [u8; 30] = [
    0x04, 0, 2, 0, // 0: lot, a variable number
    0x0C, 0, 1, 0, 0x00, 0x00, 0x00, 0x00, 0xE7, 0x03, 0, 0, // 4: free places, 0 to 999
    0x0E, 0, 5, 0, 2, 0, 0, 0, 0, 0, 4, 0, 0, 0, // 16: a record of both
];

const MESSAGES: [&[u8]; 3] = [
    &[0x80, 0xAC, 0x04, 0x40],
    &[0x07, 0xF9, 0xC0],
    &[0x07, 0xFA, 0x00],
];

fn load(state: &mut State, table: &[u8]) {
    match state.load(table).refusal() {
        None => println!("load: passed"),
        Some(refusal) => println!("load: {refusal}"),
    }
}

fn receive(state: &State, message: &[u8]) {
    let mut values = [0; 8];
    match state.read(message, &mut values) {
        Answer::Accepted { .. } => println!("read: lot {}, {} free", values[0], values[1]),
        Answer::Refused { number, place } => println!("read: {}", Refusal { number, place }),
    }
}

fn main() {
    let mut state = State::fresh();
    receive(&state, MESSAGES[0]);
    load(&mut state, &TABLE);
    for message in MESSAGES {
        receive(&state, message);
    }
    // A table that lacks its last octet: the one before it stays.
    load(&mut state, &TABLE[..29]);
    receive(&state, MESSAGES[0]);
}
