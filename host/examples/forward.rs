// A unit that forwards: reads each message that it hears, decides, and sends on what is to go on.

use teyolxan_host::api::{forward, Answer, Refusal, Seen, State};
use teyolxan_host::builtin;

// What is heard, and when, in milliseconds.
const HEARD: [(u32, &[u8]); 8] = [
    (1000, &[0x23, 0, 0, 0x07, 0, 0x20, 2, 0x48, 0x69]), // ID 1, hop count 3
    (1200, &[0x23, 0, 0, 0x06, 0, 0x20, 2, 0x48, 0x69]), // a neighbour's copy, hop count 2
    (1300, &[0x23, 0, 0, 0x08, 0, 0x20, 2, 0x48, 0x69]), // ID 2, hop count 0
    (1400, &[0x03, 0, 0x20, 2, 0x48, 0x69]),             // an LM that is not to be forwarded
    (1500, &[0x23, 0, 0, 0x0E, 0x04]),                   // ID 3, hop count 2, a reserved T-Header
    (1600, &[0x23, 0, 0, 0x13, 0, 0x20, 2, 0x48]),       // ID 4, cut
    (1700, &[0x23, 0, 0, 0x17, 0, 0x20, 2, 0x48, 0x69]), // ID 5, hop count 3
    (6000, &[0x23, 0, 0, 0x07, 0, 0x20, 2, 0x48, 0x69]), // ID 1, five seconds after it went on
];

// Reads a message. Says whether it may go on: also with a T-Header that is not known here, or more values than there is
// room for.
fn read(state: &State, message: &[u8]) -> bool {
    let mut values = [0; 32];
    match state.read(message, &mut values) {
        Answer::Accepted { values: count, .. } => {
            println!("read: {count} values");
            true
        }
        Answer::Refused { number, place } => {
            println!("read: {}", Refusal { number, place });
            number == Refusal::NO_BRANCH || number == Refusal::NO_ROOM
        }
    }
}

fn send_on(message: &[u8], now: u32, seen: &mut [Seen]) {
    let mut output = [0; 2304];
    match forward(message, now, seen, &mut output) {
        Answer::Accepted { octets, .. } => {
            print!("forward: octets");
            for octet in &output[..octets as usize] {
                print!(" {octet:02X}");
            }
            println!();
        }
        Answer::Refused {
            number: Refusal::WRONG_SUBTYPE,
            ..
        } => println!("forward: no N-hop message"),
        Answer::Refused { number, place } => println!("forward: {}", Refusal { number, place }),
    }
}

fn main() {
    let mut state = State::fresh();
    state.load(&builtin::lm());
    // What went on, for one thread. A clock that wraps, and messages of the unit's own: docs/FORWARDING.md.
    let mut seen = [Seen::default(); 2]; // so short that it gets full
    for (now, message) in HEARD {
        println!("at {now}");
        if read(&state, message) {
            send_on(message, now, &mut seen);
        }
    }
}
