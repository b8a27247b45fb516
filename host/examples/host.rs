// A host: checks a table, reads a message under it, writes the values back, and meets three refusals.

use teyolxan_host::api::{check, read, write, Answer, Refusal};

// The notice of a car park, from TABLES.md: each row with its offset.
const TABLE: [u8; 128] = [
    0x0C, 0, 1, 0, 0x00, 0x00, 0x00, 0x00, 0xFF, 0x00, 0, 0, // 0: octet, 0 to 255
    0x0C, 0, 1, 0, 0xD8, 0xFF, 0xFF, 0xFF, 0x7D, 0x00, 0, 0, // 12: temperature, -40 to 85
    0x04, 0, 2, 0, // 24: lot, a variable number
    0x0C, 0, 1, 0, 0x00, 0x00, 0x00, 0x00, 0xE7, 0x03, 0, 0, // 28: free places, 0 to 999
    0x0C, 0, 1, 0, 0x00, 0x00, 0x00, 0x00, 0x07, 0x00, 0, 0, // 40: reason, 0 to 7
    0x0C, 0, 6, 0, 3, 0, 28, 0, 0xFF, 0xFF, 40, 0, // 52: state, a choice
    0x08, 0, 3, 0, 2, 0, 0, 0, // 64: prefix, two octets
    0x06, 0, 7, 0, 20, 0, // 72: note, at most 20 octets
    0x0C, 0, 1, 0, 0x00, 0x00, 0x00, 0x00, 0xC8, 0x00, 0, 0, // 78: fee, 0 to 200
    0x08, 0, 4, 0, 4, 0, 78, 0, // 90: fees, at most 4
    0x1E, 0, 5, 0, 6, 0, // 98: notice, a record of six fields
    24, 0, 0, 0, 12, 0, 0, 0, 52, 0, 0, 0, 64, 0, 0, 0, 72, 0, 1, 0, 90, 0, 0, 0,
];

const MESSAGE: [u8; 13] = [
    0xC0, 0x56, 0x23, 0x01, 0x14, 0x14, 0x20, 0x24, 0x86, 0x90, 0x29, 0x6C, 0x80,
];

fn refused(call: &str, number: u32, place: u64) {
    println!("{call}: {}", Refusal { number, place });
}

fn main() {
    // As it is, then with one reference of the last row two octets late: 74 for 72.
    let mut slip = TABLE;
    slip[120] = 74;
    for table in [TABLE, slip] {
        match check(&table) {
            Answer::Accepted { .. } => println!("table: passed"),
            Answer::Refused { number, place } => refused("table", number, place),
        }
    }

    // Cut, then whole. What the values leave of their slice is zeroed.
    let mut values = [0; 32];
    let mut count = 0;
    for length in [12, 13] {
        match read(&TABLE, &MESSAGE[..length], &mut values) {
            Answer::Accepted {
                values: read, bits, ..
            } => {
                count = read as usize;
                print!("read: {bits} bits, values");
                for value in &values[..count] {
                    print!(" {value}");
                }
                println!();
            }
            // The rest may still come.
            Answer::Refused {
                number: Refusal::MESSAGE_ENDS,
                place,
            } => println!("read: cut, the item at bit {place} is not whole"),
            Answer::Refused { number, place } => refused("read", number, place),
        }
    }

    // The list that was read, with another temperature: its third value.
    let mut output = [0; 100];
    for temperature in [-41, 20] {
        values[2] = temperature;
        match write(&TABLE, &values[..count], &mut output) {
            Answer::Accepted { octets, .. } => {
                print!("write: octets");
                for octet in &output[..octets as usize] {
                    print!(" {octet:02X}");
                }
                println!();
            }
            Answer::Refused { number, place } => refused("write", number, place),
        }
    }
}
