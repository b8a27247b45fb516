// The smallest unit: reads LMs with no table, and meets three refusals.

use teyolxan_host::lm::{read, Answer, Refusal};

const MESSAGES: [&[u8]; 5] = [
    &[0x03, 0x00, 0x20, 0x02, 0x48, 0x69], // P1
    &[0x23, 0x00, 0x00, 0x07, 0x02, 0x00, 0x01, 0x00, 0x02, 0x00], // P2
    &[0x03, 0x00, 0x20, 0x02, 0x48],       // cut
    &[0x02, 0x00, 0x20, 0x00],             // of version 2
    &[0x33, 0x00, 0x20, 0x00],             // of subtype 3
];

fn main() {
    let mut values = [0; 16];
    for message in MESSAGES {
        match read(message, &mut values) {
            Answer::Accepted { values: count, .. } => {
                print!("read: values");
                for value in &values[..count as usize] {
                    print!(" {value}");
                }
                println!();
            }
            Answer::Refused { number, place } => println!("read: {}", Refusal { number, place }),
        }
    }
}
