//! Captures: files with records of Ethernet frames, right and wrong.

use super::messages::{lm_list, lm_message};
use super::Random;

/// The EtherType of a frame with an LM.
const LM_TYPE: [u8; 2] = [0x88, 0xDC];
/// The size of the smallest frame that goes over the wire, without its check sum.
const FRAME_LEAST: usize = 60;
const ETHERNET_HEADER: usize = 14;

/// The order of the octets in the numbers of a file's headers.
#[derive(Clone, Copy, Debug)]
pub enum Order {
    Little,
    Big,
}

impl Order {
    pub const BOTH: [Order; 2] = [Order::Little, Order::Big];

    fn octets(self, number: u32) -> [u8; 4] {
        match self {
            Order::Little => number.to_le_bytes(),
            Order::Big => number.to_be_bytes(),
        }
    }

    /// The header of a file of microseconds, version 2.4, whose records keep so much of Ethernet frames.
    pub fn file_header(self, most: u32) -> Vec<u8> {
        let version = match self {
            Order::Little => [2, 0, 4, 0],
            Order::Big => [0, 2, 0, 4],
        };
        [
            self.octets(0xA1B2_C3D4),
            version,
            [0; 4],
            [0; 4],
            self.octets(most),
            self.octets(1),
        ]
        .concat()
    }

    /// The header of a record, from the time 0.
    pub fn record_header(self, kept: u32, original: u32) -> Vec<u8> {
        [0, 0, kept, original]
            .map(|number| self.octets(number))
            .concat()
    }
}

/// A file of either order; sometimes its header is wrong, or it ends too soon.
pub fn capture_file(random: &mut Random) -> Vec<u8> {
    let order = random.pick(&Order::BOTH);
    let mut file = file_header(random, order);
    for _ in 0..random.below(7) {
        file.extend(record(random, order));
    }
    match random.below(12) {
        0 => {
            let size = random.index(file.len() + 1);
            file.truncate(size);
        }
        1..=2 => {
            let less = random.index(40.min(file.len() + 1));
            file.truncate(file.len() - less);
        }
        3 => {
            // a part of a record's header, its numbers mostly great
            let size = 1 + random.index(15);
            file.extend(random.octets(size));
        }
        _ => (),
    }
    file
}

fn file_header(random: &mut Random, order: Order) -> Vec<u8> {
    let mut header = order.file_header(random.pick(&[0xFFFF, 0x4_0000, 2_048, 60]));
    let any = random.word() as u32;
    if random.one_in(32) {
        let starts = [0xA1B2_3C4D, 0xA1B2_CD34, 0x0A0D_0D0A, 0xA1B2_C3D5, 0, any];
        header[..4].copy_from_slice(&order.octets(random.pick(&starts)));
    }
    if random.one_in(4) {
        header[4..20].copy_from_slice(&random.octets(16));
    }
    if random.one_in(16) {
        let link_types = [
            0,
            2,
            101,
            0x0101,
            0x0001_0001,
            0x0100_0001,
            0x8000_0001,
            0x0100_0000,
            any,
        ];
        header[20..].copy_from_slice(&order.octets(random.pick(&link_types)));
    }
    header
}

fn record(random: &mut Random, order: Order) -> Vec<u8> {
    let frame = frame(random);
    let any = random.word() as u32;
    let size = frame.len() as u32;
    let kept = match random.below(32) {
        0 => random.pick(&[
            size + 1,
            size.saturating_sub(1),
            size + 0x1_0000,
            size | 0x8000_0000,
            size.swap_bytes(),
            2_048,
            2_049,
            any,
        ]),
        _ => size,
    };
    let original = match random.below(4) {
        0 => random.pick(&[
            kept.wrapping_add(1),
            kept.wrapping_add(1 + any % 2_000),
            kept.wrapping_add(0x1_0000),
            kept.saturating_sub(1),
            any % 2_000,
            kept | 0x8000_0000,
            0,
            u32::MAX,
        ]),
        _ => kept,
    };
    let mut record = order.record_header(kept, original);
    record[..8].copy_from_slice(&random.octets(8));
    record.extend(frame);
    record
}

/// The octets of a frame, from none to a few more than a record may keep.
fn frame(random: &mut Random) -> Vec<u8> {
    let lm = some_lm(random);
    match random.below(32) {
        0..=11 => with_header(random, LM_TYPE, &lm),
        12..=14 => {
            let mut frame = with_header(random, LM_TYPE, &lm);
            frame.resize(frame.len().max(FRAME_LEAST), 0);
            frame
        }
        15..=18 => {
            let types = [
                [0xDC, 0x88],
                [0x88, 0xDD],
                [0x88, 0x00],
                [0x00, 0xDC],
                [0x08, 0x00],
                [0x88, 0x8E],
            ];
            let other = random.pick(&types);
            with_header(random, other, &lm)
        }
        19..=21 => {
            let behind = random.pick(&[LM_TYPE, [0x08, 0x00]]);
            let tagged = [&[0, 7], &behind[..], &lm].concat();
            with_header(random, [0x81, 0x00], &tagged)
        }
        22..=25 => {
            let size = match random.below(4) {
                0 => 0,
                1 => ETHERNET_HEADER - 1,
                _ => random.index(ETHERNET_HEADER),
            };
            with_header(random, LM_TYPE, &[])[..size].to_vec()
        }
        26..=27 => with_header(random, LM_TYPE, &[]),
        28..=29 => {
            let size = random.pick(&[2_045, 2_046, 2_047, 2_048, 2_049, 2_050]);
            let octets = random.word() as u8;
            let mut frame = with_header(random, LM_TYPE, &lm);
            frame.resize(size, octets);
            frame
        }
        _ => {
            let size = random.index(80);
            random.octets(size)
        }
    }
}

fn with_header(random: &mut Random, ether_type: [u8; 2], rest: &[u8]) -> Vec<u8> {
    [&random.octets(12)[..], &ether_type, rest].concat()
}

/// An LM, right or wrong; sometimes with about as many values as there is room for, or of about as many
/// octets as a record keeps.
fn some_lm(random: &mut Random) -> Vec<u8> {
    if !random.one_in(16) {
        let drawn = lm_list(random);
        return lm_message(random, &drawn);
    }
    // the values before the user data are seven, the octets before it five
    let length = match random.below(3) {
        0 => 1_015 + random.index(5),
        1 => 2_026 + random.index(5),
        _ => 128 + random.index(2_000),
    };
    let octet = random.word() as u8;
    let mut lm = vec![0x03, 0x00, 0x20];
    lm.extend((0x8000 | length as u16).to_be_bytes());
    lm.resize(lm.len() + length, octet);
    lm
}
