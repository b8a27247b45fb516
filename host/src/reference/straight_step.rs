//! The forwarding step written out by hand for speed: a yardstick for ours. Answers, list and output are
//! those of `forward`.
//!
//! The list is walked once. Up to the first record that is not live each is asked for both; behind it a
//! record is asked whether it is live only where it has the ID. Of five walks that were tried this one took
//! the fewest instructions, over the lists of the benchmark together.

use super::MESSAGE_MOST;
use crate::codec::{Answer, Refusal, Seen};

/// The bits of a message's first octet that tell its version, and what they are; and what its first four
/// bits are.
const VERSION_BITS: u8 = 0b111;
const VERSION: u8 = 3;
const N_HOP_FORWARDING: u8 = 2;
/// A record that is so old, in milliseconds, is not live any more.
const OLD: u32 = 5_000;

/// Forwards a message. It is a function of its own, as ours is.
#[inline(never)]
pub fn forward(message: &[u8], now: u32, seen: &mut [Seen], output: &mut [u8]) -> Answer {
    match step(message, now, seen, output) {
        Ok(()) => Answer::Accepted {
            values: 0,
            bits: 0,
            octets: message.len() as u64,
        },
        Err(refusal) => {
            output.fill(0);
            refusal.into()
        }
    }
}

/// After a refusal the output may hold anything.
#[inline(always)]
fn step(message: &[u8], now: u32, seen: &mut [Seen], output: &mut [u8]) -> Result<(), Refusal> {
    let id = id_of(message)?;
    let free = free_record(id, now, seen)?;
    let Some((copy, rest)) = output.split_at_mut_checked(message.len()) else {
        return Err(Refusal::new(Refusal::NO_ROOM, 0));
    };
    copy.copy_from_slice(message);
    copy[3] -= 1;
    rest.fill(0);
    *free = Seen {
        id,
        time: now,
        used: true,
    };
    Ok(())
}

/// The ID of a message that may go on.
#[inline(always)]
fn id_of(message: &[u8]) -> Result<u32, Refusal> {
    if message.len() > MESSAGE_MOST {
        return Err(Refusal::new(Refusal::TOO_LONG, 0));
    }
    let Some(&head) = message.first_chunk::<4>() else {
        return Err(Refusal::new(Refusal::MESSAGE_ENDS, 0));
    };
    if head[0] & VERSION_BITS != VERSION {
        return Err(Refusal::new(Refusal::WRONG_VERSION, 5));
    }
    if head[0] >> 4 != N_HOP_FORWARDING {
        return Err(Refusal::new(Refusal::WRONG_SUBTYPE, 0));
    }
    if head[3] & 0b11 == 0 {
        return Err(Refusal::new(Refusal::NO_HOPS, 30));
    }
    Ok((u32::from_be_bytes(head) & 0xFF_FFFF) >> 2)
}

/// The first record that is not live, where no live one has the ID.
#[inline(always)]
fn free_record(id: u32, now: u32, seen: &mut [Seen]) -> Result<&mut Seen, Refusal> {
    let is_live = |record: &Seen| record.used && now.saturating_sub(record.time) < OLD;
    let mut records = seen.iter_mut();
    let mut free = None;
    for record in records.by_ref() {
        if !is_live(record) {
            free = Some(record);
            break;
        }
        if record.id == id {
            return Err(Refusal::new(Refusal::SEEN, 8));
        }
    }
    if records.any(|record| record.id == id && is_live(record)) {
        return Err(Refusal::new(Refusal::SEEN, 8));
    }
    free.ok_or(Refusal {
        number: Refusal::NO_RECORD,
        place: 0,
    })
}
