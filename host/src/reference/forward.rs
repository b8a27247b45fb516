//! The forwarding step (document 02, ticket 7).

use super::{planted, Engine, MESSAGE_MOST};
use crate::codec::{Answer, Refusal, Seen};
use crate::mutants::Fault;

/// The octets of a message that are looked at.
const HEAD: usize = 4;
/// What a message that goes on has in the first of them.
const VERSION: u32 = 3;
const N_HOP_FORWARDING: u32 = 2;
/// A record that is so old, in milliseconds, is not live any more.
const OLD: u32 = 5_000;

/// The numbers in the first four octets of a message.
struct Head {
    subtype: u32,
    version: u32,
    id: u32,
    hops: u32,
}

/// A test: whether it refuses the message, by which number and at which place.
type Test = (bool, u32, usize);

impl<const F: u8> Engine<F> {
    /// Forwards a message. Where it is refused, the list stays as it is.
    pub(super) fn forward_message(
        message: &[u8],
        now: u32,
        seen: &mut [Seen],
        output: &mut [u8],
    ) -> Answer {
        let head = Self::head_of(message);
        let tests = Self::tests(message, &head, now, seen, output.len());
        match tests.iter().find(|(refuses, ..)| *refuses) {
            None => {
                Self::store(&head, now, seen);
                Self::put_message(message, output);
                Answer::Accepted {
                    values: 0,
                    bits: 0,
                    octets: message.len() as u64,
                }
            }
            Some(&(_, number, place)) => {
                if planted::<F>(Fault::StoredBeforeRoom) && number == Refusal::NO_ROOM {
                    Self::store(&head, now, seen);
                }
                if planted::<F>(Fault::SeenRenews) && number == Refusal::SEEN {
                    Self::renew(&head, now, seen);
                }
                if !planted::<F>(Fault::RefusedOutputKept) {
                    output.fill(0);
                }
                Refusal::new(number, place).into()
            }
        }
    }

    /// Octets that a message lacks are taken as zeros: then it is refused.
    fn head_of(message: &[u8]) -> Head {
        let mut octets = [0; HEAD];
        for (octet, given) in octets.iter_mut().zip(message) {
            *octet = *given;
        }
        let bits = u32::from_be_bytes(octets);
        Head {
            subtype: bits >> 28,
            version: bits >> 24 & 0b111,
            id: match planted::<F>(Fault::IdOfThreeOctets) {
                true => bits & 0xFF_FFFF,
                false => bits >> 2 & 0x3F_FFFF,
            },
            hops: bits & 0b11,
        }
    }

    /// What refuses a message, in order.
    fn tests(message: &[u8], head: &Head, now: u32, seen: &[Seen], room: usize) -> [Test; 8] {
        let most = MESSAGE_MOST + usize::from(planted::<F>(Fault::ForwardedOneLonger));
        let no_hops = head.hops == 0 && !planted::<F>(Fault::HopsWrap);
        let mut full = seen.iter().all(|record| Self::is_live(record, now));
        if planted::<F>(Fault::EmptyListForwards) {
            full &= !seen.is_empty();
        }
        let needed = message.len() + usize::from(planted::<F>(Fault::OutputOneLonger));
        let mut tests = [
            (message.len() > most, Refusal::TOO_LONG, 0),
            (message.len() < HEAD, Refusal::MESSAGE_ENDS, 0),
            (head.version != VERSION, Refusal::WRONG_VERSION, 5),
            (head.subtype != N_HOP_FORWARDING, Refusal::WRONG_SUBTYPE, 0),
            (no_hops, Refusal::NO_HOPS, 30),
            (Self::is_seen(head.id, now, seen), Refusal::SEEN, 8),
            (full, Refusal::NO_RECORD, 0),
            (room < needed, Refusal::NO_ROOM, 0),
        ];
        Self::put_out_of_place(&mut tests);
        Self::put_out_of_order(&mut tests);
        if planted::<F>(Fault::HeaderBehindTested) && (HEAD + 1..=most).contains(&message.len()) {
            tests[0] = (message[HEAD] >> 1 > 1, Refusal::NO_BRANCH, 8 * HEAD);
        }
        tests
    }

    /// The faults of the places.
    fn put_out_of_place(tests: &mut [Test; 8]) {
        for (fault, at, place) in [
            (Fault::VersionAtStart, 2, 0),
            (Fault::HopsAtOctet, 4, 24),
            (Fault::IdAtStart, 5, 0),
        ] {
            if planted::<F>(fault) {
                tests[at].2 = place;
            }
        }
    }

    /// The faults of the order.
    fn put_out_of_order(tests: &mut [Test; 8]) {
        for (fault, earlier) in [
            (Fault::VersionBeforeEnd, 1),
            (Fault::SubtypeBeforeVersion, 2),
            (Fault::HopsBeforeSubtype, 3),
            (Fault::SeenBeforeHops, 4),
            (Fault::FullBeforeSeen, 5),
            (Fault::RoomBeforeFree, 6),
        ] {
            if planted::<F>(fault) {
                tests.swap(earlier, earlier + 1);
            }
        }
        if planted::<F>(Fault::VersionBeforeLength) {
            tests[..3].rotate_left(1);
        }
        if planted::<F>(Fault::RoomBeforeSeen) {
            tests[5..].rotate_right(1);
        }
    }

    /// Whether a record is in use, and its time later than now or less than 5,000 ms before.
    fn is_live(record: &Seen, now: u32) -> bool {
        let old = OLD + u32::from(planted::<F>(Fault::LiveAtLimit));
        let young = match planted::<F>(Fault::AgeWraps) {
            true => now.wrapping_sub(record.time) < old,
            false => record.time > now || now - record.time < old,
        };
        young && (record.used || planted::<F>(Fault::UnusedLive))
    }

    /// Whether a live record has the ID.
    fn is_seen(id: u32, now: u32, seen: &[Seen]) -> bool {
        let live = |record: &&Seen| Self::is_live(record, now);
        let same = |record: &Seen| match planted::<F>(Fault::StoredIdCut) {
            true => record.id & 0x3F_FFFF == id,
            false => record.id == id,
        };
        match planted::<F>(Fault::SearchEndsAtFree) {
            true => seen.iter().take_while(live).any(same),
            false => seen.iter().filter(live).any(same),
        }
    }

    /// Stores the ID in the first record that is not live.
    fn store(head: &Head, now: u32, seen: &mut [Seen]) {
        let free = |record: &Seen| !Self::is_live(record, now);
        let mut at = seen.iter().position(free);
        if planted::<F>(Fault::LastFreeTaken) {
            at = seen.iter().rposition(free);
        }
        if planted::<F>(Fault::SameIdPreferred) {
            let same = |record: &Seen| free(record) && record.id == head.id;
            at = seen.iter().position(same).or(at);
        }
        if let Some(at) = at {
            seen[at] = Seen {
                id: head.id,
                time: now,
                used: true,
            };
        }
    }

    /// The fault that a record which has the ID gets a new time.
    fn renew(head: &Head, now: u32, seen: &mut [Seen]) {
        let same = |record: &&mut Seen| record.id == head.id && Self::is_live(record, now);
        if let Some(record) = seen.iter_mut().find(same) {
            record.time = now;
        }
    }

    /// The message with its hop count one lower, then zeros; it fits, and has a head.
    fn put_message(message: &[u8], output: &mut [u8]) {
        let (copy, mut rest) = output.split_at_mut(message.len());
        copy.copy_from_slice(message);
        let less = match F {
            _ if planted::<F>(Fault::HopsKept) => 0,
            _ if planted::<F>(Fault::HopsTwoLower) => 2,
            _ => 1,
        };
        let last = &mut copy[HEAD - 1];
        *last = *last & !0b11 | last.wrapping_sub(less) & 0b11;
        if planted::<F>(Fault::ExtensionsCleared) {
            copy[0] &= !0b1000;
        }
        if planted::<F>(Fault::OutputZeroedInPart) {
            let zeroed = rest.len().min(MESSAGE_MOST - message.len());
            rest = &mut rest[..zeroed];
        }
        if !planted::<F>(Fault::OutputRestKept) {
            rest.fill(0);
        }
    }
}
