//! The forwarding step of the library: against the reference on a million drawn calls, in sequences that
//! fill a list and let it grow old; what holds over a sequence, whatever the reference says; and the call as
//! a host makes it.
//!
//! TEYOLXAN_SEED and TEYOLXAN_CASES repeat or extend the drawn calls; without them every run draws others.

use std::time::Instant;

use teyolxan_host::api::{self, Answer, Refusal, Seen};
use teyolxan_host::archive::ARCHIVE;
use teyolxan_host::case::{Case, Forwarded, Hop};
use teyolxan_host::codec::{value_octets, Call, Codec};
use teyolxan_host::compare::{compare_one, Stats};
use teyolxan_host::mutants;
use teyolxan_host::random::{forwarding, lm_list, Random};
use teyolxan_host::reference::{self, straight_step, REFERENCE};
use teyolxan_host::settings;
use teyolxan_host::vectors::{case_text, pass, EDGES, FORWARD};

/// The calls against the reference, and those of the other tests.
const CALLS: u64 = 1_000_000;
const FEWER: u64 = 200_000;
/// The most messages of a sequence.
const MOST: usize = 300;

fn refused(number: u32, place: usize) -> Answer {
    Refusal::new(number, place).into()
}

/// A message that is forwarded, with the list before it.
struct Drawn<'a> {
    /// The number of its sequence, and whether it is the first there.
    sequence: u64,
    is_first: bool,
    seen: &'a [Seen],
    hop: &'a Hop,
}

/// Draws so many messages, in sequences over one list each; `forward` gives the list after a message.
fn drive(seed: u64, calls: u64, mut forward: impl FnMut(Drawn) -> Vec<Seen>) {
    let mut left = calls;
    for sequence in 0.. {
        let random = &mut Random::for_case(seed, sequence);
        let (mut seen, hops) = forwarding(random, MOST);
        for (at, hop) in hops.iter().enumerate() {
            if left == 0 {
                return;
            }
            left -= 1;
            let drawn = Drawn {
                sequence,
                is_first: at == 0,
                seen: &seen,
                hop,
            };
            seen = forward(drawn);
        }
    }
}

/// What both codecs give for a message. The error tells where they differ.
fn both(left: &dyn Codec, right: &dyn Codec, drawn: &Drawn) -> Result<Forwarded, String> {
    let (mut of_left, mut of_right) = (drawn.seen.to_vec(), drawn.seen.to_vec());
    let given = drawn.hop.run(left, &mut of_left);
    if drawn.hop.run(right, &mut of_right) == given {
        return Ok(given);
    }
    let case = Case::Forward {
        seen: drawn.seen.to_vec(),
        steps: vec![drawn.hop.clone()],
    };
    let report = compare_one(left, right, &case, &mut Stats::default());
    let report = report.expect_err(&case_text(&case));
    Err(format!("sequence {}: {report}", drawn.sequence))
}

/// The numbers, the whole list and the whole output of each call. `ARCHIVE` looks at all twelve octets of
/// every record, too.
#[test]
fn the_library_forwards_as_the_reference_does() {
    let seed = settings::seed("TEYOLXAN_SEED");
    let calls = settings::number("TEYOLXAN_CASES").unwrap_or(CALLS);
    println!("TEYOLXAN_SEED={seed} TEYOLXAN_CASES={calls}");
    let start = Instant::now();
    let mut stats = Stats::default();
    let mut sizes = [0; 65];
    drive(seed, calls, |drawn| {
        let given = both(&REFERENCE, &ARCHIVE, &drawn)
            .unwrap_or_else(|report| panic!("seed {seed}, {report}"));
        stats.cases += 1;
        stats.calls[Call::Forward as usize] += 1;
        stats.count(given.answer.refusal());
        sizes[drawn.seen.len()] += 1;
        given.seen
    });
    println!("{stats}\nin {:.1} s", start.elapsed().as_secs_f64());
    assert_eq!(stats.cases, calls);
    if calls < CALLS {
        return;
    }
    assert!(sizes.iter().all(|&count| count > 0), "{sizes:?}");
    assert!(stats.accepted > calls / 8, "{} accepted", stats.accepted);
    for (number, least) in [
        (Refusal::TOO_LONG, 500),
        (Refusal::MESSAGE_ENDS, 10_000),
        (Refusal::WRONG_VERSION, 10_000),
        (Refusal::WRONG_SUBTYPE, 10_000),
        (Refusal::NO_HOPS, 10_000),
        (Refusal::SEEN, 100_000),
        (Refusal::NO_RECORD, 50_000),
        (Refusal::NO_ROOM, 10_000),
    ] {
        let count = stats.refused_by(number);
        assert!(count >= least, "refusal {number} is met {count} times");
    }
}

// ---- What holds over a sequence --------------------------------------------------------------

/// The message ID, and the hop count, of a message that has them.
fn id_and_hops(message: &[u8]) -> (u32, u32) {
    let bits = u32::from_be_bytes(message[..4].try_into().expect("four octets"));
    (bits >> 2 & 0x3F_FFFF, bits & 0b11)
}

/// Only bits 30 and 31 change, by one; zeros follow.
fn looks_at_output(hop: &Hop, given: &Forwarded) {
    let (copy, rest) = given.output.split_at(hop.message.len());
    assert!(rest.iter().all(|&octet| octet == 0));
    let ((id, hops), (id_before, hops_before)) = (id_and_hops(copy), id_and_hops(&hop.message));
    assert_eq!((id, hops + 1), (id_before, hops_before));
    assert_eq!((copy[0], &copy[4..]), (hop.message[0], &hop.message[4..]));
}

/// The first record that was not live has the ID and the time; every other is as it was.
fn looks_at_list(drawn: &Drawn, given: &Forwarded) {
    let now = drawn.hop.now;
    let is_live = |record: &Seen| {
        let later = record.time > now;
        record.used && (later || u64::from(now) < u64::from(record.time) + 5_000)
    };
    let mut expected = drawn.seen.to_vec();
    let free = expected.iter_mut().find(|record| !is_live(record));
    *free.expect("a record that is not live") = Seen {
        id: id_and_hops(&drawn.hop.message).0,
        time: now,
        used: true,
    };
    assert_eq!(given.seen, expected);
}

/// The IDs that were forwarded in a sequence, with their times, as long as no later call was made more than
/// 4,999 ms after.
#[derive(Default)]
struct Watch {
    forwarded: Vec<(u32, u32)>,
    /// How often one of them came again.
    again: u64,
}

impl Watch {
    /// Asks that an ID which comes again is refused, where the call comes as far as that test.
    fn look(&mut self, hop: &Hop, answer: Answer) {
        let now = u64::from(hop.now);
        self.forwarded
            .retain(|&(_, time)| now <= u64::from(time) + 4_999);
        let number = answer.refusal().map(|refusal| refusal.number);
        match number {
            None | Some(Refusal::SEEN | Refusal::NO_RECORD | Refusal::NO_ROOM) => (),
            Some(_) => return,
        }
        let (id, _) = id_and_hops(&hop.message);
        if self.forwarded.iter().any(|&(other, _)| other == id) {
            assert_eq!(answer, refused(Refusal::SEEN, 8));
            self.again += 1;
        }
        if number.is_none() {
            self.forwarded.push((id, hop.now));
        }
    }
}

#[test]
fn an_id_goes_on_once_in_five_seconds_and_little_changes() {
    let seed = settings::seed("TEYOLXAN_SEED");
    println!("TEYOLXAN_SEED={seed}");
    let mut watch = Watch::default();
    drive(seed, FEWER, |drawn| {
        if drawn.is_first {
            watch.forwarded.clear();
        }
        let given = drawn.hop.run(&ARCHIVE, &mut drawn.seen.to_vec());
        watch.look(drawn.hop, given.answer);
        match given.answer.refusal() {
            None => {
                looks_at_output(drawn.hop, &given);
                looks_at_list(&drawn, &given);
            }
            Some(_) => {
                assert!(given.output.iter().all(|&octet| octet == 0));
                assert_eq!(given.seen, drawn.seen);
            }
        }
        given.seen
    });
    println!("{} came again", watch.again);
    assert!(watch.again > FEWER / 20, "{} came again", watch.again);
}

/// An N-hop LM that is read by name goes on as one that is read by name, with its hop count one lower.
#[test]
fn an_lm_goes_on_as_an_lm() {
    const HOPS: usize = 4;
    let mut count = 0;
    for number in 0..20_000 {
        let drawn = lm_list(&mut Random::for_case(12, number));
        let (mut values, message) = (drawn.values(), drawn.message());
        let size = 8 * values.len();
        let mut read = vec![0; size];
        let before = ARCHIVE.read_lm(&message, &mut read);
        if before.refusal().is_some() || values[0] != 2 || values[HOPS] == 0 {
            continue;
        }
        count += 1;
        let mut output = vec![0; message.len()];
        let answer = ARCHIVE.forward(&message, 0, &mut [Seen::default()], &mut output);
        assert_eq!(answer.refusal(), None);
        assert_eq!(ARCHIVE.read_lm(&output, &mut read), before);
        values[HOPS] -= 1;
        assert_eq!(read, value_octets(&values));
    }
    assert!(count > 500, "{count} LMs");
}

// ---- All of a kind ---------------------------------------------------------------------------

/// Compares the library with the reference on a call.
fn compared(message: &[u8], now: u32, seen: &[Seen], output: usize, stats: &mut Stats) {
    let case = Case::Forward {
        seen: seen.to_vec(),
        steps: vec![Hop {
            message: message.to_vec(),
            now,
            output,
        }],
    };
    compare_one(&REFERENCE, &ARCHIVE, &case, stats).unwrap_or_else(|report| panic!("{report}"));
}

fn record(id: u32, time: u32, used: bool) -> Seen {
    Seen { id, time, used }
}

/// Every first octet with every fourth, over lists that are empty, free, full, and with the ID.
#[test]
fn every_head() {
    let mut stats = Stats::default();
    for (first, last) in (0..=255).flat_map(|first| (0..=255).map(move |last| (first, last))) {
        let message = [first, 0x12, 0x34, last, 0xFF];
        let (id, _) = id_and_hops(&message);
        let (other, same) = (record(id ^ 1, 0, true), record(id, 0, true));
        let free = Seen::default();
        for list in [vec![], vec![other, free], vec![other], vec![free, same]] {
            compared(&message, 0, &list, 6, &mut stats);
        }
    }
    println!("{stats}");
    assert_eq!(stats.accepted, 2 * 64 * 3);
}

/// Every length of a message up to 8, of an output up to 10 and of a list up to 3.
#[test]
fn every_short_slice() {
    let message = [0x2B, 0, 0, 0x1D, 0xFF, 0, 1, 2];
    let mut stats = Stats::default();
    for (size, output) in (0..=8).flat_map(|size| (0..=10).map(move |output| (size, output))) {
        for records in 0..=3 {
            let list = vec![Seen::default(); records];
            compared(&message[..size], 0, &list, output, &mut stats);
        }
    }
    // Messages of 4 to 8 octets, each with outputs from as many to 10.
    assert_eq!(stats.accepted, 3 * (7 + 6 + 5 + 4 + 3));
}

/// Times at all ends, in use or not, with the ID or another.
#[test]
fn every_age() {
    let near = |time: u32| [time.wrapping_sub(1), time, time.wrapping_add(1)];
    let ends = [0, 4_999, 5_001, 10_000, 1 << 31, u32::MAX - 5_000, u32::MAX];
    let times: Vec<u32> = ends.into_iter().flat_map(near).collect();
    let mut stats = Stats::default();
    for (&now, &time) in times
        .iter()
        .flat_map(|now| times.iter().map(move |time| (now, time)))
    {
        for (id, used) in [(7, true), (7, false), (8, true), (8, false)] {
            compared(
                &[0x23, 0, 0, 0x1F],
                now,
                &[record(id, time, used)],
                4,
                &mut stats,
            );
        }
    }
    println!("{stats}");
    assert!(stats.refused_by(Refusal::SEEN) > 0 && stats.refused_by(Refusal::NO_RECORD) > 0);
}

// ---- The yardstick, and planted faults -------------------------------------------------------

/// The step that is written out by hand, as a codec under test.
struct Straight;

impl Codec for Straight {
    fn name(&self) -> String {
        "straight".to_string()
    }

    fn offers(&self, call: Call) -> bool {
        call == Call::Forward
    }

    fn forward(&self, message: &[u8], now: u32, seen: &mut [Seen], output: &mut [u8]) -> Answer {
        straight_step::forward(message, now, seen, output)
    }
}

#[test]
fn the_straight_step_is_the_reference() {
    assert_eq!(pass(&Straight, FORWARD), 441);
    assert_eq!(pass(&Straight, EDGES), 132);
    drive(1, FEWER, |drawn| {
        let given = both(&REFERENCE, &Straight, &drawn);
        given.unwrap_or_else(|report| panic!("{report}")).seen
    });
}

/// The sequences find every fault of the forwarding step.
#[test]
fn drawn_calls_find_planted_faults() {
    let mut missed = Vec::new();
    for (fault, mutant) in mutants::all() {
        if !fault.is_of_forwarding() {
            continue;
        }
        let mut found = None;
        drive(2, FEWER / 4, |drawn| {
            if found.is_some() {
                return drawn.seen.to_vec();
            }
            both(&REFERENCE, mutant.as_ref(), &drawn).map_or_else(
                |report| {
                    found = Some(report);
                    drawn.seen.to_vec()
                },
                |given| given.seen,
            )
        });
        match found {
            Some(report) => println!("{fault:?}: {report:.300}"),
            None => missed.push(fault),
        }
    }
    assert!(missed.is_empty(), "not found: {missed:?}");
}

// ---- As a host calls it ----------------------------------------------------------------------

fn forwarded(octets: u64) -> Answer {
    Answer::Accepted {
        values: 0,
        bits: 0,
        octets,
    }
}

/// P2, which goes on at one time, is seen for 4,999 ms, and goes on again.
#[test]
fn a_list_is_lent_in_place() {
    let message = [0x23, 0, 0, 7, 2, 0, 1, 0, 2, 0];
    let mut seen = [Seen::default(); 2];
    let mut output = [0xAA; 12];
    let goes_on = [0x23, 0, 0, 6, 2, 0, 1, 0, 2, 0, 0, 0];
    let answer = api::forward(&message, 1_000, &mut seen, &mut output);
    assert_eq!((answer, output), (forwarded(10), goes_on));
    assert_eq!(seen, [record(1, 1_000, true), Seen::default()]);
    for now in [1_000, 999, 0, 5_999] {
        let before = seen;
        output.fill(0xAA);
        let answer = api::forward(&message, now, &mut seen, &mut output);
        assert_eq!((answer, output), (refused(Refusal::SEEN, 8), [0; 12]));
        assert_eq!(seen, before);
    }
    let answer = api::forward(&message, 6_000, &mut seen, &mut output);
    assert_eq!((answer, output), (forwarded(10), goes_on));
    assert_eq!(seen, [record(1, 6_000, true), Seen::default()]);
    let answer = api::forward(&message, 6_000, &mut [], &mut output);
    assert_eq!(answer, refused(Refusal::NO_RECORD, 0));
}

/// Lists as Rust has them, whatever their padding holds, in sequences.
#[test]
fn lists_of_rust_are_lent_as_they_are() {
    drive(3, FEWER, |drawn| {
        let (mut one, mut other) = (drawn.seen.to_vec(), drawn.seen.to_vec());
        let mut outputs = [drawn.hop.output, drawn.hop.output].map(|size| vec![0xA5; size]);
        let [left, right] = &mut outputs;
        let (message, now) = (&drawn.hop.message, drawn.hop.now);
        let answers = [
            api::forward(message, now, &mut one, left),
            reference::forward(message, now, &mut other, right),
        ];
        assert_eq!(answers[0], answers[1]);
        assert!(one == other && left == right);
        one
    });
}
