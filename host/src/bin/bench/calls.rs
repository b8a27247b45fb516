//! The calls that are measured, each tried once before: what it gives has to be right to the last
//! value, octet and bit.

use std::hint::black_box;

use teyolxan_host::api::{self, State};
use teyolxan_host::by_name::{self, Name, Numbers};
use teyolxan_host::codec::{Answer, Bits, Refusal, Seen};
use teyolxan_host::lm;
use teyolxan_host::reference::{self, straight, straight_step, Opened, Passed};

#[cfg(feature = "asn1c")]
use crate::asn1c;
use crate::subjects::{Job, Kind, Message, Step, Subject};

/// Who makes the call. A lent table is checked in the call, a loaded one was before, any other is known
/// to pass; ours plain and straight Rust have none.
#[derive(Clone, Copy, Debug, PartialEq, Eq)]
pub enum Way {
    Ours,
    OursPlain,
    /// The same with values as numbers. It has no column, and is told with its limits alone.
    OursPlainNumbers,
    OursLoaded,
    OursLent,
    Rust,
    RustLent,
    Straight,
    /// Bits that are fetched one by one, by a function of ours with the fetch's contract, and in Rust.
    OursBitwise,
    RustBitwise,
    Asn1c,
}

impl Way {
    /// Those that do a job, in the order of their columns.
    pub fn of(job: Job) -> Vec<Way> {
        let mut ways = match job {
            Job::Read => vec![
                Way::Ours,
                Way::OursPlain,
                Way::OursPlainNumbers,
                Way::OursLoaded,
                Way::OursLent,
                Way::Rust,
                Way::RustLent,
                Way::Straight,
            ],
            Job::Write => vec![Way::Ours, Way::OursLent, Way::Rust, Way::RustLent],
            Job::Take => vec![Way::Ours, Way::OursBitwise, Way::Rust, Way::RustBitwise],
            Job::Check => vec![Way::Ours, Way::OursLoaded, Way::Rust],
            Job::Forward => vec![Way::Ours, Way::Straight],
        };
        if cfg!(feature = "asn1c") && !matches!(job, Job::Check | Job::Forward) {
            ways.push(Way::Asn1c);
        }
        ways
    }

    /// The title of its column, if it has one.
    pub fn title(self, job: Job) -> Option<&'static str> {
        Some(match (self, job) {
            (Way::Ours, Job::Read | Job::Write) => "ours by name",
            (Way::Rust, Job::Read | Job::Write) => "Rust by name",
            (Way::OursLoaded, Job::Check) => "ours loading",
            (Way::OursLoaded, _) => "ours loaded",
            (Way::Ours, _) => "ours",
            (Way::Rust, _) => "Rust",
            (Way::OursLent, _) => "ours lent",
            (Way::RustLent, _) => "Rust lent",
            (Way::OursPlain, _) => "ours plain",
            (Way::OursPlainNumbers, _) => return None,
            (Way::Straight, _) => "straight Rust",
            (Way::OursBitwise, _) => "ours bit by bit",
            (Way::RustBitwise, _) => "Rust bit by bit",
            (Way::Asn1c, _) => "asn1c",
        })
    }
}

/// Makes a call so many times.
pub type Work = Box<dyn FnMut(u64)>;

/// The call that a way makes of a row, or nothing where it has none.
pub fn prepare(job: Job, subject: &Subject, way: Way) -> Option<Work> {
    match (job, subject) {
        (Job::Read, Subject::Message(message)) => read(message, way),
        (Job::Write, Subject::Message(message)) => write(message, way),
        (Job::Take, Subject::Bits(width)) => take(*width, way),
        (Job::Check, Subject::Table { table, .. }) => check(table.clone(), way),
        (Job::Forward, Subject::Step(step)) => forward(step, way),
        _ => None,
    }
}

fn repeated<T>(mut call: impl FnMut() -> T + 'static) -> Work {
    Box::new(move |count| {
        for _ in 0..count {
            black_box(&call());
        }
    })
}

/// A table that lives as long as the program.
fn passed(table: &[u8]) -> Passed<'static> {
    Passed::new(table.to_vec().leak()).expect("a built-in table passes the check")
}

/// A state with a table in it.
fn loaded(table: &[u8]) -> Box<State> {
    let mut state = Box::new(State::fresh());
    assert_eq!(state.load(table), Answer::PASSED);
    state
}

// ---- Reading ---------------------------------------------------------------------------------

fn read(message: &Message, way: Way) -> Option<Work> {
    let table = message.table.clone();
    let is_lm = message.kind == Kind::Lm;
    match way {
        Way::Ours => {
            let name = message.kind.name()?;
            reading(message, move |octets, values| {
                by_name::read(name, octets, values)
            })
        }
        Way::OursLoaded => {
            let state = loaded(&table);
            reading(message, move |octets, values| {
                black_box(&state).read(octets, values)
            })
        }
        Way::OursLent => reading(message, move |octets, values| {
            api::read(black_box(&table), octets, values)
        }),
        Way::Rust => match message.kind.name()? {
            Name::Lm => reading(message, reference::read_lm_into),
            Name::Sam | Name::Srm => {
                let table = passed(&table);
                reading(message, move |octets, values| {
                    table.read_into(octets, values)
                })
            }
        },
        Way::RustLent => reading(message, move |octets, values| {
            reference::read_into(black_box(&table), octets, values)
        }),
        Way::OursPlain if is_lm => reading(message, lm::read),
        Way::OursPlainNumbers if is_lm => reading(message, by_name::read_lm_plain),
        Way::Straight if is_lm => reading(message, straight::read_lm_into),
        Way::OursPlain | Way::OursPlainNumbers | Way::Straight => None,
        Way::OursBitwise | Way::RustBitwise => None,
        Way::Asn1c => asn1c_reading(message),
    }
}

fn reading(
    message: &Message,
    call: impl Fn(&[u8], &mut [i64]) -> Answer + 'static,
) -> Option<Work> {
    let octets = message.octets.clone();
    let mut values = vec![-1; message.room];
    let answer = call(&octets, &mut values);
    let (kept, rest) = values.split_at(message.values.len());
    let right = matches!(answer, Answer::Accepted { values, .. } if values == kept.len() as u64)
        && kept == message.values
        && rest.iter().all(|&value| value == 0);
    assert!(right, "{}: {answer:?}", message.title);
    Some(repeated(move || {
        call(black_box(&octets), black_box(&mut values))
    }))
}

// ---- Writing ---------------------------------------------------------------------------------

fn write(message: &Message, way: Way) -> Option<Work> {
    let table = message.table.clone();
    match way {
        Way::Ours => {
            let name = message.kind.name()?;
            writing(message, move |values, output| {
                by_name::write(name, values, output)
            })
        }
        Way::OursLent => writing(message, move |values, output| {
            api::write(black_box(&table), values, output)
        }),
        Way::Rust => match message.kind.name()? {
            Name::Lm => writing(message, reference::write_lm_into),
            Name::Sam | Name::Srm => {
                let table = passed(&table);
                writing(message, move |values, output| {
                    table.write_into(values, output)
                })
            }
        },
        Way::RustLent => writing(message, move |values, output| {
            reference::write_into(black_box(&table), values, output)
        }),
        Way::OursPlain | Way::OursPlainNumbers | Way::OursLoaded => None,
        Way::Straight | Way::OursBitwise | Way::RustBitwise => None,
        Way::Asn1c => asn1c_writing(message),
    }
}

fn writing(
    message: &Message,
    call: impl Fn(&[i64], &mut [u8]) -> Answer + 'static,
) -> Option<Work> {
    let values = message.values.clone();
    let mut output = vec![0xFF; message.output];
    let answer = call(&values, &mut output);
    let (written, rest) = output.split_at(message.octets.len());
    let right = matches!(answer, Answer::Accepted { octets, .. } if octets == written.len() as u64)
        && written == message.octets
        && rest.iter().all(|&octet| octet == 0);
    assert!(right, "{}: {answer:?}", message.title);
    Some(repeated(move || {
        call(black_box(&values), black_box(&mut output))
    }))
}

// ---- Bits ------------------------------------------------------------------------------------

/// The bits are taken one after another, from a place inside an octet on; those that are counted
/// don't reach the end.
const START: usize = 3;
const TRIED: usize = 200;
static BITS: [u8; 1_024] = pattern();
/// From here on a fetch starts again.
const LAST: usize = 8 * BITS.len() - 32;

const fn pattern() -> [u8; 1_024] {
    let mut octets = [0; 1_024];
    let mut at = 0;
    while at < octets.len() {
        octets[at] = (at * 167 + at / 256 * 29 + 91) as u8;
        at += 1;
    }
    octets
}

/// The number in the bits of these octets, bit by bit.
#[inline]
fn bits_at(octets: &[u8], place: usize, width: u32) -> u64 {
    (place..place + width as usize).fold(0, |number, at| {
        number << 1 | u64::from(octets[at / 8] >> (7 - at % 8) & 1)
    })
}

fn take(width: u32, way: Way) -> Option<Work> {
    match way {
        Way::Ours => taking_told(width, by_name::take_told),
        Way::OursBitwise => taking_told(width, by_name::take_bitwise_told),
        Way::RustBitwise => {
            let mut place = START;
            taking(width, move || {
                if place > LAST {
                    place = START;
                }
                let octets: &[u8] = black_box(&BITS);
                assert!(width <= 32 && width as usize <= 8 * octets.len() - place);
                let number = bits_at(octets, place, width);
                place += width as usize;
                number
            })
        }
        Way::Rust => {
            let open = || {
                let mut opened = Opened::new(black_box(&BITS)).0;
                opened.take(START as u64).expect("bits");
                opened
            };
            let mut opened = open();
            taking(width, move || {
                if opened.place() > LAST {
                    opened = open();
                }
                opened.take(u64::from(width)).expect("bits")
            })
        }
        Way::Asn1c => asn1c_taking(width),
        _ => None,
    }
}

/// One of ours, which is lent the same six numbers each time.
fn taking_told(
    width: u32,
    call: impl Fn(&[u8], usize, u32, &mut Numbers) -> Result<Bits, Refusal> + 'static,
) -> Option<Work> {
    let mut place = START;
    let mut numbers = [0; 6];
    taking(width, move || {
        if place > LAST {
            place = START;
        }
        let bits = call(black_box(&BITS), place, width, &mut numbers).expect("bits");
        place = bits.place as usize;
        bits.number
    })
}

fn taking(width: u32, mut call: impl FnMut() -> u64 + 'static) -> Option<Work> {
    for turn in 0..TRIED {
        let place = START + turn * width as usize;
        assert_eq!(
            call(),
            bits_at(&BITS, place, width),
            "{width} bits at {place}"
        );
    }
    Some(repeated(call))
}

// ---- Tables ----------------------------------------------------------------------------------

fn check(table: Vec<u8>, way: Way) -> Option<Work> {
    let call = match way {
        Way::Ours => api::check,
        Way::OursLoaded => {
            let mut state = loaded(&table);
            return Some(repeated(move || {
                black_box(&mut state).load(black_box(&table))
            }));
        }
        Way::Rust => reference::check,
        _ => return None,
    };
    assert_eq!(call(&table), Answer::PASSED);
    Some(repeated(move || call(black_box(&table))))
}

// ---- Forwarding ------------------------------------------------------------------------------

/// The octets that there is room for.
const OUTPUT: usize = 64;

fn forward(step: &Step, way: Way) -> Option<Work> {
    match way {
        Way::Ours => Some(forwarding(step, api::forward)),
        Way::Straight => Some(forwarding(step, straight_step::forward)),
        _ => None,
    }
}

/// Before each call the record that it stores is put back.
fn forwarding(
    step: &Step,
    call: impl Fn(&[u8], u32, &mut [Seen], &mut [u8]) -> Answer + 'static,
) -> Work {
    let (message, now, mut seen) = (step.message.clone(), step.now, step.seen.clone());
    let (mut after, mut sent) = (seen.clone(), [0; OUTPUT]);
    let expected = reference::forward(&message, now, &mut after, &mut sent);
    let mut output = [0xFF; OUTPUT];
    let answer = call(&message, now, &mut seen, &mut output);
    let right = (answer, &seen, output) == (expected, &after, sent);
    assert!(right, "{}: {answer:?}", step.title);
    let mut pairs = step.seen.iter().zip(&seen);
    let stored = pairs.position(|(before, after)| before != after);
    let stored = stored.unwrap_or(0);
    let before = step.seen[stored];
    repeated(move || {
        seen[stored] = before;
        call(
            black_box(&message),
            now,
            black_box(&mut seen),
            black_box(&mut output),
        )
    })
}

// ---- asn1c -----------------------------------------------------------------------------------

/// A structure is built on the heap and freed.
#[cfg(feature = "asn1c")]
fn asn1c_reading(message: &Message) -> Option<Work> {
    asn1c::number_of(message.kind)?;
    asn1c_tried(message);
    let (kind, octets) = (message.kind, message.octets.clone());
    Some(repeated(move || {
        asn1c::Structure::decode(kind, black_box(&octets)).is_some()
    }))
}

/// A structure that was decoded before.
#[cfg(feature = "asn1c")]
fn asn1c_writing(message: &Message) -> Option<Work> {
    asn1c::number_of(message.kind)?;
    let structure = asn1c_tried(message);
    let mut output = vec![0; message.output];
    Some(repeated(move || structure.encode(black_box(&mut output))))
}

/// Fails where asn1c's code does not give the same octets back.
#[cfg(feature = "asn1c")]
fn asn1c_tried(message: &Message) -> asn1c::Structure {
    let title = message.title;
    let structure = asn1c::Structure::decode(message.kind, &message.octets)
        .unwrap_or_else(|| panic!("asn1c does not read {title}"));
    let mut output = vec![0; message.output];
    let size = structure
        .encode(&mut output)
        .unwrap_or_else(|| panic!("asn1c does not write {title}"));
    assert!(
        output[..size] == message.octets,
        "asn1c writes {title} otherwise"
    );
    structure
}

#[cfg(feature = "asn1c")]
fn asn1c_taking(width: u32) -> Option<Work> {
    let mut opened = asn1c::Opened::new(&BITS, START);
    let mut place = START;
    taking(width, move || {
        if place > LAST {
            opened = asn1c::Opened::new(&BITS, START);
            place = START;
        }
        place += width as usize;
        opened.take(width).expect("bits")
    })
}

#[cfg(not(feature = "asn1c"))]
fn asn1c_reading(_message: &Message) -> Option<Work> {
    None
}

#[cfg(not(feature = "asn1c"))]
fn asn1c_writing(_message: &Message) -> Option<Work> {
    None
}

#[cfg(not(feature = "asn1c"))]
fn asn1c_taking(_width: u32) -> Option<Work> {
    None
}
