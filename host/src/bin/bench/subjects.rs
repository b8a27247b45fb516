//! What is measured: the jobs, and the rows of each job's table.

use teyolxan_host::assemble::Assembler;
use teyolxan_host::builtin;
use teyolxan_host::by_name::Name;
use teyolxan_host::codec::{Answer, Seen};
use teyolxan_host::reference::{self, BENCH_ROOM, LENGTH_MOST, TABLE_MOST};

/// The titles of messages that the limits name.
pub const P1: &str = "P1";
pub const P2: &str = "P2";
pub const P3: &str = "P3";
pub const TEN_ELEMENTS: &str = "LM, ten elements";
pub const TEN_ROWS: &str = "ten rows";
pub const TEN_ROWS_OF_MANY: &str = "ten rows of many";
pub const SERVICES: &str = "SAM, 31 services";
pub const OTHER_SUBTYPE: &str = "refused at the head";
pub const NONE_USED: &str = "none in use";
pub const ALL_OLD: &str = "all old";
pub const LAST_FREE: &str = "63 live, the last free";

#[derive(Clone, Copy, Debug, PartialEq, Eq)]
pub enum Job {
    Read,
    Write,
    Take,
    Check,
    Forward,
}

impl Job {
    pub const ALL: [Job; 5] = [Job::Read, Job::Write, Job::Take, Job::Check, Job::Forward];

    pub fn title(self) -> &'static str {
        match self {
            Job::Read => "Reading a message",
            Job::Write => "Writing a message",
            Job::Take => "Fetching bits",
            Job::Check => "Checking and loading a table",
            Job::Forward => "Forwarding a message",
        }
    }

    /// In front of a row's title.
    pub fn doing(self) -> &'static str {
        match self {
            Job::Read => "reading",
            Job::Write => "writing",
            Job::Take => "fetching",
            Job::Check => "checking",
            Job::Forward => "forwarding",
        }
    }

    pub fn subjects(self) -> Vec<Subject> {
        match self {
            Job::Read | Job::Write => messages().map(Subject::Message).into(),
            Job::Take => [1, 8, 22, 32].map(Subject::Bits).into(),
            Job::Check => [
                ("LM", builtin::lm()),
                ("SAM", builtin::sam()),
                ("SRM", builtin::srm()),
                (TEN_ROWS_OF_MANY, Kind::TenRowsOfMany.table()),
            ]
            .map(|(title, table)| Subject::Table { title, table })
            .into(),
            Job::Forward => steps().map(Subject::Step).into(),
        }
    }
}

/// A row.
pub enum Subject {
    Message(Message),
    Table {
        title: &'static str,
        table: Vec<u8>,
    },
    /// The width of a fetch.
    Bits(u32),
    Step(Step),
}

impl Subject {
    pub fn title(&self) -> String {
        match self {
            Subject::Message(message) => message.title.to_string(),
            Subject::Table { title, .. } => title.to_string(),
            Subject::Step(step) => step.title.to_string(),
            Subject::Bits(1) => "1 bit".to_string(),
            Subject::Bits(width) => format!("{width} bits"),
        }
    }
}

/// The kinds of messages. Runs of numbers, octets behind a bit, and ten rows have no call by name.
#[derive(Clone, Copy, Debug, PartialEq, Eq)]
pub enum Kind {
    Lm,
    Sam,
    OctetNumbers,
    TwoOctetNumbers,
    BitThenOctets,
    /// Nine octets, with a table of just the rows for them, and with one that is as long as may be.
    TenRows,
    TenRowsOfMany,
}

impl Kind {
    pub fn name(self) -> Option<Name> {
        match self {
            Kind::Lm => Some(Name::Lm),
            Kind::Sam => Some(Name::Sam),
            Kind::OctetNumbers | Kind::TwoOctetNumbers | Kind::BitThenOctets => None,
            Kind::TenRows | Kind::TenRowsOfMany => None,
        }
    }

    fn table(self) -> Vec<u8> {
        match self {
            Kind::Lm => builtin::lm(),
            Kind::Sam => builtin::sam(),
            Kind::OctetNumbers => run_table(255),
            Kind::TwoOctetNumbers => run_table(65_535),
            Kind::BitThenOctets => shifted_table(),
            Kind::TenRows => ten_rows(0),
            Kind::TenRowsOfMany => ten_rows(TABLE_MOST),
        }
    }
}

/// A table of a counted run of numbers from 0 on.
fn run_table(span: u32) -> Vec<u8> {
    let mut table = Assembler::new();
    let number = table.number(0, span);
    table.counted_run(LENGTH_MOST as u16, number);
    table.finish()
}

/// A table of octets behind one bit, so that none starts with an octet of the message.
fn shifted_table() -> Vec<u8> {
    let mut table = Assembler::new();
    let bit = table.number(0, 1);
    let octets = table.octets(LENGTH_MOST as u16);
    table.record(&[(bit, false), (octets, false)]);
    table.finish()
}

/// A table whose root needs ten rows, itself and nine numbers; others stand between, so that it has
/// this size at least.
fn ten_rows(size: usize) -> Vec<u8> {
    const ROOT: usize = 6 + 4 * 9;
    let mut table = Assembler::new();
    let fields = [(); 9].map(|()| (table.number(0, 255), false));
    while table.len() + ROOT < size {
        match (size - table.len() - ROOT) % 4 {
            0 => table.variable(),
            _ => table.octets(1),
        };
    }
    table.record(&fields);
    table.finish()
}

/// A message with its values.
pub struct Message {
    pub title: &'static str,
    pub kind: Kind,
    pub table: Vec<u8>,
    pub values: Vec<i64>,
    pub octets: Vec<u8>,
    /// The values that there is room for, and the octets.
    pub room: usize,
    pub output: usize,
}

impl Message {
    fn new(title: &'static str, kind: Kind, values: Vec<i64>) -> Message {
        let table = kind.table();
        let (answer, mut octets) = reference::write(&table, &values, 65_535);
        let Answer::Accepted { octets: size, .. } = answer else {
            panic!("{title}: {answer:?}");
        };
        octets.truncate(size as usize);
        Message {
            title,
            kind,
            table,
            room: BENCH_ROOM.max(values.len()),
            output: BENCH_ROOM.max(octets.len()),
            values,
            octets,
        }
    }
}

/// An LM like P1 with so many extension elements in its N-Header, of so many octets each.
fn lm_of_elements(count: i64, length: i64) -> Vec<i64> {
    let mut values = vec![0, 1, 3, count];
    for element in 0..count {
        values.extend([80 + element, length]);
        values.extend((0..length).map(|at| (element * length + at) % 251));
    }
    values.extend([0, 0, 32, 2, 72, 105]);
    values
}

/// An LM with so many octets of user data.
fn lm_of(length: i64) -> Vec<i64> {
    let mut values = vec![0, 0, 3, 0, 0, 32, length];
    values.extend((0..length).map(|at| at % 251));
    values
}

/// A SAM with 31 services, each with a reply port.
fn sam_of_services() -> Vec<i64> {
    let mut values = vec![3, 0, 1, 0, 0, 1, 2, 31];
    for service in 0..31 {
        values.extend([100 * service, service, 0, 1, 0, 8_000 + service]);
    }
    values
}

/// A run of so many numbers below a bound.
fn run_of(count: i64, bound: i64) -> Vec<i64> {
    let mut values = vec![count];
    values.extend((0..count).map(|at| at * 7_919 % bound));
    values
}

/// A bit, and so many octets behind it.
fn shifted_octets(length: i64) -> Vec<i64> {
    let mut values = vec![1, length];
    values.extend((0..length).map(|at| at % 251));
    values
}

fn messages() -> [Message; 13] {
    use Kind::{BitThenOctets, Lm, OctetNumbers, Sam, TenRows, TenRowsOfMany, TwoOctetNumbers};

    let p1 = vec![0, 0, 3, 0, 0, 32, 2, 72, 105];
    let p2 = vec![2, 0, 3, 1, 3, 1, 0, 1, 2, 0];
    let p3 = vec![0, 1, 3, 1, 15, 1, 172, 0, 0, 0, 0];
    [
        (P1, Lm, p1),
        (P2, Lm, p2),
        (P3, Lm, p3),
        (TEN_ELEMENTS, Lm, lm_of_elements(10, 20)),
        ("LM, 200 octets", Lm, lm_of(200)),
        ("LM, 1,400 octets", Lm, lm_of(1_400)),
        ("LM, 16,383 octets", Lm, lm_of(16_383)),
        (SERVICES, Sam, sam_of_services()),
        ("4,000 octet numbers", OctetNumbers, run_of(4_000, 251)),
        (
            "4,000 two-octet numbers",
            TwoOctetNumbers,
            run_of(4_000, 65_521),
        ),
        (
            "1,400 octets behind a bit",
            BitThenOctets,
            shifted_octets(1_400),
        ),
        (TEN_ROWS, TenRows, (1..=9).collect()),
        (TEN_ROWS_OF_MANY, TenRowsOfMany, (1..=9).collect()),
    ]
    .map(|(title, kind, values)| Message::new(title, kind, values))
}

/// A message that is forwarded at a time, and the list before it.
pub struct Step {
    pub title: &'static str,
    pub message: Vec<u8>,
    pub now: u32,
    pub seen: Vec<Seen>,
}

/// The message ID of what is forwarded, and the time.
const ID: u32 = 4_000;
const NOW: u32 = 100_000;
/// The octets of what is forwarded, and those before its user data.
const FORWARDED: i64 = 40;
const HEADERS: i64 = 7;

/// An N-hop LM; and the same octets as another LM.
fn n_hop_lm() -> Vec<u8> {
    let length = FORWARDED - HEADERS;
    let mut values = vec![2, 0, 3, i64::from(ID), 3, 0, 0, 32, length];
    values.extend(0..length);
    Message::new("N-hop LM", Kind::Lm, values).octets
}

/// A list of 64 records with other IDs, stored some milliseconds ago.
fn records(ago: u32) -> Vec<Seen> {
    let record = |id| Seen {
        id,
        time: NOW - ago - id,
        used: true,
    };
    (0..64).map(record).collect()
}

fn steps() -> [Step; 5] {
    let message = n_hop_lm();
    let mut other = message.clone();
    other[0] &= 0x0F; // subtype 0
    let none = vec![Seen::default(); 64];
    let mut last_free = records(0);
    last_free[63] = Seen::default();
    let mut has_it = records(0);
    has_it[63].id = ID;
    [
        (OTHER_SUBTYPE, &other, none.clone()),
        (NONE_USED, &message, none),
        (ALL_OLD, &message, records(5_000)),
        (LAST_FREE, &message, last_free),
        ("64 live, the ID in the last", &message, has_it),
    ]
    .map(|(title, message, seen)| Step {
        title,
        message: message.clone(),
        now: NOW,
        seen,
    })
}
