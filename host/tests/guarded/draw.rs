//! What is drawn: each exported function, with octets and lengths of any kind, and its outcome
//! against the reference.

use teyolxan_host::archive::{Archive, Plain, Values, CALLS};
use teyolxan_host::builtin;
use teyolxan_host::by_name::Name;
use teyolxan_host::case::{Case, Step, Table};
use teyolxan_host::codec::{value_octets, Answer, Bits, Call, Codec, Refusal, Seen, FRESH};
use teyolxan_host::compare::{self, compare_one, short, Stats};
use teyolxan_host::guarded::Guarded;
use teyolxan_host::random::{
    allowed_list, forged_state, forwarding, large_list, lm_list, message_through,
    nearly_passing_table, passing_table, some_budget, some_message, wrong_list, Drawn, Random,
};
use teyolxan_host::reference::{self, lm_table, root_of, MESSAGE_MOST, REFERENCE};
use teyolxan_host::vectors::{case_text, octets_cell};

/// The longest slice of octets that is drawn.
const SIZE_MOST: usize = 70_000;

/// A call of the libraries.
pub enum Fuzzed {
    /// A call that both codecs make as it is.
    Case(Case),
    /// A reading or writing under the table of a SAM or an SRM, which the library makes by name.
    ByName(Name, Case),
    /// A reading of an LM, which the libraries make without a table, with both forms of values.
    Plain(Case),
    /// Bits taken at any place.
    TakeAt {
        message: Vec<u8>,
        place: usize,
        k: u32,
    },
}

impl Fuzzed {
    /// The exported functions that are called.
    pub fn functions(&self) -> &'static [&'static str] {
        match self {
            Fuzzed::Case(case) => match case.call() {
                Call::Check => &["teyolxan_check"],
                Call::Read => &["teyolxan_read"],
                Call::Write => &["teyolxan_write"],
                Call::ReadLm => &["probe_read_lm"],
                Call::WriteLm => &["probe_write_lm"],
                Call::UserData => &["probe_user_data"],
                Call::Element => &["probe_element"],
                Call::Take => &["probe_open", "probe_take"],
                Call::Bench | Call::Capture => &[],
                Call::Load => &["teyolxan_load"],
                Call::ReadLoaded if loads(case) => {
                    &["teyolxan_load", "teyolxan_read_loaded", "probe_read_loaded"]
                }
                Call::ReadLoaded => &["teyolxan_read_loaded", "probe_read_loaded"],
                Call::Forward => &["teyolxan_forward"],
            },
            Fuzzed::ByName(name, case) => match (name, case.call()) {
                (Name::Lm, _) => &[], // a call that both codecs make as it is
                (Name::Sam, Call::Read) => &["probe_read_sam"],
                (Name::Srm, Call::Read) => &["probe_read_srm"],
                (Name::Sam, _) => &["probe_write_sam"],
                (Name::Srm, _) => &["probe_write_srm"],
            },
            Fuzzed::Plain(_) => &["teyolxan_lm_read", "probe_read_lm_plain"],
            Fuzzed::TakeAt { .. } => &["probe_take", "probe_take_bitwise"],
        }
    }

    /// The call in words, cut where it gets long.
    pub fn text(&self) -> String {
        let input = match self {
            Fuzzed::Case(case) | Fuzzed::ByName(_, case) | Fuzzed::Plain(case) => case_text(case),
            Fuzzed::TakeAt { message, place, k } => {
                format!("take {k} bits at {place} of {}", octets_cell(message))
            }
        };
        format!("{}: {}", self.functions().join(", "), short(input))
    }

    /// Makes the call on both codecs. The error tells where they differ.
    pub fn run(&self, archive: &Archive<Guarded>, stats: &mut Stats) -> Result<(), String> {
        match self {
            Fuzzed::Case(case) => compare_one(&REFERENCE, archive, case, stats),
            Fuzzed::ByName(name, case) => {
                compare_one(&REFERENCE, &ByName(*name, archive), case, stats)
            }
            Fuzzed::Plain(case) => {
                compare_one(&REFERENCE, &Plain(Values::Octets, archive), case, stats)?;
                compare_one(&REFERENCE, &Plain(Values::Numbers, archive), case, stats)
            }
            Fuzzed::TakeAt { message, place, k } => {
                let expected = taken(message, *place, *k);
                let given = [
                    archive.take_at(message, *place, *k),
                    archive.take_bitwise_at(message, *place, *k),
                ];
                stats.cases += 1;
                stats.calls[Call::Take as usize] += 1;
                if given.iter().all(|given| *given == expected) {
                    return Ok(());
                }
                Err(format!("{}\n  {expected:?}, not {given:?}", self.text()))
            }
        }
    }
}

/// Whether a table is loaded.
fn loads(case: &Case) -> bool {
    let load = |step: &Step| matches!(step, Step::Load { .. });
    matches!(case, Case::ReadLoaded { steps, .. } if steps.iter().any(load))
}

/// The libraries, with calls by name in place of those under a lent table.
struct ByName<'a>(Name, &'a Archive<Guarded>);

impl Codec for ByName<'_> {
    fn name(&self) -> String {
        format!("{:?} by name", self.0)
    }

    fn offers(&self, call: Call) -> bool {
        matches!(call, Call::Read | Call::Write)
    }

    fn read(&self, _table: &[u8], message: &[u8], values: &mut [u8]) -> Answer {
        self.1.read_by_name(self.0, message, values)
    }

    fn write(&self, _table: &[u8], values: &[u8], output: &mut [u8]) -> Answer {
        self.1.write_by_name(self.0, values, output)
    }
}

/// What taking k bits at a place gives (document 01; of no bits none is missing, wherever the place is).
fn taken(message: &[u8], place: usize, k: u32) -> Result<Bits, Refusal> {
    if k > 32 {
        return Err(Refusal::new(Refusal::OUTSIDE_LIMITS, place));
    }
    let held = match message.len() {
        0..=MESSAGE_MOST => 8 * message.len(),
        _ => 0,
    };
    if k as usize > held.saturating_sub(place) {
        return Err(Refusal::new(Refusal::MESSAGE_ENDS, place));
    }
    let next = place + k as usize;
    let bit = |at: usize| u64::from(message[at / 8] >> (7 - at % 8) & 1);
    Ok(Bits {
        number: (place..next).fold(0, |number, at| number << 1 | bit(at)),
        place: next as u64,
    })
}

/// A call: half of them as the comparison draws them, which are mostly short and nearly right. Every other
/// LM is read without a table.
pub fn draw(random: &mut Random) -> Fuzzed {
    let drawn = match random.below(32) {
        0..=15 => Fuzzed::Case(compare::draw(random, &CALLS)),
        16 => draw_take(random),
        17..=20 => draw_state(random),
        21..=22 => draw_forward(random),
        _ => draw_any(random),
    };
    match drawn {
        Fuzzed::Case(case) if case.call() == Call::ReadLm && random.one_in(2) => {
            Fuzzed::Plain(case)
        }
        drawn => drawn,
    }
}

/// Loads and readings through any state, with slices of any lengths.
fn draw_state(random: &mut Random) -> Fuzzed {
    let (table, drawn) = list_under(random, some_table);
    let state = match random.below(4) {
        0 => Box::new(FRESH),
        1 => {
            let octets = some_octets(random, FRESH.len());
            octets.try_into().expect("as many octets as a state has")
        }
        _ => forged_state(random),
    };
    let mut held = state.clone();
    let mut steps = Vec::new();
    for _ in 0..1 + random.below(3) {
        let value_octets = some_size(random, 8 * drawn.items.len());
        steps.push(match random.below(4) {
            0 => {
                reference::load(&mut held, &table);
                let table = table.clone();
                Step::Load { table }
            }
            1 => Step::Read {
                message: message_under(random, &table, &drawn),
                value_octets,
            },
            _ => Step::Read {
                message: message_through(random, &held, value_octets / 8),
                value_octets,
            },
        });
    }
    Fuzzed::Case(Case::ReadLoaded { state, steps })
}

/// Messages that are forwarded over any list, with slices of any lengths.
fn draw_forward(random: &mut Random) -> Fuzzed {
    let (mut seen, mut steps) = forwarding(random, 4);
    if random.one_in(8) {
        let count = some_size(random, seen.len());
        seen.resize_with(count, || Seen {
            id: random.word() as u32,
            time: random.word() as u32,
            used: random.one_in(2),
        });
    }
    for hop in &mut steps {
        match random.below(8) {
            0 => {
                let size = some_size(random, 4);
                hop.message = some_octets(random, size);
            }
            1..=2 => resize(random, &mut hop.message),
            _ => (),
        }
        hop.output = some_size(random, hop.message.len());
    }
    Fuzzed::Case(Case::Forward { seen, steps })
}

fn draw_take(random: &mut Random) -> Fuzzed {
    let size = some_size(random, 8);
    let message = some_octets(random, size);
    let place = match random.below(8) {
        0 => random.word() as usize,
        1..=3 => (8 * size + random.index(9)).saturating_sub(random.index(41)),
        _ => random.index(8 * size + 1),
    };
    let k = match random.below(16) {
        0 => random.word() as u32,
        _ => random.below(34) as u32,
    };
    Fuzzed::TakeAt { message, place, k }
}

/// A call under any table, lent or by name, with slices of any lengths.
fn draw_any(random: &mut Random) -> Fuzzed {
    let name = random.pick(&[
        None,
        None,
        None,
        Some(Name::Lm),
        Some(Name::Sam),
        Some(Name::Srm),
    ]);
    let (octets, drawn) = match name {
        None if random.one_in(200) => large_list(random),
        None => list_under(random, some_table),
        Some(Name::Lm) => (lm_table().octets.clone(), lm_list(random)),
        Some(Name::Sam) => list_under(random, |_| builtin::sam()),
        Some(Name::Srm) => list_under(random, |_| builtin::srm()),
    };
    let table = match name {
        Some(Name::Lm) => Table::Lm,
        _ => Table::Lent(octets.clone()),
    };
    let case = match random.below(16) {
        0 => Case::Check { table: octets },
        1 => Case::UserData {
            message: message_under(random, &octets, &drawn),
        },
        2..=8 => Case::Read {
            table,
            message: message_under(random, &octets, &drawn),
            value_octets: some_size(random, 8 * drawn.items.len()),
        },
        _ => Case::Write {
            table,
            values: values_under(random, &octets, &drawn),
            output: some_size(random, drawn.bits().div_ceil(8)),
        },
    };
    match (name, case.call()) {
        (Some(name), Call::Read | Call::Write) => Fuzzed::ByName(name, case),
        _ => Fuzzed::Case(case),
    }
}

/// A table, and a list that it allows, if it passes.
fn list_under(random: &mut Random, table: fn(&mut Random) -> Vec<u8>) -> (Vec<u8>, Drawn) {
    let table = table(random);
    let drawn = root_of(&table).map(|root| {
        let budget = some_budget(random);
        allowed_list(random, &table, root, budget)
    });
    (table, drawn.unwrap_or_default())
}

/// A table that passes, one that nearly does, a built-in one, or any octets.
fn some_table(random: &mut Random) -> Vec<u8> {
    let mut table = match random.below(16) {
        0 => builtin::lm(),
        1 => builtin::sam(),
        2 => builtin::srm(),
        3 => {
            let size = some_size(random, 40);
            return some_octets(random, size);
        }
        4..=6 => nearly_passing_table(random),
        _ => passing_table(random),
    };
    match random.below(16) {
        0 if !table.is_empty() => {
            let at = random.index(table.len());
            table[at] = random.word() as u8;
        }
        1 => resize(random, &mut table),
        _ => (),
    }
    table
}

fn message_under(random: &mut Random, table: &[u8], drawn: &Drawn) -> Vec<u8> {
    let mut message = match random.below(8) {
        0..=1 => drawn.message(),
        2..=5 => some_message(random, table, drawn),
        _ => {
            let size = some_size(random, drawn.bits().div_ceil(8));
            some_octets(random, size)
        }
    };
    if random.one_in(8) {
        resize(random, &mut message);
    }
    message
}

fn values_under(random: &mut Random, table: &[u8], drawn: &Drawn) -> Vec<u8> {
    let mut values = match random.below(8) {
        0..=3 => value_octets(&drawn.values()),
        4..=5 => value_octets(&wrong_list(random, table, drawn)),
        6 => {
            let count = some_size(random, drawn.items.len()) / 8;
            let small: Vec<i64> = (0..count).map(|_| random.within(-1, 300)).collect();
            value_octets(&small)
        }
        _ => {
            let size = some_size(random, 8 * drawn.items.len());
            some_octets(random, size)
        }
    };
    if random.one_in(8) {
        resize(random, &mut values);
    }
    values
}

/// A length for a slice that needs so many octets: just these, about as many, or any other. It is
/// often no multiple of eight.
fn some_size(random: &mut Random, needed: usize) -> usize {
    let about = |random: &mut Random, size: usize| (size + random.index(17)).saturating_sub(8);
    match random.below(64) {
        0..=19 => needed,
        20..=35 => about(random, needed),
        36..=54 => random.index(needed + 40),
        55..=58 => random.index(300),
        59..=60 => random.index(5_000),
        61 => random.index(SIZE_MOST + 1),
        62 => about(random, MESSAGE_MOST),
        _ => {
            let pages = 1 + random.index(17);
            about(random, 4_096 * pages)
        }
    }
}

fn some_octets(random: &mut Random, size: usize) -> Vec<u8> {
    if random.one_in(4) {
        return vec![random.word() as u8; size];
    }
    random.octets(size)
}

/// Cuts octets, or extends them.
fn resize(random: &mut Random, octets: &mut Vec<u8>) {
    let size = some_size(random, octets.len());
    octets.resize(size, random.word() as u8);
}
