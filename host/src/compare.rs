//! Two codecs on many drawn cases: the answers and the whole lent slices have to be equal, to the
//! last octet. Each case is drawn from the seed and its number alone.

use std::fmt;

use crate::case::{Case, Outcome, Step, Table};
use crate::codec::{value_octets, Call, Codec, Refusal, StateOctets, FRESH};
use crate::random::{
    allowed_list, capture_file, forged_state, forwarding, frames, large_list, large_lm,
    large_message, lm_list, lm_message, message_through, nearly_passing_table, passing_table,
    some_budget, some_message, some_output, some_room, wrong_list, Drawn, Random,
};
use crate::reference::{lm_table, root_of};
use crate::vectors::{case_text, outcome_text};

/// How many cases a comparison ran, and what they came to.
#[derive(Clone, Debug, Default)]
pub struct Stats {
    pub cases: u64,
    /// By call, in the order of `Call::ALL`.
    pub calls: [u64; Call::ALL.len()],
    /// Checks, loads, readings, writings, forwardings and user data calls that were accepted.
    pub accepted: u64,
    /// The same, refused, in the order of `Refusal::ALL`.
    pub refused: [u64; Refusal::ALL.len()],
}

impl Stats {
    /// How often each refusal came up, in the order of their numbers.
    pub fn refusals(&self) -> impl Iterator<Item = (u32, u64)> + '_ {
        Refusal::ALL.iter().copied().zip(self.refused)
    }

    /// How often this refusal came up.
    pub fn refused_by(&self, number: u32) -> u64 {
        let mut refusals = self.refusals();
        let found = refusals.find(|&(other, _)| other == number);
        found.map_or(0, |(_, count)| count)
    }

    /// Counts a call that was accepted or refused.
    pub fn count(&mut self, refusal: Option<Refusal>) {
        match refusal {
            Some(refusal) => {
                if let Ok(at) = Refusal::ALL.binary_search(&refusal.number) {
                    self.refused[at] += 1;
                }
            }
            None => self.accepted += 1,
        }
    }

    /// Fails where a refusal came up too rarely: one that tells what is wrong with a table in less
    /// than one of 500 cases, any other in none.
    pub fn assert_refusals_are_met(&self) {
        for (number, count) in self.refusals() {
            let least = if Refusal::is_of_table(number) {
                self.cases / 500
            } else {
                1
            };
            assert!(count >= least, "refusal {number} is met {count} times");
        }
    }
}

/// The calls in one line, then a line for each outcome.
impl fmt::Display for Stats {
    fn fmt(&self, text: &mut fmt::Formatter) -> fmt::Result {
        write!(text, "{} cases", self.cases)?;
        for (call, count) in Call::ALL.iter().zip(self.calls) {
            write!(text, ", {call:?} {count}")?;
        }
        write!(text, "\naccepted   {:>8}", self.accepted)?;
        for (number, count) in self.refusals() {
            let meaning = Refusal::meaning(number);
            write!(text, "\nrefused {number:>2} {count:>8}  {meaning}")?;
        }
        Ok(())
    }
}

/// Compares two codecs on so many cases, over the calls that both offer. The error is a report of
/// the first difference: the seed, the case's number and input, and both outcomes.
pub fn compare(
    left: &dyn Codec,
    right: &dyn Codec,
    seed: u64,
    cases: u64,
) -> Result<Stats, String> {
    let calls = shared_calls(left, right)?;
    let mut stats = Stats::default();
    for number in 0..cases {
        compare_drawn(left, right, &calls, seed, number, &mut stats)?;
    }
    Ok(stats)
}

/// Compares two codecs on one case of a longer comparison, by its number.
pub fn compare_case(
    left: &dyn Codec,
    right: &dyn Codec,
    seed: u64,
    number: u64,
) -> Result<Stats, String> {
    let calls = shared_calls(left, right)?;
    let mut stats = Stats::default();
    compare_drawn(left, right, &calls, seed, number, &mut stats)?;
    Ok(stats)
}

fn shared_calls(left: &dyn Codec, right: &dyn Codec) -> Result<Vec<Call>, String> {
    let offered = |call: &Call| left.offers(*call) && right.offers(*call);
    let calls: Vec<Call> = Call::ALL.into_iter().filter(offered).collect();
    if calls.is_empty() {
        return Err("no call is offered by both codecs".to_string());
    }
    Ok(calls)
}

fn compare_drawn(
    left: &dyn Codec,
    right: &dyn Codec,
    calls: &[Call],
    seed: u64,
    number: u64,
    stats: &mut Stats,
) -> Result<(), String> {
    let case = draw(&mut Random::for_case(seed, number), calls);
    compare_one(left, right, &case, stats)
        .map_err(|report| format!("seed {seed}, case {number}: {report}"))
}

/// Compares two codecs on a case that both offer. The error is the input and both outcomes.
pub fn compare_one(
    left: &dyn Codec,
    right: &dyn Codec,
    case: &Case,
    stats: &mut Stats,
) -> Result<(), String> {
    let outcomes = (case.run(left), case.run(right));
    if outcomes.0 != outcomes.1 {
        let mut report = short(case_text(case));
        for (codec, outcome) in [(left, &outcomes.0), (right, &outcomes.1)] {
            report += &format!("\n  {}: {}", codec.name(), short(outcome_text(outcome)));
        }
        if let Some(at) = first_difference(&outcomes.0, &outcomes.1) {
            report += &format!("\n  the slices differ from octet {at} on");
        }
        return Err(report);
    }
    stats.cases += 1;
    stats.calls[case.call() as usize] += 1;
    for verdict in outcomes.0.verdicts() {
        stats.count(verdict);
    }
    Ok(())
}

/// A text cut where it gets too long to be read; the case can be drawn again from its number.
pub fn short(mut text: String) -> String {
    const MOST: usize = 4_000;
    if text.len() > MOST {
        let length = text.len();
        text.truncate(text.floor_char_boundary(MOST));
        text += &format!("... (cut from {length} characters)");
    }
    text
}

/// The first octet that two lent slices differ in.
fn first_difference(left: &Outcome, right: &Outcome) -> Option<usize> {
    match (left, right) {
        (Outcome::Filled(_, left), Outcome::Filled(_, right))
        | (Outcome::Stored(left), Outcome::Stored(right)) => {
            (0..left.len().max(right.len())).find(|&at| left.get(at) != right.get(at))
        }
        _ => None,
    }
}

// ---- Drawing cases ---------------------------------------------------------------------------

/// How often a call is drawn.
fn weight(call: Call) -> u64 {
    match call {
        Call::Check => 14,
        Call::Read => 36,
        Call::Write => 24,
        Call::ReadLm => 8,
        Call::WriteLm => 6,
        Call::UserData => 5,
        Call::Element => 1,
        Call::Take => 4,
        Call::Bench => 2,
        Call::Load => 1,
        Call::ReadLoaded => 9,
        Call::Capture => 3,
        Call::Forward => 4,
    }
}

/// The most messages that one case forwards.
const HOPS: usize = 16;

/// A case of one of these calls; there is at least one.
pub fn draw(random: &mut Random, calls: &[Call]) -> Case {
    let total = calls.iter().map(|&call| weight(call)).sum();
    let mut left = random.below(total);
    let call = calls.iter().copied().find(|&call| {
        let here = left < weight(call);
        left = left.saturating_sub(weight(call));
        here
    });
    let large = random.one_in(1_000);
    match call.unwrap_or(calls[0]) {
        Call::Check => Case::Check {
            table: some_table(random),
        },
        Call::Read if large => draw_large_read(random),
        Call::Read => draw_read(random),
        Call::Write if large => draw_large_write(random),
        Call::Write => draw_write(random),
        Call::ReadLm => {
            let drawn = some_lm(random, large);
            Case::Read {
                table: Table::Lm,
                message: lm_message(random, &drawn),
                value_octets: value_slice(random, drawn.items.len()),
            }
        }
        Call::WriteLm => {
            let drawn = some_lm(random, large);
            list_case(random, Table::Lm, &lm_table().octets, &drawn)
        }
        Call::UserData => {
            let drawn = some_lm(random, large);
            Case::UserData {
                message: lm_message(random, &drawn),
            }
        }
        Call::Element => Case::Element {
            id: some_id(random),
            home: match random.below(8) {
                0 => random.word(),
                1 => random.pick(&[3, 4, 255, 256, 1 << 32]),
                _ => random.below(3),
            },
        },
        Call::Take => Case::Take {
            message: if large {
                large_message(random)
            } else {
                let size = random.index(14);
                random.octets(size)
            },
            widths: (0..1 + random.below(8))
                .map(|_| some_width(random))
                .collect(),
        },
        Call::Bench => Case::Bench {
            stream: frames(random),
        },
        Call::Load => draw_load(random),
        Call::ReadLoaded if random.one_in(3) => draw_forged(random),
        Call::ReadLoaded => draw_loaded(random),
        Call::Capture => Case::Capture {
            file: capture_file(random),
        },
        Call::Forward => {
            let (seen, steps) = forwarding(random, HOPS);
            Case::Forward { seen, steps }
        }
    }
}

/// Any table; about half of them pass.
fn some_table(random: &mut Random) -> Vec<u8> {
    if random.one_in(3) {
        passing_table(random)
    } else {
        nearly_passing_table(random)
    }
}

/// A table with a list drawn under it.
fn some_list(random: &mut Random) -> (Vec<u8>, Drawn) {
    let table = match random.below(16) {
        0 => lm_table().octets.clone(),
        1 => nearly_passing_table(random),
        _ => passing_table(random),
    };
    let drawn = match root_of(&table) {
        Some(root) => {
            let budget = some_budget(random);
            allowed_list(random, &table, root, budget)
        }
        None => Drawn::default(),
    };
    (table, drawn)
}

/// The octets of a value slice for about so many values, mostly without a rest after the last.
fn value_slice(random: &mut Random, needed: usize) -> usize {
    let rest = if random.one_in(4) { random.index(8) } else { 0 };
    8 * some_room(random, needed) + rest
}

fn draw_read(random: &mut Random) -> Case {
    let (table, drawn) = some_list(random);
    let message = if drawn.items.is_empty() && random.one_in(32) {
        large_message(random) // under a table that is refused before
    } else {
        some_message(random, &table, &drawn)
    };
    Case::Read {
        message,
        value_octets: value_slice(random, drawn.items.len()),
        table: Table::Lent(table),
    }
}

fn draw_write(random: &mut Random) -> Case {
    let (table, drawn) = some_list(random);
    list_case(random, Table::Lent(table.clone()), &table, &drawn)
}

/// A writing of a list drawn under these table octets, as it is or spoilt.
fn list_case(random: &mut Random, table: Table, octets: &[u8], drawn: &Drawn) -> Case {
    let list = if random.one_in(2) {
        drawn.values()
    } else {
        wrong_list(random, octets, drawn)
    };
    let mut values = value_octets(&list);
    if random.one_in(4) {
        let rest = random.index(8);
        values.extend(random.octets(rest));
    }
    let needed = drawn.bits().div_ceil(8).max(1);
    let output = match random.below(512) {
        0 => 70_000,
        _ => some_output(random, needed),
    };
    Case::Write {
        table,
        values,
        output,
    }
}

fn draw_large_read(random: &mut Random) -> Case {
    if random.one_in(2) {
        let (table, drawn) = large_list(random);
        let mut message = drawn.message();
        if random.one_in(4) {
            message.push(0);
        }
        let room = drawn.items.len() + 1 - random.index(3);
        return Case::Read {
            table: Table::Lent(table),
            message,
            value_octets: 8 * room,
        };
    }
    Case::Read {
        table: Table::Lent(some_table(random)),
        message: large_message(random),
        value_octets: 8 * random.pick(&[0, 1, 10, 3_000]),
    }
}

fn draw_large_write(random: &mut Random) -> Case {
    let (table, drawn) = large_list(random);
    let output = match random.below(8) {
        0..=2 => 70_000,
        3 => 65_535,
        4..=5 => 65_536,
        _ => drawn.bits().div_ceil(8) + 1 - random.index(3),
    };
    Case::Write {
        table: Table::Lent(table),
        values: value_octets(&drawn.values()),
        output,
    }
}

/// A table for a state that holds `before`, which may come again, or its beginning.
fn table_to_load(random: &mut Random, before: Option<&Vec<u8>>) -> Vec<u8> {
    match (random.below(16), before) {
        (0, _) => lm_table().octets.clone(),
        (1, Some(before)) => before.clone(),
        (2, Some(before)) => before[..random.index(before.len())].to_vec(),
        _ => some_table(random),
    }
}

/// Loads into a fresh state, or into one that was made otherwise.
fn draw_load(random: &mut Random) -> Case {
    let state = match random.below(8) {
        0 => forged_state(random),
        _ => Box::new(FRESH),
    };
    let mut tables: Vec<Vec<u8>> = Vec::new();
    for _ in 0..1 + random.below(4) {
        let table = table_to_load(random, tables.last());
        tables.push(table);
    }
    Case::Load { state, tables }
}

/// Loads and readings from a fresh state on. Most messages are for the table that is loaded then.
fn draw_loaded(random: &mut Random) -> Case {
    let mut held: Option<(Vec<u8>, Drawn)> = None;
    let mut steps = Vec::new();
    for _ in 0..1 + random.below(8) {
        let loads = match held {
            Some(_) => random.one_in(3),
            None => !random.one_in(4),
        };
        steps.push(if loads {
            let table = table_to_load(random, held.as_ref().map(|(table, _)| table));
            if let Some(root) = root_of(&table) {
                let budget = some_budget(random);
                let drawn = allowed_list(random, &table, root, budget);
                held = Some((table.clone(), drawn));
            }
            Step::Load { table }
        } else {
            let (message, needed) = match &held {
                _ if random.one_in(500) => (large_message(random), 3),
                Some((table, drawn)) => (some_message(random, table, drawn), drawn.items.len()),
                None if random.one_in(32) => (large_message(random), 3),
                None => {
                    let size = random.index(8);
                    (random.octets(size), size)
                }
            };
            Step::Read {
                message,
                value_octets: value_slice(random, needed),
            }
        });
    }
    Case::ReadLoaded {
        state: Box::new(FRESH),
        steps,
    }
}

/// Readings through a state that was made otherwise; now and then a table is loaded over it.
fn draw_forged(random: &mut Random) -> Case {
    let state = forged_state(random);
    let mut steps: Vec<Step> = (0..1 + random.below(4))
        .map(|_| read_through(random, &state))
        .collect();
    if random.one_in(8) {
        let table = some_table(random);
        let at = random.index(steps.len() + 1);
        steps.insert(at, Step::Load { table });
    }
    Case::ReadLoaded { state, steps }
}

fn read_through(random: &mut Random, state: &StateOctets) -> Step {
    let room = match random.below(16) {
        0..=1 => random.index(4),
        2 => 2_000,
        _ => 40,
    };
    let message = match random.below(500) {
        0 => large_message(random),
        _ => message_through(random, state, room),
    };
    let rest = if random.one_in(4) { random.index(8) } else { 0 };
    Step::Read {
        message,
        value_octets: 8 * room + rest,
    }
}

fn some_lm(random: &mut Random, large: bool) -> Drawn {
    if large {
        large_lm(random)
    } else {
        lm_list(random)
    }
}

fn some_id(random: &mut Random) -> u64 {
    match random.below(8) {
        0 => random.word(),
        1 => random.below(1_000),
        2..=4 => random.below(256),
        _ => random.pick(&[
            4, 15, 16, 80, 81, 82, 83, 8, 9, 10, 11, 19, 20, 22, 24, 85, 23, 84, 260,
        ]),
    }
}

fn some_width(random: &mut Random) -> u64 {
    match random.below(16) {
        0 => random.word(),
        1 => random.pick(&[33, 64, 256, 1 << 32]),
        2..=3 => random.pick(&[0, 31, 32]),
        _ => random.below(25),
    }
}
