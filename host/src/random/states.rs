//! States that nobody loaded: any octets, states of a table with some octets changed, and rows that
//! refer to each other as no table may.

use super::{passing_table, Random};
use crate::assemble::{kind, put, state, state_with, Assembler, Offset, RESERVED};
use crate::codec::{Answer, Refusal, StateOctets, FRESH};
use crate::reference::{self, DEPTH_MOST, LENGTH_MOST, TABLE_MOST};

/// A state that was made otherwise than by loads from a fresh one. Most say that a table is loaded.
pub fn forged_state(random: &mut Random) -> Box<StateOctets> {
    let mut forged = match random.below(16) {
        0 => {
            let octets = random.octets(FRESH.len());
            octets.try_into().expect("as many octets as a state has")
        }
        1..=6 => changed_state(random),
        7 => chained_state(random),
        _ => tangled_state(random),
    };
    forged[state::OUTCOME] = match random.below(32) {
        0 => random.pick(&[0, 2, 255]),
        _ => state::PASSED,
    };
    if random.one_in(16) {
        // Where a row may just end.
        let root = random.within(4_080, 4_100) as Offset;
        put(&mut forged, state::ROOT, root);
    }
    forged
}

/// The state of a table, with some octets changed.
fn changed_state(random: &mut Random) -> Box<StateOctets> {
    let table = passing_table(random);
    let mut changed = Box::new(FRESH);
    reference::load(&mut changed, &table);
    for _ in 0..1 + random.below(8) {
        let at = match random.below(16) {
            0..=7 => random.index(table.len()),
            8..=12 => state::DEPTHS.start + random.index(table.len().div_ceil(2)),
            13..=14 => state::LENGTH + random.index(FRESH.len() - state::LENGTH),
            _ => random.index(FRESH.len()),
        };
        let old = changed[at];
        changed[at] = match random.below(8) {
            0 => old.wrapping_add(1),
            1 => old.wrapping_sub(1),
            2 => old ^ 1 << random.below(8),
            3 => some_depth(random),
            4 => random.below(10) as u8,
            _ => random.word() as u8,
        };
    }
    changed
}

/// Rows that each refer to the one before; their depths may let none, some or all of them through.
fn chained_state(random: &mut Random) -> Box<StateOctets> {
    let mut table = Assembler::new();
    let mut rows = vec![table.number(0, 0)];
    let length = random.pick(&[20, 20, 400]);
    while table.len() + 12 <= TABLE_MOST && !random.one_in(length) {
        let last = rows[rows.len() - 1];
        rows.push(match random.below(8) {
            0 => table.fixed_run(1, last),
            1 => table.choice(&[Some(last), None]),
            2 => table.counted_run(1, last),
            _ => table.record(&[(last, false)]),
        });
    }
    with_depths(random, table, rows)
}

/// Rows of any kinds, of which some are right, and references to any of them.
fn tangled_state(random: &mut Random) -> Box<StateOctets> {
    let mut table = Assembler::new();
    let count = match random.below(16) {
        0 => 200,
        1..=3 => 40,
        _ => 2 + random.index(10),
    };
    let mut rows: Vec<Offset> = Vec::new();
    while rows.len() < count && table.len() + 12 <= TABLE_MOST {
        let numbers = tangled_row(random, &rows, table.len());
        let size = (TABLE_MOST - table.len()) / 2;
        rows.push(table.numbers(&numbers[..size.min(numbers.len())]));
        if random.one_in(64) {
            table.raw(&[0]); // the next row starts at another kind of offset
        }
    }
    with_depths(random, table, rows)
}

/// The numbers of a row at this offset, behind those at `rows`.
fn tangled_row(random: &mut Random, rows: &[Offset], at: usize) -> Vec<u16> {
    let kind = match random.below(32) {
        0 => random.pick(&[0, 9, 256 + kind::NUMBER, 256 + kind::RECORD, 0xFFFF]),
        1..=20 if rows.len() > 1 => {
            random.within(kind::FIXED_RUN.into(), kind::CHOICE.into()) as u16
        }
        _ => random.within(kind::NUMBER.into(), kind::OPEN_OCTETS.into()) as u16,
    };
    let mut numbers = vec![0, kind];
    let wrong = random.one_in(12);
    // One reference that leads nowhere is enough for a run or a record; a choice has others.
    let loose = kind == kind::CHOICE || random.one_in(4);
    match kind {
        kind::NUMBER => {
            let span = random.pick(&[0, 0, 1, 3, 5, 255]);
            numbers.extend([0, 0, span, 0]);
        }
        kind::FIXED_RUN => {
            let count = match random.below(16) {
                _ if wrong => random.pick(&[0, 1_025, 1_025]),
                0 => 1_024,
                _ => 1 + random.below(4) as u16,
            };
            numbers.extend([count, tangled_reference(random, rows, at, loose)]);
        }
        kind::COUNTED_RUN => {
            let most = if wrong { 0 } else { LENGTH_MOST as u16 };
            numbers.extend([most, tangled_reference(random, rows, at, loose)]);
        }
        kind::RECORD => {
            let m = match random.below(16) {
                _ if wrong => random.pick(&[0, 33, 0x4001]),
                0 => 32,
                _ => 1 + random.below(4) as u16,
            };
            numbers.push(m);
            for _ in 0..m.min(40) {
                let flag = random.pick(&[0, 0, 0, 0, 1, 1, 2, 256, 0xFFFF]);
                numbers.extend([tangled_reference(random, rows, at, loose), flag]);
            }
        }
        kind::CHOICE => {
            let m = match random.below(16) {
                _ if wrong => random.pick(&[0, 1, 129, 0x8002]),
                0 => 128,
                _ => 2 + random.below(4) as u16,
            };
            numbers.push(m);
            for _ in 0..m.min(140) {
                numbers.push(tangled_reference(random, rows, at, loose));
            }
        }
        kind::OCTETS | kind::OPEN_OCTETS => {
            let most = random.pick(&[1, 3, LENGTH_MOST as u16]);
            numbers.push(if wrong { 0 } else { most });
        }
        _ => (),
    }
    // Nobody looks at the length.
    numbers[0] = match random.below(8) {
        0 => random.word() as u16,
        _ => 2 * numbers.len() as u16,
    };
    numbers
}

/// An earlier row, so that something is read; a loose one may be the row itself, a later one, or nothing.
fn tangled_reference(random: &mut Random, rows: &[Offset], at: usize, loose: bool) -> Offset {
    match random.below(32) {
        0 if loose => at as Offset,
        1 if loose => (at + 4 + 2 * random.index(40)) as Offset,
        2 if loose => random.index(at + 1) as Offset,
        3 if loose => random.pick(&[RESERVED, RESERVED - 1, 4_092, 4_096, 0x8000]),
        4..=5 if loose => RESERVED,
        _ if rows.is_empty() => 0,
        6..=15 => rows[rows.len() - 1],
        _ => random.pick(rows),
    }
}

/// A state of these rows, with depths of one pattern.
fn with_depths(random: &mut Random, table: Assembler, rows: Vec<Offset>) -> Box<StateOctets> {
    let one = some_depth(random);
    let pattern = random.below(16);
    let depth = |random: &mut Random, index: usize| match pattern {
        0 => one,
        1 => random.word() as u8,
        2 => some_depth(random),
        3 => (rows.len() - index) as u8,
        // The last is as deep as may be.
        4..=6 => (usize::from(DEPTH_MOST) + index + 1).saturating_sub(rows.len()) as u8,
        7 => (usize::from(one) + index).min(255) as u8,
        _ => (index * usize::from(DEPTH_MOST) / rows.len() + 1) as u8,
    };
    let depths: Vec<(Offset, u8)> = rows
        .iter()
        .enumerate()
        .map(|(index, &row)| (row, depth(random, index)))
        .collect();
    let root = match random.below(16) {
        0 => random.pick(&rows),
        1 => random.word() as Offset,
        2 => random.index(table.len()) as Offset,
        _ => rows[rows.len() - 1],
    };
    let mut state = state_with(&table.finish(), &depths, root);
    if random.one_in(4) {
        // The root refers to any row, earlier or later, which is mostly lower.
        let (root, to) = (random.pick(&rows), random.pick(&rows));
        put(&mut state, state::ROOT, root);
        put(&mut state, usize::from(root) + 6, to);
        let depth = 1 + random.below(32);
        state[state::DEPTHS][usize::from(root) / 2] = depth as u8;
        state[state::DEPTHS][usize::from(to) / 2] = random.below(depth + 2) as u8;
    }
    if random.one_in(4) {
        // Nobody looks at these.
        put(&mut state, state::LENGTH, random.word() as u16);
        put(&mut state, state::ROWS, random.word() as u16);
    }
    state
}

fn some_depth(random: &mut Random) -> u8 {
    match random.below(4) {
        0 => random.pick(&[0, 1, 2, 31, 32, 33, 34, 200, 255]),
        _ => random.below(35) as u8,
    }
}

/// A message for a state: any octets, mended where reading through the state refuses them, so that it
/// gets further, and now and then to the end.
pub fn message_through(random: &mut Random, state: &StateOctets, room: usize) -> Vec<u8> {
    let size = random.index(24);
    let mut message = match random.below(4) {
        0 => vec![0; size],
        _ => random.octets(size),
    };
    for _ in 0..random.below(12) {
        let (answer, _) = reference::read_loaded(state, &message, room);
        let Answer::Refused { number, place } = answer else {
            break;
        };
        let place = place as usize;
        match number {
            Refusal::MESSAGE_ENDS => {
                let more = random.index(4);
                let octets = random.octets(1 + more);
                message.extend(octets);
            }
            Refusal::NOT_PADDING => {
                message.truncate(place.div_ceil(8).max(1));
                clear(&mut message, place, 8);
            }
            Refusal::ABOVE_SPAN | Refusal::BAD_LENGTH | Refusal::BAD_VARIABLE => {
                clear(&mut message, place, 8);
            }
            Refusal::OUTSIDE_LIMITS => {
                clear(&mut message, place, 8);
                flip(&mut message, place + 7);
            }
            Refusal::NO_BRANCH => flip(&mut message, place + random.index(3)),
            _ => break,
        }
    }
    message
}

/// Clears so many bits from a place on, as far as there are any.
fn clear(message: &mut [u8], place: usize, count: usize) {
    for at in place..place + count {
        if let Some(octet) = message.get_mut(at / 8) {
            *octet &= !(0x80 >> (at % 8));
        }
    }
}

fn flip(message: &mut [u8], at: usize) {
    if let Some(octet) = message.get_mut(at / 8) {
        *octet ^= 0x80 >> (at % 8);
    }
}
