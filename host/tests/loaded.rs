//! A table loaded into a state, and reading through any state: the library against the reference, and
//! against reading with the table in hand. The case files are run by `archive.rs`, and slices between
//! guards by `guarded`.

use std::thread;
use std::time::Instant;

use teyolxan_host::api::{self, State, STATE_SIZE};
use teyolxan_host::archive::ARCHIVE;
use teyolxan_host::assemble::{kind, put, state, state_with, Assembler, Offset, RESERVED};
use teyolxan_host::builtin;
use teyolxan_host::case::{Case, Step};
use teyolxan_host::codec::{Answer, Call, Codec, Refusal, StateOctets, FRESH};
use teyolxan_host::compare::{compare_one, draw, Stats};
use teyolxan_host::random::{
    allowed_list, forged_state, message_through, passing_table, some_budget, some_message,
    some_room, Random,
};
use teyolxan_host::reference::{self, root_of, REFERENCE};
use teyolxan_host::settings;

/// Sequences of loads and readings for the library against the reference; more where the build is
/// optimised.
const SEQUENCES: u64 = if cfg!(debug_assertions) {
    20_000
} else {
    150_000
};

fn refused(number: u32, place: u64) -> Answer {
    Answer::Refused { number, place }
}

fn accepted(values: u64, bits: u64) -> Answer {
    Answer::Accepted {
        values,
        bits,
        octets: 0,
    }
}

/// The library and the reference on one case.
fn compared(case: &Case, stats: &mut Stats) {
    compare_one(&REFERENCE, &ARCHIVE, case, stats).unwrap_or_else(|report| panic!("{report}"));
}

/// Reads through a state with both; what they gave.
fn read_by_both(state: &StateOctets, message: &[u8], room: usize) -> (Answer, Vec<i64>) {
    let steps = vec![Step::Read {
        message: message.to_vec(),
        value_octets: 8 * room,
    }];
    let state = Box::new(*state);
    let case = Case::ReadLoaded {
        state: state.clone(),
        steps,
    };
    compared(&case, &mut Stats::default());
    reference::read_loaded(&state, message, room)
}

// ---- Drawn sequences and states --------------------------------------------------------------

/// From fresh states, and through states that nobody loaded. TEYOLXAN_SEED and TEYOLXAN_CASES repeat or
/// extend it.
#[test]
fn loads_and_readings_equal_the_reference() {
    let seed = settings::seed("TEYOLXAN_SEED");
    let cases = settings::number("TEYOLXAN_CASES").unwrap_or(SEQUENCES);
    println!("TEYOLXAN_SEED={seed} TEYOLXAN_CASES={cases}");
    let start = Instant::now();
    let mut stats = Stats::default();
    for number in 0..cases {
        let random = &mut Random::for_case(seed, number);
        let case = draw(random, &[Call::Load, Call::ReadLoaded]);
        compare_one(&REFERENCE, &ARCHIVE, &case, &mut stats)
            .unwrap_or_else(|report| panic!("seed {seed}, case {number}: {report}"));
    }
    println!("{stats}");
    println!("in {:.1} s", start.elapsed().as_secs_f64());
    if cases < 10_000 {
        return;
    }
    let by_name = [Refusal::WRONG_VERSION, Refusal::WRONG_SUBTYPE];
    for (number, count) in stats.refusals() {
        let by_others = number == Refusal::WRONG_VALUE || Refusal::is_of_forwarding(number);
        let never = by_name.contains(&number) || by_others;
        assert_eq!(count == 0, never, "refusal {number} is met {count} times");
    }
    assert!(stats.accepted > cases / 2, "{} accepted", stats.accepted);
}

/// What reading through a state that nobody loaded may answer: never anything about a table, or about
/// writing, and whatever it is, the state stays and the slice is the values and zeros.
#[test]
fn states_that_nobody_loaded_are_read_to_an_end() {
    let seed = settings::seed("TEYOLXAN_SEED");
    println!("TEYOLXAN_SEED={seed}");
    let mut told = [0u64; Refusal::HIGHEST as usize + 1];
    for number in 0..SEQUENCES / 3 {
        let random = &mut Random::for_case(seed ^ 1, number);
        let state = forged_state(random);
        let room = random.index(60);
        let message = message_through(random, &state, room);
        let mut values = vec![0x5A; 8 * room + random.index(8)];
        let answer = ARCHIVE.read_loaded(&state, &message, &mut values);
        let kept = match answer {
            Answer::Accepted { values, .. } => 8 * values as usize,
            Answer::Refused { .. } => 0,
        };
        assert!(values[kept..].iter().all(|&octet| octet == 0), "{answer:?}");
        told[answer.refusal().map_or(0, |refusal| refusal.number) as usize] += 1;
    }
    println!("{told:?}");
    for (number, &count) in told.iter().enumerate() {
        let may = matches!(number as u32, 0 | 2..=9 | 13 | Refusal::NO_TABLE);
        assert!(may || count == 0, "{number} is told {count} times");
    }
    for number in [0, 2, 3, 4, 5, 6, 7, 8, 9, 27] {
        assert!(told[number] > 0, "{number} is never told");
    }
}

/// Reading through a state equals reading with the table in hand, by the library and by the reference.
#[test]
fn a_loaded_table_reads_as_the_table_in_hand() {
    let mut whole = 0;
    for number in 0..SEQUENCES / 5 {
        let random = &mut Random::for_case(7, number);
        let table = passing_table(random);
        let root = root_of(&table).expect("a passing table has a root");
        let mut state = State::fresh();
        let mut octets = Box::new(FRESH);
        assert_eq!(state.load(&table), Answer::PASSED);
        assert_eq!(reference::load(&mut octets, &table), Answer::PASSED);
        for _ in 0..3 {
            let budget = some_budget(random);
            let drawn = allowed_list(random, &table, root, budget);
            let message = some_message(random, &table, &drawn);
            let room = some_room(random, drawn.items.len());
            let in_hand = reference::read(&table, &message, room);
            let mut values = vec![-1; room];
            let answer = state.read(&message, &mut values);
            assert!((answer, values) == in_hand, "case {number}: {answer:?}");
            assert!(reference::read_loaded(&octets, &message, room) == in_hand);
            assert_eq!(api::read(&table, &message, &mut vec![-1; room]), in_hand.0);
            whole += u64::from(in_hand.0.refusal().is_none());
        }
    }
    assert!(whole > SEQUENCES / 20, "{whole} are accepted");
}

// ---- What a state holds ----------------------------------------------------------------------

/// The depth of a row of a table that passes, by its definition.
fn depth(table: &[u8], row: usize) -> u8 {
    let number = |at: usize| u16::from_le_bytes([table[row + at], table[row + at + 1]]);
    let references: Vec<u16> = match number(2) {
        kind::FIXED_RUN | kind::COUNTED_RUN => vec![number(6)],
        kind::RECORD => (0..number(4))
            .map(|field| number(6 + 4 * usize::from(field)))
            .collect(),
        kind::CHOICE => (0..number(4))
            .map(|branch| number(6 + 2 * usize::from(branch)))
            .collect(),
        _ => Vec::new(),
    };
    let rows = references
        .into_iter()
        .filter(|&reference| reference != RESERVED);
    1 + rows.map(|row| depth(table, row.into())).max().unwrap_or(0)
}

/// After any loads the state is what is worked out afresh from the last table that was accepted; where
/// none was it is fresh.
#[test]
fn a_state_is_a_function_of_its_table() {
    for number in 0..2_000 {
        let random = &mut Random::for_case(8, number);
        let Case::Load { mut state, tables } = draw(random, &[Call::Load]) else {
            panic!("no loads were drawn");
        };
        for table in tables {
            let before = state.clone();
            let answer = ARCHIVE.load(&mut state, &table);
            assert_eq!(answer, api::check(&table));
            if answer != Answer::PASSED {
                assert!(
                    state == before,
                    "case {number}: a refused load changed the state"
                );
                continue;
            }
            // Chains of wide records have many ways down; their depths are seen in the other tests.
            if table.len() > 400 {
                continue;
            }
            let mut rows = Vec::new();
            let mut at = 0;
            while at < table.len() {
                rows.push((at as Offset, depth(&table, at)));
                at += usize::from(u16::from_le_bytes([table[at], table[at + 1]]));
            }
            let root = rows[rows.len() - 1].0;
            assert!(state == state_with(&table, &rows, root), "case {number}");
        }
    }
}

/// Nothing of a table of full size is left by a short one, in its octets, its depths or elsewhere.
#[test]
fn a_short_table_leaves_nothing_of_a_long_one() {
    let mut long = Assembler::new();
    let first = long.variable();
    while long.len() < 4_088 {
        long.counted_run(3, first);
    }
    long.variable();
    let long = long.finish();
    assert_eq!(long.len(), 4_096);
    let short = [4, 0, 2, 0];
    let mut alone = FRESH;
    assert_eq!(ARCHIVE.load(&mut alone, &short), Answer::PASSED);
    for before in [FRESH, [0xFF; STATE_SIZE]] {
        let mut state = before;
        assert_eq!(ARCHIVE.load(&mut state, &long), Answer::PASSED);
        assert_eq!(ARCHIVE.load(&mut state, &short), Answer::PASSED);
        assert!(state == alone);
    }
}

// ---- The calls of a host ---------------------------------------------------------------------

#[test]
fn a_fresh_state_holds_no_table() {
    static FRESH_STATE: State = State::fresh();
    let long = vec![0; 65_536];
    for state in [&FRESH_STATE, &State::default()] {
        for message in [&[][..], &[7], &long] {
            let mut values = [-1; 4];
            let answer = state.read(message, &mut values);
            assert_eq!(answer, refused(Refusal::NO_TABLE, 0));
            assert_eq!(values, [0; 4]);
        }
    }
}

#[test]
fn a_refused_load_leaves_the_table() {
    let (lm, sam) = (builtin::lm(), builtin::sam());
    let p1 = [0x03, 0x00, 0x20, 0x02, 0x48, 0x69];
    let mut state = State::fresh();
    let mut values = [-1; 12];
    for table in [&lm[..3], &lm[2..], &[0; 4_097]] {
        assert!(state.load(table).refusal().is_some());
        assert_eq!(state.read(&p1, &mut values), refused(Refusal::NO_TABLE, 0));
    }
    assert_eq!(state.load(&lm), Answer::PASSED);
    for table in [&lm[..3], &lm[2..], &[0; 4_097], &sam[..355]] {
        assert!(state.load(table).refusal().is_some());
        values.fill(-1);
        assert_eq!(state.read(&p1, &mut values), accepted(9, 48));
        assert_eq!(values, [0, 0, 3, 0, 0, 32, 2, 72, 105, 0, 0, 0]);
    }
    // Another table takes its place, and a copy keeps the one that it was made with.
    let copy = state.clone();
    assert_eq!(state.load(&sam), Answer::PASSED);
    assert_eq!(
        state.read(&p1, &mut values),
        api::read(&sam, &p1, &mut [0; 12])
    );
    assert_eq!(copy.read(&p1, &mut values), accepted(9, 48));
}

/// Values as octets, with some after the last whole eight.
#[test]
fn values_are_octets_too() {
    let mut state = State::fresh();
    assert_eq!(
        state.load(&[12, 0, 1, 0, 0x80, 0xFF, 0xFF, 0xFF, 0xFF, 0, 0, 0]),
        Answer::PASSED
    );
    for more in 0..8 {
        let mut values = vec![0x55; 8 + more];
        assert_eq!(state.read_octets(&[0x7F], &mut values), accepted(1, 8));
        assert_eq!(values[..8], [0xFF; 8]);
        assert!(values[8..].iter().all(|&octet| octet == 0));
    }
}

/// Several readers of one state at once, each with messages of its own.
#[test]
fn a_state_is_read_by_several_threads() {
    let mut state = State::fresh();
    assert_eq!(state.load(&builtin::lm()), Answer::PASSED);
    let state = &state;
    thread::scope(|scope| {
        for seed in 0..4 {
            scope.spawn(move || {
                for number in 0..5_000 {
                    let random = &mut Random::for_case(seed, number);
                    let drawn = teyolxan_host::random::lm_list(random);
                    let message = some_message(random, &builtin::lm(), &drawn);
                    let room = some_room(random, drawn.items.len());
                    let mut values = vec![-1; room];
                    let answer = state.read(&message, &mut values);
                    let expected = reference::read(&builtin::lm(), &message, room);
                    assert!((answer, values) == expected, "{answer:?}");
                }
            });
        }
    });
}

// ---- States made otherwise, by hand ----------------------------------------------------------

/// A number of no bits, and records of one field around it: as many as there is room for.
fn chain() -> (Vec<u8>, Vec<Offset>) {
    let mut table = Assembler::new();
    let mut rows = vec![table.number(5, 0)];
    while table.len() + 10 <= 4_096 {
        rows.push(table.record(&[(rows[rows.len() - 1], false)]));
    }
    (table.finish(), rows)
}

/// A state of this chain with depths by the row's index, whose root is one of the rows.
fn chained(depth: impl Fn(usize) -> u8, root: usize) -> Box<StateOctets> {
    let (table, rows) = chain();
    let depths: Vec<(Offset, u8)> = (0..rows.len()).map(|row| (rows[row], depth(row))).collect();
    state_with(&table, &depths, rows[root])
}

#[test]
fn a_chain_is_followed_as_far_as_its_depths_fall() {
    let last = chain().1.len() - 1;
    assert_eq!(last, 408);
    let no = (refused(Refusal::NO_BRANCH, 0), vec![0; 2]);
    let five = (accepted(1, 0), vec![5, 0]);
    // The depths of a table, as far as it may go; then no row has one.
    for (lowest, row, outcome) in [
        (1, 0, &five),
        (1, 30, &five),
        (1, 31, &five),
        (1, 32, &no),
        (2, 30, &five),
        (2, 31, &no),
        (0, 0, &no),
        (0, 31, &no),
        (0, last, &no),
    ] {
        let state = chained(|row| (lowest + row).min(255) as u8, row);
        assert_eq!(&read_by_both(&state, &[0], 2), outcome, "{lowest} {row}");
    }
    // Depths that fall from the root on, and then no more; all alike; too deep.
    let falls = |row: usize| (32 + row).saturating_sub(last) as u8;
    assert_eq!(read_by_both(&chained(falls, last), &[0], 2), no);
    for same in [0, 1, 31, 32, 33, 200, 255] {
        let state = chained(|_| same, last);
        assert_eq!(read_by_both(&state, &[0], 2), no, "{same}");
        let state = chained(|_| same, 0);
        let alone = if (1..=32).contains(&same) { &five } else { &no };
        assert_eq!(&read_by_both(&state, &[0], 2), alone, "{same}");
    }
    // One step over many rows is as good as one over none.
    let mut state = chained(|row| 1 + u8::from(row == last), last);
    let field = usize::from(chain().1[last]) + 6;
    put(&mut state, field, 0);
    assert_eq!(read_by_both(&state, &[0], 2), five);
}

/// An octet, then rows that may not be read from a row of depth 2 behind them, the row itself and one
/// behind it among them.
struct Spoilt {
    table: Assembler,
    depths: Vec<(Offset, u8)>,
    octet: Offset,
    bad: Vec<Offset>,
}

impl Spoilt {
    /// How far behind that row the later one stands.
    const BEHIND: Offset = 300;

    fn new() -> Spoilt {
        let mut table = Assembler::new();
        let octet = table.number(0, 255);
        let (none, same) = (table.variable(), table.variable());
        let (unknown, over) = (table.numbers(&[4, 9]), table.octets(16_384));
        let depths = vec![(octet, 1), (none, 0), (same, 2), (unknown, 1), (over, 1)];
        let own = table.len() as Offset;
        let mut bad = vec![none, same, unknown, over, own, own + Spoilt::BEHIND];
        // Inside a row, and where no row has room.
        bad.extend([octet + 2, own - 1, 4_094, 4_096, RESERVED - 1]);
        Spoilt {
            table,
            depths,
            octet,
            bad,
        }
    }

    /// A state whose root is the row of depth 2 that is added now, alone or behind an octet.
    fn state(mut self, behind: bool, row: impl Fn(&mut Assembler) -> Offset) -> Box<StateOctets> {
        let mut root = row(&mut self.table);
        let later = root + Spoilt::BEHIND;
        self.depths.extend([(root, 2), (later, 1)]);
        let filler = usize::from(later) - self.table.len();
        self.table.raw(&vec![0; filler]);
        assert_eq!(self.table.variable(), later);
        if behind {
            root = self.table.record(&[(self.octet, false), (root, false)]);
            self.depths.push((root, 3));
        }
        state_with(&self.table.finish(), &self.depths, root)
    }
}

/// Whatever the message and the room are, at the row's first bit: before its length and presence bits, and
/// where the field would be absent, or the run have no items.
#[test]
fn a_run_or_a_record_is_refused_whole() {
    let messages: [&[u8]; 6] = [&[0; 40], &[0xFF; 40], &[0x5A], &[1, 6], &[1, 0x80], &[7]];
    let refused_at = |state: &StateOctets, behind: bool| {
        for message in messages {
            for room in [0, 1, 2, 50] {
                let (answer, _) = read_by_both(state, message, room);
                let expected = match (behind, room) {
                    (false, _) => refused(Refusal::NO_BRANCH, 0),
                    (true, 0) => refused(Refusal::NO_ROOM, 0),
                    (true, _) => refused(Refusal::NO_BRANCH, 8),
                };
                assert_eq!(answer, expected, "{message:?} {room}");
            }
        }
    };
    let mut bad = Spoilt::new().bad;
    bad.push(RESERVED);
    for (bad, behind) in bad.into_iter().flat_map(|bad| [(bad, false), (bad, true)]) {
        let state = Spoilt::new().state(behind, |table| table.fixed_run(2, bad));
        refused_at(&state, behind);
        let state = Spoilt::new().state(behind, |table| table.counted_run(5, bad));
        refused_at(&state, behind);
        for (fields, at) in [(1, 0), (2, 0), (2, 1), (32, 0), (32, 15), (32, 31)] {
            for optional in [false, true] {
                let octet = Spoilt::new().octet;
                let field = |index: usize| if index == at { bad } else { octet };
                let list: Vec<_> = (0..fields).map(|index| (field(index), optional)).collect();
                let state = Spoilt::new().state(behind, |table| table.record(&list));
                refused_at(&state, behind);
            }
        }
    }
}

/// Behind its index, which needs room, and only where that branch is chosen.
#[test]
fn a_choice_is_refused_behind_its_index() {
    let octet = Spoilt::new().octet;
    for bad in Spoilt::new().bad {
        for behind in [false, true] {
            let state = Spoilt::new().state(behind, |table| {
                table.choice(&[Some(octet), Some(bad), None, Some(octet)])
            });
            let start = if behind { 8 } else { 0 };
            let message = |index: u8| match behind {
                false => vec![index << 6, 0x40],
                true => vec![9, index << 6, 0x40],
            };
            let before = u64::from(behind);
            for index in [0, 3] {
                let (answer, values) = read_by_both(&state, &message(index), 3);
                assert_eq!(answer, accepted(before + 2, start + 10));
                let read = &values[usize::from(behind)..][..2];
                assert_eq!(read, [i64::from(index), 1]);
            }
            for (index, room, number, place) in [
                (1, before + 2, Refusal::NO_BRANCH, start + 2),
                (1, before + 1, Refusal::NO_BRANCH, start + 2),
                (1, before, Refusal::NO_ROOM, start),
                (2, before, Refusal::NO_BRANCH, start),
            ] {
                let (answer, _) = read_by_both(&state, &message(index), room as usize);
                assert_eq!(answer, refused(number, place), "{bad} {index} {room}");
            }
        }
    }
}

/// A row that may be read but is refused whole is met where it is asked for, and nowhere before.
#[test]
fn a_row_that_is_refused_whole_may_be_referred_to() {
    for refused_whole in [
        |table: &mut Assembler| table.fixed_run(1, RESERVED),
        |table: &mut Assembler| table.counted_run(5, RESERVED),
        |table: &mut Assembler| table.record(&[(0, true), (RESERVED, true)]),
    ] {
        type Around = fn(&mut Assembler, Offset) -> Offset;
        let around: [(Around, &[u8], Answer); 9] = [
            (|t, row| t.fixed_run(2, row), &[0], refused(4, 0)),
            (|t, row| t.counted_run(5, row), &[0], accepted(1, 8)),
            (|t, row| t.counted_run(5, row), &[1, 0], refused(4, 8)),
            (|t, row| t.counted_run(5, row), &[6, 0], refused(6, 0)),
            (|t, row| t.record(&[(row, true)]), &[0], accepted(1, 1)),
            (|t, row| t.record(&[(row, true)]), &[0x80], refused(4, 1)),
            (
                |t, row| t.record(&[(0, false), (row, false)]),
                &[7, 0],
                refused(4, 8),
            ),
            (
                |t, row| t.choice(&[Some(0), Some(row)]),
                &[0, 0],
                accepted(2, 9),
            ),
            (
                |t, row| t.choice(&[Some(0), Some(row)]),
                &[0x80, 0],
                refused(4, 1),
            ),
        ];
        for (row, message, expected) in around {
            let mut table = Assembler::new();
            let octet = table.number(0, 255);
            let below = refused_whole(&mut table);
            let root = row(&mut table, below);
            let depths = [(octet, 1), (below, 2), (root, 3)];
            let state = state_with(&table.finish(), &depths, root);
            assert_eq!(read_by_both(&state, message, 5).0, expected, "{message:?}");
        }
    }
}

/// Records around a number of no bits, whose fields refer to rows behind them too, or to those just before
/// them: what is read is bounded by the depths and by the room.
#[test]
fn rows_that_refer_to_each_other_end() {
    let mut stats = Stats::default();
    for fields in [1, 2, 31, 32] {
        let size = 6 + 4 * fields;
        let count = 1 + (4_096 - 12) / size;
        let at = |row: usize| match row {
            0 => 0,
            row => (12 + size * (row - 1)) as Offset,
        };
        for to in [
            |row: usize, field: usize, count: usize| (row + field * 5 + 1) % count,
            |row: usize, field: usize, _: usize| row.saturating_sub(1 + field),
        ] {
            for depth in [
                |_: usize| 32,
                |row: usize| 1 + row.min(254) as u8,
                |row: usize| row.min(255) as u8,
                |row: usize| 255 - row.min(255) as u8,
                |row: usize| (row % 33) as u8,
                |row: usize| (row * 7 % 32 + 1) as u8,
            ] {
                let mut table = Assembler::new();
                let mut depths = vec![(table.number(0, 0), depth(0))];
                for row in 1..count {
                    let list: Vec<_> = (0..fields)
                        .map(|field| (at(to(row, field, count)), field % 3 == 2))
                        .collect();
                    depths.push((table.record(&list), depth(row)));
                }
                let table = table.finish();
                for root in [1, count / 2, count.min(32) - 1, count - 1] {
                    let state = state_with(&table, &depths, at(root));
                    for message in [&[0][..], &[0xFF; 40], &[0x5A; 400]] {
                        for room in [0, 1, 100, 3_000] {
                            let steps = vec![Step::Read {
                                message: message.to_vec(),
                                value_octets: 8 * room,
                            }];
                            let state = state.clone();
                            compared(&Case::ReadLoaded { state, steps }, &mut stats);
                        }
                    }
                }
            }
        }
    }
    println!("{stats}");
    for number in [Refusal::MESSAGE_ENDS, Refusal::NO_BRANCH, Refusal::NO_ROOM] {
        assert!(stats.refused_by(number) > 0, "{number} is never told");
    }
    assert!(stats.accepted > 0);
}

/// Runs of runs, of which each turn gives one value: the room ends them.
#[test]
fn runs_of_runs_end_with_the_room() {
    let mut table = Assembler::new();
    let mut depths = vec![(table.number(0, 0), 1)];
    for depth in 2..=32 {
        let last = depths[depths.len() - 1].0;
        depths.push((table.fixed_run(1_024, last), depth));
    }
    let root = depths[31].0;
    let state = state_with(&table.finish(), &depths, root);
    for room in [0, 1, 1_000, 60_000] {
        let full = (refused(Refusal::NO_ROOM, 0), vec![0; room]);
        assert_eq!(read_by_both(&state, &[0], room), full);
    }
}

/// Every offset as the root, of a state of a table and of one with all octets alike.
#[test]
fn any_root_is_read_or_refused() {
    let mut stats = Stats::default();
    let mut lm = Box::new(FRESH);
    reference::load(&mut lm, &builtin::lm());
    let alike = |octet: u8| {
        let mut state = Box::new([octet; STATE_SIZE]);
        state[state::OUTCOME] = state::PASSED;
        state
    };
    for mut state in [
        lm,
        alike(0),
        alike(1),
        alike(2),
        alike(5),
        alike(8),
        alike(255),
    ] {
        for root in (0..4_200).chain([0x7FFF, 0x8000, 0xFFFC, 0xFFFD, 0xFFFE, 0xFFFF]) {
            put(&mut state, state::ROOT, root);
            let steps = vec![Step::Read {
                message: vec![0x03, 0x00, 0x20, 0x02, 0x48, 0x69],
                value_octets: 80,
            }];
            let state = state.clone();
            compared(&Case::ReadLoaded { state, steps }, &mut stats);
        }
    }
    println!("{stats}");
    assert!(stats.accepted > 0 && stats.refused_by(Refusal::NO_BRANCH) > 0);
}

/// The state of the LM table with each octet changed in turn, to several others.
#[test]
fn one_octet_changed_is_read_or_refused() {
    let mut stats = Stats::default();
    let mut lm = Box::new(FRESH);
    reference::load(&mut lm, &builtin::lm());
    let octets = 0..builtin::lm().len();
    let depths = state::DEPTHS.start..state::DEPTHS.start + builtin::lm().len() / 2;
    let rest = state::LENGTH..STATE_SIZE;
    for at in octets.chain(depths).chain(rest) {
        for change in [1, 2, 0x20, 0x80, 0xFF] {
            let mut state = lm.clone();
            state[at] ^= change;
            let message = |octets: &[u8]| Step::Read {
                message: octets.to_vec(),
                value_octets: 8 * 16,
            };
            let steps = vec![
                message(&[0x03, 0x00, 0x20, 0x02, 0x48, 0x69]),
                message(&[0x23, 0x00, 0x00, 0x07, 0x02, 0x00, 0x01, 0x00, 0x02, 0x00]),
                message(&[0x0B, 0x01, 0x0F, 0x01, 0xAC, 0x00, 0x00, 0x00]),
            ];
            compared(&Case::ReadLoaded { state, steps }, &mut stats);
        }
    }
    println!("{stats}");
}
