//! The deepest and widest tables, lent and loaded, and states that are deeper than any table, in a
//! thread with a small stack. And what the plain LM reader and forwarding take of a stack, counted.

use std::thread;

use teyolxan_host::api::{self, Seen, State};
use teyolxan_host::archive::ARCHIVE;
use teyolxan_host::assemble::{state_with, Assembler, Offset};
use teyolxan_host::by_name;
use teyolxan_host::codec::{value_octets, Answer, Codec, Refusal, StateOctets};
use teyolxan_host::guarded::stack_of;
use teyolxan_host::lm;
use teyolxan_host::random::{
    forged_state, forwarding, lm_list, lm_message, message_through, pack, Random,
};
use teyolxan_host::reference::{self, index_width, LENGTH_MOST};

/// The stack of the calling thread, in octets. It holds the thread's own data too.
const STACK: usize = 64 * 1024;

/// The most rows that lie one inside another, the most fields and the most branches.
const DEPTH: usize = 32;
const FIELDS: usize = 32;
const BRANCHES: usize = 128;

/// A table in the making whose last row holds all rows before it, and a list under that row.
struct Nest {
    table: Assembler,
    octet: Offset,
    outermost: Offset,
    /// The rows that lie one inside another, from the innermost on.
    rows: Vec<Offset>,
    items: Vec<Item>,
}

/// A value and its bits.
type Item = (i64, u32);

const PRESENT: Item = (1, 1);

impl Nest {
    /// Around an octet.
    fn new() -> Nest {
        Nest::around(|table| table.number(0, 255), vec![(7, 8)])
    }

    /// Around octets, which may be none.
    fn around_octets() -> Nest {
        Nest::around(|table| table.octets(3), vec![(2, 8), (7, 8), (9, 8)])
    }

    fn around(row: impl Fn(&mut Assembler) -> Offset, items: Vec<Item>) -> Nest {
        let mut table = Assembler::new();
        let octet = table.number(0, 255);
        let innermost = row(&mut table);
        Nest {
            table,
            octet,
            outermost: innermost,
            rows: vec![innermost],
            items,
        }
    }

    fn values(&self) -> Vec<i64> {
        self.items.iter().map(|&(value, _)| value).collect()
    }

    fn message(&self) -> Vec<u8> {
        pack(
            self.items
                .iter()
                .map(|&(value, width)| (value as u64, width)),
        )
    }

    /// Puts what there is into another row, with items before and after it.
    fn wrap(&mut self, outermost: Offset, mut before: Vec<Item>, after: &[Item]) {
        before.append(&mut self.items);
        before.extend(after);
        self.items = before;
        self.outermost = outermost;
        self.rows.push(outermost);
    }

    /// As a field of a record, the others being octets; every other field is optional, and present.
    fn in_record(&mut self, fields: usize, at: usize) {
        let field = |index: usize| match index {
            index if index == at => (self.outermost, index % 2 == 0),
            index => (self.octet, index % 2 == 0),
        };
        let list: Vec<_> = (0..fields).map(field).collect();
        let row = self.table.record(&list);
        let mut before = vec![PRESENT; fields.div_ceil(2)];
        before.extend(vec![(1, 8); at]);
        self.wrap(row, before, &vec![(2, 8); fields - 1 - at]);
    }

    /// As the last branch of a choice, the others being octets.
    fn in_choice(&mut self, branches: usize) {
        let mut list = vec![Some(self.octet); branches];
        list[branches - 1] = Some(self.outermost);
        let row = self.table.choice(&list);
        let index = (branches as i64 - 1, index_width(branches));
        self.wrap(row, vec![index], &[]);
    }

    /// As the items of a fixed run.
    fn in_fixed_run(&mut self, count: usize) {
        let row = self.table.fixed_run(count as u16, self.outermost);
        let items = self.items.repeat(count - 1);
        self.wrap(row, vec![], &items);
    }

    /// As the items of a counted run.
    fn in_counted_run(&mut self, count: usize) {
        let row = self.table.counted_run(16_383, self.outermost);
        let items = self.items.repeat(count - 1);
        self.wrap(row, vec![(count as i64, 8)], &items);
    }
}

/// What a small stack is tried with: nests to a depth of 32 or a little more, each as wide as a table can
/// be.
fn nests(depth: usize) -> Vec<(&'static str, Nest)> {
    let mut nests = Vec::new();
    for (name, at) in [
        ("the first field of records", 0),
        ("a middle field of records", FIELDS / 2),
        ("the last field of records", FIELDS - 1),
    ] {
        let mut nest = Nest::new();
        for level in 2..=depth {
            // Three records are narrow, or the table would be too long.
            if level % 10 == 0 {
                nest.in_record(1, 0);
            } else {
                nest.in_record(FIELDS, at);
            }
        }
        nests.push((name, nest));
    }

    let mut nest = Nest::new();
    for level in 2..=depth {
        // A table has room for 14 choices of this width.
        nest.in_choice(if level % 2 == 0 && level > 4 {
            BRANCHES
        } else {
            2
        });
    }
    nests.push(("choices", nest));

    let mut nest = Nest::new();
    for level in 2..=depth {
        let count = if level % 3 == 0 { 2 } else { 1 };
        if level % 2 == 0 {
            nest.in_fixed_run(count);
        } else {
            nest.in_counted_run(count);
        }
    }
    nests.push(("runs", nest));

    let mut nest = Nest::new();
    for level in 2..=depth {
        match level % 4 {
            0 => nest.in_record(FIELDS, level % FIELDS),
            1 => nest.in_choice(BRANCHES),
            2 => nest.in_fixed_run(1 + level % 3 / 2),
            _ => nest.in_counted_run(1 + level % 3 / 2),
        }
    }
    nests.push(("all kinds", nest));

    let mut nest = Nest::around_octets();
    for level in 2..=depth {
        if level % 4 == 0 {
            nest.in_fixed_run(1);
        } else {
            nest.in_record(1, 0);
        }
    }
    nests.push(("octets", nest));
    nests
}

/// Makes calls in a thread with a small stack.
fn in_small_stack<T: Send + 'static>(calls: impl FnOnce() -> T + Send + 'static) -> T {
    let thread = thread::Builder::new().stack_size(STACK);
    let thread = thread.spawn(calls).expect("a thread");
    thread.join().expect("an answer")
}

#[test]
fn the_deepest_and_widest_tables_need_little_stack() {
    for (name, nest) in nests(DEPTH) {
        assert_eq!(nest.rows.len(), DEPTH);
        let (values, message) = (nest.values(), nest.message());
        let table = nest.table.finish();
        assert_eq!(reference::check(&table), Answer::PASSED, "{name}");
        let (written, output) = reference::write(&table, &values, 65_535);
        assert!(output.starts_with(&message), "{name}: {written:?}");
        let read = reference::read(&table, &message, values.len());
        println!(
            "{name}: a table of {} octets, a message of {}, {} values",
            table.len(),
            message.len(),
            values.len(),
        );

        // All memory is there before the thread starts: it makes the calls and nothing else.
        let mut read_values = vec![-1; values.len()];
        let mut loaded_values = read_values.clone();
        let mut written_octets = vec![0xAA; 65_535];
        let mut state = Box::new(State::fresh());
        let (checked, by_library, by_state, written_by_library) = in_small_stack(move || {
            let checked = [api::check(&table), state.load(&table)];
            let read = api::read(&table, &message, &mut read_values);
            let loaded = state.read(&message, &mut loaded_values);
            let written = api::write(&table, &values, &mut written_octets);
            (
                checked,
                (read, read_values),
                (loaded, loaded_values),
                (written, written_octets),
            )
        });
        assert_eq!(checked, [Answer::PASSED; 2], "{name}");
        assert!(by_library == read, "{name}: {:?}", by_library.0);
        assert!(by_state == read, "{name}: {:?}", by_state.0);
        let answer = written_by_library.0;
        assert!(
            written_by_library == (written, output),
            "{name}: {answer:?}"
        );
    }
}

/// Reads through states in a thread with a small stack, each as the reference does.
fn read_through(readings: Vec<(Box<StateOctets>, Vec<u8>, usize)>) {
    let expected: Vec<(Answer, Vec<u8>)> = readings
        .iter()
        .map(|(state, message, room)| {
            let (answer, values) = reference::read_loaded(state, message, *room);
            (answer, value_octets(&values))
        })
        .collect();
    let mut given: Vec<Vec<u8>> = expected
        .iter()
        .map(|(_, values)| vec![0xAA; values.len()])
        .collect();
    let mut answers = Vec::with_capacity(readings.len());
    let given = in_small_stack(move || {
        for ((state, message, _), values) in readings.iter().zip(&mut given) {
            answers.push(ARCHIVE.read_loaded(state, message, values));
        }
        answers.into_iter().zip(given).collect::<Vec<_>>()
    });
    assert!(given == expected);
}

/// Nests with one row more than a table may have: the innermost or the outermost has then no depth that
/// lets it through.
#[test]
fn states_deeper_than_tables_need_little_stack() {
    let mut readings = Vec::new();
    for (name, nest) in nests(DEPTH + 1) {
        let (values, message) = (nest.values(), nest.message());
        let table = nest.table.finish();
        for (lowest, outermost, whole) in
            [(1, DEPTH - 1, true), (1, DEPTH, false), (0, DEPTH, false)]
        {
            let mut depths: Vec<(Offset, u8)> = nest.rows.iter().copied().zip(lowest..).collect();
            depths.push((nest.octet, 1));
            let state = state_with(&table, &depths, nest.rows[outermost]);
            let (answer, _) = reference::read_loaded(&state, &message, values.len());
            let unreadable = answer
                .refusal()
                .filter(|refusal| refusal.number == Refusal::NO_BRANCH);
            // The root at once, or the row around the innermost behind all that comes before it.
            let at_root = unreadable.map(|refusal| refusal.place == 0);
            let expected = (!whole).then_some(lowest == 1);
            assert_eq!(at_root, expected, "{name}: {answer:?}");
            readings.push((state, message.clone(), values.len()));
        }
    }
    read_through(readings);
}

/// Chains of all the rows that a state has room for: no depths let more than 32 of them through.
#[test]
fn chains_in_states_need_little_stack() {
    let mut table = Assembler::new();
    let mut rows = vec![table.number(0, 0)];
    while table.len() + 10 <= 4_096 {
        rows.push(table.record(&[(rows[rows.len() - 1], false)]));
    }
    let (table, last) = (table.finish(), rows.len() - 1);
    let mut readings = Vec::new();
    for depth in [
        |_: usize, _: usize| 32,
        |row: usize, last: usize| (32 + row).saturating_sub(last) as u8,
        |row: usize, last: usize| (200 + row).saturating_sub(last) as u8,
        |row: usize, _: usize| row.min(32) as u8,
        |row: usize, _: usize| row.min(255) as u8,
        |row: usize, _: usize| (row % 256) as u8,
        |row: usize, _: usize| 255 - row.min(255) as u8,
    ] {
        let depths: Vec<(Offset, u8)> = (0..=last)
            .map(|row| (rows[row], depth(row, last)))
            .collect();
        for root in [last, last / 2, 200, 33, 32, 31] {
            readings.push((state_with(&table, &depths, rows[root]), vec![0], 2));
        }
    }
    read_through(readings);
}

#[test]
fn any_states_need_little_stack() {
    let readings = (0..3_000).map(|number| {
        let random = &mut Random::for_case(9, number);
        let state = forged_state(random);
        let message = message_through(random, &state, 200);
        (state, message, 200)
    });
    read_through(readings.collect());
}

/// The octets of stack that reading an LM without a table has to stay below.
const PLAIN: usize = 1_024;

/// An LM with all that there is in one: an N-Header that holds another, extensions in every header, and
/// octets whose lengths have both forms. The T-Header has this selector.
fn fullest_lm(selector: i64) -> Vec<i64> {
    let octets = |length: i64| {
        let mut values = vec![length];
        values.extend((0..length).map(|at| at % 251));
        values
    };
    let elements = || {
        let mut values = vec![255];
        for id in 0..255 {
            values.push(id);
            values.extend(octets(if id == 254 { 200 } else { 1 }));
        }
        values
    };
    let mut values = vec![1, 1, 3, 9, 40_000, 1, 2, 3, 4, 5, 6, 7, 8, 200];
    values.extend(elements());
    values.extend([2, 1, 3, 4_000_000, 2]);
    values.extend(elements());
    values.extend([selector, 1]);
    values.extend(match selector {
        0 => vec![3_000_000],
        _ => vec![50_000, 60_000],
    });
    values.extend(elements());
    values.extend(octets(i64::from(LENGTH_MOST)));
    values
}

type Reading = fn(&[u8], &mut [i64]) -> Answer;

/// The most stack that reading the message takes, with both forms of values. It is read as the reference
/// does.
fn plain_stack(message: &[u8], room: usize) -> usize {
    let expected = reference::read_lm(message, room);
    let taken = [lm::read as Reading, by_name::read_lm_plain].map(|read| {
        let mut given = (Answer::PASSED, vec![-1; room]);
        let taken = stack_of(|| given.0 = read(message, &mut given.1));
        assert!(given == expected, "{:?}, not {:?}", given.0, expected.0);
        taken
    });
    taken[0].max(taken[1])
}

#[test]
fn reading_without_a_table_needs_under_a_kibibyte_of_stack() {
    let mut most = 0;
    for selector in [0, 1] {
        let values = fullest_lm(selector);
        let (written, mut message) = reference::write_lm(&values, 65_535);
        let Answer::Accepted { octets, .. } = written else {
            panic!("{written:?}");
        };
        message.truncate(octets as usize);
        for room in [values.len() - 1, values.len(), values.len() + 1] {
            most = most.max(plain_stack(&message, room));
        }
        let cut = message.len() - 1;
        most = most.max(plain_stack(&message[..cut], values.len()));
    }
    for number in 0..1_000 {
        let random = &mut Random::for_case(11, number);
        let drawn = lm_list(random);
        let message = lm_message(random, &drawn);
        most = most.max(plain_stack(&message, drawn.items.len()));
    }
    println!("{most} octets");
    assert!(most < PLAIN, "{most} octets");
}

/// The octets of stack that forwarding has to stay below.
const FORWARD: usize = 1_024;

/// The stack that forwarding a message takes. It is forwarded as the reference does.
fn forward_stack(message: &[u8], now: u32, seen: &mut [Seen], size: usize) -> usize {
    let (mut after, mut sent) = (seen.to_vec(), vec![0; size]);
    let expected = reference::forward(message, now, &mut after, &mut sent);
    let mut given = Answer::PASSED;
    let mut output = vec![0xAA; size];
    let taken = stack_of(|| given = api::forward(message, now, seen, &mut output));
    assert_eq!(given, expected);
    assert!(seen == after && output == sent);
    taken
}

/// The longest message over a long list, and sequences of any.
#[test]
fn forwarding_needs_under_a_kibibyte_of_stack() {
    let mut longest = vec![0xFF; 65_535];
    longest[..4].copy_from_slice(&[0x23, 0, 0, 7]);
    let live = Seen {
        id: 0,
        time: 0,
        used: true,
    };
    let mut list = vec![live; 1_000];
    list.push(Seen::default());
    let mut most = forward_stack(&longest, 0, &mut list, 70_000);
    for number in 0..200 {
        let (mut seen, hops) = forwarding(&mut Random::for_case(13, number), 50);
        for hop in hops {
            most = most.max(forward_stack(&hop.message, hop.now, &mut seen, hop.output));
        }
    }
    println!("{most} octets");
    assert!(most < FORWARD, "{most} octets");
}
