//! What is drawn, against the reference: the generator knows the outcome of what it draws, by its
//! own count of items and its own packing of bits.

use std::collections::BTreeMap;

use teyolxan_host::codec::{Answer, Refusal};
use teyolxan_host::random::{
    allowed_list, large_list, large_lm, lm_list, passing_table, some_budget, spoilt_message,
    wrong_bits, Drawn, Form, Item, Random, Spoilt,
};
use teyolxan_host::reference::{
    check, lm_table, read, read_lm, root_of, user_data, user_data_part, write, write_lm,
    MESSAGE_MOST,
};

const DRAWS: u64 = 20_000;

fn refused(number: u32, place: usize) -> Answer {
    Refusal::new(number, place).into()
}

/// The bits before an item.
fn place_of(drawn: &Drawn, item: usize) -> usize {
    drawn.items[..item]
        .iter()
        .map(|item| item.width as usize)
        .sum()
}

fn followed_by_zeros<T: Copy + Default>(list: &[T], size: usize) -> Vec<T> {
    let mut slice = list.to_vec();
    slice.resize(size, T::default());
    slice
}

/// Reads and writes a whole list, and tries rooms and outputs that are too small.
fn goes_both_ways(random: &mut Random, table: &[u8], drawn: &Drawn) {
    let (values, message) = (drawn.values(), drawn.message());
    let room = values.len() + random.index(3);
    let accepted = Answer::Accepted {
        values: values.len() as u64,
        bits: drawn.bits() as u64,
        octets: 0,
    };
    assert_eq!(
        read(table, &message, room),
        (accepted, followed_by_zeros(&values, room))
    );
    let size = message.len() + random.index(3);
    let accepted = Answer::Accepted {
        values: 0,
        bits: 0,
        octets: message.len() as u64,
    };
    assert_eq!(
        write(table, &values, size),
        (accepted, followed_by_zeros(&message, size))
    );

    let room = random.index(values.len());
    assert_eq!(
        read(table, &message, room),
        (
            refused(Refusal::NO_ROOM, place_of(drawn, room)),
            vec![0; room]
        )
    );
    let size = random.index(message.len());
    let index = (0..values.len())
        .find(|&index| place_of(drawn, index + 1) > 8 * size)
        .unwrap_or(values.len());
    assert_eq!(
        write(table, &values, size),
        (refused(Refusal::NO_ROOM, index), vec![0; size])
    );
}

/// What the length of open octets was drawn as, and how often.
#[derive(Debug, Default)]
struct Open(BTreeMap<&'static str, u64>);

impl Open {
    const DRAWN_AS: [&str; 8] = [
        "the least",
        "the most",
        "long",
        "0",
        "above the most",
        "80 00",
        "another bad form",
        "0 to be written",
    ];

    /// Whether the item is such a length.
    fn is_length(item: &Item) -> bool {
        matches!(item.form, Form::Length { least: 1, .. })
    }

    fn count(&mut self, drawn_as: &'static str) {
        *self.0.entry(drawn_as).or_default() += 1;
    }

    fn count_list(&mut self, table: &[u8], drawn: &Drawn) {
        for item in drawn.items.iter().filter(|item| Open::is_length(item)) {
            let (least, most) = item.bounds(table);
            if item.value == least {
                self.count("the least");
            }
            if item.value == most {
                self.count("the most");
            }
            if item.width == 16 {
                self.count("long");
            }
        }
    }

    fn count_spoilt(&mut self, drawn: &Drawn, spoilt: &Spoilt) {
        if Open::is_length(&drawn.items[spoilt.item]) {
            self.count(match (spoilt.number, spoilt.bits) {
                (Refusal::OUTSIDE_LIMITS, 0) => "0",
                (Refusal::OUTSIDE_LIMITS, _) => "above the most",
                (_, 0x8000) => "80 00",
                _ => "another bad form",
            });
        }
    }

    fn count_written(&mut self, item: &Item, value: i64) {
        if Open::is_length(item) && value == 0 {
            self.count("0 to be written");
        }
    }

    /// Each came up often.
    fn assert_drawn(&self) {
        println!("{self:?}");
        for drawn_as in Open::DRAWN_AS {
            let count = self.0.get(drawn_as).copied().unwrap_or(0);
            assert!(count >= 50, "{drawn_as}: {count} times");
        }
    }
}

/// Reads the message with one item's bits wrong, and writes the list with one value wrong.
fn is_refused_where_it_is_wrong(random: &mut Random, table: &[u8], drawn: &Drawn, open: &mut Open) {
    let (mut values, message) = (drawn.values(), drawn.message());
    if let Some(spoilt) = wrong_bits(random, table, drawn) {
        open.count_spoilt(drawn, &spoilt);
        let place = place_of(drawn, spoilt.item);
        let room = spoilt.item + random.index(3);
        assert_eq!(
            read(table, &spoilt_message(drawn, &spoilt), room),
            (refused(spoilt.number, place), vec![0; room])
        );
    }

    let at = random.index(values.len());
    let bounds = drawn.items[at].bounds(table);
    values[at] = random.pick(&[bounds.0 - 1, bounds.1 + 1, i64::MIN, i64::MAX]);
    open.count_written(&drawn.items[at], values[at]);
    assert_eq!(
        write(table, &values, message.len()),
        (refused(Refusal::WRONG_VALUE, at), vec![0; message.len()])
    );
    values.truncate(at);
    assert_eq!(
        write(table, &values, message.len()),
        (refused(Refusal::WRONG_VALUE, at), vec![0; message.len()])
    );
    let mut values = drawn.values();
    values.push(0);
    assert_eq!(
        write(table, &values, message.len()),
        (
            refused(Refusal::WRONG_VALUE, values.len() - 1),
            vec![0; message.len()]
        )
    );
}

/// Reads the message cut after some octets.
fn is_short_where_it_is_cut(random: &mut Random, table: &[u8], drawn: &Drawn) {
    let message = drawn.message();
    let size = random.index(message.len());
    let item = (0..drawn.items.len())
        .find(|&item| place_of(drawn, item + 1) > 8 * size)
        .unwrap_or(0);
    let place = place_of(drawn, item);
    let room = drawn.items.len();
    assert_eq!(
        read(table, &message[..size], room),
        (refused(Refusal::MESSAGE_ENDS, place), vec![0; room])
    );
}

#[test]
fn lists_go_both_ways() {
    let mut whole = 0;
    let mut open = Open::default();
    for number in 0..DRAWS {
        let random = &mut Random::for_case(4, number);
        let table = passing_table(random);
        assert_eq!(check(&table), Answer::PASSED, "case {number}");
        let root = root_of(&table).expect("a passing table has a root");
        let budget = some_budget(random);
        let drawn = allowed_list(random, &table, root, budget);
        if !drawn.whole {
            continue;
        }
        whole += 1;
        open.count_list(&table, &drawn);
        goes_both_ways(random, &table, &drawn);
        is_refused_where_it_is_wrong(random, &table, &drawn, &mut open);
        is_short_where_it_is_cut(random, &table, &drawn);
    }
    assert!(whole * 10 > DRAWS * 9, "only {whole} lists are whole");
    open.assert_drawn();
}

#[test]
fn lms_go_both_ways_by_name() {
    for number in 0..DRAWS {
        let random = &mut Random::for_case(5, number);
        let drawn = lm_list(random);
        let (values, message) = (drawn.values(), drawn.message());
        if !drawn.whole {
            continue;
        }
        let (read_by_name, written_by_name) = (
            read_lm(&message, values.len()),
            write_lm(&values, message.len()),
        );
        if values[2] != 3 {
            assert_eq!(read_by_name.0, refused(Refusal::WRONG_VERSION, 5));
            assert_eq!(written_by_name.0, refused(Refusal::WRONG_VERSION, 2));
            continue;
        }
        let table = &lm_table().octets;
        assert_eq!(read_by_name, read(table, &message, values.len()));
        assert_eq!(written_by_name, write(table, &values, message.len()));
        assert_eq!(read_by_name.1, values);
        assert_eq!(written_by_name.1, message);

        let (start, length) = user_data(&message).expect("an LM has user data");
        assert_eq!(start + length, message.len());
        assert_eq!(values[values.len() - length - 1], length as i64);
        assert_eq!(user_data_part(&message), &message[start..]);
        let cut = &message[..message.len() - 1];
        assert!(user_data_part(cut).is_empty());
        assert_eq!(user_data_part(cut).as_ptr(), cut.as_ptr());
    }
}

#[test]
fn large_lists_are_taken_up_to_the_limit() {
    for number in 0..20 {
        let random = &mut Random::for_case(6, number);
        let (table, drawn) = if number % 2 == 0 {
            large_list(random)
        } else {
            (lm_table().octets.clone(), large_lm(random))
        };
        if drawn.message().len() <= MESSAGE_MOST {
            let (values, message) = (drawn.values(), drawn.message());
            assert_eq!(read(&table, &message, values.len()).1, values);
            assert_eq!(
                write(&table, &values, 70_000).1,
                followed_by_zeros(&message, 70_000)
            );
            continue;
        }
        let room = drawn.items.len();
        assert_eq!(
            read(&table, &drawn.message(), room),
            (refused(Refusal::TOO_LONG, 0), vec![0; room])
        );
        let mut bits = 0;
        let index = drawn.items.iter().position(|item| {
            bits += item.width as usize;
            bits > 8 * MESSAGE_MOST
        });
        assert_eq!(
            write(&table, &drawn.values(), 70_000),
            (
                refused(Refusal::NO_ROOM, index.expect("an item that does not fit")),
                vec![0; 70_000]
            )
        );
    }
}
