//! LM, SAM and SRM: by name and with the same table lent, against the reference codec.
//!
//! The library with a lent table and the reference have to agree everywhere. By name, a SAM or an
//! SRM has the same outcome; an LM has it too once the tests for 10 and 11 are made.

use teyolxan_host::api;
use teyolxan_host::builtin;
use teyolxan_host::by_name::{self, Name};
use teyolxan_host::codec::{Answer, Refusal};
use teyolxan_host::random::{
    allowed_list, some_budget, some_message, some_output, some_room, wrong_list, Item, Random,
};
use teyolxan_host::reference;

/// Cases drawn for each table.
const DRAWS: u64 = 30_000;

/// A message with a name, and its table.
struct Kind {
    name: Name,
    table: Vec<u8>,
}

fn kinds() -> [Kind; 3] {
    [
        (Name::Lm, builtin::lm()),
        (Name::Sam, builtin::sam()),
        (Name::Srm, builtin::srm()),
    ]
    .map(|(name, table)| Kind { name, table })
}

impl Kind {
    /// What the reference answers by name, and the whole value slice.
    fn expected(&self, message: &[u8], room: usize) -> (Answer, Vec<i64>) {
        match self.name {
            Name::Lm => reference::read_lm(message, room),
            Name::Sam | Name::Srm => reference::read(&self.table, message, room),
        }
    }

    /// Reads by name and with the table lent; gives the answer by name and the values.
    fn read(&self, message: &[u8], room: usize) -> (Answer, Vec<i64>) {
        // By name the slice stands between two values that have to stay.
        let mut values = vec![i64::MIN; room + 2];
        let answer = by_name::read(self.name, message, &mut values[1..room + 1]);
        assert_eq!((values[0], values[room + 1]), (i64::MIN, i64::MIN));
        let by_name = (answer, values[1..room + 1].to_vec());
        assert_eq!(
            by_name,
            self.expected(message, room),
            "{:?} {message:02X?} with room for {room}",
            self.name
        );

        let mut values = vec![i64::MIN; room];
        let answer = api::read(&self.table, message, &mut values);
        assert_eq!(
            (answer, values),
            reference::read(&self.table, message, room),
            "the table of {:?} lent: {message:02X?} with room for {room}",
            self.name
        );
        by_name
    }

    /// Writes by name and with the table lent; gives the answer by name and the output.
    fn write(&self, values: &[i64], size: usize) -> (Answer, Vec<u8>) {
        let expected = match self.name {
            Name::Lm => reference::write_lm(values, size),
            Name::Sam | Name::Srm => reference::write(&self.table, values, size),
        };
        let mut output = vec![0xAA; size];
        let answer = by_name::write(self.name, values, &mut output);
        let by_name = (answer, output);
        assert_eq!(
            by_name, expected,
            "{:?} {values:?} into {size} octets",
            self.name
        );

        let mut output = vec![0xAA; size];
        let answer = api::write(&self.table, values, &mut output);
        assert_eq!(
            (answer, output),
            reference::write(&self.table, values, size),
            "the table of {:?} lent: {values:?} into {size} octets",
            self.name
        );
        by_name
    }

    /// A message and its values, both ways; then every room and output that is too small.
    fn goes_both_ways(&self, message: &[u8], list: &[i64]) {
        let count = list.len();
        let (answer, values) = self.read(message, count + 2);
        let Answer::Accepted { values: told, .. } = answer else {
            panic!("{:?} {message:02X?}: {answer:?}", self.name);
        };
        assert_eq!(told, count as u64);
        assert_eq!(values[..count], *list);
        for room in 0..count {
            self.read(message, room);
        }

        let written = Answer::Accepted {
            values: 0,
            bits: 0,
            octets: message.len() as u64,
        };
        assert_eq!(self.write(list, message.len()), (written, message.to_vec()));
        for size in 0..message.len() {
            self.write(list, size);
        }
        for index in 0..count {
            self.write(&list[..index], message.len());
            for value in [-1, list[index] + 1, 1 << 40, i64::MIN, i64::MAX] {
                let mut list = list.to_vec();
                list[index] = value;
                self.write(&list, message.len() + 2);
            }
        }
    }

    /// The message cut everywhere, with every bit turned, and with an octet more.
    fn is_damaged(&self, message: &[u8], room: usize) {
        for size in 0..message.len() {
            let (answer, _) = self.read(&message[..size], room);
            assert!(matches!(answer, Answer::Refused { .. }), "{size}");
        }
        for bit in 0..8 * message.len() {
            let mut message = message.to_vec();
            message[bit / 8] ^= 0x80 >> (bit % 8);
            self.read(&message, room);
        }
        for octet in [0, 1, 0xFF] {
            let message = [message, &[octet]].concat();
            let (answer, _) = self.read(&message, room);
            assert!(matches!(answer, Answer::Refused { .. }));
        }
    }
}

/// A SAM with so many services, each with a reply port.
fn services(count: i64) -> Vec<i64> {
    let mut list = vec![3, 0, 1, 0, 0, 1, 2, count];
    for service in 0..count {
        list.extend([100 * service, service, 0, 1, 0, 8_000 + service]);
    }
    list
}

/// Lists for each kind, and their messages as far as docs/MESSAGES.md has them.
fn examples(name: Name) -> Vec<(Vec<i64>, Option<Vec<u8>>)> {
    match name {
        Name::Lm => vec![
            (
                vec![0, 0, 3, 0, 0, 32, 2, 72, 105],
                Some(vec![0x03, 0x00, 0x20, 0x02, 0x48, 0x69]),
            ),
            (
                vec![2, 0, 3, 1, 3, 1, 0, 1, 2, 0],
                Some(vec![
                    0x23, 0x00, 0x00, 0x07, 0x02, 0x00, 0x01, 0x00, 0x02, 0x00,
                ]),
            ),
            (
                vec![0, 1, 3, 1, 15, 1, 172, 0, 0, 0, 0],
                Some(vec![0x0B, 0x01, 0x0F, 0x01, 0xAC, 0x00, 0x00, 0x00]),
            ),
        ],
        Name::Sam => {
            // A routing advertisement with one extension element.
            let mut routing = vec![3, 0, 0, 0, 1, 15, 15, 65_535];
            routing.extend(0x20..0x30);
            routing.push(64);
            routing.extend(0x30..0x50);
            routing.extend([1, 200, 2, 0xAB, 0xCD]);
            vec![
                (vec![3, 0, 0, 0, 0, 1, 2], Some(vec![0x30, 0x12])),
                (
                    vec![
                        3, 1, 1, 1, 0, 1, 2, // header
                        1, 17, 1, 50, // an extension
                        1, 32, 1, 0, 1, 0, 8_000, // a service
                        1, 17, 178, 20, 0, 12, 0, 0, 0, 0, 0, 0, 0, 0, // a channel
                    ],
                    Some(vec![
                        0x3E, 0x12, 0x01, 0x11, 0x01, 0x32, 0x01, 0x20, 0x0A, 0x1F, 0x40, 0x01,
                        0x11, 0xB2, 0x94, 0x0C, 0x00,
                    ]),
                ),
                (
                    vec![
                        3, 0, 0, 1, 0, 0, 0, 1, 17, 178, 20, 0, 12, 0, 0, 0, 0, 0, 0, 1, 0, 0,
                    ],
                    Some(vec![0x32, 0x00, 0x01, 0x11, 0xB2, 0x94, 0x0C, 0x02]),
                ),
                // A service with an empty system service.
                (
                    vec![3, 0, 1, 0, 0, 0, 0, 1, 32, 1, 1, 0, 0, 0],
                    Some(vec![0x34, 0x00, 0x01, 0x20, 0x0C, 0x00]),
                ),
                // A service with all its options: a system service, a port, an extension.
                (
                    vec![
                        0,
                        0,
                        1,
                        0,
                        0,
                        0,
                        0,
                        1,
                        270_549_119,
                        31,
                        1,
                        1,
                        1,
                        3,
                        9,
                        8,
                        7,
                        65_535,
                        1,
                        85,
                        1,
                        6,
                    ],
                    None,
                ),
                (services(1), None),
                (services(31), None),
                (routing, None),
            ]
        }
        Name::Srm => vec![
            (vec![3, 0, 0, 0, 0], Some(vec![0x30])),
            (
                vec![3, 0, 1, 1, 0, 49_152, 2, 32, 135, 1, 0, 1, 2, 7, 9, 49_153],
                Some(vec![
                    0x36, 0xC0, 0x00, 0x02, 0x20, 0x80, 0x07, 0x01, 0x00, 0x01, 0x02, 0x07, 0x09,
                    0xC0, 0x01,
                ]),
            ),
            // All four parts; context data of one octet; two allocated channels.
            (
                vec![
                    15, 1, 1, 1, 1, 1, 4, 1, 255, 0, 0, 1, 16_512, 255, 1, 0, 65_535, 2, 32, 1,
                    2_113_664, 2,
                ],
                None,
            ),
        ],
    }
}

#[test]
fn examples_go_both_ways_and_are_refused_where_they_are_damaged() {
    for kind in kinds() {
        assert_eq!(api::check(&kind.table), Answer::PASSED);
        for (list, message) in examples(kind.name) {
            let (written, mut output) = reference::write(&kind.table, &list, 2_000);
            let Answer::Accepted { octets, .. } = written else {
                panic!("{:?} {list:?}: {written:?}", kind.name);
            };
            output.truncate(octets as usize);
            if let Some(message) = message {
                assert_eq!(output, message);
            }
            kind.goes_both_ways(&output, &list);
            kind.is_damaged(&output, list.len() + 200);
        }
    }
}

#[test]
fn what_the_tables_refuse() {
    let [lm, sam, srm] = kinds();
    let refused = |number, place| (Answer::Refused { number, place }, vec![0; 50]);
    for (kind, message, number, place) in [
        (&lm, &[0x04][..], Refusal::WRONG_VERSION, 5),
        (&lm, &[0x33], Refusal::WRONG_SUBTYPE, 0),
        (&sam, &[], Refusal::MESSAGE_ENDS, 0),
        (&sam, &[0x30], Refusal::MESSAGE_ENDS, 8),
        (&sam, &[0x34, 0x00, 0x20], Refusal::OUTSIDE_LIMITS, 16), // 32 services
        (&sam, &[0x32, 0x00, 0x20], Refusal::OUTSIDE_LIMITS, 16), // 32 channels
        (&sam, &[0x38, 0x00, 0x81, 0x00], Refusal::OUTSIDE_LIMITS, 16), // 256 extensions
        (&sam, &[0x38, 0x00, 0x80, 0x01], Refusal::BAD_LENGTH, 16),
        (&sam, &[0x34, 0x00, 0x01, 0xF0], Refusal::BAD_VARIABLE, 24),
        (&sam, &[0x30, 0x12, 0x00], Refusal::NOT_PADDING, 16),
        (&srm, &[], Refusal::MESSAGE_ENDS, 0),
        (&srm, &[0x31], Refusal::MESSAGE_ENDS, 8),
        (&srm, &[0x31, 0xFF], Refusal::BAD_LENGTH, 8),
        (&srm, &[0x31, 0x01, 0xF8], Refusal::BAD_VARIABLE, 16),
        (&srm, &[0x30, 0x00], Refusal::NOT_PADDING, 8),
    ] {
        assert_eq!(kind.read(message, 50), refused(number, place));
    }
    // A message of 65,536 octets is too long whatever it holds.
    for kind in [lm, sam, srm] {
        let (answer, _) = kind.read(&[0x33; 65_536], 4);
        let too_long = Answer::Refused {
            number: Refusal::TOO_LONG,
            place: 0,
        };
        assert_eq!(answer, too_long);
    }
}

/// Element contents and context data have an octet at least: wherever an empty one stands, the outcome
/// is at its length.
#[test]
fn contents_are_never_empty() {
    let [lm, sam, srm] = kinds();
    let refused = |number, place: usize| Answer::from(Refusal::new(number, place));
    // A routing advertisement: lifetime, prefix and its length, gateway and DNS, 51 octets.
    let routing = [&[0x31, 0x00][..], &[0; 51], &[0x01, 0x11, 0x00]].concat();
    let routing_list = [&[3, 0, 0, 0, 1, 0, 0, 0][..], &[0; 49], &[1, 17, 0]].concat();
    // The message, the octet that is the length, the list up to the length.
    for (kind, message, octet, list) in [
        (
            &lm,
            &[0x0B, 0x01, 0x04, 0x00, 0x00, 0x00, 0x00][..],
            3,
            &[0, 1, 3, 1, 4, 0][..],
        ),
        (
            &lm,
            &[0x03, 0x03, 0, 80, 0, 80, 0x01, 0x53, 0x00, 0x00],
            8,
            &[0, 0, 3, 1, 1, 80, 80, 1, 83, 0],
        ),
        (
            &sam,
            &[0x38, 0x00, 0x01, 0x11, 0x00],
            4,
            &[3, 1, 0, 0, 0, 0, 0, 1, 17, 0],
        ),
        (
            &sam,
            &[0x34, 0x00, 0x01, 0x20, 0x09, 0x01, 0x55, 0x00],
            7,
            &[3, 0, 1, 0, 0, 0, 0, 1, 32, 1, 0, 0, 1, 1, 85, 0],
        ),
        (
            &sam,
            &[
                0x32, 0x00, 0x01, 0x11, 0xB2, 0x94, 0x0C, 0x01, 0x01, 0x11, 0x00,
            ],
            10,
            &[
                3, 0, 0, 1, 0, 0, 0, 1, 17, 178, 20, 0, 12, 0, 0, 0, 0, 0, 0, 0, 1, 1, 17, 0,
            ],
        ),
        (&sam, &routing, 55, &routing_list),
        (
            &srm,
            &[0x38, 0x01, 0x04, 0x00],
            3,
            &[3, 1, 0, 0, 0, 1, 4, 0],
        ),
        // Context data.
        (
            &srm,
            &[0x32, 0x01, 0x00, 0x01, 0x00, 0xC0, 0x01],
            4,
            &[3, 0, 0, 1, 0, 1, 0, 1, 0],
        ),
    ] {
        let place = 8 * octet;
        let index = list.len() - 1;
        for room in [index, index + 1, 100] {
            let (answer, _) = kind.read(message, room);
            assert_eq!(answer, refused(Refusal::OUTSIDE_LIMITS, place));
        }
        let before = &message[..octet];
        for (length, number) in [
            (&[][..], Refusal::MESSAGE_ENDS),
            (&[0x00], Refusal::OUTSIDE_LIMITS),
            (&[0x80], Refusal::MESSAGE_ENDS),
            (&[0x80, 0x00], Refusal::BAD_LENGTH),
            (&[0x80, 0x7F], Refusal::BAD_LENGTH),
            (&[0xC0], Refusal::BAD_LENGTH),
        ] {
            let (answer, _) = kind.read(&[before, length].concat(), 100);
            assert_eq!(answer, refused(number, place), "{length:02X?}");
        }
        let (answer, _) = kind.read(message, index - 1);
        assert!(
            matches!(answer, Answer::Refused { number, .. } if number == Refusal::NO_ROOM),
            "{answer:?}"
        );

        for size in [octet, octet + 1, 100] {
            for length in [0, -1, 16_384, i64::MIN, i64::MAX] {
                let list = [&list[..index], &[length]].concat();
                let (answer, _) = kind.write(&list, size);
                assert_eq!(answer, refused(Refusal::WRONG_VALUE, index), "{length}");
            }
        }
    }
}

#[test]
fn drawn_messages_agree() {
    for kind in kinds() {
        let root = reference::root_of(&kind.table).expect("a root");
        let mut accepted = 0;
        for number in 0..DRAWS {
            let random = &mut Random::for_case(7, number);
            let budget = some_budget(random);
            let mut drawn = allowed_list(random, &kind.table, root, budget);
            if kind.name == Name::Lm && !random.one_in(16) {
                drawn.items[2] = Item::number(0, 7, 3); // the version
            }
            let message = some_message(random, &kind.table, &drawn);
            let room = some_room(random, drawn.items.len());
            let (answer, _) = kind.read(&message, room);
            accepted += u64::from(matches!(answer, Answer::Accepted { .. }));
            let list = if random.one_in(2) {
                drawn.values()
            } else {
                wrong_list(random, &kind.table, &drawn)
            };
            let size = some_output(random, drawn.bits().div_ceil(8).max(1));
            kind.write(&list, size);
        }
        println!(
            "{:?}: {accepted} of {DRAWS} messages are accepted",
            kind.name
        );
    }
}
