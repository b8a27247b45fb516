//! The LM readers without a table, against the reference: the answer and the whole value slice.

use std::collections::BTreeSet;
use std::time::Instant;

use teyolxan_host::archive::{Archive, Plain, Values, ARCHIVE};
use teyolxan_host::case::Case;
use teyolxan_host::codec::{read_as_numbers, value_octets, Answer, Call, Codec, Refusal};
use teyolxan_host::compare::{compare, Stats};
use teyolxan_host::guarded::Guarded;
use teyolxan_host::mutants::{self, Fault};
use teyolxan_host::outside;
use teyolxan_host::random::{large_lm, lm_list, lm_message, Random};
use teyolxan_host::reference::{self, straight, REFERENCE};
use teyolxan_host::settings;
use teyolxan_host::vectors::{parse, run, Vector, FILES};

/// Cases compared by drawing, more where the build is optimised; and those within which a planted fault
/// has to be found.
const CASES: u64 = if cfg!(debug_assertions) {
    200_000
} else {
    1_000_000
};
const CASES_TO_FIND: u64 = 20_000;
/// LMs drawn for trials with every room, and long ones.
const DRAWS: u64 = 2_000;
const LONG_DRAWS: u64 = 20;
/// Up to so many values every room is tried, and every bit is turned.
const EVERY_ROOM: usize = 300;
const EVERY_BIT: usize = 40;
/// What a value slice and the octets beside it hold before a reading.
const BEFORE: u8 = 0xA5;

/// The readers under test: by hand in Rust, and the libraries' with each form of values.
const READERS: [&dyn Codec; 3] = [&Straight, &OCTETS, &NUMBERS];
const OCTETS: Plain = Plain(Values::Octets, &ARCHIVE);
const NUMBERS: Plain = Plain(Values::Numbers, &ARCHIVE);

struct Straight;

impl Codec for Straight {
    fn name(&self) -> String {
        "straight".to_string()
    }

    fn offers(&self, call: Call) -> bool {
        call == Call::ReadLm
    }

    fn read_lm(&self, message: &[u8], values: &mut [u8]) -> Answer {
        read_as_numbers(values, |list| straight::read_lm_into(message, list))
    }
}

/// The stored vectors, those of outside tools too.
fn stored() -> Vec<Vector> {
    let mut vectors = Vec::new();
    for text in FILES {
        vectors.extend(parse(text).expect("the file is well formed"));
    }
    let outside = outside::parse(include_str!("../vectors/outside.txt"));
    vectors.extend(outside.expect("the file is well formed").vectors());
    vectors
}

/// Reads with each reader as the reference does, into a slice of so many octets.
fn read(message: &[u8], size: usize) -> Answer {
    let (expected, list) = reference::read_lm(message, size / 8);
    let mut slice = vec![BEFORE];
    slice.extend(value_octets(&list));
    slice.resize(1 + size, 0);
    slice.push(BEFORE);
    for reader in READERS {
        let mut values = vec![BEFORE; size + 2];
        let answer = reader.read_lm(message, &mut values[1..=size]);
        assert!(
            answer == expected && values == slice,
            "{}: {message:02X?} into {size} octets: {answer:?} beside {expected:?}, or other octets",
            reader.name()
        );
    }
    expected
}

/// Reads with rooms from none to beyond the need; of many, the first and those at the need. Behind a room
/// stand 0 to 7 octets.
fn read_in_any_room(message: &[u8]) {
    // A value takes a bit at least, so that there is room, and a refusal's place is enough too.
    let need = match read(message, 64 * message.len()) {
        Answer::Accepted { values, .. } => values as usize,
        Answer::Refused { place, .. } => place as usize,
    };
    for room in (0..need + 3).filter(|room| *room < EVERY_ROOM || room + 3 > need) {
        read(message, 8 * room + room % 8);
    }
}

/// The message cut after each octet, with each bit turned, and with an octet behind it.
fn damaged(message: &[u8]) -> Vec<Vec<u8>> {
    let cut = (0..message.len()).map(|size| message[..size].to_vec());
    let turned = (0..8 * message.len()).map(|bit| {
        let mut message = message.to_vec();
        message[bit / 8] ^= 0x80 >> (bit % 8);
        message
    });
    let longer = [0, 0xFF].map(|octet| [message, &[octet]].concat());
    cut.chain(turned).chain(longer).collect()
}

/// Runs the stored readings of LMs, all of which have to have their outcome.
fn passes(reader: &dyn Codec, vectors: &[Vector]) {
    let report = run(reader, vectors);
    let differences = report.differences.join("\n");
    assert!(report.differences.is_empty(), "{differences}");
    assert_eq!(report.total(), 1_776, "{}", reader.name());
}

#[test]
fn stored_vectors_pass() {
    let vectors = stored();
    for reader in READERS {
        passes(reader, &vectors);
    }
}

#[test]
fn slices_stand_anywhere_and_nothing_beside_them_is_touched() {
    let vectors = stored();
    let archive = Archive(Guarded::new());
    for form in [Values::Octets, Values::Numbers] {
        for _ in 0..8 {
            passes(&Plain(form, &archive), &vectors);
        }
    }
}

/// Whatever the message was stored for.
#[test]
fn stored_messages_are_read_alike() {
    let messages = stored().into_iter().filter_map(|vector| match vector.case {
        Case::Read { message, .. } | Case::UserData { message } | Case::Take { message, .. } => {
            Some(message)
        }
        _ => None,
    });
    for message in messages.collect::<BTreeSet<_>>() {
        read_in_any_room(&message);
    }
}

#[test]
fn drawn_messages_are_read_alike() {
    for number in 0..DRAWS + LONG_DRAWS {
        let random = &mut Random::for_case(8, number);
        let drawn = if number < DRAWS {
            lm_list(random)
        } else {
            large_lm(random)
        };
        read_in_any_room(&lm_message(random, &drawn));
        let count = drawn.items.len();
        if count <= EVERY_BIT {
            for message in damaged(&drawn.message()) {
                read(&message, 8 * count + random.index(24));
            }
        }
    }
}

/// Compares two codecs on drawn LMs. TEYOLXAN_SEED and TEYOLXAN_CASES repeat or extend a comparison;
/// without them every run draws other cases.
fn agree(left: &dyn Codec, right: &dyn Codec) -> Stats {
    let seed = settings::seed("TEYOLXAN_SEED");
    let cases = settings::number("TEYOLXAN_CASES").unwrap_or(CASES);
    let who = format!("{} and {}", left.name(), right.name());
    println!("{who}: TEYOLXAN_SEED={seed} TEYOLXAN_CASES={cases}");
    let start = Instant::now();
    let stats = compare(left, right, seed, cases).unwrap_or_else(|report| panic!("{report}"));
    println!("{stats}\n{:.1} s", start.elapsed().as_secs_f64());
    assert_eq!(stats.calls[Call::ReadLm as usize], cases);
    stats
}

#[test]
fn drawn_cases_agree() {
    for reader in READERS {
        let stats = agree(&REFERENCE, reader);
        if stats.cases < 100_000 {
            continue;
        }
        let accepted = stats.accepted;
        assert!(accepted * 4 > stats.cases, "{accepted} accepted");
        // An LM has no number that its bits could be above, and nothing here is lent, loaded, written or
        // forwarded.
        for (number, count) in stats.refusals() {
            let by_others = [Refusal::ABOVE_SPAN, Refusal::WRONG_VALUE, Refusal::NO_TABLE];
            let never = Refusal::is_of_table(number)
                || Refusal::is_of_forwarding(number)
                || by_others.contains(&number);
            assert_ne!(count > 0, never, "refusal {number}");
        }
    }
}

/// Straight from one reader of the libraries to the other, with no reference between them.
#[test]
fn plain_is_as_the_engine_by_name() {
    agree(&ARCHIVE, &OCTETS);
}

/// A quarter of the value slices has octets behind the last whole eight.
#[test]
fn values_as_numbers_are_those_as_octets() {
    agree(&OCTETS, &NUMBERS);
}

/// The same comparison finds the faults that show where an LM is read by name.
#[test]
fn planted_faults_are_found() {
    let shown = [
        Fault::IndexWidth,
        Fault::ShortInLongForm,
        Fault::SecondOctetPlace,
        Fault::OpenEmptyRead,
        Fault::LeastBeforeForm,
        Fault::RoomBeforeLimits,
        Fault::PresenceBesideField,
        Fault::ValuesKept,
        Fault::TailKept,
        Fault::MessageOneLonger,
        Fault::SubtypeFirst,
        Fault::EmptyContents,
    ];
    for reader in READERS {
        let found: Vec<Fault> = mutants::all()
            .into_iter()
            .filter(|(_, mutant)| compare(reader, mutant.as_ref(), 10, CASES_TO_FIND).is_err())
            .map(|(fault, _)| fault)
            .collect();
        assert_eq!(found, shown, "{}", reader.name());
    }
}
