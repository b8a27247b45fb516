//! The static libraries against the case files and against the reference codec.

use std::thread;
use std::time::Instant;

use teyolxan_host::api;
use teyolxan_host::archive::{Archive, ARCHIVE, CALLS};
use teyolxan_host::case::Case;
use teyolxan_host::codec::{Answer, Bits, Codec, Refusal};
use teyolxan_host::compare::{compare, compare_one, Stats};
use teyolxan_host::guarded::Guarded;
use teyolxan_host::reference::REFERENCE;
use teyolxan_host::settings;
use teyolxan_host::vectors::{
    parse, run, Vector, BASE, EDGES, FILES, FORWARD, LOADED, STAGE01, STAGE02,
};

/// Cases for the libraries against the reference; more where the build is optimised.
const CASES: u64 = if cfg!(debug_assertions) {
    200_000
} else {
    1_000_000
};

fn vectors(text: &str) -> Vec<Vector> {
    parse(text).expect("the file is well formed")
}

/// Runs the cases whose call is offered; all have to have their outcome. Gives the counts of cases
/// for each of `CALLS`.
fn passes(codec: &dyn Codec, vectors: &[Vector]) -> [usize; CALLS.len()] {
    let report = run(codec, vectors);
    assert!(
        report.differences.is_empty(),
        "{} of {} cases differ:\n{}",
        report.differences.len(),
        report.total(),
        report.differences.join("\n"),
    );
    CALLS.map(|call| report.run.get(&call).copied().unwrap_or(0))
}

#[test]
fn base() {
    assert_eq!(
        passes(&ARCHIVE, &vectors(BASE)),
        [458, 1_055, 986, 477, 257, 456, 420, 80, 0, 0, 0]
    );
}

#[test]
fn edges() {
    assert_eq!(
        passes(&ARCHIVE, &vectors(EDGES)),
        [224, 140, 92, 34, 18, 3, 9, 2, 5, 89, 132]
    );
}

#[test]
fn stage01() {
    assert_eq!(
        passes(&ARCHIVE, &vectors(STAGE01)),
        [611, 157, 73, 35, 11, 0, 7, 11, 0, 0, 0]
    );
}

#[test]
fn stage02() {
    assert_eq!(
        passes(&ARCHIVE, &vectors(STAGE02)),
        [305, 520, 286, 188, 112, 0, 102, 6, 0, 0, 0]
    );
}

#[test]
fn loaded() {
    assert_eq!(
        passes(&ARCHIVE, &vectors(LOADED)),
        [0, 0, 0, 0, 0, 0, 0, 0, 66, 377, 0]
    );
}

#[test]
fn forward() {
    assert_eq!(
        passes(&ARCHIVE, &vectors(FORWARD)),
        [0, 0, 0, 0, 0, 0, 0, 0, 0, 0, 441]
    );
}

/// TEYOLXAN_SEED and TEYOLXAN_CASES repeat or extend a comparison; without them every run draws
/// other cases.
#[test]
fn the_libraries_equal_the_reference() {
    let seed = settings::seed("TEYOLXAN_SEED");
    let cases = settings::number("TEYOLXAN_CASES").unwrap_or(CASES);
    println!("TEYOLXAN_SEED={seed} TEYOLXAN_CASES={cases}");
    let start = Instant::now();
    let stats =
        compare(&REFERENCE, &ARCHIVE, seed, cases).unwrap_or_else(|report| panic!("{report}"));
    let seconds = start.elapsed().as_secs_f64();
    println!("{stats}");
    println!(
        "{cases} cases in {seconds:.1} s, {:.0} cases a second",
        cases as f64 / seconds
    );
    assert_eq!(stats.cases, cases);
    if cases < 100_000 {
        return;
    }
    for call in CALLS {
        assert!(stats.calls[call as usize] > 0, "{call:?} is not drawn");
    }
    stats.assert_refusals_are_met();
}

/// Behind a variable number, every row of these numbers, each of them right for some kind or nearly,
/// and every beginning of it.
#[test]
fn rows_of_any_numbers_are_told_alike() {
    const NUMBERS: [&[u16]; 5] = [
        &[0, 3, 4, 5, 6, 8, 10, 12, 14, 0xFFFF], // a length
        &[0, 1, 2, 3, 4, 5, 6, 7, 8, 9, 261],    // a kind
        &[0, 1, 2, 3, 33, 1_025, 16_384, 16_385, 0x8002, 0xFFFF],
        &[0, 1, 2, 4, 0xFFFF],
        &[0, 1, 2, 4, 0xFFFF],
    ];
    let mut stats = Stats::default();
    for row in 0..NUMBERS.iter().map(|list| list.len()).product() {
        let mut rest: usize = row;
        let [length, kind, count, left, right] = NUMBERS.map(|list| {
            let number = list[rest % list.len()];
            rest /= list.len();
            number
        });
        let numbers = [4, 2, length, kind, count, left, right, right, left];
        let octets = numbers.map(u16::to_le_bytes).concat();
        for size in 4..=octets.len() {
            let table = octets[..size].to_vec();
            compare_one(&REFERENCE, &ARCHIVE, &Case::Check { table }, &mut stats)
                .unwrap_or_else(|report| panic!("{report}"));
        }
    }
    println!("{stats}");
    for number in Refusal::ROW_PAST_END..=Refusal::ONLY_RESERVED {
        assert!(stats.refused_by(number) > 0, "refusal {number} is not met");
    }
}

#[test]
fn slices_stand_anywhere_and_nothing_beside_them_is_touched() {
    let vectors = vectors(&FILES.concat());
    let archive = Archive(Guarded::new());
    for _ in 0..8 {
        passes(&archive, &vectors);
    }
}

#[test]
fn calls_of_several_threads_do_not_meet() {
    thread::scope(|scope| {
        for seed in 0..4 {
            scope.spawn(move || {
                compare(&REFERENCE, &ARCHIVE, seed, 20_000)
                    .unwrap_or_else(|report| panic!("{report}"))
            });
        }
    });
}

#[test]
fn lists_are_lent_in_place() {
    // A number -128 to 127, document 01's P8.
    let table = [
        0x0C, 0, 1, 0, 0x80, 0xFF, 0xFF, 0xFF, 0xFF, 0, 0, 0, // number
    ];
    assert_eq!(api::check(&table), Answer::PASSED);
    for (octet, value) in [(0x00, -128), (0x80, 0), (0xFF, 127)] {
        let mut values = [i64::MAX; 3];
        let read = Answer::Accepted {
            values: 1,
            bits: 8,
            octets: 0,
        };
        assert_eq!(api::read(&table, &[octet], &mut values), read);
        assert_eq!(values, [value, 0, 0]);

        let mut output = [0xAA; 3];
        let written = Answer::Accepted {
            values: 0,
            bits: 0,
            octets: 1,
        };
        assert_eq!(api::write(&table, &values[..1], &mut output), written);
        assert_eq!(output, [octet, 0, 0]);
    }
    let mut values = [i64::MAX; 3];
    let refused = Answer::Refused {
        number: Refusal::NOT_PADDING,
        place: 8,
    };
    assert_eq!(api::read(&table, &[0, 0], &mut values), refused);
    assert_eq!(values, [0; 3]);
}

/// Every width at every place, to the end of the message and past it: by whole octets, bit by bit, and
/// as the bits are defined.
#[test]
fn bits_by_octets_are_the_bits_one_by_one() {
    let octets: Vec<u8> = (0..11).map(|at| at * 167 + 91).collect();
    for size in 0..=octets.len() {
        let message = &octets[..size];
        for (place, k) in (0..=8 * size + 9).flat_map(|place| (1..=32).map(move |k| (place, k))) {
            let bits = place..place + k as usize;
            let expected = if bits.end <= 8 * size {
                let bit = |at: usize| u64::from(message[at / 8] >> (7 - at % 8) & 1);
                Ok(Bits {
                    number: bits.clone().fold(0, |number, at| 2 * number + bit(at)),
                    place: bits.end as u64,
                })
            } else {
                Err(Refusal::new(Refusal::MESSAGE_ENDS, place))
            };
            let given = ARCHIVE.take_at(message, place, k);
            assert_eq!(given, expected, "{k} bits at {place} of {message:02X?}");
            assert_eq!(ARCHIVE.take_bitwise_at(message, place, k), expected);
        }
    }
}

/// Of no bits none is missing, wherever the place is; of one, one is.
#[test]
fn bits_are_taken_beyond_the_end_where_there_are_none() {
    let message = [0x03, 0x00, 0x20, 0x02, 0x48, 0x69];
    for place in [48, 49, 1 << 20, usize::MAX] {
        let none = Bits {
            number: 0,
            place: place as u64,
        };
        assert_eq!(ARCHIVE.take_at(&message, place, 0), Ok(none));
        let short = Refusal::new(Refusal::MESSAGE_ENDS, place);
        assert_eq!(ARCHIVE.take_at(&message, place, 1), Err(short));
        let wide = Refusal::new(Refusal::OUTSIDE_LIMITS, place);
        assert_eq!(ARCHIVE.take_at(&message, place, 33), Err(wide));
    }
}

/// A number -128 to 127 under a lent table: -1 is eight octets FF, and they are written as -1 again,
/// whatever fewer than eight octets follow them.
#[test]
fn minus_one_is_eight_octets_ff() {
    let table = [12, 0, 1, 0, 0x80, 0xff, 0xff, 0xff, 0xff, 0, 0, 0];
    for more in 0..8 {
        let mut values = vec![0x55; 8 + more];
        let answer = api::read_octets(&table, &[0x7f], &mut values);
        assert!(matches!(answer, Answer::Accepted { values: 1, .. }));
        assert_eq!(values[..8], [0xff; 8]);
        assert!(values[8..].iter().all(|octet| *octet == 0));
        values[8..].fill(0xaa);
        let mut output = [0x55; 2];
        let answer = api::write_octets(&table, &values, &mut output);
        assert!(matches!(answer, Answer::Accepted { octets: 1, .. }));
        assert_eq!(output, [0x7f, 0]);
    }
}
