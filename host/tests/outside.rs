//! The libraries and the reference against octets that UPER tools of others gave
//! (outside/README.md). They confirm what is accepted, never a refusal.

use std::collections::BTreeMap;

use teyolxan_host::archive::ARCHIVE;
use teyolxan_host::builtin;
use teyolxan_host::by_name::{self, Name};
use teyolxan_host::codec::{value_octets, values_of, Answer, Codec, Part};
use teyolxan_host::mutants::{self, Fault};
use teyolxan_host::outside::{parse, Pair, Stored, Who};
use teyolxan_host::reference::REFERENCE;
use teyolxan_host::vectors::{octets, run, values};

/// The pairs of an LM whose version is 3, so that the calls by name take them.
const LMS: usize = 521;

/// Reading and writing each pair, in slices of two sizes; an LM by name as well.
const CALLS: usize = 4 * (6_612 + LMS);

fn stored() -> Stored {
    parse(include_str!("../vectors/outside.txt")).expect("the file is well formed")
}

/// The pairs by the kind of their table, which its name starts with.
fn counts(stored: &Stored) -> BTreeMap<&str, usize> {
    let mut counts = BTreeMap::new();
    for (_, pair) in &stored.pairs {
        let kind = pair.table.split('-').next().unwrap_or("");
        *counts.entry(kind).or_default() += 1;
    }
    counts
}

/// Every pair of this table.
fn pairs<'a>(stored: &'a Stored, table: &'a str) -> impl Iterator<Item = &'a Pair> {
    let pairs = stored.pairs.iter().map(|(_, pair)| pair);
    pairs.filter(move |pair| pair.table == table)
}

#[test]
fn every_kind_has_its_pairs() {
    let stored = stored();
    let counts: Vec<(&str, usize)> = counts(&stored).into_iter().collect();
    assert_eq!(
        counts,
        [
            ("LM", 529),
            ("SAM", 297),
            ("SRM", 189),
            ("addition", 129),
            ("choice", 605),
            ("counted", 120),
            ("depth", 37),
            ("drawn", 2_378),
            ("fixed", 136),
            ("number", 1_296),
            ("octets", 115),
            ("open", 107),
            ("record", 250),
            ("variable", 424),
        ]
    );
    assert_eq!(stored.pairs.len(), 6_612);
    for (line, pair) in &stored.pairs {
        assert_eq!(pair.who, Who::Both, "line {line}");
        let octets = pair.bits.div_ceil(8).max(1);
        assert_eq!(pair.octets.len() as u64, octets, "line {line}");
    }
}

#[test]
fn pairs_are_read_and_written() {
    let stored = stored();
    let vectors = stored.vectors();
    let codecs: [&dyn Codec; 2] = [&ARCHIVE, &REFERENCE];
    for codec in codecs {
        for (name, table) in &stored.tables {
            assert_eq!(codec.check(table), Answer::PASSED, "{name}");
        }
        let report = run(codec, &vectors);
        assert!(
            report.differences.is_empty(),
            "{} of {} calls differ:\n{}",
            report.differences.len(),
            report.total(),
            report.differences.join("\n"),
        );
        assert_eq!((report.total(), report.skipped), (CALLS, 0));
    }
}

#[test]
fn messages_by_name() {
    let stored = stored();
    for (name, table, octets) in [
        (Name::Lm, "LM", builtin::lm()),
        (Name::Sam, "SAM", builtin::sam()),
        (Name::Srm, "SRM", builtin::srm()),
    ] {
        assert_eq!(stored.tables[table], octets);
        for pair in pairs(&stored, table) {
            if name == Name::Lm && !pair.is_lm() {
                continue;
            }
            let list = values_of(&pair.values);
            let mut values = vec![-1; list.len()];
            let has_read = Answer::Accepted {
                values: list.len() as u64,
                bits: pair.bits,
                octets: 0,
            };
            assert_eq!(by_name::read(name, &pair.octets, &mut values), has_read);
            assert_eq!(values, list);
            let mut output = vec![0xFF; pair.octets.len()];
            let has_written = Answer::Accepted {
                values: 0,
                bits: 0,
                octets: pair.octets.len() as u64,
            };
            assert_eq!(by_name::write(name, &list, &mut output), has_written);
            assert_eq!(output, pair.octets);
        }
    }
}

#[test]
fn user_data_ends_the_message_and_the_list() {
    let stored = stored();
    let mut count = 0;
    for pair in pairs(&stored, "LM").filter(|pair| pair.is_lm()) {
        let Ok(Part { start, length }) = ARCHIVE.user_data(&pair.octets) else {
            panic!("{pair:?}");
        };
        assert_eq!(
            REFERENCE.user_data(&pair.octets),
            Ok(Part { start, length })
        );
        let part: Vec<i64> = pair.octets[start as usize..]
            .iter()
            .map(|&octet| i64::from(octet))
            .collect();
        let list = values_of(&pair.values);
        let (before, data) = list.split_at(list.len() - length as usize);
        assert_eq!((data, before.last()), (&part[..], Some(&(length as i64))));
        count += 1;
    }
    assert_eq!(count, LMS);
}

/// The tools give the octets of document 01's marked messages, P1 to P9.
#[test]
fn marked_messages_are_the_tools() {
    let stored = stored();
    let counted = "0c000100050000000000000008000400ff3f0000";
    for (table, list, message) in [
        ("LM", "0,0,3,0,0,32,2,72,105", "030020024869"),
        ("LM", "2,0,3,1,3,1,0,1,2,0", "23000007020001000200"),
        ("LM", "0,1,3,1,15,1,172,0,0,0,0", "0b010f01ac000000"),
        ("04000200", "127", "7f"),
        ("04000200", "128", "8000"),
        ("04000200", "16511", "bfff"),
        ("04000200", "16512", "c00000"),
        ("04000200", "2113663", "dfffff"),
        ("04000200", "2113664", "e0000000"),
        ("04000200", "270549119", "efffffff"),
        (counted, "127,5*127", "7f"),
        (counted, "128,5*128", "8080"),
        (counted, "16383,5*16383", "bfff"),
        ("0c00010000000000c8000000", "200", "c8"),
        ("0c00010080ffffffff000000", "-128", "00"),
        ("0c00010080ffffffff000000", "127", "ff"),
        ("0c0001000500000000000000", "5", "00"),
    ] {
        let table = match table {
            "LM" => builtin::lm(),
            cell => octets(cell).expect("a table"),
        };
        let list = value_octets(&values(list).expect("a list"));
        let told = stored
            .pairs
            .iter()
            .find(|(_, pair)| pair.values == list && stored.tables[&pair.table] == table);
        let (_, pair) = told.expect("a pair");
        assert_eq!(pair.octets, octets(message).expect("a message"));
    }
}

/// A wrong width, order or count on the way of an accepted message shows in these pairs alone.
#[test]
fn planted_faults_are_found() {
    let vectors = stored().vectors();
    let faults = [
        Fault::NumberWidth,
        Fault::IndexWidth,
        Fault::PresenceBesideField,
        Fault::EmptyRootUncounted,
    ];
    for (fault, mutant) in mutants::all() {
        if faults.contains(&fault) {
            let differences = run(mutant.as_ref(), &vectors).differences;
            assert!(!differences.is_empty(), "not found: {fault:?}");
        }
    }
}
