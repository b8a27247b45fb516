//! What the tools are asked: tables of every row kind, and lists that they allow. All is drawn from
//! fixed seeds.

use std::collections::BTreeSet;
use std::ops::Range;

use teyolxan_host::assemble::{Assembler, Offset};
use teyolxan_host::random::{allowed_list, passing_table, Random};
use teyolxan_host::reference::{number_width, root_of, VARIABLE_BASES, VARIABLE_MOST};

use crate::asn1::{Added, AddedType, AddedValue, Table, Types};
use crate::messages;

/// A table with the lists to be encoded under it.
pub struct Asked {
    /// The module with the table's types.
    pub module: &'static str,
    pub table: Table,
    pub lists: Vec<Vec<i64>>,
}

/// Tables in the making.
#[derive(Default)]
struct Asking {
    asked: Vec<Asked>,
}

/// The seed of all draws; a use of them adds its own number.
pub const SEED: u64 = 20_460;

/// Lengths at the edges of the two forms of a length, and some between.
const LENGTHS: [usize; 12] = [0, 1, 2, 126, 127, 128, 129, 130, 255, 256, 16_382, 16_383];

/// The greatest limit of a run or of octets.
const LONGEST: u16 = 16_383;

pub fn all() -> Vec<Asked> {
    let mut asking = Asking::default();
    asking.numbers();
    asking.variable_numbers();
    asking.octets();
    asking.open_octets();
    asking.additions();
    asking.runs();
    asking.records();
    asking.choices();
    asking.depths();
    asking.drawn();
    asking.asked.extend(messages::all());
    asking.asked
}

impl Asking {
    /// Adds a table that gets a number, in a module made from rows.
    fn table(
        &mut self,
        module: &'static str,
        kind: &str,
        octets: Vec<u8>,
        mut lists: Vec<Vec<i64>>,
    ) {
        let mut seen = BTreeSet::new();
        lists.retain(|list| seen.insert(list.clone()));
        let types = Types::Made(self.asked.len());
        self.ask(module, kind, octets, types, lists);
    }

    fn ask(
        &mut self,
        module: &'static str,
        kind: &str,
        octets: Vec<u8>,
        types: Types,
        lists: Vec<Vec<i64>>,
    ) {
        let name = format!("{kind}-{}", self.asked.len());
        self.asked.push(Asked {
            module,
            table: Table {
                name,
                octets,
                types,
            },
            lists,
        });
    }

    /// Every width, as wide and as narrow a span as it has and one between, from lows of all signs:
    /// both ends, their neighbours and the middle.
    fn numbers(&mut self) {
        let mut random = Random::new(SEED);
        for width in 0..=32 {
            let widest = ((1u64 << width) - 1) as u32;
            let narrowest = ((1u64 << width) >> 1) as u32;
            let between = random.within(i64::from(narrowest), i64::from(widest)) as u32;
            let around_zero = |span: u32| -((i64::from(span) + 1) / 2) as i32;
            let mut numbers = vec![
                (0, widest),
                (0, narrowest),
                (around_zero(widest), widest),
                (around_zero(narrowest) - 1, narrowest),
                (i32::MIN, widest),
                (i32::MAX, narrowest),
                (i32::MAX - 1, widest),
                (random.word() as i32, between),
            ];
            numbers.sort_unstable();
            numbers.dedup();
            for (low, span) in numbers {
                assert_eq!(number_width(span), width);
                let mut table = Assembler::new();
                table.number(low, span);
                let mut offsets = vec![0, 1, span / 2, span.saturating_sub(1), span];
                offsets.retain(|&offset| offset <= span);
                offsets.sort_unstable();
                offsets.dedup();
                let value = |offset| i64::from(low) + i64::from(offset);
                let lists = offsets.into_iter().map(|offset| vec![value(offset)]);
                self.table("Numbers", "number", table.finish(), lists.collect());
            }
        }
        // Document 01's P7 to P9.
        for (low, span, values) in [
            (0, 200, &[0, 200][..]),
            (-128, 255, &[-128, 127]),
            (5, 0, &[5]),
        ] {
            let mut table = Assembler::new();
            table.number(low, span);
            let lists = values.iter().map(|&value| vec![value]);
            self.table("Numbers", "number", table.finish(), lists.collect());
        }
        // A number of 0 to 7 bits, then one of each width from 2: each width comes at every place in
        // an octet.
        for before in 0..8 {
            let mut table = Assembler::new();
            let mut rows = Vec::new();
            let mut bounds = Vec::new();
            for width in [before].into_iter().chain(2..=32) {
                let widest = ((1u64 << width) - 1) as u32;
                let low = random.word() as i32;
                rows.push((table.number(low, widest), false));
                bounds.push((i64::from(low), i64::from(low) + i64::from(widest)));
            }
            table.record(&rows);
            let mut lists: Vec<Vec<i64>> = vec![
                bounds.iter().map(|&(low, _)| low).collect(),
                bounds.iter().map(|&(_, high)| high).collect(),
            ];
            for _ in 0..4 {
                let value = |&(low, high)| random.within(low, high);
                lists.push(bounds.iter().map(value).collect());
            }
            self.table("Numbers", "number", table.finish(), lists);
        }
    }

    /// Every form's edges, alone and after 1 to 7 bits.
    fn variable_numbers(&mut self) {
        let mut random = Random::new(SEED + 1);
        let mut values: Vec<i64> = VARIABLE_BASES
            .into_iter()
            .flat_map(|base| [base - 1, base, base + 1])
            .chain([VARIABLE_MOST - 1, VARIABLE_MOST])
            .filter(|&value| value >= 0)
            .collect();
        let ends = [128, 16_512, 2_113_664, VARIABLE_MOST + 1];
        for (low, end) in VARIABLE_BASES.into_iter().zip(ends) {
            values.extend((0..10).map(|_| random.within(low, end - 1)));
        }
        let mut table = Assembler::new();
        table.variable();
        let lists = values.iter().map(|&value| vec![value]).collect();
        self.table("Lengths", "variable", table.finish(), lists);
        for before in 1..8 {
            let mut table = Assembler::new();
            let bits = table.number(0, (1 << before) - 1);
            let variable = table.variable();
            table.record(&[(bits, false), (variable, false), (bits, false)]);
            let lists = values.iter().map(|&value| {
                let mut bits = || random.within(0, (1 << before) - 1);
                vec![bits(), value, bits()]
            });
            self.table("Lengths", "variable", table.finish(), lists.collect());
        }
    }

    fn octets(&mut self) {
        let mut random = Random::new(SEED + 2);
        self.octets_of(&mut random, "octets", Assembler::octets, 0);
    }

    fn open_octets(&mut self) {
        let mut random = Random::new(SEED + 9);
        self.octets_of(&mut random, "open", Assembler::open_octets, 1);
    }

    /// Octets of every length at an edge, alone and after 1 to 7 bits. Long ones are one octet many
    /// times, to keep the stored file small.
    fn octets_of(
        &mut self,
        random: &mut Random,
        kind: &str,
        row: fn(&mut Assembler, u16) -> Offset,
        least: usize,
    ) {
        let mut contents = |length: usize| -> Vec<i64> {
            let one = random.pick(&[0, 255]);
            let few = if length < 20 { length } else { 3 };
            let mut list = vec![length as i64];
            list.extend((few..length).map(|_| one));
            list.extend(random.octets(few).into_iter().map(i64::from));
            list
        };
        let lengths = LENGTHS.into_iter().filter(|&length| length >= least);
        let mut table = Assembler::new();
        row(&mut table, LONGEST);
        let lists = (least..20).chain(lengths.clone()).map(&mut contents);
        self.table("Lengths", kind, table.finish(), lists.collect());
        for before in 1..8 {
            let mut table = Assembler::new();
            let bits = table.number(0, (1 << before) - 1);
            let octets = row(&mut table, LONGEST);
            table.record(&[(bits, false), (octets, false), (bits, false)]);
            let lists = lengths.clone().map(|length| {
                let mut list = vec![length as i64 % (1 << before)];
                list.extend(contents(length));
                list.push((1 << before) - 1);
                list
            });
            self.table("Lengths", kind, table.finish(), lists.collect());
        }
    }

    /// Values in the open type that an extension addition is: of no bits, of a few, and of as many octets
    /// as open octets have at an edge.
    fn additions(&mut self) {
        for (places, value) in added_types() {
            for before in places {
                let most = (1 << before) - 1;
                let mut table = Assembler::new();
                let bit = table.number(0, 1);
                let fields = [
                    bit,
                    table.number(0, most),
                    table.number(0, 127), // the count of additions less one
                    bit,
                    table.open_octets(LONGEST),
                ];
                table.record(&fields.map(|field| (field, false)));
                let added = Added {
                    number: self.asked.len(),
                    most,
                    value: value.clone(),
                };
                let list = |value| added.list(i64::from(most), value);
                let lists = value.values.iter().map(list).collect();
                let types = Types::Added(added);
                self.ask("Additions", "addition", table.finish(), types, lists);
            }
        }
    }

    /// Counted runs of every length at an edge and fixed runs, of items of every kind.
    fn runs(&mut self) {
        let mut random = Random::new(SEED + 3);
        for item in &ITEMS {
            for count in [1, 2, 7, 8, 1_024] {
                let mut table = Assembler::new();
                let row = (item.row)(&mut table);
                table.fixed_run(count, row);
                let lists = (0..3).map(|_| item.many(&mut random, usize::from(count)));
                self.table("Lengths", "fixed", table.finish(), lists.collect());
            }
            let mut table = Assembler::new();
            let row = (item.row)(&mut table);
            table.counted_run(LONGEST, row);
            let lists = LENGTHS.iter().map(|&length| {
                let mut list = vec![length as i64];
                list.extend(item.many(&mut random, length));
                list
            });
            self.table("Lengths", "counted", table.finish(), lists.collect());
        }
    }

    /// Every set of optional fields among up to four, each with every presence; and 32 fields.
    fn records(&mut self) {
        let mut random = Random::new(SEED + 4);
        for count in 1..=4usize {
            for optional in 0..1u32 << count {
                let mut table = Assembler::new();
                let rows = [
                    table.number(-3, 5),
                    table.variable(),
                    table.octets(LONGEST),
                    table.number(0, 16),
                ];
                let fields: Vec<(Offset, bool)> = (0..count)
                    .map(|field| (rows[field], optional >> field & 1 == 1))
                    .collect();
                table.record(&fields);
                let mut lists = Vec::new();
                for present in (0..1 << count).filter(|present| present & !optional == 0) {
                    lists.push(record(&mut random, optional, present, count));
                }
                self.table("Records", "record", table.finish(), lists);
            }
        }
        for optional in [u32::MAX, 0xAAAA_AAAA, 0x0000_FFFF] {
            let mut table = Assembler::new();
            let rows = [
                table.number(-3, 5),
                table.variable(),
                table.octets(LONGEST),
                table.number(0, 16),
            ];
            let fields: Vec<(Offset, bool)> = (0..32)
                .map(|field| (rows[field % 4], optional >> field & 1 == 1))
                .collect();
            table.record(&fields);
            let mut sets = vec![0, u32::MAX];
            sets.extend((0..32).map(|field| 1 << field));
            sets.extend((0..20).map(|_| random.word() as u32));
            sets.iter_mut().for_each(|present| *present &= optional);
            sets.sort_unstable();
            sets.dedup();
            let lists = sets
                .into_iter()
                .map(|present| record(&mut random, optional, present, 32));
            let lists = lists.collect();
            self.table("Records", "record", table.finish(), lists);
        }
    }

    /// Every size: the first, the last and a middle branch with the others reserved; some sizes with
    /// every branch.
    fn choices(&mut self) {
        let mut random = Random::new(SEED + 5);
        for count in 2..=128usize {
            let live = vec![0, count / 2, count - 1];
            self.choice(&mut random, count, live);
        }
        for count in [2, 3, 4, 5, 8, 9, 16, 17, 33, 128] {
            self.choice(&mut random, count, (0..count).collect());
        }
    }

    fn choice(&mut self, random: &mut Random, count: usize, mut live: Vec<usize>) {
        live.dedup();
        let mut table = Assembler::new();
        let rows = [table.number(7, 0), table.number(-5, 8), table.octets(9)];
        let mut branches = vec![None; count];
        let mut lists = Vec::new();
        for index in live {
            branches[index] = Some(rows[index % 3]);
            let mut list = vec![index as i64];
            match index % 3 {
                0 => list.push(7),
                1 => list.push(random.within(-5, 3)),
                _ => list.extend([2, random.within(0, 255), random.within(0, 255)]),
            }
            lists.push(list);
        }
        table.choice(&branches);
        self.table("Choices", "choice", table.finish(), lists);
    }

    /// Rows that each hold the one before, to depth 32: of one kind, and of all in turn.
    fn depths(&mut self) {
        let mut random = Random::new(SEED + 6);
        for kind in 0..6 {
            let mut table = Assembler::new();
            let mut row = table.number(-1, 4);
            for depth in 2..=32 {
                let kind = if kind == 5 { depth % 5 } else { kind };
                row = match kind {
                    0 => table.record(&[(row, false)]),
                    1 => table.record(&[(row, true)]),
                    2 => table.fixed_run(1, row),
                    3 => table.counted_run(3, row),
                    _ => table.choice(&[None, Some(row), None]),
                };
            }
            let octets = table.finish();
            let lists = draws(&mut random, &octets, 12, 40);
            self.table("Depths", "depth", octets, lists);
        }
        // Every presence set, and every count 1: the innermost number is there.
        let mut table = Assembler::new();
        let mut row = table.number(-1, 4);
        for depth in 2..=32 {
            row = match depth % 2 {
                0 => table.record(&[(row, true)]),
                _ => table.counted_run(3, row),
            };
        }
        let lists = (-1..4).map(|number| {
            let mut list = vec![1; 31];
            list.push(number);
            list
        });
        self.table("Depths", "depth", table.finish(), lists.collect());
    }

    /// Drawn tables with drawn lists.
    fn drawn(&mut self) {
        let mut random = Random::new(SEED + 7);
        let mut left = 300;
        while left > 0 {
            let octets = passing_table(&mut random);
            let lists = draws(&mut random, &octets, 10, 24);
            if octets.len() > 600 || lists.is_empty() {
                continue;
            }
            self.table("Drawn", "drawn", octets, lists);
            left -= 1;
        }
    }
}

/// Different lists drawn under a table, at most so many.
pub fn draws(random: &mut Random, table: &[u8], count: usize, budget: usize) -> Vec<Vec<i64>> {
    let root = root_of(table).expect("a table that passes");
    let mut lists: Vec<Vec<i64>> = Vec::new();
    for _ in 0..count {
        let drawn = allowed_list(random, table, root, budget);
        let list = drawn.values();
        if drawn.whole && list.len() < 600 && !lists.contains(&list) {
            lists.push(list);
        }
    }
    lists
}

/// Types with values whose encodings are worked out by hand, each with the counts of bits that it is
/// asked after.
fn added_types() -> Vec<(Range<u32>, AddedType)> {
    let typed = |notation, values| (0..8, AddedType { notation, values });
    let value = |term: &str, xml: &str, octets: &[u8]| AddedValue {
        term: term.to_string(),
        xml: xml.to_string(),
        octets: octets.to_vec(),
    };
    // An octet string: its length, then its octets, all alike.
    let string = |length: usize| {
        let head = match length {
            0..128 => vec![length as u8],
            _ => (0x8000 | length as u16).to_be_bytes().to_vec(),
        };
        AddedValue {
            term: format!("<<{}>>", vec!["165"; length].join(",")),
            xml: "A5".repeat(length),
            octets: [head, vec![0xA5; length]].concat(),
        }
    };
    vec![
        typed("NULL", vec![value("'NULL'", "", &[0])]),
        typed("SEQUENCE { }", vec![value("{r}", "", &[0])]),
        typed("INTEGER (5..5)", vec![value("5", "5", &[0])]),
        typed(
            "BOOLEAN",
            vec![
                value("false", "<false/>", &[0]),
                value("true", "<true/>", &[0x80]),
            ],
        ),
        typed(
            "INTEGER (0..255)",
            vec![value("0", "0", &[0]), value("200", "200", &[200])],
        ),
        typed(
            "INTEGER (0..511)",
            vec![
                value("0", "0", &[0, 0]),
                value("300", "300", &[0x96, 0x00]),
                value("511", "511", &[0xFF, 0x80]),
            ],
        ),
        typed(
            "SEQUENCE { a INTEGER (0..7), b BOOLEAN OPTIONAL }",
            vec![
                value("{r,5,asn1_NOVALUE}", "<a>5</a>", &[0x50]),
                value("{r,5,true}", "<a>5</a><b><true/></b>", &[0xD8]),
            ],
        ),
        typed("OCTET STRING", vec![string(0), string(1), string(7)]),
        (
            0..1,
            AddedType {
                notation: "OCTET STRING",
                values: [125, 126, 127, 128, 252, 253, 254, 16_380, 16_381]
                    .map(string)
                    .to_vec(),
            },
        ),
    ]
}

/// An item for runs.
struct Item {
    /// Adds its row, and those that it needs.
    row: fn(&mut Assembler) -> Offset,
    /// A list for it whose bits are all alike, so that many of them make a short line.
    plain: &'static [i64],
}

const ITEMS: [Item; 10] = [
    Item {
        row: |table| table.number(5, 0),
        plain: &[5],
    },
    Item {
        row: |table| table.number(0, 1),
        plain: &[1],
    },
    Item {
        row: |table| table.number(-3, 5),
        plain: &[-3],
    },
    Item {
        row: |table| table.number(0, 255),
        plain: &[255],
    },
    Item {
        row: |table| table.variable(),
        plain: &[0],
    },
    Item {
        row: |table| table.octets(LONGEST),
        plain: &[0],
    },
    Item {
        row: |table| table.open_octets(LONGEST),
        plain: &[1, 1],
    },
    Item {
        row: |table| {
            let (flag, few) = (table.number(0, 1), table.number(0, 6));
            table.record(&[(few, false), (flag, true)])
        },
        plain: &[0, 0],
    },
    Item {
        row: |table| {
            let (few, octets) = (table.number(0, 2), table.octets(LONGEST));
            table.choice(&[Some(few), None, Some(octets)])
        },
        plain: &[0, 0],
    },
    Item {
        row: |table| {
            let few = table.number(0, 6);
            table.fixed_run(3, few)
        },
        plain: &[0, 0, 0],
    },
];

impl Item {
    /// The values of so many of it: plain ones, and the last few drawn.
    fn many(&self, random: &mut Random, count: usize) -> Vec<i64> {
        let mut alone = Assembler::new();
        (self.row)(&mut alone);
        let alone = alone.finish();
        let root = root_of(&alone).expect("a table that passes");
        let drawn = count.min(8);
        let mut list = self.plain.repeat(count - drawn);
        for _ in 0..drawn {
            list.extend(allowed_list(random, &alone, root, 4).values());
        }
        list
    }
}

/// A list for a record whose fields are, in turn, a number, a variable number, octets and a number.
fn record(random: &mut Random, optional: u32, present: u32, count: usize) -> Vec<i64> {
    let among = |set: u32, field: usize| set >> field & 1 == 1;
    let mut list: Vec<i64> = (0..count)
        .filter(|&field| among(optional, field))
        .map(|field| i64::from(among(present, field)))
        .collect();
    for field in (0..count).filter(|&field| !among(optional, field) || among(present, field)) {
        match field % 4 {
            0 => list.push(random.within(-3, 2)),
            1 => list.push(random.within(0, 40_000)),
            2 => list.extend([1, random.within(0, 255)]),
            _ => list.push(random.within(0, 16)),
        }
    }
    list
}
