//! Tables with rows that break a rule in one part, or in two, by each number that the check tells.

use super::tables::Rows;
use super::Random;
use crate::assemble::{kind, Offset, RESERVED};
use crate::codec::Refusal;

/// Rows that break a rule, behind rows that don't and between them.
pub fn table_with_broken_rows(random: &mut Random) -> Vec<u8> {
    let mut rows = Rows::new();
    for _ in 0..random.below(5) {
        rows.add(random, 32);
    }
    let deep = random.one_in(4).then(|| rows.chain(random, 32));
    add_broken(random, &mut rows, deep);
    while random.one_in(2) {
        if random.one_in(2) {
            rows.add(random, 32);
        } else {
            add_broken(random, &mut rows, deep);
        }
    }
    rows.table.finish()
}

/// The parts of a row in the order in which they are spoilt: what is spoilt later leaves the others
/// mostly as they are. A wrong reference is a branch, where all were reserved; another length may come
/// with another m.
const PARTS: [u32; 6] = [
    Refusal::WRONG_ROW_NUMBER,
    Refusal::ONLY_RESERVED,
    Refusal::WRONG_REFERENCE,
    Refusal::WRONG_ROW_LENGTH,
    Refusal::UNKNOWN_KIND,
    Refusal::ROW_PAST_END,
];

/// Adds a row with one wrong part, or two. With a row of depth 32 to refer to, it is too deep too, or
/// that alone; one that refers to no row is then right.
fn add_broken(random: &mut Random, rows: &mut Rows, deep: Option<Offset>) {
    let first = random.pick(&PARTS);
    let kind = match first {
        Refusal::WRONG_ROW_NUMBER => random.pick(&[
            kind::FIXED_RUN,
            kind::COUNTED_RUN,
            kind::RECORD,
            kind::RECORD,
            kind::CHOICE,
            kind::OCTETS,
            kind::OPEN_OCTETS,
        ]),
        Refusal::ONLY_RESERVED => kind::CHOICE,
        Refusal::WRONG_REFERENCE => random.pick(&[
            kind::FIXED_RUN,
            kind::COUNTED_RUN,
            kind::RECORD,
            kind::CHOICE,
        ]),
        _ => random.within(kind::NUMBER.into(), kind::OPEN_OCTETS.into()) as u16,
    };
    let second = random.one_in(2).then(|| random.pick(&PARTS));
    let mut row = Row::right(random, rows, kind);
    if let (Some(deep), Some(at)) = (deep, row.some_reference(random)) {
        row.numbers[at] = deep;
    }
    // A row that refers to a row of depth 32 is wrong by itself.
    let only_deep = deep.is_some() && random.one_in(2);
    for part in PARTS {
        if !only_deep && (part == first || Some(part) == second) {
            row.spoil(random, part);
        }
    }
    rows.table.raw(&row.octets());
}

/// A row in the making.
struct Row {
    /// Its offset.
    at: usize,
    /// Its length, its kind, and what follows them.
    numbers: Vec<u16>,
    /// How many of its octets there are.
    size: usize,
}

impl Row {
    /// A row of this kind that breaks no rule, if there are rows that it can refer to; now and then all
    /// branches of a choice are reserved.
    fn right(random: &mut Random, rows: &Rows, kind: u16) -> Row {
        let mut numbers = vec![0, kind];
        let reference = |random: &mut Random| rows.any_earlier(random).unwrap_or(0);
        match kind {
            kind::NUMBER => numbers.extend([0, 0, 255, 0]),
            kind::VARIABLE => (),
            kind::FIXED_RUN | kind::COUNTED_RUN => numbers.extend([2, reference(random)]),
            kind::RECORD => {
                let m = 1 + random.index(4);
                numbers.push(m as u16);
                for _ in 0..m {
                    numbers.extend([reference(random), random.below(2) as u16]);
                }
            }
            kind::CHOICE => {
                let m = 2 + random.index(4);
                numbers.push(m as u16);
                for _ in 0..m {
                    let reserved = random.one_in(3);
                    numbers.push(if reserved {
                        RESERVED
                    } else {
                        reference(random)
                    });
                }
            }
            _ => numbers.push(20),
        }
        let mut row = Row {
            at: rows.table.len(),
            numbers,
            size: 0,
        };
        row.end();
        row
    }

    /// Takes the length that the numbers have.
    fn end(&mut self) {
        self.size = 2 * self.numbers.len();
        self.numbers[0] = self.size as u16;
    }

    fn kind(&self) -> u16 {
        self.numbers[1]
    }

    /// Where one of the references stands, if there are any.
    fn some_reference(&self, random: &mut Random) -> Option<usize> {
        let step = match self.kind() {
            kind::FIXED_RUN | kind::COUNTED_RUN | kind::CHOICE => 1,
            kind::RECORD => 2,
            _ => return None,
        };
        let count = (self.numbers.len() - 3) / step;
        (count > 0).then(|| 3 + step * random.index(count))
    }

    fn octets(&self) -> Vec<u8> {
        let octets = self.numbers.iter().flat_map(|number| number.to_le_bytes());
        octets.take(self.size).collect()
    }

    /// Makes a part wrong, where the row's kind has it.
    fn spoil(&mut self, random: &mut Random, part: u32) {
        match part {
            Refusal::WRONG_ROW_NUMBER => self.spoil_number(random),
            Refusal::ONLY_RESERVED => {
                if self.kind() == kind::CHOICE {
                    self.numbers[3..].fill(RESERVED);
                }
            }
            Refusal::WRONG_REFERENCE => {
                if let Some(at) = self.some_reference(random) {
                    self.numbers[at] = self.wrong_reference(random, self.numbers[at]);
                }
            }
            Refusal::WRONG_ROW_LENGTH => self.spoil_length(random),
            Refusal::UNKNOWN_KIND => {
                let more = self.kind() + 256;
                self.numbers[1] = random.pick(&[0, 9, 10, 100, 300, more, 0xFFFF]);
            }
            _ => match random.below(4) {
                0 => self.size = random.index(4), // the last row, or the others are moved
                1 => self.numbers[0] += 1,
                _ => self.numbers[0] = random.pick(&[4_097, 0x8000, 0xFFFF]),
            },
        }
    }

    /// A count, a limit, m with as many fields or branches, or a flag.
    fn spoil_number(&mut self, random: &mut Random) {
        let flag = random.one_in(2);
        match self.kind() {
            kind::FIXED_RUN => self.numbers[2] = random.pick(&[0, 1_025, 0xFFFF]),
            kind::COUNTED_RUN | kind::OPEN_OCTETS => {
                self.numbers[2] = random.pick(&[0, 16_384, 0xFFFF]);
            }
            kind::OCTETS => self.numbers[2] = random.pick(&[16_384, 0xFFFF]),
            kind::RECORD if flag => {
                if let Some(at) = self.some_reference(random) {
                    self.numbers[at + 1] = random.pick(&[2, 3, 256, 0xFFFF]);
                }
            }
            kind::RECORD => self.resize(random.pick(&[0, 33, 34]), 2),
            kind::CHOICE => self.resize(random.pick(&[0, 1, 129, 130]), 1),
            _ => (),
        }
    }

    /// Takes as many fields or branches, of so many numbers each; those added are like the first.
    fn resize(&mut self, m: u16, step: usize) {
        let first = self.numbers[3..3 + step].to_vec();
        self.numbers.truncate(3 + step * usize::from(m));
        while self.numbers.len() < 3 + step * usize::from(m) {
            self.numbers.extend(&first);
        }
        self.numbers[2] = m;
        self.end();
    }

    /// The row itself, or behind it; inside a row, at an odd offset too; nowhere. FFFF is wrong in a run
    /// and a record alone.
    fn wrong_reference(&self, random: &mut Random, right: Offset) -> Offset {
        let at = self.at as Offset;
        let end = at + self.size as Offset;
        let inside = right.wrapping_add(random.pick(&[1, 2]));
        random.pick(&[at, at + 2, end, inside, 4_096, 0xFFFE, RESERVED])
    }

    /// Too short for any row, or for this one; longer; or with another m, which in 16 bits may ask for
    /// the same length.
    fn spoil_length(&mut self, random: &mut Random) {
        let length = self.numbers[0];
        let counts = matches!(self.kind(), kind::RECORD | kind::CHOICE);
        match random.below(8) {
            0..=1 => self.numbers[0] = random.below(4) as u16,
            2 => self.numbers[0] = random.pick(&[4, 5, 6, length - 1, length - 2]),
            3..=4 if !counts => {
                self.numbers.push(0);
                self.end();
            }
            3 => self.numbers[2] = self.numbers[2].wrapping_sub(1),
            4 => self.numbers[2] += 1,
            5 if counts => {
                self.numbers.extend([0, 0]);
                self.end();
            }
            _ if counts => self.numbers[2] |= random.pick(&[0x4000, 0x8000, 0xC000]),
            _ => self.numbers[0] += random.pick(&[1, 2, 4]),
        }
    }
}
