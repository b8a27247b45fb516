//! Lists of values under a table, and wrong ones.

use super::Random;
use crate::reference::{
    branch_row, field_optional, field_row, index_width, number_width, Row, VARIABLE_BASES,
    VARIABLE_MOST,
};

/// One value of a list: what it may be, and the bits that stand for it.
#[derive(Clone, Copy, Debug)]
pub struct Item {
    pub value: i64,
    pub bits: u64,
    pub width: u32,
    pub form: Form,
}

/// What a value is, with its bounds.
#[derive(Clone, Copy, Debug)]
pub enum Form {
    Number { low: i64, span: u32 },
    Variable,
    Length { least: u32, most: u32 },
    Presence,
    Index { row: usize },
    Octet,
}

impl Item {
    pub fn number(low: i64, span: u32, distance: u32) -> Item {
        Item {
            value: low + i64::from(distance),
            bits: u64::from(distance),
            width: number_width(span),
            form: Form::Number { low, span },
        }
    }

    /// A variable number; the value is at most `VARIABLE_MOST`.
    pub fn variable(value: i64) -> Item {
        let longer = VARIABLE_BASES.iter().filter(|&&base| base <= value).count();
        let octets = longer as u32;
        let base = VARIABLE_BASES[longer - 1];
        let mut leading = 0;
        for _ in 1..octets {
            leading = leading << 1 | 1;
        }
        Item {
            value,
            bits: (leading << 1) << (7 * octets) | (value - base) as u64,
            width: 8 * octets,
            form: Form::Variable,
        }
    }

    /// A length; it is at most 16,383.
    pub fn length(least: u32, most: u32, length: usize) -> Item {
        let short = length < 128;
        Item {
            value: length as i64,
            bits: length as u64 | if short { 0 } else { 0x8000 },
            width: if short { 8 } else { 16 },
            form: Form::Length { least, most },
        }
    }

    pub fn presence(present: bool) -> Item {
        Item {
            value: i64::from(present),
            bits: u64::from(present),
            width: 1,
            form: Form::Presence,
        }
    }

    pub fn index(row: usize, index: usize, count: usize) -> Item {
        Item {
            value: index as i64,
            bits: index as u64,
            width: index_width(count),
            form: Form::Index { row },
        }
    }

    pub fn octet(octet: u8) -> Item {
        Item {
            value: i64::from(octet),
            bits: u64::from(octet),
            width: 8,
            form: Form::Octet,
        }
    }

    /// The least and the greatest value here.
    pub fn bounds(&self, table: &[u8]) -> (i64, i64) {
        match self.form {
            Form::Number { low, span } => (low, low + i64::from(span)),
            Form::Variable => (0, VARIABLE_MOST),
            Form::Length { least, most } => (i64::from(least), i64::from(most)),
            Form::Presence => (0, 1),
            Form::Index { row } => match Row::at(table, row) {
                Row::Choice { branches } => (0, branches.len() as i64 - 1),
                _ => (0, 0),
            },
            Form::Octet => (0, 255),
        }
    }
}

/// A list drawn under a table.
#[derive(Clone, Debug, Default)]
pub struct Drawn {
    pub items: Vec<Item>,
    /// Whether the list is complete; one that the table makes very long is cut.
    pub whole: bool,
}

impl Drawn {
    pub fn values(&self) -> Vec<i64> {
        self.items.iter().map(|item| item.value).collect()
    }

    pub fn bits(&self) -> usize {
        self.items.iter().map(|item| item.width as usize).sum()
    }

    /// The encoding: the bits of the values in order, then zero bits to the octet's end; where
    /// there are no bits, the octet 00.
    pub fn message(&self) -> Vec<u8> {
        pack(self.items.iter().map(|item| (item.bits, item.width)))
    }
}

/// Bits packed into octets; at least one octet.
pub fn pack(bits: impl Iterator<Item = (u64, u32)>) -> Vec<u8> {
    let mut octets = Vec::new();
    let (mut pending, mut waiting) = (0u64, 0);
    for (number, width) in bits {
        pending = pending << width | number;
        waiting += width;
        while waiting >= 8 {
            waiting -= 8;
            octets.push((pending >> waiting) as u8);
        }
    }
    if waiting > 0 || octets.is_empty() {
        octets.push((pending << (8 - waiting)) as u8);
    }
    octets
}

/// A list that the table allows, of about this many values at most.
pub fn allowed_list(random: &mut Random, table: &[u8], root: usize, budget: usize) -> Drawn {
    let mut lister = Lister {
        random,
        table,
        items: Vec::new(),
        budget,
    };
    let whole = lister.row(root);
    Drawn {
        items: lister.items,
        whole,
    }
}

/// The most values in a list, by chance.
pub fn some_budget(random: &mut Random) -> usize {
    match random.below(64) {
        0 => 2_000,
        1..=4 => 300,
        _ => 40,
    }
}

struct Lister<'a> {
    random: &'a mut Random,
    table: &'a [u8],
    items: Vec<Item>,
    budget: usize,
}

impl Lister<'_> {
    /// Adds the values of a row; false if the list has become too long and was cut.
    fn row(&mut self, offset: usize) -> bool {
        // What a row asks for at least may go beyond the budget, but not far.
        if self.items.len() > 4 * self.budget + 400 {
            return false;
        }
        match Row::at(self.table, offset) {
            Row::Number { low, span } => {
                let distance = match self.random.below(4) {
                    0 => 0,
                    1 => span,
                    _ => self.random.below(u64::from(span) + 1) as u32,
                };
                self.items.push(Item::number(low, span, distance));
                true
            }
            Row::Variable => {
                let value = some_variable(self.random);
                self.items.push(Item::variable(value));
                true
            }
            Row::FixedRun { count, item } => (0..count).all(|_| self.row(item)),
            Row::CountedRun { most, item } => {
                let count = self.length(0, most);
                (0..count).all(|_| self.row(item))
            }
            Row::Record { fields } => {
                let first = self.items.len();
                for field in fields {
                    if field_optional(field) {
                        let present = !self.tight() && self.random.one_in(2);
                        self.items.push(Item::presence(present));
                    }
                }
                let mut optional = first;
                for field in fields {
                    let mut present = true;
                    if field_optional(field) {
                        present = self.items[optional].value == 1;
                        optional += 1;
                    }
                    if present && !self.row(field_row(field)) {
                        return false;
                    }
                }
                true
            }
            Row::Choice { branches } => {
                let start = self.random.index(branches.len());
                for turn in 0..branches.len() {
                    let index = (start + turn) % branches.len();
                    if let Some(row) = branch_row(&branches[index]) {
                        self.items.push(Item::index(offset, index, branches.len()));
                        return self.row(row);
                    }
                }
                false
            }
            Row::Octets { least, most } => {
                let length = self.length(least, most);
                for _ in 0..length {
                    let octet = Item::octet(self.random.word() as u8);
                    self.items.push(octet);
                }
                true
            }
        }
    }

    fn tight(&self) -> bool {
        self.items.len() >= self.budget
    }

    /// Adds a length, small where the list is long already.
    fn length(&mut self, least: u32, most: u32) -> usize {
        let limit = most as usize;
        let length = match self.random.below(32) {
            _ if self.tight() => 0,
            0 => limit.min(3 * self.budget),
            1 => 125 + self.random.index(8),
            2..=3 => self.random.index(self.budget),
            _ => self.random.index(4),
        };
        let length = length.clamp(least as usize, limit);
        self.items.push(Item::length(least, most, length));
        length
    }
}

/// A variable number, often at an edge.
fn some_variable(random: &mut Random) -> i64 {
    let octets = random.index(4);
    let next = VARIABLE_BASES.get(octets + 1).copied();
    let (low, high) = (
        VARIABLE_BASES[octets],
        next.unwrap_or(VARIABLE_MOST + 1) - 1,
    );
    match random.below(4) {
        0 => low,
        1 => high,
        _ => random.within(low, high),
    }
}

/// A list spoilt in one place; `items` are those it was drawn with.
pub fn wrong_list(random: &mut Random, table: &[u8], drawn: &Drawn) -> Vec<i64> {
    let mut values = drawn.values();
    let at = random.index(values.len().max(1));
    match random.below(16) {
        0..=4 if !values.is_empty() => {
            let (low, high) = drawn.items[at].bounds(table);
            values[at] = random.pick(&[low - 1, high + 1]);
        }
        5..=6 if !values.is_empty() => values[at] = some_extreme(random, values[at]),
        7 if !values.is_empty() => values[at] = values[at].wrapping_add(random.pick(&[1, -1])),
        8 if !values.is_empty() => {
            let (low, high) = drawn.items[at].bounds(table);
            values[at] = random.within(low, high);
        }
        9 if !values.is_empty() => {
            values.remove(at);
        }
        10..=11 => values.truncate(at),
        12 => {
            values.pop();
        }
        13 => values.insert(at.min(values.len()), random.within(-1, 300)),
        _ => {
            for _ in 0..1 + random.below(3) {
                let value = random.within(-1, 4);
                values.push(value);
            }
        }
    }
    values
}

/// A value far from this one.
fn some_extreme(random: &mut Random, value: i64) -> i64 {
    match random.below(8) {
        0 => i64::MIN,
        1 => i64::MAX,
        2 => value.wrapping_add(1 << 32),
        3 => value.wrapping_sub(1 << 32),
        4 => value.wrapping_add(256),
        5 => value ^ i64::MIN,
        6 => -1,
        _ => random.word() as i64,
    }
}
