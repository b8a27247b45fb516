//! A small assembler for tables (document 01, "Row layout", and ticket 2 of document 02): each
//! function adds one row and gives its offset, to be used as a reference by later rows. It writes
//! what it is told and checks nothing, so that tables which break a rule can be made too. States, with
//! a table inside (ticket 3), are made in the same way.

use std::ops::Range;

use crate::codec::{StateOctets, FRESH};

/// A row's offset, as references hold it.
pub type Offset = u16;

/// The reference that stands for a reserved branch of a choice.
pub const RESERVED: Offset = 0xFFFF;

/// The row kinds.
pub mod kind {
    pub const NUMBER: u16 = 1;
    pub const VARIABLE: u16 = 2;
    pub const FIXED_RUN: u16 = 3;
    pub const COUNTED_RUN: u16 = 4;
    pub const RECORD: u16 = 5;
    pub const CHOICE: u16 = 6;
    pub const OCTETS: u16 = 7;
    pub const OPEN_OCTETS: u16 = 8;
}

/// Where the parts of a state stand. Numbers have two octets, but for depths and the outcome. What is
/// not named here is 0, and so is all of a fresh state.
pub mod state {
    use super::Range;

    /// The table, then zeros.
    pub const TABLE: Range<usize> = 0..4_096;
    /// The depth of each row, at half its offset; 0 where no row starts.
    pub const DEPTHS: Range<usize> = 4_096..6_144;
    /// The octets of the table.
    pub const LENGTH: usize = 6_144;
    /// How many rows it has.
    pub const ROWS: usize = 6_146;
    /// The offset of its root.
    pub const ROOT: usize = 6_148;
    /// The outcome of its check.
    pub const OUTCOME: usize = 6_150;

    /// The outcome where a table is loaded.
    pub const PASSED: u8 = 1;
}

/// A state that says of itself that these octets are loaded, with rows of these depths.
pub fn state_with(table: &[u8], depths: &[(Offset, u8)], root: Offset) -> Box<StateOctets> {
    let mut state = Box::new(FRESH);
    state[..table.len()].copy_from_slice(table);
    for &(row, depth) in depths {
        state[state::DEPTHS][usize::from(row) / 2] = depth;
    }
    put(&mut state, state::LENGTH, table.len() as u16);
    put(&mut state, state::ROWS, depths.len() as u16);
    put(&mut state, state::ROOT, root);
    state[state::OUTCOME] = state::PASSED;
    state
}

/// Puts a number of two octets into a state.
pub fn put(state: &mut StateOctets, at: usize, number: u16) {
    state[at..at + 2].copy_from_slice(&number.to_le_bytes());
}

/// A table in the making; the last row added is its root.
#[derive(Clone, Debug, Default)]
pub struct Assembler {
    octets: Vec<u8>,
}

impl Assembler {
    pub fn new() -> Assembler {
        Assembler::default()
    }

    /// The octets of the rows so far.
    pub fn len(&self) -> usize {
        self.octets.len()
    }

    pub fn is_empty(&self) -> bool {
        self.octets.is_empty()
    }

    pub fn finish(self) -> Vec<u8> {
        self.octets
    }

    /// A number from `low` to `low + span`.
    pub fn number(&mut self, low: i32, span: u32) -> Offset {
        let at = self.row(12, kind::NUMBER);
        self.octets.extend(low.to_le_bytes());
        self.octets.extend(span.to_le_bytes());
        at
    }

    pub fn variable(&mut self) -> Offset {
        self.row(4, kind::VARIABLE)
    }

    pub fn fixed_run(&mut self, count: u16, item: Offset) -> Offset {
        let at = self.row(8, kind::FIXED_RUN);
        self.put(count);
        self.put(item);
        at
    }

    pub fn counted_run(&mut self, most: u16, item: Offset) -> Offset {
        let at = self.row(8, kind::COUNTED_RUN);
        self.put(most);
        self.put(item);
        at
    }

    /// A record of fields, each with whether it is optional.
    pub fn record(&mut self, fields: &[(Offset, bool)]) -> Offset {
        let at = self.row(6 + 4 * fields.len(), kind::RECORD);
        self.put(fields.len() as u16);
        for &(field, optional) in fields {
            self.put(field);
            self.put(u16::from(optional));
        }
        at
    }

    /// A choice of branches; `None` is a reserved one.
    pub fn choice(&mut self, branches: &[Option<Offset>]) -> Offset {
        let at = self.row(6 + 2 * branches.len(), kind::CHOICE);
        self.put(branches.len() as u16);
        for branch in branches {
            self.put(branch.unwrap_or(RESERVED));
        }
        at
    }

    pub fn octets(&mut self, most: u16) -> Offset {
        let at = self.row(6, kind::OCTETS);
        self.put(most);
        at
    }

    /// Octets of which there is one at least.
    pub fn open_octets(&mut self, most: u16) -> Offset {
        let at = self.row(6, kind::OPEN_OCTETS);
        self.put(most);
        at
    }

    /// Numbers of two octets as they are, right or wrong.
    pub fn numbers(&mut self, numbers: &[u16]) -> Offset {
        let at = self.octets.len() as Offset;
        for &number in numbers {
            self.put(number);
        }
        at
    }

    /// Octets as they are, right or wrong.
    pub fn raw(&mut self, octets: &[u8]) -> Offset {
        let at = self.octets.len() as Offset;
        self.octets.extend(octets);
        at
    }

    fn row(&mut self, length: usize, kind: u16) -> Offset {
        let at = self.octets.len() as Offset;
        self.put(length as u16);
        self.put(kind);
        at
    }

    fn put(&mut self, number: u16) {
        self.octets.extend(number.to_le_bytes());
    }
}

#[cfg(test)]
mod tests {
    use super::*;

    #[test]
    fn rows_are_laid_out_as_the_documents_say() {
        let mut table = Assembler::new();
        let number = table.number(-128, 255);
        let variable = table.variable();
        let octets = table.octets(16_383);
        let open = table.open_octets(1);
        let fixed = table.fixed_run(8, number);
        let counted = table.counted_run(255, octets);
        let record = table.record(&[(fixed, false), (counted, true)]);
        let choice = table.choice(&[Some(record), None, Some(variable)]);
        assert_eq!(
            [number, variable, octets, open, fixed, counted, record, choice],
            [0, 12, 16, 22, 28, 36, 44, 58]
        );
        assert_eq!(
            table.finish(),
            [
                0x0C, 0, 1, 0, 0x80, 0xFF, 0xFF, 0xFF, 0xFF, 0, 0, 0, // number
                4, 0, 2, 0, // variable number
                6, 0, 7, 0, 0xFF, 0x3F, // octets
                6, 0, 8, 0, 1, 0, // open octets
                8, 0, 3, 0, 8, 0, 0, 0, // fixed run
                8, 0, 4, 0, 0xFF, 0, 16, 0, // counted run
                14, 0, 5, 0, 2, 0, 28, 0, 0, 0, 36, 0, 1, 0, // record
                12, 0, 6, 0, 3, 0, 44, 0, 0xFF, 0xFF, 12, 0, // choice
            ]
        );
    }
}
