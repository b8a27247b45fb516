//! A table loaded into a state, and reading through any state (document 02, ticket 3).
//!
//! A state may have been made otherwise than by loading, and the check is not run again. So a row is
//! read only where it has a depth and fits, one that another refers to only where it stands earlier and
//! its depth is lower, and a run or a record only where every row that it refers to is such a row: reading
//! then ends, whatever the octets are.

use super::read::{Rows, ValueSlice};
use super::table::{bounds, branch_row, field_row, word, Row};
use super::{planted, Engine, DEPTH_MOST, TABLE_MOST};
use crate::assemble::{kind, put, state::*, state_with};
use crate::codec::{Answer, Refusal, StateOctets, FRESH};
use crate::mutants::Fault;

/// The rows of a state that a table is said to be loaded in.
#[derive(Clone, Copy)]
struct Held<'a, const F: u8>(&'a StateOctets);

impl<'a, const F: u8> Held<'a, F> {
    /// The depth that stands for a row inside the table's part, or nothing where none does.
    fn depth(self, offset: usize) -> Option<u8> {
        let depth = self.0[DEPTHS][offset / 2];
        (depth > 0 || planted::<F>(Fault::DepthZeroRead)).then_some(depth)
    }

    /// Whether a row can be read at this offset: it ends inside the table's part, its kind is known, and
    /// its count, limit or m is in bounds. Its own length is not looked at.
    fn fits(self, offset: usize) -> bool {
        let end = match planted::<F>(Fault::FitsStoredLength) {
            true => TABLE.end.min(word(self.0, LENGTH).into()),
            false => TABLE.end,
        };
        let row = match self.0[..end].get(offset..) {
            Some(row) if row.len() >= 4 => row,
            _ => return false,
        };
        let kind = match planted::<F>(Fault::HeldKindLowOctet) {
            true => u16::from(row[2]),
            false => word(row, 2),
        };
        let count = row.get(4..6).map_or(0, |count| word(count, 0));
        let length = match kind {
            kind::NUMBER => 12,
            kind::VARIABLE => 4,
            kind::FIXED_RUN | kind::COUNTED_RUN => 8,
            kind::RECORD => 6 + 4 * usize::from(count),
            kind::CHOICE => 6 + 2 * usize::from(count),
            kind::OCTETS | kind::OPEN_OCTETS => 6,
            _ => return false,
        };
        let counted = match (kind, count) {
            (kind::FIXED_RUN, 1_025) if planted::<F>(Fault::HeldRunOneLonger) => true,
            (kind::OPEN_OCTETS, 0) if planted::<F>(Fault::HeldOpenMostZero) => true,
            _ => bounds::of(kind).is_none_or(|bounds| bounds.contains(&count)),
        };
        let right = !planted::<F>(Fault::HeldLengthTested) || usize::from(word(row, 0)) == length;
        length <= row.len() && counted && right
    }
}

impl<'a, const F: u8> Rows<'a> for Held<'a, F> {
    /// Its offset.
    type Known = usize;

    fn octets(self) -> &'a [u8] {
        &self.0[TABLE]
    }

    fn root(self, at: usize) -> Option<usize> {
        let shallow = |depth| depth <= DEPTH_MOST || planted::<F>(Fault::RootOfAnyDepth);
        (self.fits(at) && self.depth(at).is_some_and(shallow)).then_some(at)
    }

    fn referred(self, from: usize, to: usize) -> Option<usize> {
        let earlier = to < from || planted::<F>(Fault::LaterRowRead);
        let lower = |depth| {
            Some(depth) < self.depth(from)
                || planted::<F>(Fault::DepthNotCompared)
                || planted::<F>(Fault::EqualDepthRead) && Some(depth) == self.depth(from)
        };
        (earlier && self.fits(to) && self.depth(to).is_some_and(lower)).then_some(to)
    }
}

/// The depths of a table's rows, by half their offsets: 1 without references, else one more than the
/// deepest row referred to.
fn depths_of(table: &[u8]) -> [u8; TABLE_MOST / 2] {
    let mut depths = [0; TABLE_MOST / 2];
    let mut at = 0;
    while at < table.len() {
        let depth = |row: usize| depths[row / 2];
        let deepest = match Row::at(table, at) {
            Row::FixedRun { item, .. } | Row::CountedRun { item, .. } => Some(depth(item)),
            Row::Record { fields } => fields.iter().map(field_row).map(depth).max(),
            Row::Choice { branches } => branches.iter().filter_map(branch_row).map(depth).max(),
            Row::Number { .. } | Row::Variable | Row::Octets { .. } => None,
        };
        depths[at / 2] = 1 + deepest.unwrap_or(0);
        at += usize::from(word(table, at));
    }
    depths
}

impl<const F: u8> Engine<F> {
    /// Loads a table. Where it is refused, the state stays as it is.
    pub(super) fn load_table(state: &mut StateOctets, table: &[u8]) -> Answer {
        match Self::find_root(table) {
            Ok(root) => {
                *state = Self::state_of(state, table, root);
                let told = u64::from(planted::<F>(Fault::LoadTellsRows));
                Answer::Accepted {
                    values: told * u64::from(word(state, ROWS)),
                    bits: 0,
                    octets: 0,
                }
            }
            Err(refusal) => {
                if planted::<F>(Fault::RefusedLoadClears) {
                    *state = FRESH;
                }
                if planted::<F>(Fault::RefusedLoadCopies) && table.len() <= TABLE_MOST {
                    state[..table.len()].copy_from_slice(table);
                }
                if planted::<F>(Fault::LoadedUnchecked) && table.len() <= TABLE_MOST {
                    *state = *state_with(table, &[(0, 1)], 0);
                    return Answer::PASSED;
                }
                refusal.into()
            }
        }
    }

    /// The state of a table that passes; nothing is left of the one `before`.
    fn state_of(before: &StateOctets, table: &[u8], root: usize) -> StateOctets {
        let mut state = FRESH;
        if planted::<F>(Fault::LongerTableKept) {
            state[TABLE].copy_from_slice(&before[TABLE]);
        }
        state[..table.len()].copy_from_slice(table);
        let depths = depths_of(table);
        for (index, &depth) in depths.iter().enumerate() {
            state[DEPTHS][index] = match depth {
                0 if planted::<F>(Fault::DepthsKept) => before[DEPTHS][index],
                1.. if planted::<F>(Fault::RootDepthForAll) => depths[root / 2],
                depth => depth,
            };
        }
        let rows = depths.iter().filter(|&&depth| depth > 0).count();
        let short = usize::from(planted::<F>(Fault::RowsOneShort));
        put(&mut state, LENGTH, table.len() as u16);
        put(&mut state, ROWS, (rows - short) as u16);
        put(&mut state, ROOT, root as u16);
        state[OUTCOME] = PASSED;
        state
    }

    /// Reads through a state, whatever it holds: where no table is loaded that comes before all else.
    pub(super) fn read_state<V: ValueSlice + ?Sized>(
        state: &StateOctets,
        message: &[u8],
        values: &mut V,
    ) -> Answer {
        let loaded = match state[OUTCOME] {
            0 => false,
            outcome => outcome == PASSED || planted::<F>(Fault::AnyOutcomePasses),
        };
        if loaded {
            let root = usize::from(word(state, ROOT));
            return Self::read_message(Held::<F>(state), root, message, values);
        }
        if !planted::<F>(Fault::NoTableValuesKept) {
            values.clear_from(0);
        }
        let before = planted::<F>(Fault::LongBeforeNoTable) && !message.is_empty()
            || planted::<F>(Fault::EmptyBeforeNoTable) && message.is_empty();
        match Self::message_tests(message) {
            Err(refusal) if before => refusal.into(),
            _ => Refusal::new(Refusal::NO_TABLE, 0).into(),
        }
    }
}
