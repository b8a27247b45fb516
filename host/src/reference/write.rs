//! Writing under a table.

use super::bits::{index_width, number_width};
use super::table::{branch_row, field_optional, field_row, Row};
use super::{planted, Engine, MESSAGE_MOST, VARIABLE_BASES, VARIABLE_MOST};
use crate::codec::{Answer, Refusal};
use crate::mutants::Fault;

/// Where values to write come from.
pub(super) trait ValueList {
    fn count(&self) -> usize;
    fn get(&self, index: usize) -> Option<i64>;
}

impl ValueList for [i64] {
    #[inline]
    fn count(&self) -> usize {
        self.len()
    }

    #[inline]
    fn get(&self, index: usize) -> Option<i64> {
        <[i64]>::get(self, index).copied()
    }
}

/// Values of eight octets each.
impl ValueList for [[u8; 8]] {
    #[inline]
    fn count(&self) -> usize {
        self.len()
    }

    #[inline]
    fn get(&self, index: usize) -> Option<i64> {
        <[[u8; 8]]>::get(self, index).map(|&value| i64::from_le_bytes(value))
    }
}

struct Writer<'a, L: ?Sized, const F: u8> {
    table: &'a [u8],
    values: &'a L,
    /// The next value's index.
    index: usize,
    output: &'a mut [u8],
    /// The bits that the output takes.
    limit: usize,
    /// The bits of the values so far.
    bits: usize,
    /// The bits that are not in the output yet, at its low end; `bits % 8` of them.
    pending: u64,
}

impl<L: ValueList + ?Sized, const F: u8> Writer<'_, L, F> {
    fn refusal(&self, number: u32) -> Refusal {
        Refusal::new(number, self.index)
    }

    /// The next value, refused with 12 where it is missing or outside these bounds.
    #[inline]
    fn next(&self, low: i64, high: i64) -> Result<i64, Refusal> {
        if planted::<F>(Fault::RoomBeforeValue) && self.bits == self.limit {
            return Err(self.refusal(Refusal::NO_ROOM));
        }
        match self.values.get(self.index) {
            Some(value) if low <= value && value <= high => Ok(value),
            Some(value)
                if planted::<F>(Fault::NarrowDistance)
                    && i64::from(value.wrapping_sub(low) as u32) <= high - low =>
            {
                Ok(low + i64::from(value.wrapping_sub(low) as u32))
            }
            _ => Err(self.refusal(Refusal::WRONG_VALUE)),
        }
    }

    /// Ends an item: stores its bits, at most 32, and goes to the next value.
    #[inline]
    fn put(&mut self, number: u64, width: u32) -> Result<(), Refusal> {
        if self.limit - self.bits < width as usize {
            return Err(self.refusal(Refusal::NO_ROOM));
        }
        let mut size = self.bits / 8;
        let mut waiting = (self.bits % 8) as u32 + width;
        self.pending = self.pending << width | number;
        while waiting >= 8 {
            waiting -= 8;
            self.output[size] = (self.pending >> waiting) as u8;
            size += 1;
        }
        self.bits += width as usize;
        self.index += 1;
        Ok(())
    }

    fn row(&mut self, offset: usize) -> Result<(), Refusal> {
        self.row_of(Row::at(self.table, offset))
    }

    fn row_of(&mut self, row: Row) -> Result<(), Refusal> {
        match row {
            Row::Number { low, span } => {
                let value = self.next(low, low + i64::from(span))?;
                self.put((value - low) as u64, number_width(span))
            }
            Row::Variable => self.variable(),
            Row::FixedRun { count, item } => self.run(count, item),
            Row::CountedRun { most, item } => {
                let count = self.length(0, most)?;
                self.run(count, item)
            }
            Row::Record { fields } => self.record(fields),
            Row::Choice { branches } => self.choice(branches),
            Row::Octets { least, most } => {
                for _ in 0..self.length(least, most)? {
                    let octet = self.next(0, 255)?;
                    self.put(octet as u64, 8)?;
                }
                Ok(())
            }
        }
    }

    fn variable(&mut self) -> Result<(), Refusal> {
        let value = self.next(0, VARIABLE_MOST)?;
        let ones = match value {
            ..VARIABLE_1 => 0,
            VARIABLE_1..VARIABLE_2 => 1,
            VARIABLE_2..VARIABLE_3 => 2,
            _ => 3,
        };
        let content = (value - VARIABLE_BASES[ones]) as u64;
        let octets = ones as u32 + 1;
        let leading = (1 << octets) - 2; // so many ones, then a zero
        self.put(leading << (7 * octets) | content, 8 * octets)
    }

    fn length(&mut self, least: u32, most: u32) -> Result<usize, Refusal> {
        let least = if planted::<F>(Fault::OpenEmptyWritten) {
            0
        } else {
            least
        };
        let length = self.next(i64::from(least), i64::from(most))? as u64;
        if length < 128 {
            self.put(length, 8)?;
        } else {
            self.put(0b10 << 14 | length, 16)?;
        }
        Ok(length as usize)
    }

    fn run(&mut self, count: usize, item: usize) -> Result<(), Refusal> {
        let row = Row::at(self.table, item);
        for _ in 0..count {
            self.row_of(row)?;
        }
        Ok(())
    }

    fn record(&mut self, fields: &[[u8; 4]]) -> Result<(), Refusal> {
        let mut present = 0u32; // a bit for each field, in order from the lowest
        for (index, field) in fields.iter().enumerate() {
            let mut there = 1;
            if field_optional(field) {
                there = self.next(0, 1)?;
                self.put(there as u64, 1)?;
            }
            present |= (there as u32) << index;
        }
        for (index, field) in fields.iter().enumerate() {
            if present >> index & 1 == 1 {
                self.row(field_row(field))?;
            }
        }
        Ok(())
    }

    fn choice(&mut self, branches: &[[u8; 2]]) -> Result<(), Refusal> {
        let index = self.next(0, branches.len() as i64 - 1)?;
        let Some(row) = branch_row(&branches[index as usize]) else {
            return Err(self.refusal(Refusal::WRONG_VALUE));
        };
        self.put(index as u64, index_width(branches.len()))?;
        self.row(row)
    }

    /// After the root: no value left over, then zero bits to the octet's end. Gives the size.
    fn end(&mut self) -> Result<usize, Refusal> {
        if self.index < self.values.count() && !planted::<F>(Fault::LeftOverTaken) {
            return Err(self.refusal(Refusal::WRONG_VALUE));
        }
        if self.bits == 0 && !planted::<F>(Fault::EmptyRootUncounted) {
            let Some(first) = self.output.first_mut() else {
                return Err(self.refusal(Refusal::NO_ROOM));
            };
            *first = 0;
            return Ok(1);
        }
        if !self.bits.is_multiple_of(8) {
            self.output[self.bits / 8] = (self.pending << (8 - self.bits % 8)) as u8;
        }
        Ok(self.bits.div_ceil(8))
    }
}

/// The bases by name, for patterns.
const VARIABLE_1: i64 = VARIABLE_BASES[1];
const VARIABLE_2: i64 = VARIABLE_BASES[2];
const VARIABLE_3: i64 = VARIABLE_BASES[3];

impl<const F: u8> Engine<F> {
    /// Writes the items and zeroes what they leave of the output.
    pub(super) fn write_root<L: ValueList + ?Sized>(
        table: &[u8],
        root: usize,
        values: &L,
        output: &mut [u8],
    ) -> Answer {
        let size_most = if planted::<F>(Fault::OutputNotLimited) {
            output.len()
        } else {
            output.len().min(MESSAGE_MOST)
        };
        let mut writer = Writer::<L, F> {
            table,
            values,
            index: 0,
            output,
            limit: 8 * size_most,
            bits: 0,
            pending: 0,
        };
        match writer.row(root).and_then(|()| writer.end()) {
            Ok(size) => {
                output[size..].fill(0);
                Answer::Accepted {
                    values: 0,
                    bits: 0,
                    octets: size as u64,
                }
            }
            Err(refusal) => {
                output.fill(0);
                refusal.into()
            }
        }
    }

    pub(super) fn write_values<L: ValueList + ?Sized>(
        table: &[u8],
        values: &L,
        output: &mut [u8],
    ) -> Answer {
        match Self::root_for_message(table) {
            Ok(root) => Self::write_root(table, root, values, output),
            Err(refusal) => {
                output.fill(0);
                refusal.into()
            }
        }
    }

    pub(super) fn write_lm_values<L: ValueList + ?Sized>(values: &L, output: &mut [u8]) -> Answer {
        if let Err(refusal) = Self::lm_list_tests(values) {
            output.fill(0);
            return refusal.into();
        }
        let lm = Self::lm();
        Self::write_root(&lm.octets, lm.root, values, output)
    }
}
