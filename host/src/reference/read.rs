//! Reading, under a table that has passed the check or through a state.

use super::bits::{fetch, index_width, number_width};
use super::table::{branch_row, field_optional, field_row, word, Row};
use super::{planted, Engine, MESSAGE_MOST, VARIABLE_BASES};
use crate::codec::{Answer, Refusal};
use crate::mutants::Fault;

/// Where read values go.
pub(super) trait ValueSlice {
    fn room(&self) -> usize;
    /// Stores at an index below the room.
    fn set(&mut self, index: usize, value: i64);
    /// Stores octets from an index on; there is room for them.
    fn set_octets(&mut self, index: usize, octets: impl Iterator<Item = u8>);
    /// Zeroes the slice from an index on.
    fn clear_from(&mut self, index: usize);
}

impl ValueSlice for [i64] {
    #[inline]
    fn room(&self) -> usize {
        self.len()
    }

    #[inline]
    fn set(&mut self, index: usize, value: i64) {
        self[index] = value;
    }

    #[inline]
    fn set_octets(&mut self, index: usize, octets: impl Iterator<Item = u8>) {
        for (value, octet) in self[index..].iter_mut().zip(octets) {
            *value = i64::from(octet);
        }
    }

    fn clear_from(&mut self, index: usize) {
        self[index..].fill(0);
    }
}

/// Values of eight octets each.
impl ValueSlice for [[u8; 8]] {
    #[inline]
    fn room(&self) -> usize {
        self.len()
    }

    #[inline]
    fn set(&mut self, index: usize, value: i64) {
        self[index] = value.to_le_bytes();
    }

    #[inline]
    fn set_octets(&mut self, index: usize, octets: impl Iterator<Item = u8>) {
        for (value, octet) in self[index..].iter_mut().zip(octets) {
            *value = i64::from(octet).to_le_bytes();
        }
    }

    fn clear_from(&mut self, index: usize) {
        self[index..].fill([0; 8]);
    }
}

/// No value slice: values are dropped, and there is always room.
pub(super) struct Nowhere;

impl ValueSlice for Nowhere {
    fn room(&self) -> usize {
        usize::MAX
    }

    fn set(&mut self, _index: usize, _value: i64) {}

    fn set_octets(&mut self, _index: usize, _octets: impl Iterator<Item = u8>) {}

    fn clear_from(&mut self, _index: usize) {}
}

/// The rows that a message is read under.
pub(super) trait Rows<'a>: Copy {
    /// What has to be known of a row when one is looked up that it refers to.
    type Known: Copy;

    /// The octets in which they stand.
    fn octets(self) -> &'a [u8];

    /// What is known of the row at this offset as the root, or nothing where it may not be read.
    fn root(self, at: usize) -> Option<Self::Known>;

    /// The same of the row at `to`, to which another refers.
    fn referred(self, from: Self::Known, to: usize) -> Option<Self::Known>;
}

/// A table that has passed the check: every reference leads to a row.
impl<'a> Rows<'a> for &'a [u8] {
    type Known = ();

    #[inline]
    fn octets(self) -> &'a [u8] {
        self
    }

    #[inline]
    fn root(self, _at: usize) -> Option<()> {
        Some(())
    }

    #[inline]
    fn referred(self, (): (), _to: usize) -> Option<()> {
        Some(())
    }
}

pub(super) struct Reader<'a, T, V: ?Sized, const F: u8> {
    pub(super) rows: T,
    pub(super) message: &'a [u8],
    /// The next item's first bit.
    pub(super) place: usize,
    pub(super) values: &'a mut V,
    /// The values kept so far.
    pub(super) count: usize,
}

impl<'a, T: Rows<'a>, V: ValueSlice + ?Sized, const F: u8> Reader<'a, T, V, F> {
    fn refusal(&self, number: u32) -> Refusal {
        Refusal::new(number, self.place)
    }

    #[inline]
    fn bits_left(&self) -> usize {
        8 * self.message.len() - self.place
    }

    /// Refuses with 2 where the message has fewer bits left.
    #[inline]
    fn need(&self, width: u32) -> Result<(), Refusal> {
        if self.bits_left() < width as usize {
            return Err(self.refusal(Refusal::MESSAGE_ENDS));
        }
        Ok(())
    }

    /// The next bits, known to be there.
    #[inline]
    fn peek(&self, width: u32) -> u64 {
        fetch(self.message, self.place, width)
    }

    #[inline]
    fn need_room(&self) -> Result<(), Refusal> {
        if self.count == self.values.room() {
            return Err(self.refusal(Refusal::NO_ROOM));
        }
        Ok(())
    }

    /// Ends an item: keeps its value and goes past its bits.
    #[inline]
    fn keep(&mut self, value: i64, width: u32) -> Result<(), Refusal> {
        self.need_room()?;
        self.values.set(self.count, value);
        self.count += 1;
        self.place += width as usize;
        Ok(())
    }

    /// What is known of a row that may be read; in place of any other stands an item that no bits meet.
    #[inline]
    fn readable(&self, known: Option<T::Known>) -> Result<T::Known, Refusal> {
        if planted::<F>(Fault::RoomBeforeUnreadable) && known.is_none() {
            self.need_room()?;
        }
        known.ok_or_else(|| self.refusal(Refusal::NO_BRANCH))
    }

    fn root(&mut self, at: usize) -> Result<(), Refusal> {
        let known = self.readable(self.rows.root(at))?;
        self.row(known, Row::at(self.rows.octets(), at))
    }

    /// The row at `to`, to which another refers.
    pub(super) fn referred(&mut self, from: T::Known, to: usize) -> Result<(), Refusal> {
        let known = self.readable(self.rows.referred(from, to))?;
        self.row(known, Row::at(self.rows.octets(), to))
    }

    /// Refuses a run or a record at its first bit where a row that it refers to may not be read, be it that
    /// of an absent field or of a run of none. Of a choice, the branch's row is looked at once it is chosen.
    #[inline]
    fn open(&self, known: T::Known, row: Row) -> Result<(), Refusal> {
        let leads = |to: usize| self.readable(self.rows.referred(known, to));
        match row {
            Row::CountedRun { .. } if planted::<F>(Fault::RunRowAfterLength) => Ok(()),
            Row::CountedRun { .. }
                if planted::<F>(Fault::EmptyRunRead)
                    && self.bits_left() >= 8
                    && self.peek(8) == 0 =>
            {
                Ok(())
            }
            Row::CountedRun { item, .. } if planted::<F>(Fault::RunRowOpened) => {
                self.open(leads(item)?, Row::at(self.rows.octets(), item))
            }
            Row::FixedRun { item, .. } | Row::CountedRun { item, .. } => leads(item).map(drop),
            Row::Record { .. } if planted::<F>(Fault::FieldRowsInTurn) => Ok(()),
            Row::Record { fields } => {
                let mut bits = self.place..8 * self.message.len();
                fields.iter().try_for_each(|field| {
                    let absent = planted::<F>(Fault::AbsentRowNotTested)
                        && field_optional(field)
                        && bits
                            .next()
                            .is_some_and(|bit| fetch(self.message, bit, 1) == 0);
                    match absent {
                        true => Ok(()),
                        false => leads(field_row(field)).map(drop),
                    }
                })
            }
            Row::Choice { branches } if planted::<F>(Fault::BranchRowsFirst) => branches
                .iter()
                .filter_map(branch_row)
                .try_for_each(|branch| leads(branch).map(drop)),
            Row::Number { .. } | Row::Variable | Row::Choice { .. } | Row::Octets { .. } => Ok(()),
        }
    }

    fn row(&mut self, known: T::Known, row: Row) -> Result<(), Refusal> {
        self.open(known, row)?;
        match row {
            Row::Number { low, span } => self.number(low, span),
            Row::Variable => self.variable(),
            Row::FixedRun { count, item } => self.run(known, count, item),
            Row::CountedRun { most, item } => {
                let count = self.length(0, most)?;
                self.run(known, count, item)
            }
            Row::Record { fields } => self.record(known, fields),
            Row::Choice { branches } => self.choice(known, branches),
            Row::Octets { least, most } => {
                let length = self.length(least, most)?;
                self.octets(length)
            }
        }
    }

    #[inline]
    fn number(&mut self, low: i64, span: u32) -> Result<(), Refusal> {
        let width = if planted::<F>(Fault::NumberWidth) {
            number_width(span.saturating_sub(1))
        } else {
            number_width(span)
        };
        self.need(width)?;
        if planted::<F>(Fault::RoomBeforeSpan) {
            self.need_room()?;
        }
        let distance = self.peek(width);
        if distance > u64::from(span) && !planted::<F>(Fault::SpanNotTested) {
            return Err(self.refusal(Refusal::ABOVE_SPAN));
        }
        self.keep(low + distance as i64, width)
    }

    fn variable(&mut self) -> Result<(), Refusal> {
        self.need(8)?;
        let ones = (self.peek(8) as u8).leading_ones();
        let Some(base) = VARIABLE_BASES.get(ones as usize) else {
            return Err(self.refusal(Refusal::BAD_VARIABLE));
        };
        let width = 8 * (ones + 1);
        self.need(width)?;
        let content = self.peek(width) & ((1 << (7 * (ones + 1))) - 1);
        self.keep(base + content as i64, width)
    }

    pub(super) fn length(&mut self, least: u32, most: u32) -> Result<usize, Refusal> {
        self.need(8)?;
        let first = self.peek(8);
        let (length, width) = match first >> 6 {
            0b00 | 0b01 => (first, 8),
            0b10 => {
                if planted::<F>(Fault::SecondOctetPlace) && self.bits_left() < 16 {
                    return Err(Refusal::new(Refusal::MESSAGE_ENDS, self.place + 8));
                }
                self.need(16)?;
                let length = self.peek(16) & 0x3FFF;
                if planted::<F>(Fault::LeastBeforeForm) && length < u64::from(least) {
                    return Err(self.refusal(Refusal::OUTSIDE_LIMITS));
                }
                if length < 128 && !planted::<F>(Fault::ShortInLongForm) {
                    return Err(self.refusal(Refusal::BAD_LENGTH));
                }
                (length, 16)
            }
            _ => return Err(self.refusal(Refusal::BAD_LENGTH)),
        };
        if planted::<F>(Fault::RoomBeforeLimits) {
            self.need_room()?;
        }
        let least = if planted::<F>(Fault::OpenEmptyRead) {
            0
        } else {
            least
        };
        if !(u64::from(least)..=u64::from(most)).contains(&length) {
            return Err(self.refusal(Refusal::OUTSIDE_LIMITS));
        }
        self.keep(length as i64, width)?;
        Ok(length as usize)
    }

    fn run(&mut self, known: T::Known, count: usize, item: usize) -> Result<(), Refusal> {
        if count == 0 {
            return Ok(());
        }
        let below = self.readable(self.rows.referred(known, item))?;
        let row = Row::at(self.rows.octets(), item);
        for _ in 0..count {
            self.row(below, row)?;
        }
        Ok(())
    }

    fn record(&mut self, known: T::Known, fields: &[[u8; 4]]) -> Result<(), Refusal> {
        let mut present = 0u32; // a bit for each field, in order from the lowest
        for (index, field) in fields.iter().enumerate() {
            let optional = field_optional(field)
                && !(planted::<F>(Fault::FlagTwoAsAlways) && word(field, 2) != 1);
            let there = !optional || self.presence()?;
            present |= u32::from(there) << index;
            if planted::<F>(Fault::PresenceBesideField) && there {
                self.referred(known, field_row(field))?;
                present = 0;
            }
        }
        for (index, field) in fields.iter().enumerate() {
            if present >> index & 1 == 1 {
                self.referred(known, field_row(field))?;
            }
        }
        Ok(())
    }

    #[inline]
    fn presence(&mut self) -> Result<bool, Refusal> {
        self.need(1)?;
        let bit = self.peek(1);
        self.keep(bit as i64, 1)?;
        Ok(bit == 1)
    }

    fn choice(&mut self, known: T::Known, branches: &[[u8; 2]]) -> Result<(), Refusal> {
        let width = if planted::<F>(Fault::IndexWidth) {
            index_width(branches.len() + 1)
        } else {
            index_width(branches.len())
        };
        self.need(width)?;
        let index = self.peek(width);
        let Some(row) = branches.get(index as usize).and_then(branch_row) else {
            return Err(self.refusal(Refusal::NO_BRANCH));
        };
        self.keep(index as i64, width)?;
        self.referred(known, row)
    }

    /// Octets are an item each; as many as the message holds and the slice takes go at once.
    pub(super) fn octets(&mut self, length: usize) -> Result<(), Refusal> {
        let room = self.values.room() - self.count;
        let there = length.min(self.bits_left() / 8).min(room);
        let rest = &self.message[self.place / 8..];
        let shift = self.place % 8;
        if shift == 0 {
            self.values
                .set_octets(self.count, rest[..there].iter().copied());
        } else {
            let unaligned = rest
                .windows(2)
                .take(there)
                .map(|pair| (u16::from_be_bytes([pair[0], pair[1]]) >> (8 - shift)) as u8);
            self.values.set_octets(self.count, unaligned);
        }
        self.count += there;
        self.place += 8 * there;
        if there < length {
            self.need(8)?;
            return Err(self.refusal(Refusal::NO_ROOM));
        }
        Ok(())
    }

    /// After the root: zero bits to the octet's end, and nothing more.
    pub(super) fn end(&self) -> Result<(), Refusal> {
        let size = self.place.div_ceil(8).max(1);
        let padding = 8 * size - self.place;
        let zero = planted::<F>(Fault::PaddingNotTested) || self.peek(padding as u32) == 0;
        if self.message.len() == size && zero {
            return Ok(());
        }
        Err(self.refusal(Refusal::NOT_PADDING))
    }
}

impl<const F: u8> Engine<F> {
    /// The tests of a message before its items: its size, then that it is not empty.
    pub(super) fn message_tests(message: &[u8]) -> Result<(), Refusal> {
        let most = MESSAGE_MOST + usize::from(planted::<F>(Fault::MessageOneLonger));
        if message.len() > most {
            return Err(Refusal::new(Refusal::TOO_LONG, 0));
        }
        if message.is_empty() {
            return Err(Refusal::new(Refusal::MESSAGE_ENDS, 0));
        }
        Ok(())
    }

    /// Reads the items and zeroes what they leave of the value slice.
    pub(super) fn read_root<'a, V: ValueSlice + ?Sized>(
        rows: impl Rows<'a>,
        root: usize,
        message: &'a [u8],
        values: &'a mut V,
    ) -> Answer {
        let mut reader = Reader::<_, V, F> {
            rows,
            message,
            place: 0,
            values,
            count: 0,
        };
        match reader.root(root).and_then(|()| reader.end()) {
            Ok(()) => {
                reader.values.clear_from(reader.count);
                Answer::Accepted {
                    values: reader.count as u64,
                    bits: reader.place as u64,
                    octets: 0,
                }
            }
            Err(refusal) => {
                let kept = usize::from(planted::<F>(Fault::ValuesKept)) * reader.count;
                reader.values.clear_from(kept);
                refusal.into()
            }
        }
    }

    /// Reads a whole message under these rows.
    pub(super) fn read_message<'a, V: ValueSlice + ?Sized>(
        rows: impl Rows<'a>,
        root: usize,
        message: &'a [u8],
        values: &'a mut V,
    ) -> Answer {
        if let Err(refusal) = Self::message_tests(message) {
            values.clear_from(0);
            return refusal.into();
        }
        Self::read_root(rows, root, message, values)
    }

    pub(super) fn read_values<V: ValueSlice + ?Sized>(
        table: &[u8],
        message: &[u8],
        values: &mut V,
    ) -> Answer {
        let before_table = planted::<F>(Fault::LongMessageBeforeTable) && !message.is_empty()
            || planted::<F>(Fault::EmptyMessageBeforeTable) && message.is_empty();
        let before = match before_table {
            true => Self::message_tests(message),
            false => Ok(()),
        };
        match before.and_then(|()| Self::root_for_message(table)) {
            Ok(root) => Self::read_message(table, root, message, values),
            Err(refusal) => {
                values.clear_from(0);
                refusal.into()
            }
        }
    }

    pub(super) fn read_lm_values<V: ValueSlice + ?Sized>(message: &[u8], values: &mut V) -> Answer {
        if let Err(refusal) = Self::lm_tests(message) {
            values.clear_from(0);
            return refusal.into();
        }
        let lm = Self::lm();
        Self::read_root(&lm.octets[..], lm.root, message, values)
    }
}
