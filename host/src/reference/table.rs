//! The rows of a table (document 01, "Row layout"; document 02, ticket 2), and the check, which tells
//! the first row that breaks a rule and its first part that does (document 02, ticket 1).

use std::ops::RangeInclusive;

use super::{planted, Engine, Reference, DEPTH_MOST, LENGTH_MOST, TABLE_LEAST, TABLE_MOST};
use crate::assemble::{kind, RESERVED};
use crate::codec::{Answer, Refusal};
use crate::mutants::Fault;

/// A row of a table that passes the check, or one of a state that fits.
#[derive(Clone, Copy, Debug)]
pub enum Row<'a> {
    Number {
        low: i64,
        span: u32,
    },
    Variable,
    FixedRun {
        count: usize,
        item: usize,
    },
    CountedRun {
        most: u32,
        item: usize,
    },
    /// Each field is a reference and a flag.
    Record {
        fields: &'a [[u8; 4]],
    },
    /// Each branch is a reference.
    Choice {
        branches: &'a [[u8; 2]],
    },
    /// Octets and open octets differ in the least length alone.
    Octets {
        least: u32,
        most: u32,
    },
}

impl<'a> Row<'a> {
    /// The row at this offset, with its numbers as they stand. There is a row of a known kind there,
    /// and all of it; the kind's high octet is then 0 and is not looked at.
    #[inline]
    pub fn at(table: &'a [u8], offset: usize) -> Row<'a> {
        let row = &table[offset..];
        let kind = u16::from(row[2]);
        match kind {
            kind::NUMBER => Row::Number {
                low: i64::from(i32::from_le_bytes([row[4], row[5], row[6], row[7]])),
                span: u32::from_le_bytes([row[8], row[9], row[10], row[11]]),
            },
            kind::VARIABLE => Row::Variable,
            kind::FIXED_RUN => Row::FixedRun {
                count: usize::from(word(row, 4)),
                item: usize::from(word(row, 6)),
            },
            kind::COUNTED_RUN => Row::CountedRun {
                most: u32::from(word(row, 4)),
                item: usize::from(word(row, 6)),
            },
            kind::RECORD => Row::Record {
                fields: row[6..6 + 4 * usize::from(word(row, 4))].as_chunks().0,
            },
            kind::CHOICE => Row::Choice {
                branches: row[6..6 + 2 * usize::from(word(row, 4))].as_chunks().0,
            },
            _ => Row::Octets {
                least: u32::from(least_length(kind)),
                most: u32::from(word(row, 4)),
            },
        }
    }
}

/// The least length of octets, by the row's kind.
#[inline]
const fn least_length(kind: u16) -> u16 {
    match kind {
        kind::OPEN_OCTETS => 1,
        _ => 0,
    }
}

/// The two-octet number at this offset.
#[inline]
pub(super) fn word(octets: &[u8], at: usize) -> u16 {
    u16::from_le_bytes([octets[at], octets[at + 1]])
}

/// The row that a field refers to.
#[inline]
pub fn field_row(field: &[u8; 4]) -> usize {
    usize::from(word(field, 0))
}

/// Whether a field is optional. In a passed table the flag is 0 or 1.
#[inline]
pub fn field_optional(field: &[u8; 4]) -> bool {
    word(field, 2) != 0
}

/// The row that a branch refers to, or nothing if the branch is reserved.
#[inline]
pub fn branch_row(branch: &[u8; 2]) -> Option<usize> {
    match word(branch, 0) {
        RESERVED => None,
        reference => Some(usize::from(reference)),
    }
}

/// The offset of the root, if the table obeys the rules.
pub fn root_of(table: &[u8]) -> Option<usize> {
    Reference::find_root(table).ok()
}

/// The depths of the rows so far, by half their offsets: row lengths are even, so rows start at even
/// offsets. 0 where no row starts.
struct Depths([u8; TABLE_MOST / 2]);

impl Depths {
    /// The depth of the row that a reference leads to, or 0 where no earlier row starts.
    #[inline]
    fn at(&self, reference: u16) -> u8 {
        // An odd reference turns into an index that is out of range.
        let index = usize::from(reference.rotate_right(1));
        self.0.get(index).copied().unwrap_or(0)
    }

    #[inline]
    fn set(&mut self, offset: usize, depth: u8) {
        self.0[offset / 2] = depth;
    }
}

/// The depths that the references of a row lead to.
struct Referred {
    deepest: u8,
    /// Whether each leads to an earlier row.
    known: bool,
}

impl Referred {
    #[inline]
    fn to_none() -> Referred {
        Referred {
            deepest: 0,
            known: true,
        }
    }

    #[inline]
    fn add(&mut self, depth: u8) {
        self.deepest = self.deepest.max(depth);
        self.known &= depth > 0;
    }

    /// The deepest of them.
    #[inline]
    fn deepest(self) -> Result<u8, Part> {
        hold(self.known, Refusal::WRONG_REFERENCE)?;
        Ok(self.deepest)
    }
}

/// The part of a row that is wrong, as the refusal's number.
type Part = u32;

#[inline]
fn hold(right: bool, part: Part) -> Result<(), Part> {
    if right {
        Ok(())
    } else {
        Err(part)
    }
}

/// A row of the length that its kind asks for.
#[inline]
fn of_length<const N: usize>(row: &[u8]) -> Result<&[u8; N], Part> {
    row.try_into().map_err(|_| Refusal::WRONG_ROW_LENGTH)
}

/// Holds a count, a limit or m to its bounds.
#[inline]
fn within(number: u16, bounds: RangeInclusive<u16>) -> Result<(), Part> {
    hold(bounds.contains(&number), Refusal::WRONG_ROW_NUMBER)
}

/// The bounds of a count, a limit or m, by the row's kind.
pub(super) mod bounds {
    use super::{kind, least_length, RangeInclusive, LENGTH_MOST};

    pub const FIXED_RUN: RangeInclusive<u16> = 1..=1_024;
    pub const COUNTED_RUN: RangeInclusive<u16> = 1..=LENGTH_MOST as u16;
    pub const RECORD: RangeInclusive<u16> = 1..=32;
    pub const CHOICE: RangeInclusive<u16> = 2..=128;

    /// A limit of octets lets their least length through.
    #[inline]
    pub fn octets(kind: u16) -> RangeInclusive<u16> {
        least_length(kind)..=LENGTH_MOST as u16
    }

    /// Those of a kind; nothing where it has none of these numbers, or is unknown.
    pub fn of(kind: u16) -> Option<RangeInclusive<u16>> {
        match kind {
            kind::FIXED_RUN => Some(FIXED_RUN),
            kind::COUNTED_RUN => Some(COUNTED_RUN),
            kind::RECORD => Some(RECORD),
            kind::CHOICE => Some(CHOICE),
            kind::OCTETS | kind::OPEN_OCTETS => Some(octets(kind)),
            _ => None,
        }
    }
}

impl<const F: u8> Engine<F> {
    pub(super) fn check_table(table: &[u8]) -> Answer {
        match Self::find_root(table) {
            Ok(_) => Answer::PASSED,
            Err(refusal) => refusal.into(),
        }
    }

    /// The root of a table that a message is read or written under.
    #[inline]
    pub(super) fn root_for_message(table: &[u8]) -> Result<usize, Refusal> {
        let root = Self::find_root(table);
        if planted::<F>(Fault::BrokenTableAsOne) {
            return root.map_err(|_| Refusal::new(Refusal::TABLE_SIZE, 0));
        }
        if planted::<F>(Fault::RowPlaceInBits) {
            return root.map_err(|Refusal { number, place }| Refusal {
                number,
                place: 8 * place,
            });
        }
        root
    }

    /// The offset of the root, or the first row that breaks a rule. One pass over the rows in order:
    /// the depth of a row is known before any row can refer to it.
    pub(super) fn find_root(table: &[u8]) -> Result<usize, Refusal> {
        let small = table.len() < TABLE_LEAST && !planted::<F>(Fault::SizeAsRow);
        if small || table.len() > TABLE_MOST {
            return Err(Refusal::new(Refusal::TABLE_SIZE, 0));
        }
        let mut depths = Depths([0; TABLE_MOST / 2]);
        let mut at = 0;
        let mut broken = None;
        loop {
            let rest = &table[at..];
            let (length, depth) = match Self::test_row(rest, &depths) {
                Ok(row) => row,
                Err(part) => {
                    let refusal = Refusal::new(part, Self::place_told(at, rest));
                    if !planted::<F>(Fault::LastBrokenRow) || part < Refusal::WRONG_ROW_NUMBER {
                        return Err(refusal);
                    }
                    broken = Some(refusal);
                    (usize::from(word(rest, 0)), 1)
                }
            };
            depths.set(at, depth);
            if planted::<F>(Fault::ReferenceInsideRow) && length == 12 && rest[4..8] == [4, 0, 2, 0]
            {
                depths.set(at + 4, 1);
            }
            if length == rest.len() {
                return broken.map_or(Ok(at), Err);
            }
            at += length;
        }
    }

    /// The place that is told of a row.
    #[inline]
    fn place_told(at: usize, rest: &[u8]) -> usize {
        if planted::<F>(Fault::RowPlaceZero) {
            return 0;
        }
        if planted::<F>(Fault::NextRowPlace) && rest.len() >= 2 {
            return at + usize::from(word(rest, 0));
        }
        at
    }

    /// The length and depth of the row that these octets start with, or its first part that is
    /// wrong: its end, kind, length, numbers and flags, references, branches, depth.
    #[inline]
    fn test_row(rest: &[u8], depths: &Depths) -> Result<(usize, u8), Part> {
        Self::test_too_early(rest)?;
        hold(rest.len() >= 4, Refusal::ROW_PAST_END)?;
        let length = usize::from(word(rest, 0));
        let row = rest.get(..length).ok_or(Refusal::ROW_PAST_END)?;
        let kind = if planted::<F>(Fault::KindLowOctet) {
            u16::from(rest[2])
        } else {
            word(rest, 2)
        };
        let deepest = match kind {
            kind::NUMBER => of_length::<12>(row).map(|_| 0)?,
            kind::VARIABLE => of_length::<4>(row).map(|_| 0)?,
            kind::FIXED_RUN => Self::test_run(row, bounds::FIXED_RUN, depths)?,
            kind::COUNTED_RUN => Self::test_run(row, bounds::COUNTED_RUN, depths)?,
            kind::RECORD => Self::test_record(row, depths)?,
            kind::CHOICE => Self::test_choice(row, depths)?,
            kind::OCTETS | kind::OPEN_OCTETS => Self::test_octets(row, kind)?,
            _ if planted::<F>(Fault::KindNinePasses) && kind == kind::OPEN_OCTETS + 1 => {
                Self::test_octets(row, kind::OPEN_OCTETS)?
            }
            _ => return Err(Refusal::UNKNOWN_KIND),
        };
        let depth_most = DEPTH_MOST + u8::from(planted::<F>(Fault::DepthOneMore));
        hold(deepest < depth_most, Refusal::TOO_DEEP)?;
        Ok((length, deepest + 1))
    }

    /// Octets refer to no row.
    #[inline]
    fn test_octets(row: &[u8], kind: u16) -> Result<u8, Part> {
        let most = word(of_length::<6>(row)?, 4);
        if !planted::<F>(Fault::OpenMostZero) || most > 0 {
            within(most, bounds::octets(kind))?;
        }
        Ok(0)
    }

    /// The depth of the row that a run refers to.
    #[inline]
    fn test_run(row: &[u8], bounds: RangeInclusive<u16>, depths: &Depths) -> Result<u8, Part> {
        let row = of_length::<8>(row)?;
        let mut referred = Referred::to_none();
        referred.add(depths.at(word(row, 6)));
        if planted::<F>(Fault::ReferenceBeforeCount) {
            hold(referred.known, Refusal::WRONG_REFERENCE)?;
        }
        within(word(row, 4), bounds)?;
        referred.deepest()
    }

    /// The depth of the deepest row that a record refers to. Every flag comes before every
    /// reference.
    #[inline]
    fn test_record(row: &[u8], depths: &Depths) -> Result<u8, Part> {
        let fields = Self::items::<4>(row, bounds::RECORD)?;
        let mut flags = 0;
        let mut referred = Referred::to_none();
        for field in fields {
            flags |= word(field, 2);
            referred.add(depths.at(word(field, 0)));
            if planted::<F>(Fault::FlagBesideReference) {
                hold(flags <= 1, Refusal::WRONG_ROW_NUMBER)?;
                hold(referred.known, Refusal::WRONG_REFERENCE)?;
            }
            if planted::<F>(Fault::DepthBeforeReference) {
                hold(referred.deepest < DEPTH_MOST, Refusal::TOO_DEEP)?;
            }
        }
        if planted::<F>(Fault::ReferenceBeforeFlag) {
            hold(referred.known, Refusal::WRONG_REFERENCE)?;
        }
        hold(flags <= 1, Refusal::WRONG_ROW_NUMBER)?;
        referred.deepest()
    }

    /// The depth of the deepest row that a choice refers to; it refers to one at least.
    #[inline]
    fn test_choice(row: &[u8], depths: &Depths) -> Result<u8, Part> {
        let branches = Self::items::<2>(row, bounds::CHOICE)?;
        let mut referred = Referred::to_none();
        for branch in branches {
            match word(branch, 0) {
                RESERVED => (),
                reference => referred.add(depths.at(reference)),
            }
        }
        let deepest = referred.deepest()?;
        if planted::<F>(Fault::NoBranchAsReference) {
            hold(deepest > 0, Refusal::WRONG_REFERENCE)?;
        }
        hold(deepest > 0, Refusal::ONLY_RESERVED)?;
        Ok(deepest)
    }

    /// The fields of a record or the branches of a choice, of N octets each. Their count m stands
    /// before them; it is held to the row's length, and then to its bounds.
    #[inline]
    fn items<const N: usize>(row: &[u8], bounds: RangeInclusive<u16>) -> Result<&[[u8; N]], Part> {
        let (head, items) = row
            .split_first_chunk::<6>()
            .ok_or(Refusal::WRONG_ROW_LENGTH)?;
        let m = word(head, 4);
        if planted::<F>(Fault::BoundsInLength) {
            hold(bounds.contains(&m), Refusal::WRONG_ROW_LENGTH)?;
        }
        let right = if planted::<F>(Fault::LengthWraps) {
            row.len() as u16 == m.wrapping_mul(N as u16).wrapping_add(6)
        } else {
            row.len() == 6 + N * usize::from(m)
        };
        hold(right, Refusal::WRONG_ROW_LENGTH)?;
        within(m, bounds)?;
        Ok(items.as_chunks().0)
    }

    /// The faults that test a part of a row before those in front of it.
    #[inline]
    fn test_too_early(rest: &[u8]) -> Result<(), Part> {
        let number = |index: usize| rest.get(2 * index..2 * index + 2).map(|at| word(at, 0));
        let (Some(length), Some(kind)) = (number(0), number(1)) else {
            return Ok(());
        };
        if planted::<F>(Fault::KindBeforeEnd) {
            let known = (kind::NUMBER..=kind::OPEN_OCTETS).contains(&kind);
            hold(known, Refusal::UNKNOWN_KIND)?;
        }
        if planted::<F>(Fault::ShortLengthAsEnd) {
            hold(length >= 4, Refusal::ROW_PAST_END)?;
        }
        if planted::<F>(Fault::LengthBeforeKind) {
            hold(length >= 4, Refusal::WRONG_ROW_LENGTH)?;
        }
        let ends = usize::from(length) <= rest.len();
        if planted::<F>(Fault::NumberBeforeLength) && ends {
            if let (Some(count), Some(bounds)) = (number(2), bounds::of(kind)) {
                within(count, bounds)?;
            }
        }
        Ok(())
    }
}
