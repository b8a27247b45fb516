//! Tables: ones that pass the check, and ones that nearly do.

use super::broken::table_with_broken_rows;
use super::Random;
use crate::assemble::{kind, Assembler, Offset, RESERVED};
use crate::reference::{lm_table, LENGTH_MOST, TABLE_LEAST, TABLE_MOST};

/// A table in the making, with what later rows have to know of each row.
pub(super) struct Rows {
    pub(super) table: Assembler,
    rows: Vec<Known>,
}

#[derive(Clone, Copy)]
struct Known {
    offset: Offset,
    depth: u32,
    /// The fewest values that an item of this row has.
    least: u64,
}

/// The fewest values that a row may ask for without being rare.
const LEAST_USUAL: u64 = 200;

/// A table that passes the check.
pub fn passing_table(random: &mut Random) -> Vec<u8> {
    match random.below(512) {
        0 => return lm_table().octets.clone(),
        1..=6 => return chain(random, 32),
        7 => return full_table(random, TABLE_MOST),
        _ => (),
    }
    let (rows, size) = match random.below(64) {
        0 => (60, TABLE_MOST),
        1..=8 => (6 + random.below(14), 1_000),
        _ => (1 + random.below(6), 400),
    };
    let mut table = Rows::new();
    for _ in 0..rows {
        table.add(random, 32);
        if table.table.len() > size - 300 {
            break;
        }
    }
    table.table.finish()
}

/// A table that breaks a rule in one place, or in two, or just about passes.
pub fn nearly_passing_table(random: &mut Random) -> Vec<u8> {
    match random.below(64) {
        0..=3 => {
            let depth = random.pick(&[31, 32, 33, 34]);
            return chain(random, depth);
        }
        4 => {
            let size = random.pick(&[4_090, 4_092, 4_094, 4_096, 4_098, 4_100, 4_104]);
            return full_table(random, size);
        }
        5 => {
            let size = random.index(60);
            return random_octets_like_rows(random, size);
        }
        6 => {
            let size = random.index(60);
            return random.octets(size);
        }
        7 => return reference_inside_row(random),
        8..=9 => return table_of_wrong_size(random),
        10..=25 => return table_with_broken_rows(random),
        _ => (),
    }
    let mut table = passing_table(random);
    match random.below(16) {
        0..=3 => {
            let at = random.index(table.len());
            table[at] = random.word() as u8;
        }
        4 => {
            let at = random.index(table.len());
            table[at] ^= 1 << random.below(8);
        }
        5 => {
            let size = table.len() - random.index(table.len().min(13));
            table.truncate(size);
        }
        6 => {
            let size = 1 + random.index(4);
            let more = random.octets(size);
            table.extend(more);
        }
        _ => spoil_field(random, &mut table),
    }
    table
}

impl Rows {
    pub(super) fn new() -> Rows {
        Rows {
            table: Assembler::new(),
            rows: Vec::new(),
        }
    }

    /// Adds a row of a drawn kind.
    pub(super) fn add(&mut self, random: &mut Random, depth_most: u32) {
        let kind = match random.below(16) {
            0..=2 => kind::NUMBER,
            3 => kind::VARIABLE,
            4..=5 => random.pick(&[kind::OCTETS, kind::OPEN_OCTETS]),
            6..=7 => kind::FIXED_RUN,
            8..=9 => kind::COUNTED_RUN,
            10..=13 => kind::RECORD,
            _ => kind::CHOICE,
        };
        let simple = self.rows.iter().all(|row| row.depth >= depth_most);
        match kind {
            kind::VARIABLE => {
                let offset = self.table.variable();
                self.know(offset, 1, 1);
            }
            kind::OCTETS => {
                let most = some_length(random, 0);
                let offset = self.table.octets(most);
                self.know(offset, 1, 1);
            }
            kind::OPEN_OCTETS => {
                let most = some_length(random, 1);
                let offset = self.table.open_octets(most);
                self.know(offset, 1, 2);
            }
            kind::FIXED_RUN if !simple => {
                let item = self.earlier(random, depth_most);
                let mut count = match random.below(32) {
                    0 => random.pick(&[1_023, 1_024]),
                    1..=4 => 1 + random.below(40),
                    _ => 1 + random.below(8),
                };
                if !random.one_in(8) {
                    count = count.min(LEAST_USUAL / item.least).max(1);
                }
                let offset = self.table.fixed_run(count as u16, item.offset);
                self.know(offset, item.depth + 1, item.least.saturating_mul(count));
            }
            kind::COUNTED_RUN if !simple => {
                let item = self.earlier(random, depth_most);
                let most = some_length(random, 1);
                let offset = self.table.counted_run(most, item.offset);
                self.know(offset, item.depth + 1, 1);
            }
            kind::RECORD if !simple => {
                let count = match random.below(32) {
                    0 => 31 + random.index(2),
                    1 => 9 + random.index(16),
                    _ => 1 + random.index(5),
                };
                let mut fields = Vec::with_capacity(count);
                let (mut depth, mut least) = (0, 0u64);
                for _ in 0..count {
                    let row = self.earlier(random, depth_most);
                    let heavy = least.saturating_add(row.least) > LEAST_USUAL;
                    let optional = random.one_in(2) || heavy;
                    least = least.saturating_add(if optional { 1 } else { row.least });
                    depth = depth.max(row.depth);
                    fields.push((row.offset, optional));
                }
                let offset = self.table.record(&fields);
                self.know(offset, depth + 1, least);
            }
            kind::CHOICE if !simple => {
                let count = match random.below(32) {
                    0 => random.pick(&[127, 128]),
                    1..=3 => random.pick(&[15, 16, 17, 31, 32, 33, 63, 64, 65]),
                    _ => 2 + random.index(5),
                };
                let live = random.index(count);
                let mut branches = Vec::with_capacity(count);
                let (mut depth, mut least) = (0, u64::MAX);
                for index in 0..count {
                    if index != live && random.one_in(if count > 8 { 2 } else { 4 }) {
                        branches.push(None);
                        continue;
                    }
                    let row = self.earlier(random, depth_most);
                    least = least.min(row.least);
                    depth = depth.max(row.depth);
                    branches.push(Some(row.offset));
                }
                let offset = self.table.choice(&branches);
                self.know(offset, depth + 1, least.saturating_add(1));
            }
            _ => {
                let (low, span) = some_number(random);
                let offset = self.table.number(low, span);
                self.know(offset, 1, 1);
            }
        }
    }

    fn know(&mut self, offset: Offset, depth: u32, least: u64) {
        self.rows.push(Known {
            offset,
            depth,
            least,
        });
    }

    /// A row that a new row may refer to; there is one. The newest is the likeliest.
    fn earlier(&self, random: &mut Random, depth_most: u32) -> Known {
        let newest = self.rows[self.rows.len() - 1];
        if newest.depth < depth_most && random.one_in(2) {
            return newest;
        }
        let start = random.index(self.rows.len());
        let turned = self.rows[start..].iter().chain(&self.rows[..start]);
        let usual = turned
            .clone()
            .find(|row| row.depth < depth_most && row.least <= LEAST_USUAL);
        let any = turned.clone().find(|row| row.depth < depth_most);
        *usual.or(any).unwrap_or(&newest)
    }

    /// Any row that a new row may refer to, if there is one.
    pub(super) fn any_earlier(&self, random: &mut Random) -> Option<Offset> {
        (!self.rows.is_empty()).then(|| self.earlier(random, 32).offset)
    }

    /// Adds rows that each refer to the one before; the last has this depth.
    pub(super) fn chain(&mut self, random: &mut Random, depth: u32) -> Offset {
        let (low, span) = some_number(random);
        let mut offset = self.table.number(low, span);
        for _ in 1..depth {
            offset = match random.below(4) {
                0 => self.table.fixed_run(1, offset),
                1 => {
                    let optional = random.one_in(4);
                    self.table.record(&[(offset, optional)])
                }
                2 => {
                    let branches = [None, Some(offset)];
                    self.table.choice(&branches)
                }
                _ => self.table.counted_run(2, offset),
            };
        }
        offset
    }
}

/// Rows that each refer to the one before, to a depth of about 32.
fn chain(random: &mut Random, depth: u32) -> Vec<u8> {
    let mut rows = Rows::new();
    if random.one_in(2) {
        rows.add(random, 1);
    }
    rows.chain(random, depth);
    if random.one_in(4) {
        rows.table.variable(); // the deep row is then not used
    }
    rows.table.finish()
}

/// A table with too few octets or too many, whatever else is right or wrong with it.
fn table_of_wrong_size(random: &mut Random) -> Vec<u8> {
    match random.below(16) {
        0 => full_table(random, TABLE_MOST + 2),
        1..=3 => {
            let mut table = passing_table(random);
            table.resize(TABLE_MOST + 1 + random.index(3), random.word() as u8);
            table
        }
        _ => {
            let mut table = passing_table(random);
            table.truncate(random.index(TABLE_LEAST));
            table
        }
    }
}

/// A table of this even size, of many small rows.
fn full_table(random: &mut Random, size: usize) -> Vec<u8> {
    let mut table = Assembler::new();
    let first = table.variable();
    while size - table.len() >= 12 {
        match random.below(4) {
            0 => table.octets(5),
            1 => table.counted_run(3, first),
            _ => table.variable(),
        };
    }
    if size - table.len() >= 8 {
        table.variable();
    }
    match size - table.len() {
        4 => table.variable(),
        _ => table.octets(2),
    };
    table.finish()
}

/// A number whose octets look like rows, and a row that refers to it or into it.
fn reference_inside_row(random: &mut Random) -> Vec<u8> {
    let mut table = Assembler::new();
    let number = table.number(LIKE_VARIABLE, LIKE_VARIABLE as u32);
    let reference = number + random.pick(&[0, 2, 4, 6, 8]);
    match random.below(4) {
        0 => table.fixed_run(2, reference),
        1 => table.counted_run(2, reference),
        2 => table.record(&[(number, false), (reference, true)]),
        _ => table.choice(&[Some(reference), Some(number), None]),
    };
    table.finish()
}

/// A number whose four octets are a row: a variable number.
const LIKE_VARIABLE: i32 = 0x0002_0004;

/// Two-octet numbers that look like the beginnings of rows.
fn random_octets_like_rows(random: &mut Random, size: usize) -> Vec<u8> {
    let mut octets = Vec::with_capacity(size + 1);
    while octets.len() < size {
        let number = match random.below(4) {
            0 => random.pick(&[4u16, 6, 8, 10, 12, 14]),
            1 => random.below(10) as u16,
            2 => random.below(64) as u16,
            _ => random.pick(&[0, 1, 0xFFFF, 0x0100, 0x3FFF]),
        };
        octets.extend(number.to_le_bytes());
    }
    octets.truncate(size);
    octets
}

/// Puts one two-octet field of one row a little off.
fn spoil_field(random: &mut Random, table: &mut [u8]) {
    let mut starts = Vec::new();
    let mut at = 0;
    while at < table.len() {
        starts.push(at);
        at += usize::from(u16::from_le_bytes([table[at], table[at + 1]]));
    }
    let row = random.index(starts.len());
    let start = starts[row];
    let end = starts.get(row + 1).copied().unwrap_or(table.len());
    let words = (end - start) / 2;
    // Small fields stand in front; references and flags are reached in long rows too.
    let field = match random.below(3) {
        0 => random.index(words.min(3)),
        _ => random.index(words),
    };
    let at = start + 2 * field;
    let old = u16::from_le_bytes([table[at], table[at + 1]]);
    let new = match random.below(16) {
        0 => old.wrapping_add(1),
        1 => old.wrapping_sub(1),
        2 => old.wrapping_add(2),
        3 => old.wrapping_sub(2),
        4 => old.wrapping_add(4),
        5 => old.wrapping_add(256),
        6 => 0,
        7 => 2,
        8 => RESERVED,
        9 => start as u16,
        10 => end as u16,
        11 => starts[random.index(starts.len())] as u16,
        12 => random.pick(&[128, 129, 1_024, 1_025, 16_383, 16_384]),
        13 => random.pick(&[1, 3, 8, 9, 32, 33, 100, 256]),
        14 => old.wrapping_add(0x4000),
        _ => random.below(table.len() as u64) as u16,
    };
    table[at..at + 2].copy_from_slice(&new.to_le_bytes());
}

/// The low and span of a number, often at an edge.
fn some_number(random: &mut Random) -> (i32, u32) {
    let low = match random.below(8) {
        0..=3 => 0,
        4 => random.pick(&[-1, 1, 5, -128, i32::MIN, i32::MAX]),
        5 => LIKE_VARIABLE,
        6 => random.within(-1_000, 1_000) as i32,
        _ => random.word() as i32,
    };
    let span = match random.below(8) {
        0 => 0,
        1..=2 => random.pick(&[1, 2, 3, 4, 7, 8, 200, 255, 256]),
        3 => 1 << random.below(32),
        4 => (1u64 << random.below(33)).wrapping_sub(1) as u32,
        5 => random.pick(&[65_535, 65_536, u32::MAX, u32::MAX - 1]),
        6 => random.below(1_000) as u32,
        _ => random.word() as u32 >> random.below(32),
    };
    (low, span)
}

/// A "most", often at an edge.
fn some_length(random: &mut Random, least: u64) -> u16 {
    let most = match random.below(4) {
        0 => random.below(6),
        1 => random.pick(&[126, 127, 128, 129, 255]),
        2 => random.pick(&[16_382, 16_383]),
        _ => random.below(u64::from(LENGTH_MOST) + 1),
    };
    most.max(least) as u16
}
