//! The independent codec, written from document 01 and tickets 1 to 3, 6 and 7 of document 02
//! alone: what other codecs are compared with, and the baseline for their speed.
//!
//! No call panics or overflows, whatever it is given. Reading and writing allocate nothing.
//!
//! The codec is generic over a planted fault, so that `mutants` can have wrong codecs without a
//! copy; for the reference itself each test for a fault is false at compile time.
//!
//! | Module | What it holds |
//! |---|---|
//! | `table` | the rows, and the check |
//! | `bits` | widths, and fetching bits |
//! | `read` | reading, under a table or through a state |
//! | `write` | writing under a table |
//! | `loaded` | a table loaded into a state, and the rows of any state |
//! | `lm` | an LM by name, and its user data |
//! | `straight` | an LM by name, read without a table |
//! | `elements` | the known extension elements |
//! | `opened` | the opened message |
//! | `bench` | the bench program |
//! | `capture` | the capture program |
//! | `forward` | the forwarding step |
//! | `straight_step` | the same, written out by hand for speed |

mod bench;
mod bits;
mod capture;
mod elements;
mod forward;
mod lm;
mod loaded;
mod opened;
mod read;
pub mod straight;
pub mod straight_step;
mod table;
mod write;

use crate::codec::{Answer, Bits, Call, Codec, Element, Part, Refusal, Seen, StateOctets, Taken};
use crate::mutants::Fault;

pub use bits::{index_width, number_width};
pub use lm::{lm_table, LmTable};
pub use opened::Opened;
pub use table::{branch_row, field_optional, field_row, root_of, Row};

/// The most octets that a message, or an output, may have.
pub const MESSAGE_MOST: usize = 65_535;
/// The sizes that a table may have, in octets.
pub const TABLE_LEAST: usize = 4;
pub const TABLE_MOST: usize = 4_096;
/// The greatest depth of a row.
pub const DEPTH_MOST: u8 = 32;
/// The greatest length that the long form holds.
pub const LENGTH_MOST: u32 = 16_383;
/// The greatest variable number.
pub const VARIABLE_MOST: i64 = VARIABLE_BASES[3] + (1 << 28) - 1;
/// What is added to the content of a variable number of 1, 2, 3 and 4 octets.
pub const VARIABLE_BASES: [i64; 4] = [0, 128, 16_512, 2_113_664];
/// The room for values in the bench program, and in the capture program.
pub const BENCH_ROOM: usize = 1_024;

/// The codec with a planted fault.
pub struct Engine<const F: u8>;

/// The codec without one.
pub type Reference = Engine<{ Fault::None as u8 }>;
pub const REFERENCE: Reference = Engine;

const fn planted<const F: u8>(fault: Fault) -> bool {
    F == fault as u8
}

// ---- The calls -------------------------------------------------------------------------------

/// Whether the table obeys the rules.
pub fn check(table: &[u8]) -> Answer {
    Reference::check_table(table)
}

/// Reads the message into the value slice.
pub fn read_into(table: &[u8], message: &[u8], values: &mut [i64]) -> Answer {
    Reference::read_values(table, message, values)
}

/// Reads with room for `room` values; the second part is the whole value slice afterwards.
pub fn read(table: &[u8], message: &[u8], room: usize) -> (Answer, Vec<i64>) {
    let mut values = vec![0; room];
    (read_into(table, message, &mut values), values)
}

/// Writes the list into the output.
pub fn write_into(table: &[u8], values: &[i64], output: &mut [u8]) -> Answer {
    Reference::write_values(table, values, output)
}

/// Writes into an output of `length` octets; the second part is the whole output afterwards.
pub fn write(table: &[u8], values: &[i64], length: usize) -> (Answer, Vec<u8>) {
    let mut output = vec![0; length];
    (write_into(table, values, &mut output), output)
}

/// Reads an LM by name into the value slice.
pub fn read_lm_into(message: &[u8], values: &mut [i64]) -> Answer {
    Reference::read_lm_values(message, values)
}

/// Reads an LM by name with room for `room` values.
pub fn read_lm(message: &[u8], room: usize) -> (Answer, Vec<i64>) {
    let mut values = vec![0; room];
    (read_lm_into(message, &mut values), values)
}

/// Writes an LM by name into the output.
pub fn write_lm_into(values: &[i64], output: &mut [u8]) -> Answer {
    Reference::write_lm_values(values, output)
}

/// Writes an LM by name into an output of `length` octets.
pub fn write_lm(values: &[i64], length: usize) -> (Answer, Vec<u8>) {
    let mut output = vec![0; length];
    (write_lm_into(values, &mut output), output)
}

/// A table that has passed the check. Reading and writing under it leave the check out, as calls by
/// name do.
#[derive(Clone, Copy)]
pub struct Passed<'a> {
    table: &'a [u8],
    root: usize,
}

impl<'a> Passed<'a> {
    /// Nothing where the table does not obey the rules.
    pub fn new(table: &'a [u8]) -> Option<Passed<'a>> {
        root_of(table).map(|root| Passed { table, root })
    }

    /// Reads the message into the value slice.
    pub fn read_into(self, message: &[u8], values: &mut [i64]) -> Answer {
        Reference::read_message(self.table, self.root, message, values)
    }

    /// Writes the list into the output.
    pub fn write_into(self, values: &[i64], output: &mut [u8]) -> Answer {
        Reference::write_root(self.table, self.root, values, output)
    }
}

/// Loads a table into a state.
pub fn load(state: &mut StateOctets, table: &[u8]) -> Answer {
    Reference::load_table(state, table)
}

/// Reads through a state into the value slice, whatever the state holds.
pub fn read_loaded_into(state: &StateOctets, message: &[u8], values: &mut [i64]) -> Answer {
    Reference::read_state(state, message, values)
}

/// Reads through a state with room for `room` values.
pub fn read_loaded(state: &StateOctets, message: &[u8], room: usize) -> (Answer, Vec<i64>) {
    let mut values = vec![0; room];
    (read_loaded_into(state, message, &mut values), values)
}

/// The start and length in octets of an LM's user data.
pub fn user_data(message: &[u8]) -> Result<(usize, usize), Refusal> {
    Reference::find_user_data(message)
}

/// The part of the LM that is its user data; empty, from the message's start, on a refusal.
pub fn user_data_part(message: &[u8]) -> &[u8] {
    match user_data(message) {
        Ok((start, length)) => &message[start..start + length],
        Err(_) => &message[..0],
    }
}

/// Where the element with this ID belongs, seen from this home.
pub fn element(id: u64, home: u64) -> Element {
    Reference::find_element(id, home)
}

/// What the bench program prints. It has no tables for SAM and SRM; see `bench_with`.
pub fn bench(input: &[u8]) -> String {
    Reference::run_bench(input, &[], &[])
}

/// What the bench program prints with these tables for SAM and SRM. An empty table refuses every
/// message of its kind with 1.
pub fn bench_with(input: &[u8], sam: &[u8], srm: &[u8]) -> String {
    Reference::run_bench(input, sam, srm)
}

/// What the capture program prints.
pub fn capture(file: &[u8]) -> String {
    Reference::run_capture(file)
}

/// Forwards a message into the output, at this time, over this list of what was forwarded.
pub fn forward(message: &[u8], now: u32, seen: &mut [Seen], output: &mut [u8]) -> Answer {
    Reference::forward_message(message, now, seen, output)
}

// ---- As a codec under test -------------------------------------------------------------------

impl<const F: u8> Engine<F> {
    /// Lends a value slice in the host's form.
    fn lend(values: &mut [u8], call: impl Fn(&mut [[u8; 8]]) -> Answer) -> Answer {
        let (whole, tail) = values.as_chunks_mut();
        if !planted::<F>(Fault::TailKept) {
            tail.fill(0);
        }
        call(whole)
    }
}

impl<const F: u8> Codec for Engine<F> {
    fn name(&self) -> String {
        match Fault::ALL[usize::from(F)] {
            Fault::None => "reference".to_string(),
            fault => format!("reference with {fault:?}"),
        }
    }

    fn offers(&self, _call: Call) -> bool {
        true
    }

    fn check(&self, table: &[u8]) -> Answer {
        Self::check_table(table)
    }

    fn read(&self, table: &[u8], message: &[u8], values: &mut [u8]) -> Answer {
        Self::lend(values, |values| Self::read_values(table, message, values))
    }

    fn write(&self, table: &[u8], values: &[u8], output: &mut [u8]) -> Answer {
        Self::write_values(table, values.as_chunks().0, output)
    }

    fn read_lm(&self, message: &[u8], values: &mut [u8]) -> Answer {
        Self::lend(values, |values| Self::read_lm_values(message, values))
    }

    fn write_lm(&self, values: &[u8], output: &mut [u8]) -> Answer {
        Self::write_lm_values(values.as_chunks().0, output)
    }

    fn user_data(&self, message: &[u8]) -> Result<Part, Refusal> {
        let (start, length) = Self::find_user_data(message)?;
        Ok(Part {
            start: start as u64,
            length: length as u64,
        })
    }

    fn element(&self, id: u64, home: u64) -> Element {
        Self::find_element(id, home)
    }

    fn take(&self, message: &[u8], widths: &[u64]) -> Taken {
        let (mut message, opened) = Opened::new(message);
        let steps = widths
            .iter()
            .map(|&width| {
                message.take_with::<F>(width).map(|number| Bits {
                    number,
                    place: message.place() as u64,
                })
            })
            .collect();
        Taken { opened, steps }
    }

    fn bench(&self, input: &[u8]) -> String {
        Self::run_bench(input, &[], &[])
    }

    fn load(&self, state: &mut StateOctets, table: &[u8]) -> Answer {
        Self::load_table(state, table)
    }

    fn read_loaded(&self, state: &StateOctets, message: &[u8], values: &mut [u8]) -> Answer {
        Self::lend(values, |values| Self::read_state(state, message, values))
    }

    fn capture(&self, file: &[u8]) -> String {
        Self::run_capture(file)
    }

    fn forward(&self, message: &[u8], now: u32, seen: &mut [Seen], output: &mut [u8]) -> Answer {
        Self::forward_message(message, now, seen, output)
    }
}
