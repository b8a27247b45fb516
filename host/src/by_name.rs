//! The calls by name, and the plain LM reader with values as numbers, through the library that is built
//! for tests. A host lends its tables, or reads LMs by `lm`.

use crate::codec::{Answer, Bits, Element, Refusal};
use crate::linked::{answer, probe, BEFORE};

pub use crate::linked::probe::Name;
pub use crate::linked::Numbers;

/// Reads the message into the value slice.
#[inline]
pub fn read(name: Name, message: &[u8], values: &mut [i64]) -> Answer {
    answer(|numbers| probe::read(name, message, values, numbers))
}

/// Writes the list into the output.
#[inline]
pub fn write(name: Name, values: &[i64], output: &mut [u8]) -> Answer {
    answer(|numbers| probe::write(name, values, output, numbers))
}

/// Reads an LM without a table into the value slice.
#[inline]
pub fn read_lm_plain(message: &[u8], values: &mut [i64]) -> Answer {
    answer(|numbers| probe::read_lm_plain(message, values, numbers))
}

/// Takes k bits from an opened message at a place.
#[inline]
pub fn take(message: &[u8], place: usize, k: u32) -> Result<Bits, Refusal> {
    let mut numbers = BEFORE;
    take_told(message, place, k, &mut numbers)
}

/// The same, told in six numbers that the caller lends, whatever they hold before.
#[inline]
pub fn take_told(
    message: &[u8],
    place: usize,
    k: u32,
    numbers: &mut Numbers,
) -> Result<Bits, Refusal> {
    probe::take(message, place, k, numbers);
    bits_told(numbers)
}

/// The same, with the bits fetched one at a time.
#[inline]
pub fn take_bitwise_told(
    message: &[u8],
    place: usize,
    k: u32,
    numbers: &mut Numbers,
) -> Result<Bits, Refusal> {
    probe::take_bitwise(message, place, k, numbers);
    bits_told(numbers)
}

#[inline]
fn bits_told(numbers: &Numbers) -> Result<Bits, Refusal> {
    match *numbers {
        [0, place, number, ..] => Ok(Bits { number, place }),
        [number, place, ..] => Err(Refusal {
            number: number as u32,
            place,
        }),
    }
}

/// Where the element with this ID belongs, seen from this home.
pub fn element(id: u32, home: u32) -> Element {
    match probe::element(id, home) {
        0 => Element::Here,
        1 => Element::Elsewhere,
        2 => Element::Unknown,
        other => panic!("{other} is no answer for an element"),
    }
}
