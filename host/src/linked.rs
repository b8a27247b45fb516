//! The calls of the static libraries, made safe. Beside `guarded` the one file with `unsafe`.
//!
//! A slice is given as a pointer to its first element and the count of its elements, the six
//! numbers of the answer and a state as one pointer each. The calls keep no pointer, hold no state of
//! their own, and are proved to write to the lent slices, a state that is loaded and the numbers alone,
//! whatever the octets are; only the `used` of a record is 0 or 1, as any `bool`.

#[cfg(not(target_endian = "little"))]
compile_error!("the libraries take values as eight octets, little-endian, and lists are lent as they stand in memory");

use std::slice;

use crate::codec::Answer;

/// An answer as the libraries give it: the refusal's number or 0, its place, the counts of values,
/// bits and octets, and 0.
pub type Numbers = [u64; 6];

/// What the numbers hold before a call, so that one which is not written shows.
pub const BEFORE: Numbers = [u64::MAX; 6];

/// The answer of a call that tells it in numbers.
#[inline]
pub fn answer(call: impl FnOnce(&mut Numbers)) -> Answer {
    let mut numbers = BEFORE;
    call(&mut numbers);
    told(numbers)
}

/// The answer that these numbers tell.
#[inline]
pub fn told([number, place, values, bits, octets, _]: Numbers) -> Answer {
    if number == 0 {
        Answer::Accepted {
            values,
            bits,
            octets,
        }
    } else {
        Answer::Refused {
            number: number as u32,
            place,
        }
    }
}

/// A list's octets, in place.
#[cfg(tables)]
#[inline]
pub fn octets(values: &[i64]) -> &[u8] {
    // SAFETY: the same memory, lent for as long; octets need no alignment, and those of an i64 are
    // all initialised.
    unsafe { slice::from_raw_parts(values.as_ptr().cast(), size_of_val(values)) }
}

/// A value slice's octets, in place.
#[inline]
pub fn octets_mut(values: &mut [i64]) -> &mut [u8] {
    // SAFETY: as in `octets`; the slice is lent to us alone, and any eight octets are an i64.
    unsafe { slice::from_raw_parts_mut(values.as_mut_ptr().cast(), size_of_val(values)) }
}

/// The calls under tables, from libteyolxan.a.
#[cfg(tables)]
pub mod tables {
    #[cfg(feature = "probe")]
    use std::slice;

    use super::Numbers;
    use crate::codec::{Seen, StateOctets};

    extern "C" {
        fn teyolxan_check(table: *const u8, table_length: usize, numbers: *mut Numbers);

        fn teyolxan_read(
            table: *const u8,
            table_length: usize,
            message: *const u8,
            message_length: usize,
            values: *mut u8,
            values_length: usize,
            numbers: *mut Numbers,
        );

        fn teyolxan_write(
            table: *const u8,
            table_length: usize,
            values: *const u8,
            values_length: usize,
            output: *mut u8,
            output_length: usize,
            numbers: *mut Numbers,
        );

        fn teyolxan_load(
            state: *mut StateOctets,
            table: *const u8,
            table_length: usize,
            numbers: *mut Numbers,
        );

        fn teyolxan_read_loaded(
            state: *const StateOctets,
            message: *const u8,
            message_length: usize,
            values: *mut u8,
            values_length: usize,
            numbers: *mut Numbers,
        );

        fn teyolxan_forward(
            message: *const u8,
            message_length: usize,
            now: u32,
            seen: *mut Seen,
            seen_length: usize,
            output: *mut u8,
            output_length: usize,
            numbers: *mut Numbers,
        );
    }

    #[inline]
    pub fn check(table: &[u8], numbers: &mut Numbers) {
        // SAFETY: pointer and length are those of a live slice, and the numbers are lent to us alone.
        unsafe { teyolxan_check(table.as_ptr(), table.len(), numbers) };
    }

    #[inline]
    pub fn read(table: &[u8], message: &[u8], values: &mut [u8], numbers: &mut Numbers) {
        // SAFETY: pointers and lengths are those of live slices; only `values` and the numbers,
        // which are lent to us alone, are written.
        unsafe {
            teyolxan_read(
                table.as_ptr(),
                table.len(),
                message.as_ptr(),
                message.len(),
                values.as_mut_ptr(),
                values.len(),
                numbers,
            )
        };
    }

    #[inline]
    pub fn write(table: &[u8], values: &[u8], output: &mut [u8], numbers: &mut Numbers) {
        // SAFETY: pointers and lengths are those of live slices; only `output` and the numbers,
        // which are lent to us alone, are written.
        unsafe {
            teyolxan_write(
                table.as_ptr(),
                table.len(),
                values.as_ptr(),
                values.len(),
                output.as_mut_ptr(),
                output.len(),
                numbers,
            )
        };
    }

    #[inline]
    pub fn load(state: &mut StateOctets, table: &[u8], numbers: &mut Numbers) {
        // SAFETY: pointer and length are those of a live slice; only the state and the numbers, which are
        // lent to us alone, are written.
        unsafe { teyolxan_load(state, table.as_ptr(), table.len(), numbers) };
    }

    #[inline]
    pub fn read_loaded(
        state: &StateOctets,
        message: &[u8],
        values: &mut [u8],
        numbers: &mut Numbers,
    ) {
        // SAFETY: the state has its size, pointers and lengths are those of live slices; only `values` and
        // the numbers, which are lent to us alone, are written.
        unsafe {
            teyolxan_read_loaded(
                state,
                message.as_ptr(),
                message.len(),
                values.as_mut_ptr(),
                values.len(),
                numbers,
            )
        };
    }

    #[inline]
    pub fn forward(
        message: &[u8],
        now: u32,
        seen: &mut [Seen],
        output: &mut [u8],
        numbers: &mut Numbers,
    ) {
        // SAFETY: pointers and lengths are those of live slices, and each `used` is a bool; only `seen`,
        // `output` and the numbers, which are lent to us alone, are written.
        unsafe {
            teyolxan_forward(
                message.as_ptr(),
                message.len(),
                now,
                seen.as_mut_ptr(),
                seen.len(),
                output.as_mut_ptr(),
                output.len(),
                numbers,
            )
        };
    }

    /// A record as it stands in memory, with the three octets behind it: ID, time, and in use or not in
    /// the lowest octet.
    #[cfg(feature = "probe")]
    pub type SeenWords = [u32; 3];

    /// The same with records as they stand in memory, for tests that look at all octets of a list.
    #[cfg(feature = "probe")]
    pub fn forward_words(
        message: &[u8],
        now: u32,
        seen: &mut [SeenWords],
        output: &mut [u8],
        numbers: &mut Numbers,
    ) {
        let used = |record: &SeenWords| record[2].to_le_bytes()[0];
        assert!(seen.iter().all(|record| used(record) <= 1), "no list");
        // SAFETY: the same memory, lent for as long; a record has the size and the alignment of its words,
        // and each `used` is a bool.
        let seen = unsafe { slice::from_raw_parts_mut(seen.as_mut_ptr().cast(), seen.len()) };
        forward(message, now, seen, output, numbers);
    }
}

/// The LM reader without a table, from libteyolxan_lm.a.
#[cfg(feature = "lm")]
pub mod lm {
    use super::Numbers;

    extern "C" {
        fn teyolxan_lm_read(
            message: *const u8,
            message_length: usize,
            values: *mut u8,
            values_length: usize,
            numbers: *mut Numbers,
        );
    }

    #[inline]
    pub fn read(message: &[u8], values: &mut [u8], numbers: &mut Numbers) {
        // SAFETY: pointers and lengths are those of live slices; only `values` and the numbers,
        // which are lent to us alone, are written.
        unsafe {
            teyolxan_lm_read(
                message.as_ptr(),
                message.len(),
                values.as_mut_ptr(),
                values.len(),
                numbers,
            )
        };
    }
}

/// The calls by name, and with values as numbers, from libprobe.a and libprobe_lm.a, which are built for
/// tests.
#[cfg(feature = "probe")]
pub mod probe {
    use super::Numbers;
    use crate::codec::StateOctets;

    extern "C" {
        fn probe_read_lm(
            message: *const u8,
            message_length: usize,
            values: *mut i64,
            values_count: usize,
            numbers: *mut Numbers,
        );

        fn probe_read_sam(
            message: *const u8,
            message_length: usize,
            values: *mut i64,
            values_count: usize,
            numbers: *mut Numbers,
        );

        fn probe_read_srm(
            message: *const u8,
            message_length: usize,
            values: *mut i64,
            values_count: usize,
            numbers: *mut Numbers,
        );

        fn probe_write_lm(
            values: *const i64,
            values_count: usize,
            output: *mut u8,
            output_length: usize,
            numbers: *mut Numbers,
        );

        fn probe_write_sam(
            values: *const i64,
            values_count: usize,
            output: *mut u8,
            output_length: usize,
            numbers: *mut Numbers,
        );

        fn probe_write_srm(
            values: *const i64,
            values_count: usize,
            output: *mut u8,
            output_length: usize,
            numbers: *mut Numbers,
        );

        fn probe_read_lm_plain(
            message: *const u8,
            message_length: usize,
            values: *mut i64,
            values_count: usize,
            numbers: *mut Numbers,
        );

        fn probe_read_loaded(
            state: *const StateOctets,
            message: *const u8,
            message_length: usize,
            values: *mut i64,
            values_count: usize,
            numbers: *mut Numbers,
        );

        fn probe_element(id: u32, home: u32) -> u32;

        fn probe_user_data(message: *const u8, message_length: usize, numbers: *mut Numbers);

        fn probe_open(message: *const u8, message_length: usize, numbers: *mut Numbers);

        fn probe_take(
            message: *const u8,
            message_length: usize,
            place: usize,
            k: u32,
            numbers: *mut Numbers,
        );

        fn probe_take_bitwise(
            message: *const u8,
            message_length: usize,
            place: usize,
            k: u32,
            numbers: *mut Numbers,
        );
    }

    /// The messages that have a name.
    #[derive(Clone, Copy, Debug, PartialEq, Eq)]
    pub enum Name {
        Lm,
        Sam,
        Srm,
    }

    #[inline]
    pub fn read(name: Name, message: &[u8], values: &mut [i64], numbers: &mut Numbers) {
        let call = match name {
            Name::Lm => probe_read_lm,
            Name::Sam => probe_read_sam,
            Name::Srm => probe_read_srm,
        };
        // SAFETY: pointers and lengths are those of live slices; only `values` and the numbers,
        // which are lent to us alone, are written.
        unsafe {
            call(
                message.as_ptr(),
                message.len(),
                values.as_mut_ptr(),
                values.len(),
                numbers,
            )
        };
    }

    #[inline]
    pub fn write(name: Name, values: &[i64], output: &mut [u8], numbers: &mut Numbers) {
        let call = match name {
            Name::Lm => probe_write_lm,
            Name::Sam => probe_write_sam,
            Name::Srm => probe_write_srm,
        };
        // SAFETY: pointers and lengths are those of live slices; only `output` and the numbers,
        // which are lent to us alone, are written.
        unsafe {
            call(
                values.as_ptr(),
                values.len(),
                output.as_mut_ptr(),
                output.len(),
                numbers,
            )
        };
    }

    /// Reads an LM without a table, with the values as numbers.
    #[inline]
    pub fn read_lm_plain(message: &[u8], values: &mut [i64], numbers: &mut Numbers) {
        // SAFETY: as in `read`.
        unsafe {
            probe_read_lm_plain(
                message.as_ptr(),
                message.len(),
                values.as_mut_ptr(),
                values.len(),
                numbers,
            )
        };
    }

    /// Reads through a state, with the values as numbers.
    #[inline]
    pub fn read_loaded(
        state: &StateOctets,
        message: &[u8],
        values: &mut [i64],
        numbers: &mut Numbers,
    ) {
        // SAFETY: the state has its size, pointers and lengths are those of live slices; only `values`
        // and the numbers, which are lent to us alone, are written.
        unsafe {
            probe_read_loaded(
                state,
                message.as_ptr(),
                message.len(),
                values.as_mut_ptr(),
                values.len(),
                numbers,
            )
        };
    }

    pub fn element(id: u32, home: u32) -> u32 {
        // SAFETY: two numbers in, one out.
        unsafe { probe_element(id, home) }
    }

    pub fn user_data(message: &[u8], numbers: &mut Numbers) {
        // SAFETY: pointer and length are those of a live slice; only the numbers are written.
        unsafe { probe_user_data(message.as_ptr(), message.len(), numbers) };
    }

    pub fn open(message: &[u8], numbers: &mut Numbers) {
        // SAFETY: as in `user_data`.
        unsafe { probe_open(message.as_ptr(), message.len(), numbers) };
    }

    #[inline]
    pub fn take(message: &[u8], place: usize, k: u32, numbers: &mut Numbers) {
        // SAFETY: as in `user_data`; any place and any k may be asked.
        unsafe { probe_take(message.as_ptr(), message.len(), place, k, numbers) };
    }

    #[inline]
    pub fn take_bitwise(message: &[u8], place: usize, k: u32, numbers: &mut Numbers) {
        // SAFETY: as in `take`.
        unsafe { probe_take_bitwise(message.as_ptr(), message.len(), place, k, numbers) };
    }
}
