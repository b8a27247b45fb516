//! The calls of asn1c's code, made safe: most through host/asn1c/calls.c.

use std::ffi::{c_int, c_void};
use std::ptr::NonNull;

use crate::subjects::Kind;

extern "C" {
    fn asn1c_decode(kind: c_int, message: *const u8, length: usize) -> *mut c_void;
    fn asn1c_encode(kind: c_int, structure: *mut c_void, output: *mut u8, length: usize) -> isize;
    fn asn1c_free(kind: c_int, structure: *mut c_void);
    fn asn1c_opened() -> *mut c_void;
    fn asn1c_rewind(opened: *mut c_void, message: *const u8, length: usize, place: usize);
    fn asn1c_close(opened: *mut c_void);
    fn per_get_few_bits(opened: *mut c_void, width: c_int) -> i32;
}

/// The most bits that asn1c gives at once.
const TAKE_MOST: u32 = 31;

/// A decoded message.
pub struct Structure {
    kind: c_int,
    pointer: NonNull<c_void>,
}

/// The number of a kind in host/asn1c/calls.c, or nothing where the module doesn't have it.
pub fn number_of(kind: Kind) -> Option<c_int> {
    match kind {
        Kind::Lm => Some(0),
        Kind::Sam => Some(1),
        Kind::OctetNumbers => Some(2),
        Kind::TwoOctetNumbers => Some(3),
        Kind::BitThenOctets => Some(4),
        Kind::TenRows | Kind::TenRowsOfMany => None,
    }
}

impl Structure {
    /// Nothing where the octets are no such message.
    pub fn decode(kind: Kind, message: &[u8]) -> Option<Structure> {
        let kind = number_of(kind)?;
        // SAFETY: pointer and length are those of a live slice, which is only read.
        let pointer = unsafe { asn1c_decode(kind, message.as_ptr(), message.len()) };
        NonNull::new(pointer).map(|pointer| Structure { kind, pointer })
    }

    /// The size of the message, written to the start of the output.
    pub fn encode(&self, output: &mut [u8]) -> Option<usize> {
        // SAFETY: the structure is of this kind and live; the output is lent to us alone.
        let size = unsafe {
            asn1c_encode(
                self.kind,
                self.pointer.as_ptr(),
                output.as_mut_ptr(),
                output.len(),
            )
        };
        usize::try_from(size).ok()
    }
}

impl Drop for Structure {
    fn drop(&mut self) {
        // SAFETY: the structure is of this kind, and nobody has it any more.
        unsafe { asn1c_free(self.kind, self.pointer.as_ptr()) }
    }
}

/// A message and a bit place in it.
pub struct Opened {
    pointer: NonNull<c_void>,
}

impl Opened {
    pub fn new(message: &'static [u8], place: usize) -> Opened {
        // SAFETY: the space is ours; the message outlives it, and the place lies in it.
        unsafe {
            let pointer = NonNull::new(asn1c_opened()).expect("memory");
            asn1c_rewind(pointer.as_ptr(), message.as_ptr(), message.len(), place);
            Opened { pointer }
        }
    }

    /// The number in the next bits. More than asn1c gives at once are two calls.
    #[inline]
    pub fn take(&mut self, width: u32) -> Option<u64> {
        if width <= TAKE_MOST {
            return self.take_few(width);
        }
        let low = width / 2;
        let high = self.take_few(width - low)?;
        Some(high << low | self.take_few(low)?)
    }

    #[inline]
    fn take_few(&mut self, width: u32) -> Option<u64> {
        // SAFETY: the space is ours and was set; the call itself refuses a width that is too large.
        let number = unsafe { per_get_few_bits(self.pointer.as_ptr(), width as c_int) };
        u64::try_from(number).ok()
    }
}

impl Drop for Opened {
    fn drop(&mut self) {
        // SAFETY: the space is ours.
        unsafe { asn1c_close(self.pointer.as_ptr()) }
    }
}
