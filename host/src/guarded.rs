//! Where the slices of a call stand: as they are, or between guards; and how much stack a call takes.
//! Beside `linked` the one file with `unsafe`.
//!
//! The libraries carry no instrumentation, so no sanitizer sees what they do. Here the memory does:
//! a guard is memory that may not be touched, and a call that reads or writes one octet beside its
//! slice dies by a signal, as does one that writes to a slice which it is only shown.

use std::arch::asm;
use std::cell::{Cell, RefCell};
use std::ffi::{c_char, c_int, c_long, c_uint, c_void};
use std::fs::File;
use std::os::fd::{AsRawFd, FromRawFd};
use std::{ptr, slice};

use crate::codec::{Seen, STATE_SIZE};
use crate::linked::tables::{self, SeenWords};
use crate::linked::{self, lm};
use crate::random::Random;

/// Where the slices of a call stand while it runs.
pub trait Memory {
    /// Makes a call that is shown a slice.
    fn show<T: Element, A>(&self, slice: &[T], call: impl FnOnce(&[T]) -> A) -> A;

    /// Makes a call that writes to a slice.
    fn lend<T: Element, A>(&self, slice: &mut [T], call: impl FnOnce(&mut [T]) -> A) -> A;
}

/// What slices hold.
///
/// # Safety
///
/// Any octets are an element, and all octets of an element are initialised.
pub unsafe trait Element: Copy {}

// SAFETY: whole numbers.
unsafe impl Element for u8 {}
// SAFETY: whole numbers.
unsafe impl Element for i64 {}
// SAFETY: whole numbers.
unsafe impl Element for u64 {}
// SAFETY: whole numbers.
unsafe impl Element for SeenWords {}

/// Slices stay where they are.
pub struct InPlace;

impl Memory for InPlace {
    fn show<T: Element, A>(&self, slice: &[T], call: impl FnOnce(&[T]) -> A) -> A {
        call(slice)
    }

    fn lend<T: Element, A>(&self, slice: &mut [T], call: impl FnOnce(&mut [T]) -> A) -> A {
        call(slice)
    }
}

/// Slices are moved between guards, each at an end of its arena that is drawn.
pub struct Guarded {
    arenas: [Arena; SLICES],
    /// How many arenas hold a slice now.
    used: Cell<usize>,
    random: RefCell<Random>,
}

/// The most slices of one call: a table, state or list of records, a message or list of values, what is
/// written, and the numbers.
const SLICES: usize = 4;

/// What the octets beside a slice that is written hold, and how many of them are looked at where
/// no guard is.
const BESIDE: u8 = 0xC3;
const BESIDE_COUNT: usize = 64;

impl Guarded {
    pub fn new() -> Guarded {
        Guarded {
            arenas: [(); SLICES].map(|()| Arena::new()),
            used: Cell::new(0),
            random: RefCell::new(Random::new(0)),
        }
    }

    /// Draws the places of the next slices from here on.
    pub fn draw_from(&self, random: Random) {
        self.random.replace(random);
    }

    /// Does something with an arena that holds no slice yet, and a place there for so many elements.
    fn with_arena<T, A>(&self, count: usize, action: impl FnOnce(&Arena, usize) -> A) -> A {
        let used = self.used.get();
        self.used.set(used + 1);
        let start = self.place(count * size_of::<T>(), align_of::<T>());
        let result = action(&self.arenas[used], start);
        self.used.set(used);
        result
    }

    /// Where a slice starts in an arena: mostly so that it touches the guard at one of the ends,
    /// sometimes a few elements from it, so that long and short slices stand at odd addresses too.
    fn place(&self, size: usize, align: usize) -> usize {
        let mut random = self.random.borrow_mut();
        let gap = match random.below(4) {
            0 => align * random.index(8),
            _ => 0,
        };
        assert!(size + gap <= SIZE, "no arena holds {size} octets");
        if random.one_in(2) {
            gap
        } else {
            SIZE - size - gap
        }
    }
}

impl Default for Guarded {
    fn default() -> Guarded {
        Guarded::new()
    }
}

impl Memory for Guarded {
    fn show<T: Element, A>(&self, slice: &[T], call: impl FnOnce(&[T]) -> A) -> A {
        self.with_arena::<T, A>(slice.len(), |arena, start| {
            // SAFETY: the slice fits into the arena from here on, at a multiple of its alignment,
            // and nobody else uses the arena now; both mappings are the same memory.
            let shown = unsafe {
                let to = arena.writable.add(start).cast();
                ptr::copy_nonoverlapping(slice.as_ptr(), to, slice.len());
                slice::from_raw_parts(arena.shown.add(start).cast(), slice.len())
            };
            call(shown)
        })
    }

    fn lend<T: Element, A>(&self, slice: &mut [T], call: impl FnOnce(&mut [T]) -> A) -> A {
        self.with_arena::<T, A>(slice.len(), |arena, start| {
            let end = start + size_of_val(slice);
            let before = start.saturating_sub(BESIDE_COUNT)..start;
            let after = end..SIZE.min(end + BESIDE_COUNT);
            // SAFETY: as in `show`; the parts do not overlap, and each is used by one at a time.
            let (lent, [before, after]) = unsafe {
                let beside = [before, after].map(|part| {
                    slice::from_raw_parts_mut(arena.writable.add(part.start), part.len())
                });
                let lent: *mut T = arena.writable.add(start).cast();
                ptr::copy_nonoverlapping(slice.as_ptr(), lent, slice.len());
                (slice::from_raw_parts_mut(lent, slice.len()), beside)
            };
            before.fill(BESIDE);
            after.fill(BESIDE);
            let answer = call(lent);
            let mut beside = before.iter().chain(after.iter());
            assert!(
                beside.all(|&octet| octet == BESIDE),
                "an octet beside a lent slice was written"
            );
            slice.copy_from_slice(lent);
            answer
        })
    }
}

/// Memory that is mapped twice, each time between guards: once to be written, once to be shown.
/// What is shown cannot be written at its address, without a change of rights for each call.
struct Arena {
    writable: *mut u8,
    shown: *const u8,
}

/// The octets of an arena: more than 65,536 values take.
const SIZE: usize = 1 << 20;
/// The octets of a guard: more than any offset in a table, message or list that is lent here.
const GUARD: usize = 1 << 20;

impl Arena {
    fn new() -> Arena {
        // SAFETY: the name is a text that ends in 0; the file is ours alone.
        let file = unsafe {
            let descriptor = memfd_create(c"arena".as_ptr(), 0);
            assert!(descriptor >= 0, "no file in memory");
            File::from_raw_fd(descriptor)
        };
        file.set_len(SIZE as u64).expect("a file of this size");
        Arena {
            writable: between_guards(&file, PROT_READ | PROT_WRITE),
            shown: between_guards(&file, PROT_READ),
        }
    }
}

impl Drop for Arena {
    fn drop(&mut self) {
        for inside in [self.writable.cast_const(), self.shown] {
            // SAFETY: the whole of what `between_guards` mapped, and no slice of it is left.
            unsafe { munmap(inside.sub(GUARD).cast_mut().cast(), GUARD + SIZE + GUARD) };
        }
    }
}

/// Maps a file of an arena's size with a guard on either side. Gives its first octet.
fn between_guards(file: &File, rights: c_int) -> *mut u8 {
    let (anywhere, whole) = (ptr::null_mut(), GUARD + SIZE + GUARD);
    // SAFETY: new memory, at an address that the system chooses; then the file in the middle of it.
    unsafe {
        let guards = mmap(anywhere, whole, 0, MAP_PRIVATE | MAP_ANONYMOUS, -1, 0);
        assert_ne!(guards, MAP_FAILED, "no memory for the guards");
        let inside = guards.add(GUARD);
        let descriptor = file.as_raw_fd();
        let mapped = mmap(inside, SIZE, rights, MAP_SHARED | MAP_FIXED, descriptor, 0);
        assert_eq!(mapped, inside, "no memory between the guards");
        inside.cast()
    }
}

// From the C library that std links, with Linux's numbers.
const PROT_READ: c_int = 1;
const PROT_WRITE: c_int = 2;
const MAP_SHARED: c_int = 1;
const MAP_PRIVATE: c_int = 2;
const MAP_FIXED: c_int = 0x10;
const MAP_ANONYMOUS: c_int = 0x20;
const MAP_FAILED: *mut c_void = ptr::without_provenance_mut(usize::MAX);

extern "C" {
    fn memfd_create(name: *const c_char, flags: c_uint) -> c_int;
    fn mmap(
        address: *mut c_void,
        length: usize,
        rights: c_int,
        flags: c_int,
        descriptor: c_int,
        offset: c_long,
    ) -> *mut c_void;
    fn munmap(address: *mut c_void, length: usize) -> c_int;
}

/// The octets of a stack whose use is counted.
const STACK: usize = 1 << 16;

/// The octets of stack that a call takes, with those of the way to it from here. It is made on a stack of
/// its own, which holds the same octet everywhere before.
pub fn stack_of<C: FnOnce()>(call: C) -> usize {
    extern "C" fn make<C: FnOnce()>(call: &mut Option<C>) {
        let call = call.take().expect("a call that is not made yet");
        call();
    }

    let arena = Arena::new();
    let mut call = Some(call);
    // SAFETY: nobody else uses the arena, which has more octets before these. Its end is aligned as that
    // of a stack, and the call comes back to where it was made; a panic would end the process.
    let stack = unsafe {
        let end = arena.writable.add(SIZE);
        ptr::write_bytes(end.sub(STACK), BESIDE, STACK);
        asm!(
            "mov r12, rsp",
            "mov rsp, {end}",
            "call {make}",
            "mov rsp, r12",
            end = in(reg) end,
            make = sym make::<C>,
            in("rdi") &mut call,
            out("r12") _,
            clobber_abi("C"),
        );
        slice::from_raw_parts(end.sub(STACK), STACK)
    };
    let untouched = stack.iter().take_while(|&&octet| octet == BESIDE);
    STACK - untouched.count()
}

/// A slice that a call is lent.
#[derive(Clone, Copy, Debug, PartialEq, Eq)]
pub enum Lent {
    /// A message that is read under a table, or without one, or forwarded.
    Read,
    PlainRead,
    ForwardRead,
    /// What is written: a message, values, a message that goes on.
    Write,
    PlainWrite,
    ForwardWrite,
    /// A state that a table is loaded into, and a list that an ID is stored in.
    Load,
    Store,
}

/// Where a slice reaches outside what is lent: before or after it; or it may only be read.
#[derive(Clone, Copy, Debug, PartialEq, Eq)]
pub enum Side {
    Before,
    After,
    Shown,
}

/// What a guard has to stop.
#[derive(Clone, Copy, Debug, PartialEq, Eq)]
pub struct Trespass(pub Lent, pub Side);

impl Trespass {
    /// All that there are: what is only read may be shown.
    pub fn all() -> Vec<Trespass> {
        let read = [Lent::Read, Lent::PlainRead, Lent::ForwardRead];
        let written = [Lent::Write, Lent::PlainWrite, Lent::ForwardWrite];
        let changed = [Lent::Load, Lent::Store];
        let outside = [read.as_slice(), &written, &changed].concat().into_iter();
        let outside = outside.flat_map(|lent| [Side::Before, Side::After].map(|side| (lent, side)));
        let shown = [written.as_slice(), &changed].concat().into_iter();
        let all = outside.chain(shown.map(|lent| (lent, Side::Shown)));
        all.map(|(lent, side)| Trespass(lent, side)).collect()
    }

    /// Lets the library touch what is not lent to it, or write to what is only shown: one octet, or the
    /// four of a number in a list. Where this comes back, nothing guards. A state that a table is loaded
    /// into is written whole.
    pub fn commit(self) {
        let Trespass(lent, side) = self;
        let (size, outside) = match lent {
            Lent::Load => (STATE_SIZE, 1),
            Lent::Store => (size_of::<Seen>(), 4),
            _ => (LM.len(), 1),
        };
        let arena = Arena::new();
        let start = match side {
            Side::Before => arena.writable.wrapping_sub(outside),
            Side::After => arena.writable.wrapping_add(SIZE - size + outside),
            Side::Shown => arena.shown.cast_mut(),
        };
        if let (Side::After, Lent::Read | Lent::PlainRead | Lent::ForwardRead) = (side, lent) {
            let message = if lent == Lent::ForwardRead { N_HOP } else { LM };
            // SAFETY: all of the message but its last octet fits there.
            unsafe { ptr::copy_nonoverlapping(message.as_ptr(), start, size - outside) };
        }
        // SAFETY: this is wrong, and the process has to die for it before any harm is done: a part of
        // the slice lies in a guard, or all of it may only be read.
        lent.touch(unsafe { slice::from_raw_parts_mut(start, size) });
    }
}

/// Octets, at most 3: the first octet of a message is their count. The message is an LM, too.
const TABLE: [u8; 6] = [6, 0, 7, 0, 3, 0];
const LM: [u8; 4] = [3, 0, 32, 0];
const LIST: [i64; 4] = [3, 0, 32, 0];
/// A message that goes on.
const N_HOP: [u8; 4] = [0x23, 0, 0, 7];

impl Lent {
    /// Makes the call that touches the slice.
    fn touch(self, slice: &mut [u8]) {
        let mut numbers = linked::BEFORE;
        let mut seen = [Seen::default()];
        match self {
            Lent::Read => tables::read(&TABLE, slice, &mut [0; 32], &mut numbers),
            Lent::PlainRead => lm::read(slice, &mut [0; 64], &mut numbers),
            Lent::ForwardRead => tables::forward(slice, 0, &mut seen, &mut [0; 4], &mut numbers),
            Lent::Write => tables::write(&TABLE, linked::octets(&LIST), slice, &mut numbers),
            Lent::PlainWrite => lm::read(&LM, slice, &mut numbers),
            Lent::ForwardWrite => tables::forward(&N_HOP, 0, &mut seen, slice, &mut numbers),
            Lent::Load => {
                let state = slice.try_into().expect("the size of a state");
                tables::load(state, &TABLE, &mut numbers);
            }
            Lent::Store => {
                // SAFETY: as wrong as what `commit` does.
                let list = unsafe { slice::from_raw_parts_mut(slice.as_mut_ptr().cast(), 1) };
                tables::forward(&N_HOP, 0, list, &mut [0; 4], &mut numbers);
            }
        }
    }
}

#[cfg(test)]
mod tests {
    use std::hint::black_box;

    use super::*;

    #[test]
    fn the_stack_of_a_call_is_counted() {
        let little = stack_of(|| ());
        let much = stack_of(|| {
            black_box([0u8; 10_000]);
        });
        assert!(little < 500, "{little} octets");
        assert!((10_000..12_000).contains(&much), "{much} octets");
    }

    /// Where a slice does not touch the guard before it, the octets there are looked at.
    #[test]
    #[should_panic(expected = "an octet beside a lent slice was written")]
    fn a_write_where_no_guard_is_shows() {
        let memory = Guarded::new();
        for _ in 0..100 {
            memory.lend(&mut [0u8; 16], |lent| {
                let first = lent.as_mut_ptr();
                if !first.addr().is_multiple_of(4_096) {
                    // SAFETY: inside the arena, and nobody else uses it now.
                    unsafe { first.sub(1).write_volatile(0) };
                }
            });
        }
    }
}
