//! The host's side of the table codec, in plain Rust.
//!
//! | Module | What it holds |
//! |---|---|
//! | `codec` | answers, and the trait `Codec` that every codec under test implements |
//! | `linked` | the calls of the static libraries |
//! | `api` | what a host calls: check, read and write under a lent table, load one and read through it; forward a message |
//! | `lm` | what the smallest unit calls: an LM read without a table |
//! | `by_name` | the calls by name, and the others that are for tests |
//! | `guarded` | memory between guards, where a call that leaves its slices dies; the stack that a call takes |
//! | `archive` | the static libraries as codecs under test |
//! | `assemble` | a small assembler for tables |
//! | `builtin` | the built-in tables, assembled as docs/MESSAGES.md lists their rows |
//! | `reference` | the independent codec, written from document 01 and tickets 1 to 3, 6 and 7 of document 02 alone; also the speed baseline |
//! | `mutants` | the reference with one planted fault each |
//! | `case` | one call with its input, and the outcome of running it on a codec |
//! | `vectors` | the text format of the case files in `vectors/`, and their runner |
//! | `outside` | lists with the octets that UPER tools of others gave for them |
//! | `random` | a seeded generator of tables, states, lists of values, messages, captures and messages to be forwarded |
//! | `compare` | two codecs on many drawn cases, compared to the last octet |
//! | `programs` | the programs that are built, and what they print |
//! | `settings` | numbers from the environment, to repeat a test or to make it longer |
//!
//! Only `linked`, which a host needs, and `guarded`, for tests, have `unsafe` code.

#![deny(unsafe_code)]

#[cfg(tables)]
pub mod api;
#[cfg(feature = "probe")]
pub mod archive;
pub mod assemble;
pub mod builtin;
#[cfg(feature = "probe")]
pub mod by_name;
pub mod case;
pub mod codec;
pub mod compare;
#[cfg(feature = "probe")]
#[allow(unsafe_code)]
pub mod guarded;
#[allow(unsafe_code)]
mod linked;
#[cfg(feature = "lm")]
pub mod lm;
pub mod mutants;
pub mod outside;
pub mod programs;
pub mod random;
pub mod reference;
pub mod settings;
pub mod vectors;
