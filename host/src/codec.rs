//! Answers, refusals, and the calls that a codec under test may offer.
//!
//! The calls have the form in which a host makes them (document 01, "Refusal numbers", last
//! paragraph): values are eight octets each, little-endian, two's complement, and octets after the
//! last whole eight are ignored in a list and zeroed in an output.

use std::error::Error;
use std::fmt;
use std::mem::offset_of;

/// A refusal: its number in document 01, as tickets 1, 3 and 7 of document 02 change them, and its place.
#[derive(Clone, Copy, Debug, PartialEq, Eq)]
pub struct Refusal {
    pub number: u32,
    /// In octets of the table for 20 to 26: the first octet of the row at fault. Else in bits of
    /// the message on reading and forwarding, and an index into the list on writing. 0 for 1, 13, 27
    /// and 42.
    pub place: u64,
}

macro_rules! refusals {
    ($($(#[$about:meta])* $name:ident = $number:literal, $meaning:literal;)*) => {
        impl Refusal {
            $(
                #[doc = concat!("Refused: ", $meaning, ".")]
                $(#[$about])*
                pub const $name: u32 = $number;
            )*

            /// Every number, in order.
            pub const ALL: &[u32] = &[$($number),*];

            /// What a number means, in one sentence.
            pub const fn meaning(number: u32) -> &'static str {
                match number {
                    $(Refusal::$name => $meaning,)*
                    _ => "no refusal has this number",
                }
            }

            /// The name that a number has here, and in the header for C.
            pub const fn name(number: u32) -> Option<&'static str> {
                match number {
                    $(Refusal::$name => Some(stringify!($name)),)*
                    _ => None,
                }
            }
        }
    };
}

refusals! {
    TABLE_SIZE = 1, "the table has fewer than 4 octets, or more than 4,096";
    MESSAGE_ENDS = 2, "the message ends inside an item, or is empty";
    ABOVE_SPAN = 3, "a number's offset is above its span";
    NO_BRANCH = 4, "an index is too high, or its branch is reserved";
    BAD_LENGTH = 5, "a length has a bad form";
    /// For an opened message: more than 32 bits are asked for.
    OUTSIDE_LIMITS = 6, "a count or length is outside its limits";
    BAD_VARIABLE = 7, "a variable number starts with 1111";
    NO_ROOM = 8, "there is no room for the next value, for the next bits, or for the message";
    NOT_PADDING = 9, "the padding is not zero, or octets are left";
    WRONG_VERSION = 10, "the version of the LM is not 3";
    /// In forwarding: the subtype is not 2.
    WRONG_SUBTYPE = 11, "the subtype of the LM is not one that the call takes";
    WRONG_VALUE = 12, "a value is missing, outside its row, or left over";
    TOO_LONG = 13, "the message has more than 65,535 octets";
    ROW_PAST_END = 20, "fewer than 4 octets are left for the row, or its length runs past the table's end";
    UNKNOWN_KIND = 21, "the row's kind is unknown";
    WRONG_ROW_LENGTH = 22, "the row's length is not the one that its kind asks for";
    WRONG_ROW_NUMBER = 23, "a count, limit, m or flag of the row is out of bounds";
    WRONG_REFERENCE = 24, "a reference of the row is not the first octet of an earlier row";
    ONLY_RESERVED = 25, "every branch of the choice is reserved";
    TOO_DEEP = 26, "the row is deeper than 32";
    NO_TABLE = 27, "no table is loaded";
    NO_HOPS = 40, "the hop count is 0";
    SEEN = 41, "the message ID stands in a live record";
    NO_RECORD = 42, "every record is live";
}

impl Refusal {
    /// The name of 6 before it told lengths below a least, too.
    #[deprecated(note = "its name is `OUTSIDE_LIMITS`")]
    pub const ABOVE_MOST: u32 = Refusal::OUTSIDE_LIMITS;
}

impl Refusal {
    /// The highest number. Not every number below it is a refusal's.
    pub const HIGHEST: u32 = Refusal::ALL[Refusal::ALL.len() - 1];

    /// Whether the number tells what is wrong with a table: every call that is lent the table gives it.
    pub const fn is_of_table(number: u32) -> bool {
        number == Refusal::TABLE_SIZE
            || (number >= Refusal::ROW_PAST_END && number <= Refusal::TOO_DEEP)
    }

    /// Whether the number is an answer of forwarding alone.
    pub const fn is_of_forwarding(number: u32) -> bool {
        number >= Refusal::NO_HOPS && number <= Refusal::NO_RECORD
    }

    pub fn new(number: u32, place: usize) -> Refusal {
        Refusal {
            number,
            place: place as u64,
        }
    }
}

/// As in "refused 24 at 98: a reference of the row is not the first octet of an earlier row".
impl fmt::Display for Refusal {
    fn fmt(&self, text: &mut fmt::Formatter) -> fmt::Result {
        let meaning = Refusal::meaning(self.number);
        write!(text, "refused {} at {}: {meaning}", self.number, self.place)
    }
}

impl Error for Refusal {}

/// The answer of a check, a load, a reading, a writing or a forwarding. A count that the call does not
/// tell is 0.
#[derive(Clone, Copy, Debug, PartialEq, Eq)]
pub enum Answer {
    Accepted {
        /// Read: the count of values.
        values: u64,
        /// Read: the bits that the root took.
        bits: u64,
        /// Written or forwarded: the count of octets.
        octets: u64,
    },
    /// As in `Refusal`.
    Refused { number: u32, place: u64 },
}

impl Answer {
    /// Acceptance by a call that tells nothing more.
    pub const PASSED: Answer = Answer::Accepted {
        values: 0,
        bits: 0,
        octets: 0,
    };

    /// The refusal, where there is one.
    pub const fn refusal(self) -> Option<Refusal> {
        match self {
            Answer::Accepted { .. } => None,
            Answer::Refused { number, place } => Some(Refusal { number, place }),
        }
    }
}

impl From<Refusal> for Answer {
    fn from(refusal: Refusal) -> Answer {
        Answer::Refused {
            number: refusal.number,
            place: refusal.place,
        }
    }
}

/// The size of a state, into which a table is loaded, in octets.
pub const STATE_SIZE: usize = 6_160;

/// A state as it is lent.
pub type StateOctets = [u8; STATE_SIZE];

/// A state that no table was loaded into.
pub const FRESH: StateOctets = [0; STATE_SIZE];

/// A record of a message that was forwarded. A list of them is what the forwarding step remembers; zeros
/// are a record that is not in use.
///
/// Its octets are id, time, used, and three that nobody looks at.
#[derive(Clone, Copy, Debug, Default, PartialEq, Eq)]
#[repr(C)]
pub struct Seen {
    /// The message ID, 22 bits. One above them is never met.
    pub id: u32,
    /// When it was forwarded, in milliseconds.
    pub time: u32,
    /// Whether the record is in use: an octet 0 or 1, as any `bool`.
    pub used: bool,
}

/// As the library and C have it.
const _: () = {
    assert!(size_of::<Seen>() == 12 && align_of::<Seen>() == 4);
    assert!(offset_of!(Seen, id) == 0);
    assert!(offset_of!(Seen, time) == 4);
    assert!(offset_of!(Seen, used) == 8);
};

/// The part of an LM that is its user data, in octets.
#[derive(Clone, Copy, Debug, PartialEq, Eq)]
pub struct Part {
    pub start: u64,
    pub length: u64,
}

/// Where a known extension element belongs, seen from the home asked for.
#[derive(Clone, Copy, Debug, PartialEq, Eq)]
pub enum Element {
    Here,
    Elsewhere,
    Unknown,
}

/// What opening a message and taking bits from it gave.
#[derive(Clone, Debug, PartialEq, Eq)]
pub struct Taken {
    pub opened: Result<(), Refusal>,
    pub steps: Vec<Result<Bits, Refusal>>,
}

/// A number taken from an opened message, and the bit place after it.
#[derive(Clone, Copy, Debug, PartialEq, Eq)]
pub struct Bits {
    pub number: u64,
    pub place: u64,
}

/// The calls of a codec.
#[derive(Clone, Copy, Debug, PartialEq, Eq, PartialOrd, Ord)]
pub enum Call {
    Check,
    Read,
    Write,
    ReadLm,
    WriteLm,
    UserData,
    Element,
    Take,
    Bench,
    Load,
    ReadLoaded,
    Capture,
    Forward,
}

impl Call {
    pub const ALL: [Call; 13] = [
        Call::Check,
        Call::Read,
        Call::Write,
        Call::ReadLm,
        Call::WriteLm,
        Call::UserData,
        Call::Element,
        Call::Take,
        Call::Bench,
        Call::Load,
        Call::ReadLoaded,
        Call::Capture,
        Call::Forward,
    ];
}

/// A codec under test. It need not offer every call: only those that `offers` names are made.
pub trait Codec {
    /// Named in reports.
    fn name(&self) -> String;

    fn offers(&self, call: Call) -> bool;

    fn check(&self, _table: &[u8]) -> Answer {
        not_offered(Call::Check)
    }

    /// Reads under a lent table; `values` is the value slice, eight octets a value.
    fn read(&self, _table: &[u8], _message: &[u8], _values: &mut [u8]) -> Answer {
        not_offered(Call::Read)
    }

    /// Writes under a lent table; `values` is the list, eight octets a value.
    fn write(&self, _table: &[u8], _values: &[u8], _output: &mut [u8]) -> Answer {
        not_offered(Call::Write)
    }

    /// Reads an LM by name.
    fn read_lm(&self, _message: &[u8], _values: &mut [u8]) -> Answer {
        not_offered(Call::ReadLm)
    }

    /// Writes an LM by name.
    fn write_lm(&self, _values: &[u8], _output: &mut [u8]) -> Answer {
        not_offered(Call::WriteLm)
    }

    fn user_data(&self, _message: &[u8]) -> Result<Part, Refusal> {
        not_offered(Call::UserData)
    }

    fn element(&self, _id: u64, _home: u64) -> Element {
        not_offered(Call::Element)
    }

    /// Opens the message and takes the widths from it, one after another.
    fn take(&self, _message: &[u8], _widths: &[u64]) -> Taken {
        not_offered(Call::Take)
    }

    /// What the bench program prints for this input.
    fn bench(&self, _input: &[u8]) -> String {
        not_offered(Call::Bench)
    }

    /// Loads a table into a state.
    fn load(&self, _state: &mut StateOctets, _table: &[u8]) -> Answer {
        not_offered(Call::Load)
    }

    /// Reads through a state, whatever it holds; `values` as in `read`.
    fn read_loaded(&self, _state: &StateOctets, _message: &[u8], _values: &mut [u8]) -> Answer {
        not_offered(Call::ReadLoaded)
    }

    /// What the capture program prints for this file.
    fn capture(&self, _file: &[u8]) -> String {
        not_offered(Call::Capture)
    }

    /// Forwards the message into the output, at this time; `seen` is the list of what was forwarded.
    fn forward(
        &self,
        _message: &[u8],
        _now: u32,
        _seen: &mut [Seen],
        _output: &mut [u8],
    ) -> Answer {
        not_offered(Call::Forward)
    }
}

fn not_offered(call: Call) -> ! {
    panic!("{call:?} is not offered by this codec")
}

/// A list of values in the host's form.
pub fn value_octets(values: &[i64]) -> Vec<u8> {
    values
        .iter()
        .flat_map(|value| value.to_le_bytes())
        .collect()
}

/// The values that octets in the host's form hold; octets after the last whole eight are ignored.
pub fn values_of(octets: &[u8]) -> Vec<i64> {
    let (values, _) = octets.as_chunks::<8>();
    values
        .iter()
        .map(|&value| i64::from_le_bytes(value))
        .collect()
}

/// Makes a reading into numbers that fills a value slice in the host's form. Octets after the last
/// whole eight are not lent to it, and are zeroed.
pub fn read_as_numbers(values: &mut [u8], read: impl FnOnce(&mut [i64]) -> Answer) -> Answer {
    let mut list = values_of(values);
    let answer = read(&mut list);
    let (whole, tail) = values.split_at_mut(8 * list.len());
    whole.copy_from_slice(&value_octets(&list));
    tail.fill(0);
    answer
}
