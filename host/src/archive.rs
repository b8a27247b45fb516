//! The static libraries as codecs under test: the lent calls that a host makes with the calls by name,
//! and the plain LM reader.

use crate::by_name::{self, Name};
use crate::codec::{
    read_as_numbers, values_of, Answer, Bits, Call, Codec, Element, Part, Refusal, Seen,
    StateOctets, Taken,
};
use crate::guarded::{InPlace, Memory};
use crate::linked::tables::{self, SeenWords};
use crate::linked::{self, lm, probe, told, Numbers};

/// The linked libraries, and where the slices of their calls stand.
pub struct Archive<M = InPlace>(pub M);

/// The linked libraries, called with slices as they are.
pub const ARCHIVE: Archive = Archive(InPlace);

/// The calls that the libraries offer.
pub const CALLS: [Call; 11] = [
    Call::Check,
    Call::Read,
    Call::Write,
    Call::ReadLm,
    Call::WriteLm,
    Call::Element,
    Call::UserData,
    Call::Take,
    Call::Load,
    Call::ReadLoaded,
    Call::Forward,
];

/// The answer that these numbers tell, after a look that they tell nothing else.
fn exactly(numbers: Numbers) -> Answer {
    let answer = told(numbers);
    let told = match answer {
        Answer::Accepted {
            values,
            bits,
            octets,
        } => [0, 0, values, bits, octets, 0],
        Answer::Refused { number, place } => [u64::from(number), place, 0, 0, 0, 0],
    };
    assert_eq!(numbers, told, "the numbers are no answer");
    answer
}

impl<M: Memory> Archive<M> {
    /// The numbers that a call writes.
    fn numbers(&self, call: impl FnOnce(&mut Numbers)) -> Numbers {
        let mut numbers = linked::BEFORE;
        self.0.lend(&mut numbers, |lent| {
            call(lent.try_into().expect("as many numbers as before"));
        });
        numbers
    }

    /// Makes a reading that takes values as octets.
    fn read_octets(
        &self,
        message: &[u8],
        values: &mut [u8],
        call: impl FnOnce(&[u8], &mut [u8], &mut Numbers),
    ) -> Answer {
        exactly(self.0.show(message, |message| {
            self.0.lend(values, |values| {
                self.numbers(|numbers| call(message, values, numbers))
            })
        }))
    }

    /// Makes a reading that takes values as numbers.
    fn read_numbers(
        &self,
        message: &[u8],
        values: &mut [u8],
        call: impl FnOnce(&[u8], &mut [i64], &mut Numbers),
    ) -> Answer {
        read_as_numbers(values, |list| {
            exactly(self.0.show(message, |message| {
                self.0.lend(list, |list| {
                    self.numbers(|numbers| call(message, list, numbers))
                })
            }))
        })
    }

    /// Reads by name.
    pub fn read_by_name(&self, name: Name, message: &[u8], values: &mut [u8]) -> Answer {
        self.read_numbers(message, values, |message, list, numbers| {
            probe::read(name, message, list, numbers);
        })
    }

    /// Writes by name.
    pub fn write_by_name(&self, name: Name, values: &[u8], output: &mut [u8]) -> Answer {
        exactly(self.0.show(&values_of(values), |list| {
            self.0.lend(output, |output| {
                self.numbers(|numbers| probe::write(name, list, output, numbers))
            })
        }))
    }

    /// Opens a message.
    fn open(&self, message: &[u8]) -> Result<(), Refusal> {
        let numbers = self.0.show(message, |message| {
            self.numbers(|numbers| probe::open(message, numbers))
        });
        match exactly(numbers) {
            Answer::Accepted { .. } => Ok(()),
            Answer::Refused { number, place } => Err(Refusal { number, place }),
        }
    }

    /// Takes bits at a place of an opened message.
    pub fn take_at(&self, message: &[u8], place: usize, k: u32) -> Result<Bits, Refusal> {
        self.bits(message, |message, numbers| {
            probe::take(message, place, k, numbers)
        })
    }

    /// The same, with the bits fetched one at a time.
    pub fn take_bitwise_at(&self, message: &[u8], place: usize, k: u32) -> Result<Bits, Refusal> {
        self.bits(message, |message, numbers| {
            probe::take_bitwise(message, place, k, numbers)
        })
    }

    fn bits(
        &self,
        message: &[u8],
        take: impl Fn(&[u8], &mut linked::Numbers),
    ) -> Result<Bits, Refusal> {
        let [number, place, bits, rest @ ..] = self.0.show(message, |message| {
            self.numbers(|numbers| take(message, numbers))
        });
        assert_eq!(rest, [0; 3], "the numbers are no bits");
        refusal(number, place).map(|()| Bits {
            number: bits,
            place,
        })
    }
}

impl<M: Memory> Codec for Archive<M> {
    fn name(&self) -> String {
        "archive".to_string()
    }

    fn offers(&self, call: Call) -> bool {
        CALLS.contains(&call)
    }

    fn check(&self, table: &[u8]) -> Answer {
        exactly(self.0.show(table, |table| {
            self.numbers(|numbers| tables::check(table, numbers))
        }))
    }

    fn read(&self, table: &[u8], message: &[u8], values: &mut [u8]) -> Answer {
        self.0.show(table, |table| {
            self.read_octets(message, values, |message, values, numbers| {
                tables::read(table, message, values, numbers);
            })
        })
    }

    fn write(&self, table: &[u8], values: &[u8], output: &mut [u8]) -> Answer {
        exactly(self.0.show(table, |table| {
            self.0.show(values, |values| {
                self.0.lend(output, |output| {
                    self.numbers(|numbers| tables::write(table, values, output, numbers))
                })
            })
        }))
    }

    fn read_lm(&self, message: &[u8], values: &mut [u8]) -> Answer {
        self.read_by_name(Name::Lm, message, values)
    }

    fn write_lm(&self, values: &[u8], output: &mut [u8]) -> Answer {
        self.write_by_name(Name::Lm, values, output)
    }

    /// The call takes 32 bits; what is above them is asked as their highest number, which is
    /// unknown too.
    fn element(&self, id: u64, home: u64) -> Element {
        let narrow = |number: u64| u32::try_from(number).unwrap_or(u32::MAX);
        by_name::element(narrow(id), narrow(home))
    }

    /// The part itself is as long as its place says, and empty on a refusal.
    fn user_data(&self, message: &[u8]) -> Result<Part, Refusal> {
        let [number, place, start, length, part, rest] = self.0.show(message, |message| {
            self.numbers(|numbers| probe::user_data(message, numbers))
        });
        assert_eq!(
            [part, rest],
            [length, 0],
            "the part is not where it is said to be"
        );
        refusal(number, place).map(|()| Part { start, length })
    }

    /// A width above 32 bits is asked as the highest number, which is refused too.
    fn take(&self, message: &[u8], widths: &[u64]) -> Taken {
        let mut at = 0;
        let mut step = |&width: &u64| {
            let k = u32::try_from(width).unwrap_or(u32::MAX);
            let step = self.take_at(message, at, k);
            let (Ok(Bits { place, .. }) | Err(Refusal { place, .. })) = step;
            at = usize::try_from(place).expect("a place in memory");
            step
        };
        Taken {
            opened: self.open(message),
            steps: widths.iter().map(&mut step).collect(),
        }
    }

    fn load(&self, state: &mut StateOctets, table: &[u8]) -> Answer {
        exactly(self.0.show(table, |table| {
            self.0.lend(state, |state| {
                let state = state.try_into().expect("as many octets as before");
                self.numbers(|numbers| tables::load(state, table, numbers))
            })
        }))
    }

    /// Both calls, with values as octets and as numbers: they have to give the same.
    fn read_loaded(&self, state: &StateOctets, message: &[u8], values: &mut [u8]) -> Answer {
        let mut others = vec![0xFF; values.len()];
        self.0.show(state, |state| {
            let state = state.try_into().expect("as many octets as before");
            let answer = self.read_octets(message, values, |message, values, numbers| {
                tables::read_loaded(state, message, values, numbers);
            });
            let other = self.read_numbers(message, &mut others, |message, list, numbers| {
                probe::read_loaded(state, message, list, numbers);
            });
            assert_eq!(other, answer, "values as numbers");
            assert!(others == values, "values as numbers");
            answer
        })
    }

    /// All twelve octets of every record stay, but for the one that is stored.
    fn forward(&self, message: &[u8], now: u32, seen: &mut [Seen], output: &mut [u8]) -> Answer {
        let in_memory = |(at, record): (usize, &Seen)| words(at, record);
        let before: Vec<SeenWords> = seen.iter().enumerate().map(in_memory).collect();
        let mut after = before.clone();
        let answer = exactly(self.0.show(message, |message| {
            self.0.lend(&mut after, |seen| {
                self.0.lend(output, |output| {
                    self.numbers(|numbers| {
                        tables::forward_words(message, now, seen, output, numbers)
                    })
                })
            })
        }));
        let pairs = before.iter().zip(&after);
        let changed = pairs.filter(|(before, after)| before != after).count();
        let stored = usize::from(answer.refusal().is_none());
        assert_eq!(changed, stored, "records that changed");
        for (place, words) in seen.iter_mut().zip(after) {
            *place = record(words);
        }
        answer
    }
}

/// A record as it stands in memory. The three octets behind it hold anything: they differ from record to
/// record.
fn words(at: usize, record: &Seen) -> SeenWords {
    let any = (at as u32 ^ record.id ^ record.time.rotate_left(7)).wrapping_mul(0x9E37_79B9);
    let used = u32::from(record.used);
    [record.id, record.time, any & !0xFF | used]
}

/// The record that stands so in memory.
fn record([id, time, last]: SeenWords) -> Seen {
    let used = match last.to_le_bytes()[0] {
        0 => false,
        1 => true,
        other => panic!("{other} is no bool"),
    };
    Seen { id, time, used }
}

/// How the plain LM reader is lent the value slice.
#[derive(Clone, Copy, Debug, PartialEq, Eq)]
pub enum Values {
    /// As a host does.
    Octets,
    Numbers,
}

/// The plain LM reader of the libraries as a codec under test.
pub struct Plain<'a, M = InPlace>(pub Values, pub &'a Archive<M>);

impl<M: Memory> Codec for Plain<'_, M> {
    fn name(&self) -> String {
        format!("plain, values as {:?}", self.0).to_lowercase()
    }

    fn offers(&self, call: Call) -> bool {
        call == Call::ReadLm
    }

    fn read_lm(&self, message: &[u8], values: &mut [u8]) -> Answer {
        match self.0 {
            Values::Octets => self.1.read_octets(message, values, lm::read),
            Values::Numbers => self.1.read_numbers(message, values, probe::read_lm_plain),
        }
    }
}

/// A refusal, where there is one.
fn refusal(number: u64, place: u64) -> Result<(), Refusal> {
    match u32::try_from(number).expect("a refusal's number") {
        0 => Ok(()),
        number => Err(Refusal { number, place }),
    }
}
