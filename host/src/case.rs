//! One call with its input, and the outcome of making it on a codec.

use crate::codec::{Answer, Call, Codec, Element, Part, Refusal, Seen, StateOctets, Taken};

/// A call with its input.
#[derive(Clone, Debug)]
pub enum Case {
    Check {
        table: Vec<u8>,
    },
    Read {
        table: Table,
        message: Vec<u8>,
        /// The octets of the lent value slice.
        value_octets: usize,
    },
    Write {
        table: Table,
        /// The list, eight octets a value.
        values: Vec<u8>,
        /// The octets of the lent output.
        output: usize,
    },
    UserData {
        message: Vec<u8>,
    },
    Element {
        id: u64,
        home: u64,
    },
    Take {
        message: Vec<u8>,
        widths: Vec<u64>,
    },
    Bench {
        stream: Vec<u8>,
    },
    /// Loads into one state.
    Load {
        /// The state before them, made by anyone.
        state: Box<StateOctets>,
        tables: Vec<Vec<u8>>,
    },
    /// Loads and readings through one state, one after another.
    ReadLoaded {
        state: Box<StateOctets>,
        steps: Vec<Step>,
    },
    Capture {
        file: Vec<u8>,
    },
    /// Messages that are forwarded over one list, one after another.
    Forward {
        seen: Vec<Seen>,
        steps: Vec<Hop>,
    },
}

/// A message that is forwarded.
#[derive(Clone, Debug)]
pub struct Hop {
    pub message: Vec<u8>,
    pub now: u32,
    /// The octets of the lent output.
    pub output: usize,
}

/// What is done with a state.
#[derive(Clone, Debug)]
pub enum Step {
    Load {
        table: Vec<u8>,
    },
    Read {
        message: Vec<u8>,
        value_octets: usize,
    },
}

/// The table that a message is read or written under.
#[derive(Clone, Debug)]
pub enum Table {
    Lent(Vec<u8>),
    /// The built-in LM, by name.
    Lm,
}

/// What a call gave.
#[derive(Clone, Debug, PartialEq, Eq)]
pub enum Outcome {
    Checked(Answer),
    /// With the whole lent slice afterwards: values in octets, or the output.
    Filled(Answer, Vec<u8>),
    UserData(Result<Part, Refusal>),
    Element(Element),
    Taken(Taken),
    Printed(String),
    /// The whole state afterwards.
    Stored(Vec<u8>),
    Steps(Vec<Told>),
    Forwarded(Vec<Forwarded>),
}

/// What a forwarding gave.
#[derive(Clone, Debug, PartialEq, Eq)]
pub struct Forwarded {
    pub answer: Answer,
    /// The whole output afterwards.
    pub output: Vec<u8>,
    /// The whole list afterwards.
    pub seen: Vec<Seen>,
}

/// What a step with a state gave.
#[derive(Clone, Debug, PartialEq, Eq)]
pub struct Told {
    pub answer: Answer,
    /// The whole value slice after a reading.
    pub slice: Vec<u8>,
    /// Whether the step changed the state although it is no load, or a refused one. Between guards a
    /// reading that writes to it dies.
    pub spoilt: bool,
}

/// What lent slices hold before a call, so that an octet which is not written shows.
const BEFORE: u8 = 0xA5;

impl Case {
    pub fn call(&self) -> Call {
        match self {
            Case::Check { .. } => Call::Check,
            Case::Read { table, .. } => match table {
                Table::Lent(_) => Call::Read,
                Table::Lm => Call::ReadLm,
            },
            Case::Write { table, .. } => match table {
                Table::Lent(_) => Call::Write,
                Table::Lm => Call::WriteLm,
            },
            Case::UserData { .. } => Call::UserData,
            Case::Element { .. } => Call::Element,
            Case::Take { .. } => Call::Take,
            Case::Bench { .. } => Call::Bench,
            Case::Load { .. } => Call::Load,
            Case::ReadLoaded { .. } => Call::ReadLoaded,
            Case::Capture { .. } => Call::Capture,
            Case::Forward { .. } => Call::Forward,
        }
    }

    /// Makes the call, which the codec has to offer.
    pub fn run(&self, codec: &dyn Codec) -> Outcome {
        match self {
            Case::Check { table } => Outcome::Checked(codec.check(table)),
            Case::Read {
                table,
                message,
                value_octets,
            } => {
                let mut slice = vec![BEFORE; *value_octets];
                let answer = match table {
                    Table::Lent(table) => codec.read(table, message, &mut slice),
                    Table::Lm => codec.read_lm(message, &mut slice),
                };
                Outcome::Filled(answer, slice)
            }
            Case::Write {
                table,
                values,
                output,
            } => {
                let mut slice = vec![BEFORE; *output];
                let answer = match table {
                    Table::Lent(table) => codec.write(table, values, &mut slice),
                    Table::Lm => codec.write_lm(values, &mut slice),
                };
                Outcome::Filled(answer, slice)
            }
            Case::UserData { message } => Outcome::UserData(codec.user_data(message)),
            Case::Element { id, home } => Outcome::Element(codec.element(*id, *home)),
            Case::Take { message, widths } => Outcome::Taken(codec.take(message, widths)),
            Case::Bench { stream } => Outcome::Printed(codec.bench(stream)),
            Case::Load { state, tables } => {
                let mut state = state.clone();
                for table in tables {
                    codec.load(&mut state, table);
                }
                Outcome::Stored(state.to_vec())
            }
            Case::ReadLoaded { state, steps } => {
                let mut state = state.clone();
                let tell = |step: &Step| step.run(codec, &mut state);
                Outcome::Steps(steps.iter().map(tell).collect())
            }
            Case::Capture { file } => Outcome::Printed(codec.capture(file)),
            Case::Forward { seen, steps } => {
                let mut seen = seen.clone();
                let tell = |hop: &Hop| hop.run(codec, &mut seen);
                Outcome::Forwarded(steps.iter().map(tell).collect())
            }
        }
    }
}

impl Hop {
    /// Forwards the message, which changes the list.
    pub fn run(&self, codec: &dyn Codec, seen: &mut [Seen]) -> Forwarded {
        let mut output = vec![BEFORE; self.output];
        let answer = codec.forward(&self.message, self.now, seen, &mut output);
        Forwarded {
            answer,
            output,
            seen: seen.to_vec(),
        }
    }
}

impl Step {
    fn run(&self, codec: &dyn Codec, state: &mut StateOctets) -> Told {
        let before = *state;
        let (answer, slice) = match self {
            Step::Load { table } => (codec.load(state, table), Vec::new()),
            Step::Read {
                message,
                value_octets,
            } => {
                let mut slice = vec![BEFORE; *value_octets];
                (codec.read_loaded(state, message, &mut slice), slice)
            }
        };
        let loaded = matches!(self, Step::Load { .. }) && answer.refusal().is_none();
        Told {
            answer,
            slice,
            spoilt: !loaded && *state != before,
        }
    }
}

impl Outcome {
    /// For each call that is accepted or refused, its refusal, if it is one.
    pub fn verdicts(&self) -> Vec<Option<Refusal>> {
        match self {
            Outcome::Checked(answer) | Outcome::Filled(answer, _) => vec![answer.refusal()],
            Outcome::UserData(part) => vec![part.err()],
            Outcome::Steps(steps) => steps.iter().map(|told| told.answer.refusal()).collect(),
            Outcome::Forwarded(steps) => steps.iter().map(|step| step.answer.refusal()).collect(),
            Outcome::Element(_) | Outcome::Taken(_) => Vec::new(),
            Outcome::Printed(_) | Outcome::Stored(_) => Vec::new(),
        }
    }
}
