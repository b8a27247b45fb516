//! The text format of the case files in `vectors/`, and their runner.
//!
//! A line holds one call and its outcome, in cells separated by one space; a line that starts with
//! `#` is a note. Octets are `-` if there are none, else hex segments joined by `+`, where `XX*N` is
//! the octet XX N times. Values are `-` if there are none, else decimal numbers joined by `,`,
//! where `V*N` is V N times.
//!
//! | Line | Outcome |
//! |---|---|
//! | `check BASIS TABLE` | `ok` or a refusal |
//! | `read BASIS TABLE MESSAGE ROOM` | `ok COUNT BITS VALUES` or a refusal |
//! | `write BASIS TABLE VALUES LENGTH` | `ok COUNT OCTETS` or a refusal |
//! | `userdata BASIS MESSAGE` | `ok START LENGTH` or a refusal |
//! | `element ID HOME` | `here`, `elsewhere` or `unknown` |
//! | `take BASIS MESSAGE K,K,..` | `ok` or `no:13:0:0`, then `ok:NUMBER:PLACE` or `no:NUMBER:PLACE:0` for each |
//! | `bench BASIS STREAM` | the text printed, with a bar for each line end |
//! | `capture BASIS FILE` | the same |
//! | `forward BASIS MESSAGE NOW SEEN LENGTH` | `ok COUNT OCTETS` or a refusal, then SEEN afterwards |
//! | `loaded BASIS STEPS` | what each step from a fresh state on told |
//! | `forged BASIS STATE STEPS` | what each step from this state on told, its octets being anything |
//! | `stored BASIS TABLE;TABLE;..` | `none`, or `TABLE 1 ROWS DEPTHS`: what a fresh state holds after these loads |
//!
//! BASIS is `-` where document 01 alone decides, and else the tickets of document 02 that may, `1`,
//! `1,2`, `1,2,3`, `1,2,6` or `1,2,7`: a line whose refusal is 20 or above has one of these. TABLE is
//! octets, or `LM` for the built-in table by name. A refusal is `no NUMBER PLACE 0`; the last cell is kept
//! for a later count of missing bits. SEEN is `-` for a list without records, else `ID/TIME/USED` joined
//! by `,`, where USED is 0 or 1.
//!
//! STEPS are joined by `;`: `L:TABLE` loads, `R:MESSAGE:ROOM` reads. What they told stands in the same
//! order, joined by `;`: `ok` for a load, `ok:COUNT:BITS:VALUES` for a reading, `no:NUMBER:PLACE:0`.
//! DEPTHS are `OFFSET/DEPTH` for each row, joined by `,`.
//!
//! A value slice is lent with 0 to 7 octets after its values, by the line's number, which a codec
//! has to ignore or zero.

use std::collections::BTreeMap;
use std::fmt::Write as _;

use crate::assemble::state_with;
use crate::case::{Case, Forwarded, Hop, Outcome, Step, Table, Told};
use crate::codec::{
    value_octets, Answer, Bits, Call, Codec, Element, Part, Refusal, Seen, StateOctets, Taken,
    FRESH,
};

/// The case files.
pub const BASE: &str = include_str!("../vectors/base.txt");
pub const EDGES: &str = include_str!("../vectors/edges.txt");
pub const STAGE01: &str = include_str!("../vectors/stage01.txt");
pub const STAGE02: &str = include_str!("../vectors/stage02.txt");
pub const LOADED: &str = include_str!("../vectors/loaded.txt");
pub const CAPTURE: &str = include_str!("../vectors/capture.txt");
pub const FORWARD: &str = include_str!("../vectors/forward.txt");
pub const FILES: [&str; 7] = [BASE, EDGES, STAGE01, STAGE02, LOADED, CAPTURE, FORWARD];

/// A call with the outcome that it has to have.
#[derive(Clone, Debug)]
pub struct Vector {
    /// The line's number in its file, from 1.
    pub line: usize,
    pub case: Case,
    pub expected: Outcome,
}

/// Reads a case file. The error names the line that is not understood.
pub fn parse(text: &str) -> Result<Vec<Vector>, String> {
    let mut vectors = Vec::new();
    for (index, words) in text.lines().enumerate() {
        if words.is_empty() || words.starts_with('#') {
            continue;
        }
        let line = index + 1;
        let (case, expected) = parse_line(words, line % 8)
            .map_err(|error| format!("line {line}: {error}: {words:.100}"))?;
        vectors.push(Vector {
            line,
            case,
            expected,
        });
    }
    Ok(vectors)
}

/// What a run over vectors came to.
#[derive(Debug, Default)]
pub struct Report {
    /// The cases run, by call.
    pub run: BTreeMap<Call, usize>,
    /// The cases whose call the codec does not offer.
    pub skipped: usize,
    /// A text for each case with another outcome than the file has.
    pub differences: Vec<String>,
}

impl Report {
    pub fn total(&self) -> usize {
        self.run.values().sum()
    }
}

/// Runs the cases of a file whose call the codec offers, asks that each has its outcome, and gives their
/// count.
pub fn pass(codec: &dyn Codec, text: &str) -> usize {
    let report = run(codec, &parse(text).expect("the file is well formed"));
    let differences = report.differences.join("\n");
    assert!(differences.is_empty(), "{differences}");
    report.total()
}

/// Runs every vector whose call the codec offers.
pub fn run(codec: &dyn Codec, vectors: &[Vector]) -> Report {
    let mut report = Report::default();
    for vector in vectors {
        let call = vector.case.call();
        if !codec.offers(call) {
            report.skipped += 1;
            continue;
        }
        *report.run.entry(call).or_default() += 1;
        let outcome = vector.case.run(codec);
        if outcome != vector.expected {
            report.differences.push(format!(
                "line {}: {}\n  expected {}\n  {} gave {}",
                vector.line,
                case_text(&vector.case),
                outcome_text(&vector.expected),
                codec.name(),
                outcome_text(&outcome),
            ));
        }
    }
    report
}

// ---- Reading lines ---------------------------------------------------------------------------

/// The cells of a line that are still to be read.
struct Cells<'a>(&'a str);

impl<'a> Cells<'a> {
    fn next(&mut self) -> Result<&'a str, String> {
        if self.0.is_empty() {
            return Err("a cell is missing".to_string());
        }
        let (cell, rest) = self.0.split_once(' ').unwrap_or((self.0, ""));
        self.0 = rest;
        Ok(cell)
    }

    fn number<N: std::str::FromStr>(&mut self) -> Result<N, String> {
        number(self.next()?)
    }

    fn octets(&mut self) -> Result<Vec<u8>, String> {
        octets(self.next()?)
    }

    fn table(&mut self) -> Result<Table, String> {
        match self.next()? {
            "LM" => Ok(Table::Lm),
            cell => Ok(Table::Lent(octets(cell)?)),
        }
    }

    /// `Ok` after the cell `ok`, else the refusal.
    fn verdict(&mut self) -> Result<Result<(), Refusal>, String> {
        match self.next()? {
            "ok" => Ok(Ok(())),
            "no" => {
                let refusal = Refusal {
                    number: self.number()?,
                    place: self.number()?,
                };
                no_count(self.next()?)?;
                Ok(Err(refusal))
            }
            cell => Err(format!("{cell} is neither ok nor no")),
        }
    }

    /// What a call that puts octets into an output of this size told, and the output afterwards.
    fn put(&mut self, size: usize) -> Result<(Answer, Vec<u8>), String> {
        let (answer, octets) = match self.verdict()? {
            Ok(()) => {
                let answer = Answer::Accepted {
                    values: 0,
                    bits: 0,
                    octets: self.number()?,
                };
                (answer, self.octets()?)
            }
            Err(refusal) => (refusal.into(), Vec::new()),
        };
        Ok((answer, zeros_after(octets, size)?))
    }

    /// The rest of the line, as a text that was printed.
    fn printed(&mut self) -> Outcome {
        let text = self.0.replace('|', "\n");
        self.0 = "";
        Outcome::Printed(text)
    }

    fn end(&self) -> Result<(), String> {
        if self.0.is_empty() {
            return Ok(());
        }
        Err("a cell is left".to_string())
    }
}

fn parse_line(words: &str, tail: usize) -> Result<(Case, Outcome), String> {
    let mut cells = Cells(words);
    let name = cells.next()?;
    let ticket_1 = match name {
        "element" => false,
        _ => match cells.next()? {
            "-" => false,
            "1" | "1,2" | "1,2,3" | "1,2,6" | "1,2,7" => true,
            cell => {
                return Err(format!(
                    "{cell} is neither document 01 nor tickets of document 02"
                ))
            }
        },
    };
    let parsed = match name {
        "check" => {
            let table = cells.octets()?;
            let answer = match cells.verdict()? {
                Ok(()) => Answer::PASSED,
                Err(refusal) => refusal.into(),
            };
            (Case::Check { table }, Outcome::Checked(answer))
        }
        "read" => {
            let table = cells.table()?;
            let message = cells.octets()?;
            let size = 8 * cells.number::<usize>()? + tail;
            let (answer, list) = match cells.verdict()? {
                Ok(()) => {
                    let (count, bits) = (cells.number()?, cells.number()?);
                    let answer = Answer::Accepted {
                        values: count,
                        bits,
                        octets: 0,
                    };
                    (answer, value_octets(&values(cells.next()?)?))
                }
                Err(refusal) => (refusal.into(), Vec::new()),
            };
            let case = Case::Read {
                table,
                message,
                value_octets: size,
            };
            (case, Outcome::Filled(answer, zeros_after(list, size)?))
        }
        "write" => {
            let table = cells.table()?;
            let mut list = value_octets(&values(cells.next()?)?);
            list.extend(vec![0x5A; tail]);
            let size = cells.number()?;
            let (answer, output) = cells.put(size)?;
            let case = Case::Write {
                table,
                values: list,
                output: size,
            };
            (case, Outcome::Filled(answer, output))
        }
        "userdata" => {
            let message = cells.octets()?;
            let part = match cells.verdict()? {
                Ok(()) => Ok(Part {
                    start: cells.number()?,
                    length: cells.number()?,
                }),
                Err(refusal) => Err(refusal),
            };
            (Case::UserData { message }, Outcome::UserData(part))
        }
        "element" => {
            let (id, home) = (cells.number()?, cells.number()?);
            let element = match cells.next()? {
                "here" => Element::Here,
                "elsewhere" => Element::Elsewhere,
                "unknown" => Element::Unknown,
                cell => return Err(format!("{cell} is no answer")),
            };
            (Case::Element { id, home }, Outcome::Element(element))
        }
        "take" => {
            let message = cells.octets()?;
            let widths = cells
                .next()?
                .split(',')
                .map(number)
                .collect::<Result<Vec<u64>, String>>()?;
            let opened = step(cells.next()?)?.map(|_| ());
            let mut steps = Vec::new();
            for _ in &widths {
                steps.push(step(cells.next()?)?);
            }
            let taken = Taken { opened, steps };
            (Case::Take { message, widths }, Outcome::Taken(taken))
        }
        "bench" => {
            let stream = cells.octets()?;
            (Case::Bench { stream }, cells.printed())
        }
        "capture" => {
            let file = cells.octets()?;
            (Case::Capture { file }, cells.printed())
        }
        "forward" => forwarding(&mut cells)?,
        "loaded" => steps(FRESH, &mut cells, tail)?,
        "forged" => {
            let state = cells.octets()?;
            let state = state.try_into().map_err(|_| "the state has another size")?;
            steps(state, &mut cells, tail)?
        }
        "stored" => {
            let case = Case::Load {
                state: Box::new(FRESH),
                tables: listed(cells.next()?, octets)?,
            };
            (case, Outcome::Stored(stored(&mut cells)?))
        }
        name => return Err(format!("{name} is no call")),
    };
    cells.end()?;
    let later = |refusal: Option<Refusal>| {
        refusal.is_some_and(|refusal| refusal.number >= Refusal::ROW_PAST_END)
    };
    if !ticket_1 && parsed.1.verdicts().into_iter().any(later) {
        return Err("document 01 has no such refusal".to_string());
    }
    Ok(parsed)
}

/// The parts of a cell that are joined by `;`.
fn listed<T>(cell: &str, part: impl FnMut(&str) -> Result<T, String>) -> Result<Vec<T>, String> {
    cell.split(';').map(part).collect()
}

/// A message that is forwarded over a list, and what that gave.
fn forwarding(cells: &mut Cells) -> Result<(Case, Outcome), String> {
    let message = cells.octets()?;
    let now = cells.number()?;
    let seen = records(cells.next()?)?;
    let hop = Hop {
        message,
        now,
        output: cells.number()?,
    };
    let (answer, output) = cells.put(hop.output)?;
    let forwarded = Forwarded {
        answer,
        output,
        seen: records(cells.next()?)?,
    };
    let steps = vec![hop];
    let outcome = Outcome::Forwarded(vec![forwarded]);
    Ok((Case::Forward { seen, steps }, outcome))
}

/// Steps with a state, and what they told.
fn steps(state: StateOctets, cells: &mut Cells, tail: usize) -> Result<(Case, Outcome), String> {
    let steps = listed(cells.next()?, |cell| {
        match cell.split(':').collect::<Vec<_>>()[..] {
            ["L", table] => Ok(Step::Load {
                table: octets(table)?,
            }),
            ["R", message, room] => Ok(Step::Read {
                message: octets(message)?,
                value_octets: 8 * number::<usize>(room)? + tail,
            }),
            _ => Err(format!("{cell} is no step")),
        }
    })?;
    let mut made = steps.iter();
    let told = listed(cells.next()?, |cell| {
        let size = match made.next() {
            Some(Step::Load { .. }) => 0,
            Some(Step::Read { value_octets, .. }) => *value_octets,
            None => return Err("more was told than asked".to_string()),
        };
        step_told(cell, size)
    })?;
    if made.next().is_some() {
        return Err("less was told than asked".to_string());
    }
    let state = Box::new(state);
    Ok((Case::ReadLoaded { state, steps }, Outcome::Steps(told)))
}

/// What a step told whose value slice has this size.
fn step_told(cell: &str, size: usize) -> Result<Told, String> {
    let (answer, list) = match cell.split(':').collect::<Vec<_>>()[..] {
        ["ok"] => (Answer::PASSED, Vec::new()),
        ["ok", count, bits, list] => {
            let answer = Answer::Accepted {
                values: number(count)?,
                bits: number(bits)?,
                octets: 0,
            };
            (answer, value_octets(&values(list)?))
        }
        ["no", refused, place, count] => {
            no_count(count)?;
            let refusal = Refusal {
                number: number(refused)?,
                place: number(place)?,
            };
            (refusal.into(), Vec::new())
        }
        _ => return Err(format!("{cell} is nothing that a step tells")),
    };
    Ok(Told {
        answer,
        slice: zeros_after(list, size)?,
        spoilt: false,
    })
}

/// The octets of a state that holds nothing, or this table with so many rows of these depths. The root
/// is the last row.
fn stored(cells: &mut Cells) -> Result<Vec<u8>, String> {
    let table = match cells.next()? {
        "none" => return Ok(FRESH.to_vec()),
        cell => octets(cell)?,
    };
    let (edition, rows) = (cells.number::<u8>()?, cells.number::<usize>()?);
    let mut depths = Vec::new();
    for row in cells.next()?.split(',') {
        let (offset, depth) = row
            .split_once('/')
            .ok_or("a row has an offset and a depth")?;
        depths.push((number(offset)?, number(depth)?));
    }
    match depths.last() {
        Some(&(root, _)) if (edition, rows) == (1, depths.len()) => {
            Ok(state_with(&table, &depths, root).to_vec())
        }
        _ => Err("the rows are not as many as said, or of an edition".to_string()),
    }
}

fn number<N: std::str::FromStr>(cell: &str) -> Result<N, String> {
    cell.parse().map_err(|_| format!("{cell} is no number"))
}

fn no_count(cell: &str) -> Result<(), String> {
    if cell == "0" {
        return Ok(());
    }
    Err("document 01 has no count of missing bits".to_string())
}

/// A cell of octets.
pub fn octets(cell: &str) -> Result<Vec<u8>, String> {
    let mut octets = Vec::new();
    if cell == "-" {
        return Ok(octets);
    }
    let digits = |pair: &str| {
        u8::from_str_radix(pair, 16).map_err(|_| format!("{pair} is no octet in hexadecimal"))
    };
    for segment in cell.split('+') {
        if let Some((octet, times)) = segment.split_once('*') {
            octets.extend(vec![digits(octet)?; number(times)?]);
            continue;
        }
        for at in (0..segment.len()).step_by(2) {
            octets.push(digits(segment.get(at..at + 2).unwrap_or(""))?);
        }
    }
    Ok(octets)
}

/// A cell of values.
pub fn values(cell: &str) -> Result<Vec<i64>, String> {
    let mut values = Vec::new();
    if cell == "-" {
        return Ok(values);
    }
    for segment in cell.split(',') {
        match segment.split_once('*') {
            Some((value, times)) => values.extend(vec![number::<i64>(value)?; number(times)?]),
            None => values.push(number(segment)?),
        }
    }
    Ok(values)
}

/// A cell of records.
fn records(cell: &str) -> Result<Vec<Seen>, String> {
    let record = |text: &str| match text.split('/').collect::<Vec<_>>()[..] {
        [id, time, used @ ("0" | "1")] => Ok(Seen {
            id: number(id)?,
            time: number(time)?,
            used: used == "1",
        }),
        _ => Err(format!("{text} is no record")),
    };
    match cell {
        "-" => Ok(Vec::new()),
        cell => cell.split(',').map(record).collect(),
    }
}

/// `ok`, `ok:NUMBER:PLACE` or `no:NUMBER:PLACE:0`.
fn step(cell: &str) -> Result<Result<Bits, Refusal>, String> {
    let parts: Vec<&str> = cell.split(':').collect();
    match parts[..] {
        ["ok"] => Ok(Ok(Bits {
            number: 0,
            place: 0,
        })),
        ["ok", taken, place] => Ok(Ok(Bits {
            number: number(taken)?,
            place: number(place)?,
        })),
        ["no", refused, place, count] => {
            no_count(count)?;
            Ok(Err(Refusal {
                number: number(refused)?,
                place: number(place)?,
            }))
        }
        _ => Err(format!("{cell} is no step")),
    }
}

/// What a slice of this size holds after a call: the answer, then zeros.
fn zeros_after(mut answer: Vec<u8>, size: usize) -> Result<Vec<u8>, String> {
    if answer.len() > size {
        return Err("the answer is longer than its slice".to_string());
    }
    answer.resize(size, 0);
    Ok(answer)
}

// ---- Writing lines ---------------------------------------------------------------------------

/// Octets as a cell.
pub fn octets_cell(octets: &[u8]) -> String {
    if octets.is_empty() {
        return "-".to_string();
    }
    let mut cell = String::new();
    let mut broken = false; // whether the next segment needs a `+`
    for run in octets.chunk_by(|left, right| left == right) {
        if run.len() < 8 {
            if broken {
                cell.push('+');
            }
            for octet in run {
                let _ = write!(cell, "{octet:02x}");
            }
            broken = false;
        } else {
            if !cell.is_empty() {
                cell.push('+');
            }
            let _ = write!(cell, "{:02x}*{}", run[0], run.len());
            broken = true;
        }
    }
    cell
}

/// Values in the host's form as a cell; octets after the last whole eight stand behind it.
pub fn values_cell(octets: &[u8]) -> String {
    let (whole, tail) = octets.as_chunks::<8>();
    let runs: Vec<String> = whole
        .chunk_by(|left, right| left == right)
        .map(|run| match (i64::from_le_bytes(run[0]), run.len()) {
            (value, 1) => format!("{value}"),
            (value, times) => format!("{value}*{times}"),
        })
        .collect();
    let mut cell = if runs.is_empty() {
        "-".to_string()
    } else {
        runs.join(",")
    };
    if !tail.is_empty() {
        let _ = write!(cell, " (then octets {})", octets_cell(tail));
    }
    cell
}

/// Records as a cell.
fn records_cell(seen: &[Seen]) -> String {
    if seen.is_empty() {
        return "-".to_string();
    }
    let record = |record: &Seen| {
        let used = u8::from(record.used);
        format!("{}/{}/{used}", record.id, record.time)
    };
    let records: Vec<String> = seen.iter().map(record).collect();
    records.join(",")
}

/// A case in words, its input as cells.
pub fn case_text(case: &Case) -> String {
    let table_cell = |table: &Table| match table {
        Table::Lent(table) => octets_cell(table),
        Table::Lm => "LM".to_string(),
    };
    match case {
        Case::Check { table } => format!("check 1,2 {}", octets_cell(table)),
        Case::Read {
            table,
            message,
            value_octets,
        } => format!(
            "read 1,2 {} {} {} (value slice of {value_octets} octets)",
            table_cell(table),
            octets_cell(message),
            value_octets / 8,
        ),
        Case::Write {
            table,
            values,
            output,
        } => format!(
            "write 1,2 {} {} {output}",
            table_cell(table),
            values_cell(values)
        ),
        Case::UserData { message } => format!("userdata 1,2 {}", octets_cell(message)),
        Case::Element { id, home } => format!("element {id} {home}"),
        Case::Take { message, widths } => {
            let widths: Vec<String> = widths.iter().map(u64::to_string).collect();
            format!("take 1,2 {} {}", octets_cell(message), widths.join(","))
        }
        Case::Bench { stream } => format!("bench 1,2 {}", octets_cell(stream)),
        Case::Load { state, tables } => {
            let tables: Vec<String> = tables.iter().map(|table| octets_cell(table)).collect();
            let before = match **state {
                FRESH => String::new(),
                _ => format!(" (before: {})", octets_cell(&state[..])),
            };
            format!("stored 1,2,3 {}{before}", tables.join(";"))
        }
        Case::ReadLoaded { state, steps } => {
            let steps: Vec<String> = steps.iter().map(step_text).collect();
            let begun = match **state {
                FRESH => "loaded 1,2,3".to_string(),
                _ => format!("forged 1,2,3 {}", octets_cell(&state[..])),
            };
            format!("{begun} {}", steps.join(";"))
        }
        Case::Capture { file } => format!("capture 1,2,6 {}", octets_cell(file)),
        Case::Forward { seen, steps } => {
            let hop = |(at, hop): (usize, &Hop)| {
                let seen = match at {
                    0 => records_cell(seen),
                    _ => "(the list then)".to_string(),
                };
                let message = octets_cell(&hop.message);
                format!("forward 1,2,7 {message} {} {seen} {}", hop.now, hop.output)
            };
            let hops: Vec<String> = steps.iter().enumerate().map(hop).collect();
            hops.join("; ")
        }
    }
}

fn step_text(step: &Step) -> String {
    match step {
        Step::Load { table } => format!("L:{}", octets_cell(table)),
        Step::Read {
            message,
            value_octets,
        } => {
            let rest = match value_octets % 8 {
                0 => String::new(),
                rest => format!(" (and {rest} octets)"),
            };
            format!("R:{}:{}{rest}", octets_cell(message), value_octets / 8)
        }
    }
}

/// An outcome in words, its slice as a cell of octets.
pub fn outcome_text(outcome: &Outcome) -> String {
    match outcome {
        Outcome::Checked(answer) => format!("{answer:?}"),
        Outcome::Filled(answer, slice) => format!("{answer:?} and {}", octets_cell(slice)),
        Outcome::UserData(part) => format!("{part:?}"),
        Outcome::Element(element) => format!("{element:?}"),
        Outcome::Taken(taken) => format!("{taken:?}"),
        Outcome::Printed(text) => text.replace('\n', "|"),
        Outcome::Stored(state) => octets_cell(state),
        Outcome::Steps(steps) => {
            let told = |told: &Told| {
                let spoilt = if told.spoilt {
                    ", the state spoilt"
                } else {
                    ""
                };
                format!("{:?} and {}{spoilt}", told.answer, octets_cell(&told.slice))
            };
            let steps: Vec<String> = steps.iter().map(told).collect();
            steps.join("; ")
        }
        Outcome::Forwarded(steps) => {
            let told = |step: &Forwarded| {
                let (output, seen) = (octets_cell(&step.output), records_cell(&step.seen));
                format!("{:?} and {output}, {seen}", step.answer)
            };
            let steps: Vec<String> = steps.iter().map(told).collect();
            steps.join("; ")
        }
    }
}

#[cfg(test)]
mod tests {
    use super::*;

    #[test]
    fn cells_are_read_as_they_are_written() {
        for cell in [
            "-",
            "00",
            "0c000100",
            "00*70000",
            "0102+ff*26+00",
            "ff*9+00*8",
        ] {
            assert_eq!(octets_cell(&octets(cell).unwrap()), cell);
        }
        for cell in [
            "-",
            "5",
            "-9223372036854775808,9223372036854775807",
            "16383,7*16383",
        ] {
            assert_eq!(values_cell(&value_octets(&values(cell).unwrap())), cell);
        }
        assert_eq!(octets("01*3+02").unwrap(), [1, 1, 1, 2]);
        assert_eq!(values("1*3,-2").unwrap(), [1, 1, 1, -2]);
        assert!(octets("0").is_err());
        assert!(octets("0g").is_err());
        assert!(values("1,").is_err());
    }

    #[test]
    fn lines_that_are_not_understood_are_errors() {
        for line in [
            "check - 04000200",
            "check 2 04000200 ok",
            "check 2,1 04000200 ok",
            "check 1,2,9 04000200 ok",
            "check - 04000200 ok 1",
            "check - 00000200 no 22 0 0",
            "check - 04000200 no 1 0",
            "check - 04000200 no 1 0 8",
            "read - LM 03 1 ok 2 0 1,2",
            "first - LM 03 1 ok 1 8 1",
            "loaded 1,2,3 R:00:1;L:04000200 no:27:0:0",
            "loaded 1,2,3 R:00:1 no:27:0:0;ok",
            "loaded 1,2,3 R:00 no:27:0:0",
            "loaded 1,2,3 L:04000200;R:07:0 ok;ok:1:8:7",
            "loaded - R:00:1 no:27:0:0",
            "capture 1,2,6",
            "capture 1,2,9 - stop 30 at 0|frames 0|",
            "forward 1,2,7 2300001f 0 - 4 no 42 0 0",
            "forward 1,2,7 2300001f 0 - 4 no 42 0 4 -",
            "forward 1,2,7 2300001f 0 7/0/2 4 no 42 0 0 7/0/2",
            "forward 1,2,7 2300001f 0 7/0 4 no 42 0 0 7/0",
            "forward 1,2,7 2300001f 4294967296 - 4 no 42 0 0 -",
            "forward 1,2,7 2300001f 0 7/0/0 3 ok 4 2300001e 7/0/1",
            "forward - 2300001f 0 - 4 no 42 0 0 -",
            "forward 1,2,9 2300001f 0 - 4 no 42 0 0 -",
            "forged 1,2,3 00*6159 R:00:1 no:27:0:0",
            "stored 1,2,3 04000200 04000200 2 1 0/1",
            "stored 1,2,3 04000200 04000200 1 1 0",
        ] {
            assert!(parse(line).is_err(), "{line}");
        }
    }
}
