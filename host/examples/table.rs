// Tries a table, by octets in a file or by the name of a built-in one:
//
//     table TABLE                 lists its rows, and the first that breaks a rule
//     table TABLE read OCTETS     reads a message under it
//     table TABLE write VALUES    writes a list of values under it
//     table TABLE array           its octets, to be pasted into a program in Rust or C
//
// TABLE is LM, SAM, SRM or a file. Octets are in hex, as TABLES.md has them; in a file, what follows # on a line is a note.
// The answers are the library's: it finds the row that breaks a rule. Here rows are only put into words.

use std::collections::BTreeSet;
use std::env;
use std::ffi::OsString;
use std::fmt::Write as _;
use std::fs;
use std::io::{self, Write as _};
use std::process::ExitCode;

use teyolxan_host::api::{check, read, write, Answer, Refusal};
use teyolxan_host::assemble::{kind, RESERVED};
use teyolxan_host::builtin;

const USAGE: &str =
    "table TABLE [read OCTETS | write VALUES | array], where TABLE is LM, SAM, SRM or a file";

/// The values that there is room for, and the octets.
const VALUES: usize = 65_536;
const OCTETS: usize = 65_535;

/// The octets of a wrong row that are shown.
const SHOWN: usize = 32;

/// A row's octets: numbers of two octets, of which its length and its kind are the first.
struct Row<'a>(&'a [u8]);

impl Row<'_> {
    /// The row at an offset: as many octets as its length says, four at least, and no more than are left.
    fn at(table: &[u8], offset: usize) -> Row<'_> {
        let rest = &table[offset..];
        let length = usize::from(Row(rest).number(0)).max(4);
        Row(&rest[..length.min(rest.len())])
    }

    /// A number of the row, or 0 where the row has ended.
    fn number(&self, index: usize) -> u16 {
        let octet = |at: usize| self.0.get(at).copied().unwrap_or(0);
        u16::from_le_bytes([octet(2 * index), octet(2 * index + 1)])
    }

    fn kind(&self) -> u16 {
        self.number(1)
    }

    /// The numbers behind m.
    fn items(&self) -> Vec<u16> {
        (3..self.0.len() / 2).map(|at| self.number(at)).collect()
    }

    /// The references, but for those of reserved branches.
    fn references(&self) -> Vec<u16> {
        let items = self.items();
        match self.kind() {
            kind::FIXED_RUN | kind::COUNTED_RUN => items.into_iter().take(1).collect(),
            kind::RECORD => items.into_iter().step_by(2).collect(),
            kind::CHOICE => items.into_iter().filter(|&row| row != RESERVED).collect(),
            _ => Vec::new(),
        }
    }

    fn name(&self) -> &'static str {
        match self.kind() {
            kind::NUMBER => "number",
            kind::VARIABLE => "variable number",
            kind::FIXED_RUN => "fixed run",
            kind::COUNTED_RUN => "counted run",
            kind::RECORD => "record",
            kind::CHOICE => "choice",
            kind::OCTETS => "octets",
            kind::OPEN_OCTETS => "open octets",
            _ => "unknown",
        }
    }

    /// The row in the words of TABLES.md.
    fn words(&self) -> String {
        let name = self.name();
        let count = self.number(2); // or a limit, or m
        match self.kind() {
            kind::NUMBER => {
                let low = (u32::from(self.number(3)) << 16 | u32::from(count)) as i32;
                let span = u32::from(self.number(5)) << 16 | u32::from(self.number(4));
                let high = i64::from(low) + i64::from(span);
                format!("{name}, low {low}, span {span}: {low} to {high}")
            }
            kind::FIXED_RUN => format!("{name}, {count} of row {}", self.number(3)),
            kind::COUNTED_RUN => format!("{name}, most {count}, of row {}", self.number(3)),
            kind::RECORD => {
                let items = self.items();
                let fields: Vec<_> = items
                    .chunks(2)
                    .map(|field| match field {
                        [row, 0] => format!("{row}"),
                        [row, 1] => format!("{row} optional"),
                        [row, flag] => format!("{row} flag {flag}"),
                        rest => format!("{rest:?}"),
                    })
                    .collect();
                match fields.is_empty() {
                    true => format!("{name} of {count}: no row"),
                    false => format!("{name} of {count}: rows {}", fields.join(", ")),
                }
            }
            kind::CHOICE => {
                let branches: Vec<_> = self
                    .items()
                    .iter()
                    .enumerate()
                    .filter(|(_, row)| **row != RESERVED)
                    .map(|(index, row)| format!("{index} row {row}"))
                    .collect();
                match branches.is_empty() {
                    true => format!("{name} of {count}: no row"),
                    false => format!("{name} of {count}: {}", branches.join(", ")),
                }
            }
            kind::OCTETS | kind::OPEN_OCTETS => format!("{name}, most {count}"),
            _ => name.to_string(),
        }
    }

    /// What stands in the part of the row that the refusal is about, and what TABLES.md asks there. So many octets are left
    /// for the row; `rows` are the offsets of those before it.
    fn part(&self, refusal: u32, left: usize, rows: &BTreeSet<usize>) -> String {
        let (name, length, count) = (self.name(), self.number(0), self.number(2));
        match refusal {
            Refusal::ROW_PAST_END if left < 4 => format!("octets left: {left}"),
            Refusal::ROW_PAST_END => format!("length {length}, octets left: {left}"),
            Refusal::UNKNOWN_KIND => format!("kind {}", self.kind()),
            Refusal::WRONG_ROW_LENGTH => match (self.kind(), usize::from(count)) {
                (kind::NUMBER, _) => format!("{name}, length {length}: it has 12"),
                (kind::VARIABLE, _) => format!("{name}, length {length}: it has 4"),
                (kind::OCTETS | kind::OPEN_OCTETS, _) => {
                    format!("{name}, length {length}: it has 6")
                }
                (kind::FIXED_RUN | kind::COUNTED_RUN, _) => {
                    format!("{name}, length {length}: it has 8")
                }
                (_, _) if self.0.len() < 6 => format!("{name}, length {length}: it has no m"),
                (kind, m) => {
                    let right = 6 + m * if kind == kind::RECORD { 4 } else { 2 };
                    format!("{name}, length {length}, m {m}: with this m it has {right}")
                }
            },
            Refusal::WRONG_ROW_NUMBER => {
                let bounds = match self.kind() {
                    kind::FIXED_RUN => 1..=1_024,
                    kind::RECORD => 1..=32,
                    kind::CHOICE => 2..=128,
                    kind::OCTETS => 0..=16_383,
                    _ => 1..=16_383,
                };
                let asked = match bounds.contains(&count) {
                    true => "a flag is 0 or 1".to_string(),
                    false => format!("{} to {} are allowed", bounds.start(), bounds.end()),
                };
                format!("{}: {asked}", self.words())
            }
            Refusal::WRONG_REFERENCE => {
                let stray: Vec<_> = self
                    .references()
                    .into_iter()
                    .filter(|&row| !rows.contains(&usize::from(row)))
                    .map(|row| row.to_string())
                    .collect();
                let stray = stray.join(", ");
                format!("{}: no row before it begins at {stray}", self.words())
            }
            _ => self.words(),
        }
    }
}

/// The rows in words; of a refused table those before the row at fault, and what stands in that.
fn list(table: &[u8], verdict: Answer) -> String {
    let (refusal, end) = match verdict {
        Answer::Accepted { .. } => (None, table.len()),
        Answer::Refused { number, place } => (Some(number), table.len().min(place as usize)),
    };
    let mut text = String::new();
    let mut rows = BTreeSet::new();
    let mut at = 0;
    while at < end {
        let row = Row::at(table, at);
        let _ = writeln!(text, "{at:>5}  {}", row.words());
        rows.insert(at);
        at += row.0.len();
    }
    match refusal {
        Some(Refusal::TABLE_SIZE) => {
            let _ = writeln!(text, "{:>5}  octets: {}", "", table.len());
        }
        Some(number) => {
            let row = Row::at(table, end);
            let more = if row.0.len() > SHOWN { " .." } else { "" };
            let octets = hex(&row.0[..row.0.len().min(SHOWN)]);
            let part = row.part(number, table.len() - end, &rows);
            let _ = writeln!(text, "{end:>5}  {octets}{more}\n{:>5}  {part}", "");
        }
        None => (),
    }
    text
}

fn hex(octets: &[u8]) -> String {
    let words: Vec<_> = octets.iter().map(|octet| format!("{octet:02X}")).collect();
    words.join(" ")
}

/// Octets in hex: two digits each, with or without spaces between octets.
fn octets(text: &str) -> Result<Vec<u8>, String> {
    let mut octets = Vec::new();
    for word in text.split_whitespace() {
        let pairs = word.as_bytes().chunks(2);
        for pair in pairs {
            let digit = |at: usize| {
                pair.get(at)
                    .and_then(|&digit| char::from(digit).to_digit(16))
            };
            match (digit(0), digit(1)) {
                (Some(high), Some(low)) => octets.push((high << 4 | low) as u8),
                _ => return Err(format!("octets are two hex digits each, not {word:?}")),
            }
        }
    }
    Ok(octets)
}

/// The table of a name, or of a file.
fn table(name: &str) -> Result<Vec<u8>, String> {
    match name {
        "LM" => Ok(builtin::lm()),
        "SAM" => Ok(builtin::sam()),
        "SRM" => Ok(builtin::srm()),
        file => {
            let text = fs::read_to_string(file).map_err(|error| format!("{file}: {error}"))?;
            let mut table = Vec::new();
            for (index, line) in text.lines().enumerate() {
                let row = octets(line.split('#').next().unwrap_or(""))
                    .map_err(|error| format!("{file}: line {}: {error}", index + 1))?;
                table.extend(row);
            }
            Ok(table)
        }
    }
}

/// Does what the words ask for: what it prints, and the answer.
fn run(words: &[String]) -> Result<(String, Answer), String> {
    let [name, rest @ ..] = words else {
        return Err(USAGE.to_string());
    };
    let table = table(name)?;
    let verdict = check(&table);
    let Some((verb, rest)) = rest.split_first() else {
        return Ok((list(&table, verdict), verdict));
    };
    let mut text = String::new();
    match verb.as_str() {
        "read" => {
            let message = octets(&rest.join(" "))?;
            let mut values = vec![0; VALUES];
            let answer = read(&table, &message, &mut values);
            if let Answer::Accepted { values: count, .. } = answer {
                let words: Vec<_> = values[..count as usize]
                    .iter()
                    .map(i64::to_string)
                    .collect();
                text = words.join(" ") + "\n";
            }
            Ok((text, answer))
        }
        "write" => {
            let value = |word: &String| word.parse().map_err(|error| format!("{error}: {word:?}"));
            let values = rest.iter().map(value).collect::<Result<Vec<i64>, _>>()?;
            let mut output = vec![0; OCTETS];
            let answer = write(&table, &values, &mut output);
            if let Answer::Accepted { octets: count, .. } = answer {
                text = hex(&output[..count as usize]) + "\n";
            }
            Ok((text, answer))
        }
        "array" => {
            for octets in table.chunks(16) {
                let words: Vec<_> = octets
                    .iter()
                    .map(|octet| format!("{octet:#04X},"))
                    .collect();
                text += &(words.join(" ") + "\n");
            }
            Ok((text, verdict))
        }
        verb => Err(format!("no {verb:?}: {USAGE}")),
    }
}

/// What is said of an answer, after what it gave.
fn told(answer: Answer) -> String {
    match answer {
        Answer::PASSED => "passed".to_string(),
        Answer::Accepted {
            values,
            bits,
            octets,
        } => format!("accepted: {values} values, {bits} bits, {octets} octets"),
        Answer::Refused { number, place } => Refusal { number, place }.to_string(),
    }
}

fn main() -> ExitCode {
    let words: Result<Vec<String>, OsString> =
        env::args_os().skip(1).map(OsString::into_string).collect();
    let done = words
        .map_err(|word| format!("no text: {word:?}"))
        .and_then(|words| run(&words))
        .and_then(|(text, answer)| {
            let mut out = io::stdout().lock();
            let written = out.write_all(text.as_bytes()).and_then(|()| out.flush());
            written.map_err(|error| error.to_string())?;
            Ok(answer)
        });
    let (said, code) = match done {
        Ok(answer) => (told(answer), u8::from(answer.refusal().is_some())),
        Err(fault) => (format!("table: {fault}"), 2),
    };
    let _ = writeln!(io::stderr(), "{said}"); // where nobody takes it, nothing is left to do
    ExitCode::from(code)
}
