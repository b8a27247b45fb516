//! The stored answers of UPER tools that others wrote (outside/README.md): lists of values with the
//! octets that the tools gave for them.
//!
//! `table NAME OCTETS` names a table for the lines after it. `WHO TABLE VALUES BITS OCTETS` is a pair:
//! WHO is `erlang`, `asn1c` or `both`, TABLE such a name, BITS the bits before the padding. Octets and
//! values are cells as in `vectors`.

use std::collections::BTreeMap;

use crate::case::{Case, Outcome, Table};
use crate::codec::{value_octets, Answer};
use crate::vectors::{octets, octets_cell, values, values_cell, Vector};

/// The tools that gave an answer.
#[derive(Clone, Copy, Debug, PartialEq, Eq, PartialOrd, Ord)]
pub enum Who {
    Erlang,
    Asn1c,
    Both,
}

/// A list with its encoding.
#[derive(Clone, Debug)]
pub struct Pair {
    pub who: Who,
    /// The table's name.
    pub table: String,
    /// The list, eight octets a value.
    pub values: Vec<u8>,
    pub bits: u64,
    pub octets: Vec<u8>,
}

/// A stored file: its tables by name, and its pairs with their lines.
#[derive(Clone, Debug, Default)]
pub struct Stored {
    pub tables: BTreeMap<String, Vec<u8>>,
    pub pairs: Vec<(usize, Pair)>,
}

/// Reads a stored file. The error names the line that is not understood.
pub fn parse(text: &str) -> Result<Stored, String> {
    let mut stored = Stored::default();
    for (index, words) in text.lines().enumerate() {
        if words.starts_with('#') {
            continue;
        }
        let line = index + 1;
        let wrong = |error: String| format!("line {line}: {error}: {words:.100}");
        let cells: Vec<&str> = words.split(' ').collect();
        match cells[..] {
            ["table", name, table] => {
                let table = octets(table).map_err(wrong)?;
                if stored.tables.insert(name.to_string(), table).is_some() {
                    return Err(wrong("the table is there already".to_string()));
                }
            }
            [who, table, list, bits, message] => {
                if !stored.tables.contains_key(table) {
                    return Err(wrong("the table has no line".to_string()));
                }
                let pair = Pair {
                    who: Who::of(who).ok_or_else(|| wrong("nobody's answer".to_string()))?,
                    table: table.to_string(),
                    values: value_octets(&values(list).map_err(wrong)?),
                    bits: bits.parse().map_err(|_| wrong("no bits".to_string()))?,
                    octets: octets(message).map_err(wrong)?,
                };
                stored.pairs.push((line, pair));
            }
            _ => return Err(wrong("neither a table nor a pair".to_string())),
        }
    }
    Ok(stored)
}

/// A table's line.
pub fn table_line(name: &str, table: &[u8]) -> String {
    format!("table {name} {}\n", octets_cell(table))
}

/// A pair's line.
pub fn pair_line(pair: &Pair) -> String {
    format!(
        "{} {} {} {} {}\n",
        pair.who.cell(),
        pair.table,
        values_cell(&pair.values),
        pair.bits,
        octets_cell(&pair.octets),
    )
}

impl Who {
    const ALL: [Who; 3] = [Who::Erlang, Who::Asn1c, Who::Both];

    fn cell(self) -> &'static str {
        match self {
            Who::Erlang => "erlang",
            Who::Asn1c => "asn1c",
            Who::Both => "both",
        }
    }

    fn of(cell: &str) -> Option<Who> {
        Who::ALL.into_iter().find(|who| who.cell() == cell)
    }
}

impl Stored {
    /// Every pair as calls: reading and writing, in slices of just the size and in longer ones. An LM
    /// of version 3 is read and written by name as well.
    pub fn vectors(&self) -> Vec<Vector> {
        let mut vectors = Vec::new();
        for (line, pair) in &self.pairs {
            let mut tables = vec![Table::Lent(self.tables[&pair.table].clone())];
            if pair.is_lm() {
                tables.push(Table::Lm);
            }
            for table in tables {
                for more in [0, 1 + line % 20] {
                    for (case, expected) in pair.calls(&table, more) {
                        vectors.push(Vector {
                            line: *line,
                            case,
                            expected,
                        });
                    }
                }
            }
        }
        vectors
    }
}

impl Pair {
    /// Whether the calls for an LM by name take this pair: the version is the third value.
    pub fn is_lm(&self) -> bool {
        self.table == "LM" && self.values[16..24] == 3i64.to_le_bytes()
    }

    /// Reading and writing this pair in slices with so many octets more than it needs.
    fn calls(&self, table: &Table, more: usize) -> [(Case, Outcome); 2] {
        let read = Case::Read {
            table: table.clone(),
            message: self.octets.clone(),
            value_octets: self.values.len() + more,
        };
        let has_read = Answer::Accepted {
            values: self.values.len() as u64 / 8,
            bits: self.bits,
            octets: 0,
        };
        let write = Case::Write {
            table: table.clone(),
            values: self.values.clone(),
            output: self.octets.len() + more,
        };
        let has_written = Answer::Accepted {
            values: 0,
            bits: 0,
            octets: self.octets.len() as u64,
        };
        let then_zeros = |answer: &[u8]| [answer, &vec![0; more]].concat();
        [
            (read, Outcome::Filled(has_read, then_zeros(&self.values))),
            (
                write,
                Outcome::Filled(has_written, then_zeros(&self.octets)),
            ),
        ]
    }
}

#[cfg(test)]
mod tests {
    use super::*;

    #[test]
    fn lines_are_read_as_they_are_written() {
        let text = "table n 06000700ff3f\nboth n 8,7*8 72 08+07*8\nasn1c n 0 8 00\n";
        let stored = parse(text).unwrap();
        let tables = stored.tables.iter();
        let mut again: String = tables
            .map(|(name, table)| table_line(name, table))
            .collect();
        again.extend(stored.pairs.iter().map(|(_, pair)| pair_line(pair)));
        assert_eq!(again, text);
    }

    #[test]
    fn lines_that_are_not_understood_are_errors() {
        for line in [
            "",
            "table n",
            "table n 0g",
            "table n 04000200\ntable n 04000200",
            "both n 5 8 05",
            "table n 04000200\nnobody n 5 8 05",
            "table n 04000200\nboth n 5, 8 05",
            "table n 04000200\nboth n 5 -8 05",
            "table n 04000200\nboth n 5 8 0",
            "table n 04000200\nboth n 5 8 05 1",
        ] {
            assert!(parse(&format!("{line}\n")).is_err(), "{line}");
        }
    }
}
