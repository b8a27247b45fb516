//! Tables as ASN.1 types, and lists of values as the two tools take them: a row is one type, so the
//! ASN.1 of a table and the value of a list follow from the rows alone.

use std::fmt::Write as _;
use std::iter::Copied;
use std::slice::Iter;

use teyolxan_host::reference::{branch_row, field_optional, field_row, root_of, Row};

/// A table with the ASN.1 types of its rows.
pub struct Table {
    /// What the stored file calls it: its kind, and mostly a number.
    pub name: String,
    pub octets: Vec<u8>,
    pub types: Types,
}

/// Where the types of the rows stand, and what they are called.
pub enum Types {
    /// In a module made from the rows, with this number in their names.
    Made(usize),
    /// In a made module too: one type for the whole table.
    Added(Added),
    /// In a module written by hand.
    Written(&'static Written),
}

/// A module written by hand. It has an OCTET STRING of fixed size where the table has a fixed run
/// of octets, and NULL where the table has a number with one value.
pub struct Written {
    /// The module, and the type that the root is.
    pub name: &'static str,
    /// By a row's offset: its type, where that is an item of a run, and its fields or first branches.
    pub rows: &'static [(usize, &'static str, &'static [&'static str])],
}

/// A sequence of a number and, as an extension addition, a value of some type, which is an open type
/// by its bits. The table has for it the extension bit, the number, the additions' count less one in
/// seven bits, the addition's presence bit, and open octets: the value's own encoding.
pub struct Added {
    /// In the type's name.
    pub number: usize,
    /// The number's greatest value.
    pub most: u32,
    pub value: AddedType,
}

/// A type, and values of it with their encodings.
#[derive(Clone)]
pub struct AddedType {
    pub notation: &'static str,
    pub values: Vec<AddedValue>,
}

/// A value as the tools take it, and its encoding.
#[derive(Clone)]
pub struct AddedValue {
    pub term: String,
    pub xml: String,
    pub octets: Vec<u8>,
}

impl Added {
    /// The list with this number and this value.
    pub fn list(&self, number: i64, value: &AddedValue) -> Vec<i64> {
        let mut list = vec![1, number, 0, 1, value.octets.len() as i64];
        list.extend(value.octets.iter().map(|&octet| i64::from(octet)));
        list
    }

    fn definition(&self, name: &str) -> String {
        format!(
            "{name} ::= SEQUENCE {{ number INTEGER (0..{}), ..., value {} OPTIONAL }}\n",
            self.most, self.value.notation
        )
    }

    fn text(&self, name: &str, list: &[i64]) -> Text {
        let of_list = |value: &&AddedValue| self.list(list[1], value) == list;
        let value = self.value.values.iter().find(of_list);
        let AddedValue { term, xml, .. } = value.expect("a value with this encoding");
        let number = list[1];
        Text {
            term: format!("{{r,{number},{term}}}"),
            xml: format!("<{name}><number>{number}</number><value>{xml}</value></{name}>"),
        }
    }
}

/// The values of a list that are still to come.
type Values<'a> = Copied<Iter<'a, i64>>;

/// A value as the tools take it.
#[derive(Default)]
pub struct Text {
    /// An Erlang term.
    pub term: String,
    /// XML by the XER rules, which asn1c's programs read.
    pub xml: String,
}

impl Table {
    pub fn root(&self) -> usize {
        root_of(&self.octets).expect("a table that passes")
    }

    /// The name of a row's type.
    pub fn type_name(&self, offset: usize) -> String {
        match &self.types {
            Types::Made(number) => format!("T{number}R{offset}"),
            Types::Added(added) => format!("Added{}", added.number),
            Types::Written(module) if offset == self.root() => module.name.to_string(),
            Types::Written(module) => module.row(offset).0.to_string(),
        }
    }

    fn field_name(&self, offset: usize, index: usize) -> String {
        match &self.types {
            Types::Written(module) => module.row(offset).1[index].to_string(),
            _ => format!("f{index}"),
        }
    }

    /// The definitions of all types that the root needs, for a made module.
    pub fn definitions(&self) -> String {
        if let Types::Added(added) = &self.types {
            return added.definition(&self.type_name(self.root()));
        }
        let mut needed = vec![false; self.octets.len()];
        self.mark(self.root(), &mut needed);
        let rows = (0..needed.len()).filter(|&offset| needed[offset]);
        rows.map(|offset| format!("{} ::= {}\n", self.type_name(offset), self.notation(offset)))
            .collect()
    }

    /// Marks the rows that an item of this one may hold.
    fn mark(&self, offset: usize, needed: &mut [bool]) {
        if std::mem::replace(&mut needed[offset], true) {
            return;
        }
        match Row::at(&self.octets, offset) {
            Row::Number { .. } | Row::Variable | Row::Octets { .. } => (),
            Row::FixedRun { item, .. } | Row::CountedRun { item, .. } => self.mark(item, needed),
            Row::Record { fields } => {
                for field in fields {
                    self.mark(field_row(field), needed);
                }
            }
            Row::Choice { branches } => {
                for row in branches.iter().filter_map(branch_row) {
                    self.mark(row, needed);
                }
            }
        }
    }

    /// A row in ASN.1. The limits of runs and octets are the table's own and leave no trace here.
    fn notation(&self, offset: usize) -> String {
        match Row::at(&self.octets, offset) {
            Row::Number { low, span } => format!("INTEGER ({low}..{})", low + i64::from(span)),
            Row::Variable => "VariableNumber".to_string(),
            Row::FixedRun { count, item } => {
                format!("SEQUENCE (SIZE ({count})) OF {}", self.type_name(item))
            }
            Row::CountedRun { item, .. } => format!("SEQUENCE OF {}", self.type_name(item)),
            Row::Record { fields } => {
                let field = |(index, field)| {
                    let optional = if field_optional(field) {
                        " OPTIONAL"
                    } else {
                        ""
                    };
                    format!("f{index} {}{optional}", self.type_name(field_row(field)))
                };
                let fields: Vec<String> = fields.iter().enumerate().map(field).collect();
                format!("SEQUENCE {{ {} }}", fields.join(", "))
            }
            Row::Choice { branches } => {
                let branch = |(index, branch)| match branch_row(branch) {
                    Some(row) => format!("f{index} {}", self.type_name(row)),
                    None => format!("f{index} NULL"),
                };
                let branches: Vec<String> = branches.iter().enumerate().map(branch).collect();
                format!("CHOICE {{ {} }}", branches.join(", "))
            }
            Row::Octets { least: 0, .. } => "OCTET STRING".to_string(),
            Row::Octets { .. } => "OpenOctets".to_string(),
        }
    }

    /// A list that the table allows, as the tools take it.
    pub fn text(&self, list: &[i64]) -> Text {
        let mut text = Text::default();
        let name = self.type_name(self.root());
        if let Types::Added(added) = &self.types {
            return added.text(&name, list);
        }
        let values = &mut list.iter().copied();
        text.element(&name, |text| self.item(self.root(), values, text));
        assert_eq!(values.next(), None, "a value is left over");
        text
    }

    fn item(&self, offset: usize, values: &mut Values, text: &mut Text) {
        let mut next = || values.next().expect("a value is missing");
        match Row::at(&self.octets, offset) {
            Row::Number { span, .. } => {
                let value = next();
                match self.types {
                    Types::Written(_) if span == 0 => text.term += "'NULL'",
                    _ => text.both(value),
                }
            }
            Row::Variable => text.variable(next()),
            Row::FixedRun { count, item } => match (&self.types, Row::at(&self.octets, item)) {
                (Types::Written(_), Row::Number { low: 0, span: 255 }) => {
                    text.octets(values.by_ref().take(count))
                }
                _ => self.run(count, item, values, text),
            },
            Row::CountedRun { item, .. } => {
                let count = next() as usize;
                self.run(count, item, values, text);
            }
            Row::Record { fields } => {
                let present: Vec<bool> = fields
                    .iter()
                    .map(|field| !field_optional(field) || next() == 1)
                    .collect();
                text.term += "{r";
                for (index, field) in fields.iter().enumerate() {
                    text.term.push(',');
                    if present[index] {
                        let name = self.field_name(offset, index);
                        text.element(&name, |text| self.item(field_row(field), values, text));
                    } else {
                        text.term += "asn1_NOVALUE";
                    }
                }
                text.term.push('}');
            }
            Row::Choice { branches } => {
                let index = next() as usize;
                let row = branch_row(&branches[index]).expect("a branch that is not reserved");
                let name = self.field_name(offset, index);
                let _ = write!(text.term, "{{{name},");
                text.element(&name, |text| self.item(row, values, text));
                text.term.push('}');
            }
            Row::Octets { .. } => {
                let length = next() as usize;
                text.octets(values.by_ref().take(length));
            }
        }
    }

    /// The items of a run. In XER an item of a choice has no element around it but its branch's.
    fn run(&self, count: usize, item: usize, values: &mut Values, text: &mut Text) {
        let bare = matches!(
            Row::at(&self.octets, item),
            Row::Choice { .. } | Row::Variable
        );
        text.term.push('[');
        for turn in 0..count {
            if turn > 0 {
                text.term.push(',');
            }
            if bare {
                self.item(item, values, text);
            } else {
                let name = self.type_name(item);
                text.element(&name, |text| self.item(item, values, text));
            }
        }
        text.term.push(']');
    }
}

impl Written {
    /// A row's type and the names in it.
    fn row(&self, offset: usize) -> (&str, &[&str]) {
        let named = self.rows.iter().find(|(row, ..)| *row == offset);
        let (_, name, names) = named.expect("a row with names");
        (name, names)
    }
}

impl Text {
    /// What is added inside is an element of this name in XML; the Erlang term is not touched.
    fn element(&mut self, name: &str, inside: impl FnOnce(&mut Text)) {
        let _ = write!(self.xml, "<{name}>");
        inside(self);
        let _ = write!(self.xml, "</{name}>");
    }

    fn both(&mut self, value: i64) {
        let _ = write!(self.term, "{value}");
        let _ = write!(self.xml, "{value}");
    }

    /// A variable number, as the type in Common.asn1 nests it.
    fn variable(&mut self, value: i64) {
        let path: &[&str] = match value {
            ..=127 => &["inOne"],
            128..=16_511 => &["longer", "inTwo"],
            16_512..=2_113_663 => &["longer", "longer", "inThree"],
            _ => &["longer", "longer", "inFour"],
        };
        for name in path {
            let _ = write!(self.term, "{{{name},");
            let _ = write!(self.xml, "<{name}>");
        }
        self.both(value);
        for name in path.iter().rev() {
            self.term.push('}');
            let _ = write!(self.xml, "</{name}>");
        }
    }

    fn octets(&mut self, octets: impl Iterator<Item = i64>) {
        self.term += "<<";
        for (index, octet) in octets.enumerate() {
            if index > 0 {
                self.term.push(',');
            }
            let _ = write!(self.term, "{octet}");
            let _ = write!(self.xml, "{octet:02X}");
        }
        self.term += ">>";
    }
}
