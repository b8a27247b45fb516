//! Two steps of `make`, around what the tools do. `ask FOLDER` writes modules and questions into the
//! folder; `join FOLDER` reads the tools' answers there and prints the vector file.

use std::collections::BTreeMap;
use std::env;
use std::fmt::Write as _;
use std::fs;
use std::path::Path;

use teyolxan_host::codec::value_octets;
use teyolxan_host::outside::{pair_line, table_line, Pair, Who};
use teyolxan_host::vectors::octets;

mod asn1;
mod cases;
mod messages;

use asn1::Types;
use cases::Asked;

fn main() {
    let arguments: Vec<String> = env::args().skip(1).collect();
    match &arguments[..] {
        [step, folder] if step == "ask" => ask(Path::new(folder)),
        [step, folder] if step == "join" => print!("{}", join(Path::new(folder))),
        _ => panic!("ask FOLDER or join FOLDER"),
    }
}

fn put(folder: &Path, file: &str, text: &str) {
    fs::write(folder.join(file), text).expect("a file that can be written");
}

/// Writes the made modules and a question for each list: for Erlang in `erlang.ask`, for asn1c in
/// `asn1c.ask`.
fn ask(folder: &Path) {
    let asked = cases::all();
    let mut made: BTreeMap<&str, String> = BTreeMap::new();
    let mut roots: BTreeMap<&str, Vec<String>> = BTreeMap::new();
    let (mut terms, mut elements) = (String::new(), String::new());
    for Asked {
        module,
        table,
        lists,
    } in &asked
    {
        if !matches!(table.types, Types::Written(_)) {
            made.entry(module)
                .or_default()
                .push_str(&table.definitions());
        }
        let root = table.type_name(table.root());
        for list in lists {
            let text = table.text(list);
            let _ = writeln!(terms, "{{'{module}','{root}',{}}}.", text.term);
            let _ = writeln!(elements, "{root} {}", text.xml);
        }
        roots.entry(module).or_default().push(root);
    }
    for (module, definitions) in made {
        let imports = "IMPORTS VariableNumber FROM Common OpenOctets FROM Open;\n";
        put(
            folder,
            &format!("{module}.asn1"),
            &module_text(module, imports, &definitions),
        );
    }
    for (module, roots) in roots {
        // Erlang tells octets alone. A last bit 1 behind the item shows where its bits end.
        let name = format!("{module}Marked");
        let imports = format!("IMPORTS {} FROM {module};\n", roots.join(", "));
        let mark = |root: &String| {
            format!("Marked-{root} ::= SEQUENCE {{ item {root}, mark INTEGER (1..2) }}\n")
        };
        let definitions: String = roots.iter().map(mark).collect();
        put(
            folder,
            &format!("{name}.asn1"),
            &module_text(&name, &imports, &definitions),
        );
    }
    put(folder, "erlang.ask", &terms);
    put(folder, "asn1c.ask", &elements);
}

fn module_text(name: &str, imports: &str, definitions: &str) -> String {
    format!("{name} DEFINITIONS AUTOMATIC TAGS ::= BEGIN\n{imports}{definitions}END\n")
}

/// The vector file, from the answers in `erlang.told` and `asn1c.told`. What a tool did not encode,
/// and where the tools differ, is said on standard error.
fn join(folder: &Path) -> String {
    let told = |tool: &str| -> String {
        fs::read_to_string(folder.join(format!("{tool}.told"))).expect("the tool's answers")
    };
    let (erlang, asn1c) = (told("erlang"), told("asn1c"));
    assert_eq!(erlang.lines().count(), asn1c.lines().count());
    let mut answers = erlang.lines().zip(asn1c.lines());
    let mut text =
        "# Octets that two tools of others gave for lists: outside/README.md.\n".to_string();
    for Asked { table, lists, .. } in cases::all() {
        text += &table_line(&table.name, &table.octets);
        for list in lists {
            let (erlang, asn1c) = answers.next().expect("an answer for each question");
            let mut pairs = Vec::new();
            match (answer(erlang), answer(asn1c)) {
                (Ok(left), Ok(right)) if left == right => pairs.push((Who::Both, left)),
                (left, right) => {
                    for (who, answer) in [(Who::Erlang, left), (Who::Asn1c, right)] {
                        match answer {
                            Ok(answer) => pairs.push((who, answer)),
                            Err(words) => eprintln!("{who:?} {}: {words}", table.name),
                        }
                    }
                    if pairs.len() > 1 {
                        eprintln!("{} {list:?}: {erlang} and {asn1c}", table.name);
                    }
                }
            }
            for (who, (bits, octets)) in pairs {
                text += &pair_line(&Pair {
                    who,
                    table: table.name.clone(),
                    values: value_octets(&list),
                    bits,
                    octets,
                });
            }
        }
    }
    assert_eq!(answers.next(), None, "an answer is left");
    text
}

/// The bits and the octets that a tool told, or its words.
fn answer(line: &str) -> Result<(u64, Vec<u8>), &str> {
    let told = line.split_once(' ').and_then(|(bits, hex)| {
        let bits = bits.parse().ok()?;
        Some((bits, octets(hex).ok()?))
    });
    told.ok_or(line)
}
