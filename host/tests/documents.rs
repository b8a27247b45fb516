//! docs/HOST.md: its examples are the files in examples/, and they print what it says. The refusals
//! have the same numbers, names and sentences in the documents, in Rust and in C. docs/FORWARDING.md: its
//! tables are run.

use std::collections::BTreeSet;
use std::env;
use std::fs;
use std::mem::offset_of;
use std::path::{Path, PathBuf};
use std::process::Command;

use teyolxan_host::api::{self, Answer, Refusal, Seen, STATE_SIZE};
use teyolxan_host::codec::Codec;
use teyolxan_host::lm;
use teyolxan_host::reference::{self, REFERENCE};

const HOST: &str = include_str!("../../docs/HOST.md");
const TABLES: &str = include_str!("../../docs/TABLES.md");
const FORWARDING: &str = include_str!("../../docs/FORWARDING.md");
const HEADER: &str = include_str!("../include/teyolxan.h");
const LM_HEADER: &str = include_str!("../include/teyolxan_lm.h");
const ANSWER_HEADER: &str = include_str!("../include/teyolxan_answer.h");

/// The blocks of HOST.md that are marked with a language.
fn blocks(language: &str) -> Vec<&'static str> {
    blocks_of(HOST, language)
}

/// The same of any document.
fn blocks_of(document: &'static str, language: &str) -> Vec<&'static str> {
    document
        .split("\n```")
        .skip(1)
        .step_by(2)
        .filter_map(|block| block.strip_prefix(language)?.strip_prefix('\n'))
        .collect()
}

/// The examples in the order in which they stand there, with the library that each links; with each is
/// said what it prints.
const EXAMPLES: [(&str, &str); 4] = [
    ("receiver", "teyolxan"),
    ("forward", "teyolxan"),
    ("smallest", "teyolxan_lm"),
    ("host", "teyolxan"),
];
const SMALLEST: usize = 2;

/// Whether a block has declarations.
fn declares(block: &str) -> bool {
    ["void ", "api::"]
        .iter()
        .any(|start| block.starts_with(start))
}

/// The blocks in a language that belong to the examples, with their last line ends.
fn example_blocks(language: &str) -> [String; EXAMPLES.len()] {
    let mut blocks = blocks(language);
    blocks.retain(|block| !declares(block));
    let blocks: [&str; EXAMPLES.len()] = blocks.try_into().expect("a block for each example");
    blocks.map(|block| format!("{block}\n"))
}

#[test]
fn the_examples_are_the_files() {
    let in_rust = [
        include_str!("../examples/receiver.rs"),
        include_str!("../examples/forward.rs"),
        include_str!("../examples/smallest.rs"),
        include_str!("../examples/host.rs"),
    ];
    let in_c = [
        include_str!("../examples/receiver.c"),
        include_str!("../examples/forward.c"),
        include_str!("../examples/smallest.c"),
        include_str!("../examples/host.c"),
    ];
    assert_eq!(example_blocks("rust"), in_rust);
    assert_eq!(example_blocks("c"), in_c);
}

/// The declarations stand twice: for themselves, and in the header.
#[test]
fn the_declarations_are_those_of_the_headers() {
    let mut blocks = blocks("c");
    blocks.retain(|block| declares(block));
    let headers = [(HEADER, 6), (LM_HEADER, 1)];
    assert_eq!(blocks.len(), headers.len());
    for (block, (header, count)) in blocks.into_iter().zip(headers) {
        for declaration in block.split("\n\n") {
            assert!(header.contains(declaration), "{declaration}");
        }
        let declared = [block, header].map(|text| text.matches("void teyolxan_").count());
        assert_eq!(declared, [count; 2]);
    }
}

/// What a program prints.
fn printed(program: &Path) -> String {
    let output = Command::new(program)
        .output()
        .unwrap_or_else(|error| panic!("{}: {error}", program.display()));
    assert!(output.status.success(), "{output:?}");
    String::from_utf8(output.stdout).expect("a text")
}

/// Cargo puts examples beside the folder of its test programs.
#[test]
fn the_rust_examples_print_what_is_said() {
    let test = env::current_exe().expect("this program has a path");
    let folder = test.ancestors().nth(2).expect("the folder of the profile");
    for ((name, _), said) in EXAMPLES.iter().zip(example_blocks("text")) {
        let example = folder.join("examples").join(name);
        assert!(
            example.is_file(),
            "the example is not built: run `cargo test` without --test, or `cargo build --examples` before"
        );
        assert_eq!(printed(&example), said);
    }
}

fn archive(name: &str) -> PathBuf {
    Path::new(env!("TEYOLXAN_ARCHIVES_FOLDER")).join(format!("lib{name}.a"))
}

/// The smallest unit is built where there is no other library.
#[test]
fn the_smallest_example_links_its_library_alone() {
    let (name, library) = EXAMPLES[SMALLEST];
    let folder = Path::new(env!("CARGO_TARGET_TMPDIR")).join("alone");
    let archives = folder.join("archives");
    fs::create_dir_all(&archives).expect("a folder for the library");
    let library = archive(library);
    let copied = archives.join(library.file_name().expect("a name"));
    fs::copy(&library, &copied).expect("the library is copied");
    let output = Command::new(env!("CARGO"))
        .args(["build", "--quiet", "--offline", "--example", name])
        .args(["--no-default-features", "--features", "lm"])
        .arg("--manifest-path")
        .arg(concat!(env!("CARGO_MANIFEST_DIR"), "/Cargo.toml"))
        .arg("--target-dir")
        .arg(&folder)
        .env("TEYOLXAN_ARCHIVES", &archives)
        .env("CARGO_PROFILE_DEV_OPT_LEVEL", "0") // built sooner
        .output()
        .expect("cargo runs");
    let told = String::from_utf8_lossy(&output.stderr);
    assert!(output.status.success(), "{told}");
    let program = folder.join("debug/examples").join(name);
    assert_eq!(printed(&program), example_blocks("text")[SMALLEST]);
}

/// Compiles a program without a warning, if the compiler is there.
fn compiled(compiler: &str, standard: &str, name: &str, sources: &[&Path]) -> Option<PathBuf> {
    if Command::new(compiler).arg("--version").output().is_err() {
        println!("there is no {compiler}: {name} is not tried");
        return None;
    }
    let folder = PathBuf::from(env!("CARGO_TARGET_TMPDIR"));
    let program = folder.join(name);
    fs::create_dir_all(&folder).expect("a folder for the program");
    let output = Command::new(compiler)
        .arg(standard)
        .args(["-pedantic", "-Wall", "-Wextra", "-Werror", "-O2"])
        .arg(concat!("-I", env!("CARGO_MANIFEST_DIR"), "/include"))
        .args(sources)
        .arg("-o")
        .arg(&program)
        .output()
        .expect("the compiler runs");
    let told = String::from_utf8_lossy(&output.stderr);
    assert!(output.status.success(), "{told}");
    Some(program)
}

/// Compiles a program that is written into a file of this name first.
fn written(compiler: &str, standard: &str, file: &str, program: &str) -> Option<PathBuf> {
    let folder = PathBuf::from(env!("CARGO_TARGET_TMPDIR"));
    fs::create_dir_all(&folder).expect("a folder for the programs");
    let source = folder.join(file);
    fs::write(&source, program).expect("a program is written");
    compiled(compiler, standard, &file.replace('.', "-in-"), &[&source])
}

#[test]
fn the_c_examples_print_what_is_said() {
    let folder = Path::new(env!("CARGO_MANIFEST_DIR")).join("examples");
    for ((name, library), said) in EXAMPLES.iter().zip(example_blocks("text")) {
        let source = folder.join(name).with_extension("c");
        let library = archive(library);
        let program = compiled(
            "cc",
            "-std=c99",
            &format!("{name}-in-c"),
            &[&source, &library],
        );
        if let Some(program) = program {
            assert_eq!(printed(&program), said);
        }
    }
}

/// The size of a state in Rust is that in C, in the library's own sources, and in the documents.
#[test]
fn a_state_has_one_size() {
    const SOURCE: &str = include_str!("../../crates/loading/src/lib.rt");
    let defined = format!("\n#define TEYOLXAN_STATE_SIZE {STATE_SIZE}\n");
    assert!(HEADER.contains(&defined), "the header lacks: {defined}");
    let constant = format!("\npub const STATE: usize = {STATE_SIZE};\n");
    assert!(SOURCE.contains(&constant), "the library lacks: {constant}");
    let said = "a pointer alone, to its 6,160 octets";
    assert!(
        STATE_SIZE == 6_160 && HOST.contains(said),
        "docs/HOST.md lacks: {said}"
    );
}

/// A record stands in memory in C and in C++ as in Rust, and in the documents.
#[test]
fn a_record_has_one_layout() {
    const PROGRAM: &str = r#"#include "teyolxan.h"
#include <stdio.h>

struct aligned {
    char before;
    struct teyolxan_seen record;
};

int main(void)
{
    printf("%d %d %d\n", (int)offsetof(struct teyolxan_seen, id), (int)offsetof(struct teyolxan_seen, time),
           (int)offsetof(struct teyolxan_seen, used));
    printf("%d %d %d\n", (int)sizeof(bool), (int)sizeof(struct teyolxan_seen), (int)offsetof(struct aligned, record));
    return 0;
}
"#;
    let places = [
        offset_of!(Seen, id),
        offset_of!(Seen, time),
        offset_of!(Seen, used),
    ];
    let sizes = [size_of::<bool>(), size_of::<Seen>(), align_of::<Seen>()];
    let line = |[first, second, third]: [usize; 3]| format!("{first} {second} {third}\n");
    for (compiler, standard, file) in [
        ("cc", "-std=c99", "record.c"),
        ("c++", "-std=c++11", "record.cc"),
    ] {
        if let Some(program) = written(compiler, standard, file, PROGRAM) {
            assert_eq!(printed(&program), line(places) + &line(sizes));
        }
    }
    assert_eq!((places, sizes), ([0, 4, 8], [1, 12, 4]));
    for said in [
        "stand in memory alike: 12 octets, aligned to 4",
        "| 0 to 3 | `id` |",
        "| 4 to 7 | `time` |",
        "| 8 | `used` |",
        "**`used` is a `bool`, and its octet is 0 or 1.**",
    ] {
        assert!(HOST.contains(said), "docs/HOST.md lacks: {said}");
    }
}

#[test]
fn refusals_are_named_and_explained_alike() {
    for &number in Refusal::ALL {
        let name = Refusal::name(number).expect("a name");
        let meaning = Refusal::meaning(number);
        let (constant, tested) = (
            format!("    TEYOLXAN_REFUSED_{name} = {number}"),
            format!("    case TEYOLXAN_REFUSED_{name}:\n        return \"{meaning}\";\n"),
        );
        let ends = [",", "\n"].map(|end| ANSWER_HEADER.contains(&format!("{constant}{end}")));
        assert!(ends.contains(&true), "the header lacks: {constant}");
        assert!(
            ANSWER_HEADER.contains(&tested),
            "the header lacks: {tested}"
        );
        let row = format!("\n| {number} | `{name}` | {meaning} |");
        assert!(HOST.contains(&row), "docs/HOST.md lacks: {row}");
        let row = format!("\n| {number} | {meaning} |");
        assert!(TABLES.contains(&row), "docs/TABLES.md lacks: {row}");
    }
    // No others: each is declared and tested, and has a sentence of its own.
    let count = Refusal::ALL.len();
    let cases = ANSWER_HEADER.matches("    case TEYOLXAN_REFUSED_").count();
    assert_eq!(
        (
            cases,
            ANSWER_HEADER.matches("\n    TEYOLXAN_REFUSED_").count()
        ),
        (count, count)
    );
    let meanings: BTreeSet<_> = Refusal::ALL
        .iter()
        .map(|&at| Refusal::meaning(at))
        .collect();
    assert_eq!(meanings.len(), count);
    assert!(!meanings.contains(Refusal::meaning(0)));
    assert!(Refusal::ALL.is_sorted_by(|left, right| left < right));
}

/// The name of a constant for a variant: `TooLong` is `TOO_LONG`.
fn constant_name(variant: &str) -> String {
    let mut name = String::new();
    for letter in variant.chars() {
        if letter.is_uppercase() && !name.is_empty() {
            name.push('_');
        }
        name.push(letter.to_ascii_uppercase());
    }
    name
}

/// The names are those that the library's own sources have.
#[test]
fn refusals_are_named_as_in_the_library() {
    const SOURCE: &str = include_str!("../../crates/answer/src/lib.rt");
    let (_, reasons) = SOURCE.split_once("pub enum Reason {").expect("the reasons");
    let (reasons, _) = reasons.split_once("\n}").expect("their end");
    let lines = reasons.lines().map(str::trim);
    let variants = lines.filter(|line| !line.is_empty() && !line.starts_with("//"));
    let constants = variants.map(|line| {
        let variant = line
            .strip_suffix(',')
            .and_then(|line| line.split_once(" = "));
        let (name, number) = variant.unwrap_or_else(|| panic!("{line} has no number"));
        format!("{}: u32 = {number}", constant_name(name))
    });
    assert!(
        SOURCE.contains("\n    pub number: u32,\n"),
        "a number's type"
    );
    let named = |&number: &u32| {
        let name = Refusal::name(number).expect("a name");
        format!("{name}: u32 = {number}")
    };
    assert!(Refusal::ALL.iter().map(named).eq(constants));
}

/// The header's sentences, as a program prints them that calls nothing else; in C++ too.
#[test]
fn the_header_gives_the_sentences_of_rust() {
    const PROGRAM: &str = r#"#include "teyolxan.h"
#include <stdio.h>

int main(void)
{
    for (uint64_t number = 0; number < 100; number++)
        printf("%d %s\n", teyolxan_is_of_table(number), teyolxan_meaning(number));
    printf("%d %s\n", teyolxan_is_of_table(UINT64_MAX), teyolxan_meaning(UINT64_MAX));
    return 0;
}
"#;
    let numbers = (0..100).chain([u32::MAX]);
    let expected: String = numbers
        .map(|number| {
            let of_table = u8::from(Refusal::is_of_table(number));
            format!("{of_table} {}\n", Refusal::meaning(number))
        })
        .collect();
    for (compiler, standard, file) in [
        ("cc", "-std=c99", "meanings.c"),
        ("c++", "-std=c++11", "meanings.cc"),
    ] {
        if let Some(program) = written(compiler, standard, file, PROGRAM) {
            assert_eq!(printed(&program), expected);
        }
    }
}

/// A program that takes a header and asks for no sentence has no warning either; nor one that takes both.
#[test]
fn the_headers_alone_have_no_warning() {
    let (tables, lm) = ("teyolxan.h", "teyolxan_lm.h");
    for (number, headers) in [vec![tables], vec![lm], vec![tables, lm], vec![lm, tables]]
        .iter()
        .enumerate()
    {
        let includes = headers.iter().map(|name| format!("#include \"{name}\"\n"));
        let program = includes.collect::<String>() + "int main(void) { return 0; }\n";
        for (compiler, standard, end) in [("cc", "-std=c99", "c"), ("c++", "-std=c++11", "cc")] {
            written(
                compiler,
                standard,
                &format!("headers-{number}.{end}"),
                &program,
            );
        }
    }
}

// ---- FORWARDING.md ---------------------------------------------------------------------------

/// The cells of the table that has this header.
fn table(header: &str) -> Vec<Vec<&'static str>> {
    let (_, rest) = FORWARDING
        .split_once(&format!("\n\n{header}\n"))
        .unwrap_or_else(|| panic!("docs/FORWARDING.md lacks: {header}"));
    let row = |line: &'static str| {
        let cells = line.strip_prefix('|')?.strip_suffix('|')?;
        Some(cells.split('|').map(str::trim).collect())
    };
    rest.lines().skip(1).map_while(row).collect()
}

/// A number, as in 2,720,407.
fn number(text: &str) -> u32 {
    let digits = text.replace(',', "");
    digits
        .parse()
        .unwrap_or_else(|_| panic!("no number: {text}"))
}

/// The number as it is written there.
fn grouped(number: u32) -> String {
    let digits = number.to_string();
    let groups: Vec<_> = digits.as_bytes().rchunks(3).rev().collect();
    String::from_utf8(groups.join(&b',')).expect("digits")
}

/// The octets between the first two backticks of a cell.
fn octets(cell: &str) -> Vec<u8> {
    let text = cell.split('`').nth(1).expect("octets");
    text.split(' ')
        .map(|octet| u8::from_str_radix(octet, 16).expect("an octet"))
        .collect()
}

/// "41 at 8" for a refusal.
fn refused(answer: Answer) -> Option<String> {
    let Refusal { number, place } = answer.refusal()?;
    Some(format!("{number} at {place}"))
}

/// What stands before a colon, which begins a remark.
fn told(cell: &str) -> &str {
    cell.split(':').next().unwrap_or_default()
}

type Forward = fn(&[u8], u32, &mut [Seen], &mut [u8]) -> Answer;

/// The library's step, and the reference's.
const STEPS: [Forward; 2] = [api::forward, reference::forward];

fn squeezed(text: &str) -> String {
    text.split_whitespace().collect::<Vec<_>>().join(" ")
}

#[test]
fn the_declarations_of_forwarding_are_those_of_the_header() {
    let block = blocks_of(FORWARDING, "c")[0];
    let header = squeezed(HEADER);
    let starts = ["struct teyolxan_seen {", "void teyolxan_forward("];
    let declarations: Vec<_> = block.split("\n\n").map(squeezed).collect();
    assert_eq!(declarations.len(), starts.len());
    for (declaration, start) in declarations.iter().zip(starts) {
        assert!(declaration.starts_with(start), "{declaration}");
        assert!(header.contains(declaration), "{declaration}");
    }
}

/// Each call below is refused for its own reason, and for all that stand behind it in the order.
#[test]
fn the_answers_of_forwarding_come_in_their_order() {
    let live = Seen {
        id: 0,
        time: 0,
        used: true,
    };
    let calls: [(&[u8], Seen, usize); 9] = [
        (&[0; 65_536], live, 0),
        (&[0; 3], live, 0),
        (&[0; 4], live, 0),
        (&[0x03, 0, 0, 0], live, 0),
        (&[0x23, 0, 0, 0], live, 0),
        (&[0x23, 0, 0, 1], live, 0),
        (&[0x23, 0, 0, 5], live, 0),
        (&[0x23, 0, 0, 5], Seen::default(), 0),
        (&[0x23, 0, 0, 5], Seen::default(), 4),
    ];
    let rows = table("| Answer | Name | Place | When | What a unit does |");
    assert_eq!(rows.len(), calls.len());
    for (row, (message, record, room)) in rows.iter().zip(calls) {
        for forward in STEPS {
            let answer = forward(message, 0, &mut [record], &mut vec![0; room]);
            match answer.refusal() {
                None => assert_eq!(row[0], "accepted"),
                Some(Refusal { number, place }) => {
                    let name = Refusal::name(number).expect("a name");
                    let expected = [number.to_string(), format!("`{name}`"), place.to_string()];
                    assert_eq!(row[..3], expected);
                }
            }
        }
    }
}

/// The worked example: its bits, the six numbers, the output and the list.
#[test]
fn the_example_of_forwarding_is_what_the_call_gives() {
    let (_, example) = FORWARDING
        .split_once("\n## An example\n")
        .expect("an example");
    let message = octets(example);
    let setting =
        "\nAt time 1,000, with a list of two records, all zeros, and an output of 12 octets:\n";
    let (_, results) = example.split_once(setting).expect("the setting");
    for forward in STEPS {
        let (mut seen, mut output) = ([Seen::default(); 2], [0xAA; 12]);
        let answer = forward(&message, 1_000, &mut seen, &mut output);
        let Answer::Accepted {
            values,
            bits,
            octets: sent,
        } = answer
        else {
            panic!("{answer:?}");
        };
        let listed = seen.map(|record| {
            let used = if record.used { "in use" } else { "not in use" };
            let [id, time] = [record.id, record.time].map(grouped);
            format!("({id}, {time}, {used})")
        });
        let shown = output.map(|octet| format!("{octet:02X}")).join(" ");
        let expected = format!(
            "\n| | |\n|---|---|\n| the six numbers | 0 0 {values} {bits} {sent} 0 |\n\
             | the output | `{shown}`, of which the first {sent} octets are sent |\n\
             | the list | {} |\n",
            listed.join(", ")
        );
        assert!(results.starts_with(&expected), "{expected}");
        parts_are(&message, &output[..message.len()]);
    }
}

/// The bits of the worked example, before and after: the parts are all of it, one behind another.
fn parts_are(message: &[u8], output: &[u8]) {
    let bits = |octets: &[u8]| -> String {
        let bits = octets.iter().map(|octet| format!("{octet:08b}"));
        bits.collect()
    };
    let (before, after) = (bits(message), bits(output));
    let mut next = 0;
    for row in table("| Place | Bits | Value | Part | In the output |") {
        assert_eq!(row[0], next.to_string());
        let part = match row[1].starts_with('`') {
            true => bits(&octets(row[1])),
            false => {
                let value = u32::from_str_radix(row[1], 2).expect("bits");
                assert_eq!(row[2], grouped(value));
                row[1].to_string()
            }
        };
        let place = next..next + part.len();
        assert_eq!(before[place.clone()], part);
        match row[4].split_once(", which is ") {
            None => assert_eq!((row[4], &after[place]), ("the same", &part[..])),
            Some((lower, value)) => {
                assert_eq!(after[place], *lower);
                assert_eq!(u32::from_str_radix(lower, 2), Ok(number(value)));
            }
        }
        next += part.len();
    }
    assert_eq!(next, before.len());
}

/// The calls with a list of two records, one after another.
#[test]
fn a_list_of_two_records_goes_as_told() {
    let rows = table("| Now | Message ID, hop count | Answer | The list afterwards: ID, time |");
    assert_eq!(rows.len(), 8);
    for forward in STEPS {
        let mut seen = [Seen::default(); 2];
        for row in &rows {
            let (id, hops) = row[1].rsplit_once(", ").expect("an ID and a hop count");
            let head = 0x23 << 24 | number(id) << 2 | number(hops);
            let mut output = [0; 4];
            let answer = forward(&head.to_be_bytes(), number(row[0]), &mut seen, &mut output);
            let given = match refused(answer) {
                Some(refused) => {
                    assert_eq!(output, [0; 4]);
                    refused
                }
                None => {
                    assert_eq!(u32::from_be_bytes(output), head - 1);
                    format!("goes on with {}", (head - 1) & 0b11)
                }
            };
            let said = told(row[2]).split(',').next();
            assert_eq!(said, Some(given.as_str()), "{row:?}");
            let listed = seen.map(|record| match record {
                Seen { used: false, .. } => "free".to_string(),
                Seen { id, time, .. } => format!("({}, {})", grouped(id), grouped(time)),
            });
            assert_eq!(row[3], listed.join(", "), "{row:?}");
        }
    }
}

/// What can't be read goes on nevertheless.
#[test]
fn broken_messages_go_on_as_told() {
    let rows = table("| Message | Read as an LM by name | Forwarded |");
    assert_eq!(rows.len(), 4);
    for row in rows {
        let message = octets(row[0]);
        let by_name = REFERENCE.read_lm(&message, &mut [0; 8 * 64]);
        for answer in [by_name, lm::read(&message, &mut [0; 64])] {
            assert_eq!(refused(answer).as_deref(), Some(told(row[1])), "{row:?}");
        }
        for forward in STEPS {
            let mut output = vec![0; message.len()];
            let answer = forward(&message, 0, &mut [Seen::default()], &mut output);
            assert_eq!((refused(answer), output), (None, octets(row[2])), "{row:?}");
        }
    }
}
