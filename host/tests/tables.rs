//! docs/TABLES.md: its example is the file in examples/, and the program for tables says what it says.

use std::collections::BTreeSet;
use std::env;
use std::fs;
use std::path::{Path, PathBuf};
use std::process::Command;

use teyolxan_host::api::Refusal;
use teyolxan_host::random::{nearly_passing_table, Random};
use teyolxan_host::reference;

/// Tables that are drawn and listed.
const DRAWS: u64 = 300;

const TABLES: &str = include_str!("../../docs/TABLES.md");
const NOTICE: &str = include_str!("../examples/notice.txt");

/// The program, which Cargo puts beside the folder of its test programs.
fn program() -> PathBuf {
    let test = env::current_exe().expect("this program has a path");
    let folder = test.ancestors().nth(2).expect("the folder of the profile");
    let program = folder.join("examples/table");
    assert!(
        program.is_file(),
        "the example is not built: run `cargo test` without --test, or `cargo build --example table` before"
    );
    program
}

/// What it prints of a table in a file, what it says of the answer, and its exit code.
fn run(file: &Path, words: &[&str]) -> (String, String, Option<i32>) {
    let mut command = Command::new(program());
    let output = command.arg(file).args(words).output().expect("it runs");
    let [printed, said] =
        [output.stdout, output.stderr].map(|text| String::from_utf8(text).expect("a text"));
    (printed, said, output.status.code())
}

/// All of what it prints and says.
fn printed(file: &Path, words: &[&str]) -> String {
    let (printed, said, _) = run(file, words);
    printed + &said
}

/// A file of this name, with this in it.
fn written(name: &str, text: impl AsRef<[u8]>) -> PathBuf {
    let folder = PathBuf::from(env!("CARGO_TARGET_TMPDIR"));
    fs::create_dir_all(&folder).expect("a folder for the tables");
    let file = folder.join(name);
    fs::write(&file, text).expect("a table is written");
    file
}

fn notice() -> PathBuf {
    Path::new(env!("CARGO_MANIFEST_DIR")).join("examples/notice.txt")
}

/// A slip of the document: the table with it, its octets there, the answer, and what is listed of
/// the row at fault.
struct Slip {
    table: String,
    octets: &'static str,
    number: u32,
    place: u64,
    listed: &'static str,
}

/// The example with a part changed.
fn changed(
    right: &str,
    octets: &'static str,
    (number, place): (u32, u64),
    listed: &'static str,
) -> Slip {
    assert_eq!(NOTICE.matches(right).count(), 1, "{right}");
    Slip {
        table: NOTICE.replace(right, octets),
        octets,
        number,
        place,
        listed,
    }
}

/// Every slip of the document, one for each refusal of a table at least.
fn slips() -> Vec<Slip> {
    let small = Slip {
        table: "0C 00 01".to_string(),
        octets: "0C 00 01",
        number: Refusal::TABLE_SIZE,
        place: 0,
        listed: "octets: 3",
    };
    // Each record is around the row before it: the notice at 98, then 128, 138 and so on.
    let before = [98].into_iter().chain((128..418).step_by(10));
    let record = |row: u16| {
        let [low, high] = row.to_le_bytes();
        format!("0A 00 05 00 01 00 {low:02X} {high:02X} 00 00\n")
    };
    let deep = Slip {
        table: NOTICE.to_string() + &before.map(record).collect::<String>(),
        octets: "0A 00 05 00 01 00 62 00 00 00",
        number: Refusal::TOO_DEEP,
        place: 418,
        listed: "record of 1: rows 408",
    };
    vec![
        small,
        changed(
            "0C 00 01 00 D8 FF FF FF 7D 00 00 00",
            "0C 00 01 00 D8 FF FF 7D 00 00 00",
            (Refusal::ROW_PAST_END, 24),
            "length 512, octets left: 103",
        ),
        changed(
            "06 00 07 00 14 00",
            "06 00 00 07 14 00",
            (Refusal::UNKNOWN_KIND, 72),
            "kind 1792",
        ),
        changed(
            "0C 00 06 00 03 00 1C 00 FF FF 28 00",
            "0E 00 06 00 03 00 1C 00 FF FF 28 00",
            (Refusal::WRONG_ROW_LENGTH, 52),
            "choice, length 14, m 3: with this m it has 12",
        ),
        changed(
            "08 00 04 00 04 00 4E 00",
            "08 00 04 00 00 00 4E 00",
            (Refusal::WRONG_ROW_NUMBER, 90),
            "counted run, most 0, of row 78: 1 to 16383 are allowed",
        ),
        changed(
            "48 00 01 00",
            "48 00 02 00",
            (Refusal::WRONG_ROW_NUMBER, 98),
            "record of 6: rows 24, 12, 52, 64, 72 flag 2, 90: a flag is 0 or 1",
        ),
        changed(
            "48 00 01 00",
            "4A 00 01 00",
            (Refusal::WRONG_REFERENCE, 98),
            "record of 6: rows 24, 12, 52, 64, 74 optional, 90: no row before it begins at 74",
        ),
        changed(
            "0C 00 06 00 03 00 1C 00 FF FF 28 00",
            "0C 00 06 00 03 00 FF FF FF FF FF FF",
            (Refusal::ONLY_RESERVED, 52),
            "choice of 3: no row",
        ),
        deep,
    ]
}

#[test]
fn slips_are_told_as_the_document_says() {
    let mut numbers = BTreeSet::new();
    for (index, slip) in slips().into_iter().enumerate() {
        let (number, place) = (slip.number, slip.place);
        let file = written(&format!("slip{index}.txt"), slip.table);
        let told = format!("{}\n", Refusal { number, place });
        let text = printed(&file, &[]);
        let end = format!("       {}\n{told}", slip.listed);
        assert!(text.ends_with(&end), "{end}: {text}");
        for words in [&["read", "00"][..], &["read"], &["write", "1", "2"]] {
            assert_eq!(printed(&file, words), told);
        }
        let (octets, cells) = (
            format!("| `{}`", slip.octets),
            format!(" | {number} at {place} | `{}` |\n", slip.listed),
        );
        let mut rows = TABLES.split_inclusive('\n');
        assert!(
            rows.any(|row| row.contains(&octets) && row.ends_with(&cells)),
            "docs/TABLES.md lacks: {octets}{cells}"
        );
        numbers.insert(number);
    }
    let of_tables = |number: &&u32| Refusal::is_of_table(**number);
    assert!(numbers.iter().eq(Refusal::ALL.iter().filter(of_tables)));
}

/// The list in the document is what is printed.
#[test]
fn the_slip_of_the_document_is_listed() {
    let block = TABLES
        .split("```text\n")
        .nth(1)
        .and_then(|rest| rest.split("```").next())
        .expect("a block of text");
    let table = NOTICE.replace("48 00 01 00", "4A 00 01 00");
    let text = printed(&written("slip.txt", table), &[]);
    assert!(text.ends_with(block), "{text}");
}

/// Open octets have their own name and bounds.
#[test]
fn open_octets_are_listed() {
    let list = printed(Path::new("SRM"), &[]);
    for row in [
        "\n   24  open octets, most 16383\n",
        "\n   90  open octets, most 16383\n",
    ] {
        assert!(list.contains(row), "{row}: {list}");
    }
    for (octets, number, listed) in [
        (
            "06 00 08 00 00 00",
            Refusal::WRONG_ROW_NUMBER,
            "open octets, most 0: 1 to 16383 are allowed",
        ),
        (
            "04 00 08 00",
            Refusal::WRONG_ROW_LENGTH,
            "open octets, length 4: it has 6",
        ),
        ("06 00 09 00 05 00", Refusal::UNKNOWN_KIND, "kind 9"),
    ] {
        let told = Refusal { number, place: 0 };
        let text = printed(&written("open.txt", octets), &[]);
        assert_eq!(text, format!("    0  {octets}\n       {listed}\n{told}\n"));
    }
    let file = written("open-octets.txt", "06 00 08 00 05 00");
    let (number, place) = (Refusal::OUTSIDE_LIMITS, 0);
    let told = format!("{}\n", Refusal { number, place });
    assert_eq!(printed(&file, &["read", "00"]), told);
}

/// Whatever the octets are, the rows are listed up to the one that is refused, each with its offset,
/// and the program ends as it should.
#[test]
fn any_octets_are_listed() {
    for number in 0..DRAWS {
        let table = nearly_passing_table(&mut Random::for_case(11, number));
        let octets: String = table.iter().map(|octet| format!("{octet:02X}")).collect();
        let (list, said, code) = run(&written("any.txt", &octets), &[]);
        let refusal = reference::check(&table).refusal();
        let told = refusal.map_or("passed\n".to_string(), |refusal| format!("{refusal}\n"));
        assert_eq!(said, told, "{octets}");
        assert_eq!(code, Some(i32::from(refusal.is_some())), "{octets}");
        // The offsets that stand in front, and those of the rows up to the end or the fault.
        let listed: Vec<u64> = list
            .lines()
            .filter_map(|line| line.get(..5)?.trim().parse().ok())
            .collect();
        let end = refusal.map_or(table.len() as u64, |refusal| refusal.place);
        let mut rows = Vec::new();
        let mut at = 0;
        while at < end {
            rows.push(at);
            let length = &table[at as usize..][..2];
            at += u64::from(u16::from_le_bytes([length[0], length[1]]));
        }
        rows.extend(
            refusal
                .filter(|refusal| refusal.number != Refusal::TABLE_SIZE)
                .map(|_| end),
        );
        assert_eq!(listed, rows, "{octets}: {list}");
    }
}

/// What is no table and no table's octets ends with a word to whoever runs it.
#[test]
fn what_is_no_table_is_told() {
    let wrong = [
        (
            written("lone.txt", "4 00 2 00"),
            "line 1: octets are two hex digits each, not \"4\"",
        ),
        (
            written("sign.txt", "04 00\n+2 00 # x"),
            "line 2: octets are two hex digits each, not \"+2\"",
        ),
        (
            written("no-text.txt", [0xFF]),
            "stream did not contain valid UTF-8",
        ),
        (PathBuf::from(env!("CARGO_TARGET_TMPDIR")), "Is a directory"),
        (PathBuf::from("no such file"), "No such file"),
    ];
    for (file, told) in wrong {
        let (list, said, code) = run(&file, &[]);
        assert_eq!((list.as_str(), code), ("", Some(2)), "{said}");
        assert!(
            said.starts_with("table: ") && said.contains(told),
            "{told}: {said}"
        );
    }
    for words in [&["erase"][..], &["read", "0"], &["write", "one"]] {
        let (_, said, code) = run(&notice(), words);
        assert_eq!(code, Some(2), "{said}");
    }
    let bare = Command::new(program()).output().expect("it runs");
    assert!(String::from_utf8_lossy(&bare.stderr).starts_with("table: table TABLE"));
}

/// The document's message and list, there and back.
#[test]
fn the_example_reads_and_writes() {
    const MESSAGE: &str = "C0 56 23 01 14 14 20 24 86 90 29 6C 80";
    const LIST: &str = "1 300 -5 0 17 65 66 2 72 105 2 150 200";
    for command in [format!("read {MESSAGE}"), format!("write {LIST}")] {
        let line = format!("table examples/notice.txt {command}");
        assert!(TABLES.contains(&line), "docs/TABLES.md lacks: {line}");
    }
    let words = |start: &'static str, text: &'static str| -> Vec<&'static str> {
        [start].into_iter().chain(text.split(' ')).collect()
    };
    let read = printed(&notice(), &words("read", MESSAGE));
    assert!(read.contains(LIST), "{read}");
    let written = printed(&notice(), &words("write", LIST));
    assert!(written.contains(MESSAGE), "{written}");
}

/// The document's messages under the example's table, each with its answer; and the one that is
/// read there with no octets in its note, where the note's row is open octets.
#[test]
fn messages_have_their_answers() {
    let (_, given) = TABLES
        .split_once("Under the table of the example:\n")
        .expect("the part");
    let lines = given.lines().skip_while(|line| line.is_empty());
    let cells = lines
        .take_while(|line| line.starts_with('|'))
        .filter_map(|line| {
            line.strip_prefix("| `")?
                .strip_suffix(" |")?
                .split_once("` | ")
        });
    let read = |file: &Path, message: &str| {
        let words: Vec<&str> = ["read"].into_iter().chain(message.split(' ')).collect();
        printed(file, &words)
    };
    let mut seen = 0;
    for (message, answer) in cells {
        let told = match answer.split_once(", ") {
            Some(("read", rest)) => {
                let (values, _) = rest.split_once(':').expect("so many values");
                format!("accepted: {values}")
            }
            _ => format!("refused {}", answer.split(':').next().unwrap_or(answer)),
        };
        let said = read(&notice(), message);
        assert!(said.contains(&told), "{message}: {said} is not {told}");
        seen += 1;
    }
    assert_eq!(seen, 10);

    const EMPTY: &str = "C0 56 23 01 14 14 20 00 29 6C 80";
    const ROW: [&str; 2] = ["06 00 07 00 14 00", "06 00 08 00 14 00"];
    assert!(TABLES.contains(&format!("| `{EMPTY}` | read, 11 values")));
    assert!(TABLES.contains(&format!("row of kind 8, `{}` | 6 at 52", ROW[1])));
    assert!(NOTICE.contains(ROW[0]));
    let open = written("open-note.txt", NOTICE.replace(ROW[0], ROW[1]));
    let said = read(&open, EMPTY);
    assert!(said.contains("refused 6 at 52"), "{said}");
    let words = "write 1 300 -5 0 17 65 66 0 2 150 200";
    let said = printed(&open, &words.split(' ').collect::<Vec<_>>());
    assert!(said.contains("refused 12 at 7"), "{said}");
}
