//! The library of the smallest unit, by its symbols: what it offers, what it needs, and that nothing of
//! the engine is in it.

use std::collections::BTreeSet;
use std::fs;
use std::path::Path;

/// The crates that read under a table, or write.
const ENGINE: [&str; 22] = [
    "write_runs",
    "write_item",
    "row",
    "rules",
    "table",
    "parts",
    "guard",
    "write_steps",
    "read_leaf",
    "write_leaf",
    "read_begin",
    "write_begin",
    "reader",
    "writer",
    "reading",
    "writing",
    "builtin",
    "loading",
    "loaded",
    "codec",
    "messages",
    "userdata",
];

/// What each library may need, as `docs/HOST.md` says: functions of the C library.
const NEEDED_BY_SMALLEST: [&str; 1] = ["memset"];
const NEEDED_WITH_TABLES: [&str; 2] = ["memcpy", "memset"];

/// A symbol of an object file.
struct Symbol {
    name: String,
    /// Whether other files see it.
    is_global: bool,
    /// Whether this file has what it stands for.
    is_here: bool,
}

impl Symbol {
    /// The crate that the name begins with, behind what the compiler may put there: `reader` in
    /// `.Lswitch.table.reader::read_row.1`.
    fn of_crate(&self) -> Option<&str> {
        let (before, _) = self.name.split_once("::")?;
        before.rsplit('.').next()
    }
}

/// The little-endian number in so many octets of a file.
fn number(file: &[u8], at: usize, octets: usize) -> usize {
    let octets = file[at..at + octets].iter().rev();
    octets.fold(0, |number, &octet| number << 8 | usize::from(octet))
}

/// The object files in an archive of `ar`: a header of 60 octets before each member, which starts at an
/// even place.
fn objects(archive: &[u8]) -> Vec<&[u8]> {
    let mut rest = archive.strip_prefix(b"!<arch>\n").expect("an archive");
    let mut objects = Vec::new();
    while let Some((header, behind)) = rest.split_at_checked(60) {
        let size = str::from_utf8(&header[48..58]).expect("a number");
        let size: usize = size.trim_end().parse().expect("a number");
        let member = &behind[..size];
        if member.starts_with(b"\x7fELF") {
            objects.push(member);
        }
        rest = behind.get(size.next_multiple_of(2)..).unwrap_or(&[]);
    }
    objects
}

/// A section of an object file: its type, flags, place, size, and the section that it refers to.
struct Section {
    kind: usize,
    flags: usize,
    start: usize,
    size: usize,
    link: usize,
}

/// The sections of an object file: ELF with 64 bits, little-endian.
fn sections(object: &[u8]) -> Vec<Section> {
    let (first, size, count) = (
        number(object, 0x28, 8),
        number(object, 0x3A, 2),
        number(object, 0x3C, 2),
    );
    let section = |index: usize| {
        let at = first + index * size;
        Section {
            kind: number(object, at + 4, 4),
            flags: number(object, at + 8, 8),
            start: number(object, at + 0x18, 8),
            size: number(object, at + 0x20, 8),
            link: number(object, at + 0x28, 4),
        }
    };
    (0..count).map(section).collect()
}

/// The symbols of an object file that have a name.
fn symbols(object: &[u8]) -> Vec<Symbol> {
    const TABLE: usize = 2;
    const SIZE: usize = 24;
    let sections = sections(object);
    let table = sections.iter().find(|section| section.kind == TABLE);
    let table = table.expect("a table of symbols");
    let names = &object[sections[table.link].start..];
    let symbol = |at: usize| {
        let name = names[number(object, at, 4)..].split(|&octet| octet == 0);
        let name = name.into_iter().next().expect("a name, maybe empty");
        Symbol {
            name: String::from_utf8_lossy(name).into_owned(),
            is_global: number(object, at + 4, 1) >> 4 != 0,
            is_here: number(object, at + 6, 2) != 0,
        }
    };
    let symbols = (table.start..table.start + table.size).step_by(SIZE);
    let mut symbols: Vec<Symbol> = symbols.map(symbol).collect();
    symbols.retain(|symbol| !symbol.name.is_empty());
    symbols
}

/// The octets of an object file that are in memory when it runs: code and constants.
fn loaded_size(object: &[u8]) -> usize {
    const IN_MEMORY: usize = 2;
    let sections = sections(object).into_iter();
    let in_memory = sections.filter(|section| section.flags & IN_MEMORY != 0);
    in_memory.map(|section| section.size).sum()
}

/// What a library has.
struct Library {
    offered: Vec<String>,
    needed: BTreeSet<String>,
    /// The engine's crates that have a symbol in it.
    engine: BTreeSet<String>,
}

fn library(name: &str) -> Library {
    let file = format!("lib{name}.a");
    let path = Path::new(env!("TEYOLXAN_ARCHIVES_FOLDER")).join(&file);
    let archive = fs::read(path).expect("the library");
    let objects = objects(&archive);
    let size: usize = objects.iter().map(|object| loaded_size(object)).sum();
    println!("{file}: {size} octets of code and constants");
    let symbols: Vec<Symbol> = objects.into_iter().flat_map(symbols).collect();
    let named = |is_here: bool| {
        let symbols = symbols.iter();
        let global = symbols.filter(move |symbol| symbol.is_global && symbol.is_here == is_here);
        global.map(|symbol| symbol.name.clone())
    };
    let crates = symbols.iter().filter_map(Symbol::of_crate);
    let mut offered: Vec<String> = named(true).collect();
    offered.sort();
    Library {
        offered,
        needed: named(false).collect(),
        engine: crates
            .filter(|name| ENGINE.contains(name))
            .map(str::to_string)
            .collect(),
    }
}

fn assert_needs_only(library: &Library, allowed: &[&str]) {
    let needed = library.needed.iter().map(String::as_str);
    let others: Vec<&str> = needed.filter(|name| !allowed.contains(name)).collect();
    assert!(others.is_empty(), "{others:?}");
}

#[test]
fn the_smallest_library_offers_one_call_and_has_no_engine() {
    let library = library("teyolxan_lm");
    assert_eq!(library.offered, ["teyolxan_lm_read"]);
    assert_needs_only(&library, &NEEDED_BY_SMALLEST);
    assert_eq!(library.engine, BTreeSet::new());
}

/// So that the engine would be seen.
#[test]
fn the_library_with_tables_has_the_engine() {
    let library = library("teyolxan");
    assert_eq!(
        library.offered,
        [
            "teyolxan_check",
            "teyolxan_forward",
            "teyolxan_load",
            "teyolxan_read",
            "teyolxan_read_loaded",
            "teyolxan_write",
        ]
    );
    assert_needs_only(&library, &NEEDED_WITH_TABLES);
    for name in ["reader", "writer"] {
        assert!(library.engine.contains(name), "{name} is not seen");
    }
}

#[test]
fn the_crates_of_the_engine_are_there() {
    const CRATES: &str = include_str!("../../crates.txt");
    for name in ENGINE {
        let line = format!("\n{name}: ");
        assert!(CRATES.contains(&line), "no crate {name}");
    }
}
