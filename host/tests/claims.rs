//! docs/CLAIMS.md against the repository: every edit and every file that it names is there, and no
//! edit is left out; its calls are the public functions at the roots of their crates, and each
//! asks nothing and settles what is lent to it.

use std::collections::BTreeSet;
use std::fs;
use std::path::{Path, PathBuf};

fn root() -> PathBuf {
    Path::new(env!("CARGO_MANIFEST_DIR"))
        .parent()
        .expect("host stands in the repository")
        .to_path_buf()
}

fn claims() -> String {
    fs::read_to_string(root().join("docs/CLAIMS.md")).expect("docs/CLAIMS.md")
}

fn names_in(folder: &Path) -> Vec<String> {
    let Ok(entries) = fs::read_dir(folder) else {
        return Vec::new();
    };
    let name = |entry: fs::DirEntry| entry.file_name().into_string().expect("a plain name");
    entries
        .map(|entry| name(entry.expect("an entry")))
        .collect()
}

/// Each edit, as its crate and its name.
fn edits() -> BTreeSet<(String, String)> {
    let crates = root().join("crates");
    let mut edits = BTreeSet::new();
    for name in names_in(&crates) {
        for file in names_in(&crates.join(&name).join("must-fail")) {
            if let Some(edit) = file.strip_suffix(".edit") {
                edits.insert((name.clone(), edit.to_string()));
            }
        }
    }
    edits
}

/// The crates that a text ends with the names of, before a colon: "reader: ", "reader, writer: ".
fn crates_before_colon(text: &str, crates: &[String]) -> Vec<String> {
    let Some(list) = text.strip_suffix(": ") else {
        return Vec::new();
    };
    let words = list
        .rsplit([' ', ';', '|'])
        .map(|word| word.trim_end_matches(','));
    words
        .filter(|word| !word.is_empty() && *word != "and")
        .take_while(|word| crates.iter().any(|name| name == word))
        .map(str::to_string)
        .collect()
}

/// The edits that the tables name: those in code marks that follow a crate's name and a colon.
fn named() -> BTreeSet<(String, String)> {
    let crates = names_in(&root().join("crates"));
    let mut named = BTreeSet::new();
    for cell in claims().lines().flat_map(|line| line.split('|')) {
        for part in cell.split(';') {
            let mut pieces = part.split('`');
            let mut of = Vec::new();
            while let (Some(before), Some(code)) = (pieces.next(), pieces.next()) {
                if before != ", " {
                    of = crates_before_colon(before, &crates);
                }
                named.extend(of.iter().map(|name| (name.clone(), code.to_string())));
            }
        }
    }
    named
}

#[test]
fn edits_named_are_there() {
    let edits = edits();
    let wrong: Vec<_> = named().difference(&edits).cloned().collect();
    assert!(wrong.is_empty(), "no such edits: {wrong:?}");
}

#[test]
fn every_edit_is_named() {
    let named = named();
    let left: Vec<_> = edits().difference(&named).cloned().collect();
    assert!(left.is_empty(), "not in docs/CLAIMS.md: {left:?}");
}

#[test]
fn files_named_are_there() {
    let text = claims();
    let files = text.split('`').skip(1).step_by(2);
    let mut seen = 0;
    for file in files.filter(|code| code.contains('/') && code.ends_with(".antt")) {
        let file = file.strip_prefix("crates/").unwrap_or(file);
        assert!(root().join("crates").join(file).is_file(), "no file {file}");
        seen += 1;
    }
    assert!(seen > 30, "{seen} files were found in the text");
}

/// A function marked `pub`.
struct Function {
    name: String,
    /// The file that it stands in: `lib`, or a module.
    file: String,
    /// The `impl` or the module in that file that it stands in.
    block: Option<String>,
    signature: String,
    /// The clauses of its contract.
    clauses: Vec<String>,
}

/// The name of the function marked `pub` that starts on a line.
fn public_name(line: &str) -> Option<&str> {
    let line = line.trim_start().strip_prefix("pub ")?;
    let line = line.strip_prefix("extern \"C\" ").unwrap_or(line);
    line.strip_prefix("fn ")?.split(['(', '<']).next()
}

/// The `impl` or the module that starts on a line.
fn block_name(line: &str) -> Option<&str> {
    let head = line.strip_suffix(" {")?;
    let name = head.rsplit(' ').next()?.split('<').next()?;
    let starts = ["impl", "mod ", "pub mod "];
    let is_block = starts.iter().any(|start| head.starts_with(start));
    is_block.then_some(name)
}

fn starts_clause(line: &str) -> bool {
    let line = line.trim_start();
    line.starts_with("requires ") || line.starts_with("ensures ")
}

/// The public functions of a file, by the layout of `rt fmt`: what stands in a block is indented, and
/// the line that opens a body ends with its brace.
fn functions_in(file: &str, text: &str) -> Vec<Function> {
    let mut functions = Vec::new();
    let mut block = None;
    let mut lines = text.lines();
    while let Some(first) = lines.next() {
        if first == "}" {
            block = None;
        } else if let Some(name) = block_name(first) {
            block = Some(name.to_string());
        }
        let Some(name) = public_name(first) else {
            continue;
        };
        let mut signature = first.to_string();
        let mut clauses: Vec<String> = Vec::new();
        let mut line = first;
        while !line.ends_with('{') || starts_clause(line) {
            line = lines.next().expect("a body");
            if starts_clause(line) {
                clauses.push(String::new());
            }
            let text = clauses.last_mut().unwrap_or(&mut signature);
            *text += line.trim_start();
            *text += " ";
        }
        functions.push(Function {
            name: name.to_string(),
            file: file.to_string(),
            block: block.clone(),
            signature,
            clauses,
        });
    }
    functions
}

fn source(of: &str, file: &str) -> String {
    let file = root().join("crates").join(of).join("src").join(file);
    fs::read_to_string(&file).unwrap_or_else(|error| panic!("{}: {error}", file.display()))
}

/// The public functions of a crate.
fn functions(of: &str) -> Vec<Function> {
    let mut functions = Vec::new();
    for name in names_in(&root().join("crates").join(of).join("src")) {
        let file = name.strip_suffix(".rt").expect("a file of Rattle");
        functions.extend(functions_in(file, &source(of, &name)));
    }
    functions
}

impl Function {
    fn is_at_root(&self) -> bool {
        self.file == "lib" && self.block.is_none()
    }

    /// As a customer writes it: with its crate, or alone where it is exported.
    fn called(&self, of: &str) -> String {
        if self.signature.contains("extern \"C\"") {
            self.name.clone()
        } else {
            format!("{of}::{}", self.name)
        }
    }

    /// Where other crates find it, if lib.rt lets them.
    fn stands(&self, lib: &str) -> Option<String> {
        let has = |line: String| lib.lines().any(|other| other == line);
        if let Some(block) = &self.block {
            if self.file == "lib" || has(format!("pub use {}::{block};", self.file)) {
                return Some(block.clone());
            }
        }
        has(format!("pub mod {};", self.file)).then(|| self.file.clone())
    }

    /// The clauses of one kind.
    fn clauses(&self, kind: &str) -> Vec<&String> {
        let is_kind = |clause: &&String| clause.starts_with(kind);
        self.clauses.iter().filter(is_kind).collect()
    }

    /// The parameters that it may change.
    fn lent(&self) -> Vec<&str> {
        let (_, inside) = self.signature.split_once('(').expect("parameters");
        let (parameters, _) = inside.rsplit_once(')').expect("their end");
        let mut lent = Vec::new();
        for parameter in parameters.split(',') {
            if let Some((name, of)) = parameter.split_once(": &") {
                // a lifetime may stand before `mut`
                if of.split(' ').find(|word| !word.starts_with('\'')) == Some("mut") {
                    lent.push(name.trim());
                }
            }
        }
        lent
    }

    /// Whether an equation of its contract says what a parameter, or a field of it, then is.
    fn settles(&self, parameter: &str) -> bool {
        let exit = format!("{parameter}.new");
        let is_equation = |after: &str| {
            let mut words = after.split_whitespace();
            words.find(|word| !word.starts_with('.')) == Some("≡")
        };
        let ensures = self.clauses("ensures ");
        let mut uses = ensures
            .iter()
            .flat_map(|clause| clause.split(&exit).skip(1));
        uses.any(is_equation)
    }

    /// Whether an equation of its contract says what it gives back, or what a field of that is.
    fn answers(&self) -> bool {
        let starts = [
            "(result ≡ ",
            "{ result ≡ ",
            "(result.now ≡ ",
            "(result.message.now ≡ ",
        ];
        let ensures = self.clauses("ensures ");
        let mut clauses = ensures.iter();
        clauses.any(|clause| starts.iter().any(|start| clause.contains(start)))
    }

    /// What keeps it from being a call.
    fn faults(&self) -> Vec<String> {
        let mut faults = Vec::new();
        if !self.clauses("requires ").is_empty() {
            faults.push("has a `requires`".to_string());
        }
        if self.clauses("ensures ").is_empty() {
            faults.push("has no `ensures`".to_string());
        }
        if self.signature.contains("->") && !self.answers() {
            faults.push("leaves its answer free".to_string());
        }
        let free = self.lent().into_iter().filter(|name| !self.settles(name));
        faults.extend(free.map(|name| format!("leaves `{name}` free")));
        faults
    }
}

/// The table of the text with this heading: of each row's cells what stands in code marks.
fn table(heading: &str) -> Vec<Vec<BTreeSet<String>>> {
    let text = claims();
    let rows = text
        .lines()
        .skip_while(|line| !line.starts_with(heading))
        .skip(2)
        .take_while(|line| line.starts_with('|'));
    let codes = |cell: &str| {
        let codes = cell.split('`').skip(1).step_by(2);
        codes.map(str::to_string).collect()
    };
    let table: Vec<Vec<_>> = rows
        .map(|row| row.split('|').skip(1).map(codes).collect())
        .collect();
    assert!(!table.is_empty(), "no table with the heading {heading}");
    table
}

/// The crates with calls: the crate, its calls, where its parts stand.
fn crates_of_calls() -> Vec<(String, BTreeSet<String>, BTreeSet<String>)> {
    let mut crates = Vec::new();
    for row in table("| Crate | Its calls | Where its parts stand |") {
        let [name, calls, parts, ..] = &row[..] else {
            panic!("three cells: {row:?}");
        };
        let name = name.first().expect("a crate");
        crates.push((name.clone(), calls.clone(), parts.clone()));
    }
    crates
}

#[test]
fn calls_are_the_public_functions_at_the_roots() {
    for (of, calls, parts) in crates_of_calls() {
        let functions = functions(&of);
        let (roots, others): (Vec<_>, Vec<_>) = functions.iter().partition(|f| f.is_at_root());
        let found: BTreeSet<_> = roots.iter().map(|call| call.called(&of)).collect();
        assert_eq!(calls, found, "calls of {of}: the text's, the source's");
        let lib = source(&of, "lib.rt");
        let found: BTreeSet<_> = others.iter().filter_map(|part| part.stands(&lib)).collect();
        assert_eq!(parts, found, "parts of {of}: the text's, the source's");
        for line in lib.lines().filter(|line| line.starts_with("pub use ")) {
            let name = line.rsplit("::").next().expect("a name");
            let is_type = name.starts_with(char::is_uppercase);
            assert!(is_type, "{of} hands on a function at its root: {line}");
        }
    }
}

#[test]
fn calls_ask_nothing_and_settle_what_is_lent() {
    let mut wrong = Vec::new();
    let mut lent = 0;
    for (of, ..) in crates_of_calls() {
        for call in functions(&of).iter().filter(|call| call.is_at_root()) {
            for fault in call.faults() {
                wrong.push(format!("{} {fault}", call.called(&of)));
            }
            lent += call.lent().len();
        }
    }
    assert!(wrong.is_empty(), "no calls: {wrong:?}");
    assert!(lent > 10, "only {lent} lent parameters were found");
}

#[test]
fn every_crate_is_in_one_class() {
    let text = fs::read_to_string(root().join("crates.txt")).expect("crates.txt");
    let lines = text.lines().filter(|line| !line.starts_with('#'));
    let mut crates: Vec<_> = lines
        .filter_map(|line| line.split_once(':'))
        .filter_map(|(name, _)| name.split(' ').next().map(str::to_string))
        .collect();
    let without = table("| Crates without calls |");
    let [parts, definitions, programs] = &without[..] else {
        panic!("three classes of crates without calls: {without:?}");
    };
    let mut classed: Vec<_> = crates_of_calls().into_iter().map(|(of, ..)| of).collect();
    for class in [parts, definitions, programs] {
        classed.extend(class[1].iter().cloned());
    }
    crates.sort();
    classed.sort();
    assert_eq!(classed, crates, "the text's classes, crates.txt");
    for of in &parts[1] {
        assert!(!functions(of).is_empty(), "{of} has no parts");
    }
    for of in &definitions[1] {
        assert!(!source(of, "lib.rt").contains("fn "), "{of} has a function");
    }
}
