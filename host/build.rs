//! Links the static libraries that `./build` builds from the Rattle crates. They are looked for
//! in ../target/staticlib, or in the folder that the variable TEYOLXAN_ARCHIVES names. Where the one
//! with the calls under tables is among them, the package has the configuration `tables`. With the
//! feature `asn1c` the benchmark also links the library that `host/bench` builds in target/asn1c.

use std::env;
use std::path::{Path, PathBuf};

fn main() {
    let folder = match env::var_os("TEYOLXAN_ARCHIVES") {
        Some(folder) => PathBuf::from(folder),
        None => Path::new(env!("CARGO_MANIFEST_DIR")).with_file_name("target/staticlib"),
    };
    let feature = |name: &str| env::var_os(format!("CARGO_FEATURE_{name}")).is_some();
    let names = archives(feature("TABLES"), feature("LM"), feature("PROBE"));
    println!("cargo::rerun-if-changed=build.rs");
    println!("cargo::rerun-if-env-changed=TEYOLXAN_ARCHIVES");
    println!("cargo::rustc-check-cfg=cfg(tables)");
    if names.contains(&TABLES) {
        println!("cargo::rustc-cfg=tables");
    }
    for line in instructions(&folder, &names) {
        println!("{line}");
    }
    if feature("ASN1C") {
        let library = Path::new(env!("CARGO_MANIFEST_DIR")).join("target/asn1c/libmessages.a");
        for line in asn1c_instructions(&library) {
            println!("{line}");
        }
    }
}

/// The library with the calls under tables.
const TABLES: &str = "teyolxan";

/// The libraries that these features ask for.
pub fn archives(tables: bool, lm: bool, probe: bool) -> Vec<&'static str> {
    let asked = [
        (TABLES, tables || !lm),
        ("teyolxan_lm", lm),
        ("probe", probe),
        ("probe_lm", probe),
    ];
    let names = asked.into_iter().filter(|(_, asked)| *asked);
    names.map(|(name, _)| name).collect()
}

/// What Cargo is told of asn1c's library: the benchmark alone links it.
pub fn asn1c_instructions(library: &Path) -> Vec<String> {
    let shown = library.display();
    if !library.is_file() {
        return vec![format!("cargo::error=no {shown}: run `host/bench`")];
    }
    vec![
        format!("cargo::rerun-if-changed={shown}"),
        format!("cargo::rustc-link-arg-bin=bench={shown}"),
    ]
}

/// What Cargo is told: to link the libraries of these names, or one error where some are missing.
pub fn instructions(folder: &Path, names: &[&str]) -> Vec<String> {
    let file = |name: &str| format!("lib{name}.a");
    let missing: Vec<&str> = names
        .iter()
        .copied()
        .filter(|name| !folder.join(file(name)).is_file())
        .collect();
    if !missing.is_empty() {
        let files: Vec<String> = missing.iter().map(|name| file(name)).collect();
        let commands: Vec<String> = missing
            .iter()
            .map(|name| format!("./build {name}"))
            .collect();
        return vec![format!(
            "cargo::error=no {} in {}: run `{}` in the repository's root",
            files.join(", no "),
            folder.display(),
            commands.join(" && "),
        )];
    }
    let mut lines = vec![
        format!("cargo::rustc-link-search=native={}", folder.display()),
        format!(
            "cargo::rustc-env=TEYOLXAN_ARCHIVES_FOLDER={}",
            folder.display()
        ),
    ];
    for name in names {
        let path = folder.join(file(name));
        lines.push(format!("cargo::rerun-if-changed={}", path.display()));
        lines.push(format!("cargo::rustc-link-lib=static={name}"));
    }
    lines
}
