//! The build script: what it tells Cargo.

use std::fs;
use std::path::Path;

#[allow(dead_code)]
#[path = "../build.rs"]
mod script;

#[test]
fn a_missing_library_is_one_error_that_names_the_command() {
    let folder = Path::new(env!("CARGO_TARGET_TMPDIR")).join("no-archives");
    fs::create_dir_all(&folder).expect("a folder");
    let shown = folder.display();
    assert_eq!(
        script::instructions(&folder, &["teyolxan"]),
        [format!(
            "cargo::error=no libteyolxan.a in {shown}: run `./build teyolxan` in the repository's root"
        )]
    );
    assert_eq!(
        script::instructions(&folder, &["teyolxan", "probe"]),
        [format!(
            "cargo::error=no libteyolxan.a, no libprobe.a in {shown}: run `./build teyolxan && ./build probe` in the repository's root"
        )]
    );
}

#[test]
fn features_ask_for_their_libraries() {
    let (tables, lm, probe, probe_lm) = ("teyolxan", "teyolxan_lm", "probe", "probe_lm");
    for (features, names) in [
        ([false, false, false], &[tables][..]),
        ([true, false, false], &[tables]),
        ([false, true, false], &[lm]),
        ([true, true, false], &[tables, lm]),
        ([true, true, true], &[tables, lm, probe, probe_lm]),
    ] {
        let [tables, lm, probe] = features;
        assert_eq!(script::archives(tables, lm, probe), names, "{features:?}");
    }
}

#[test]
fn a_library_that_is_there_is_linked() {
    let folder = Path::new(env!("CARGO_TARGET_TMPDIR")).join("archives");
    fs::create_dir_all(&folder).expect("a folder");
    fs::write(folder.join("libteyolxan.a"), "").expect("a file");
    let lines = script::instructions(&folder, &["teyolxan"]);
    assert!(lines.contains(&"cargo::rustc-link-lib=static=teyolxan".to_string()));
    assert!(lines.iter().all(|line| !line.contains("error")));
}

#[test]
fn the_library_of_asn1c_is_an_error_or_linked() {
    let folder = Path::new(env!("CARGO_TARGET_TMPDIR")).join("asn1c");
    fs::create_dir_all(&folder).expect("a folder");
    let missing = folder.join("missing.a");
    assert_eq!(
        script::asn1c_instructions(&missing),
        [format!(
            "cargo::error=no {}: run `host/bench`",
            missing.display()
        )]
    );
    let library = folder.join("libmessages.a");
    fs::write(&library, "").expect("a file");
    let shown = library.display();
    assert!(script::asn1c_instructions(&library)
        .contains(&format!("cargo::rustc-link-arg-bin=bench={shown}")));
}
