//! The case files of `vectors/`, run against the reference codec.

use teyolxan_host::codec::Call;
use teyolxan_host::mutants::{self, Fault};
use teyolxan_host::reference::REFERENCE;
use teyolxan_host::vectors::{parse, run, BASE, CAPTURE, EDGES, FORWARD, LOADED, STAGE01, STAGE02};

/// Runs a case file and asks that every case has its outcome.
fn passes(text: &str) -> usize {
    let vectors = parse(text).expect("the file is well formed");
    let report = run(&REFERENCE, &vectors);
    for call in Call::ALL {
        println!("{call:?}: {}", report.run.get(&call).unwrap_or(&0));
    }
    assert!(
        report.differences.is_empty(),
        "{} of {} cases differ:\n{}",
        report.differences.len(),
        report.total(),
        report.differences.join("\n"),
    );
    assert_eq!(report.skipped, 0);
    report.total()
}

#[test]
fn base() {
    assert_eq!(passes(BASE), 4_242);
}

#[test]
fn edges() {
    assert_eq!(passes(EDGES), 817);
}

#[test]
fn stage01() {
    assert_eq!(passes(STAGE01), 908);
}

#[test]
fn stage02() {
    assert_eq!(passes(STAGE02), 1_555);
}

#[test]
fn loaded() {
    assert_eq!(passes(LOADED), 443);
}

#[test]
fn capture() {
    assert_eq!(passes(CAPTURE), 569);
}

#[test]
fn forward() {
    assert_eq!(passes(FORWARD), 441);
}

/// The faults that no case of a file finds.
fn missed_by(text: &str) -> Vec<Fault> {
    let vectors = parse(text).expect("the file is well formed");
    mutants::all()
        .into_iter()
        .filter(|(_, mutant)| run(mutant.as_ref(), &vectors).differences.is_empty())
        .map(|(fault, _)| fault)
        .collect()
}

/// The cases that were worked out by hand find every fault, without the others.
#[test]
fn planted_faults_are_found() {
    let missed = missed_by(EDGES);
    assert!(missed.is_empty(), "not found: {missed:?}");
}

/// The cases of captures find all faults of the capture program but one, without the others. That one needs
/// an original length above 65,535 with low octets that are not above the kept length's; the cases that
/// were worked out by hand have it.
#[test]
fn planted_faults_of_captures_are_found() {
    let mut missed = missed_by(CAPTURE);
    missed.retain(|fault| fault.is_of_captures());
    assert_eq!(missed, [Fault::OriginalLowTwoOctets]);
}

/// The cases of forwarding find all faults of the forwarding step but one, without the others. That one
/// needs a message of more than 65,535 octets with another version; the cases that were worked out by hand
/// have it.
#[test]
fn planted_faults_of_forwarding_are_found() {
    let mut missed = missed_by(FORWARD);
    missed.retain(|fault| fault.is_of_forwarding());
    assert_eq!(missed, [Fault::VersionBeforeLength]);
}
