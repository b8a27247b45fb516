//! The comparison itself: the reference equals itself, and every planted fault is found.

use std::time::Instant;

use teyolxan_host::codec::{Answer, Call, Codec};
use teyolxan_host::compare::{compare, compare_case};
use teyolxan_host::mutants;
use teyolxan_host::reference::REFERENCE;

/// Cases for the reference against itself; more where the build is optimised.
const CASES: u64 = if cfg!(debug_assertions) {
    200_000
} else {
    1_000_000
};
/// Cases within which every planted fault has to be found.
const CASES_TO_FIND: u64 = 40_000;

#[test]
fn the_reference_equals_itself() {
    let start = Instant::now();
    let stats = compare(&REFERENCE, &REFERENCE, 1, CASES).expect("no difference");
    let seconds = start.elapsed().as_secs_f64();
    println!("{stats}");
    println!(
        "{CASES} cases in {seconds:.1} s, {:.0} cases a second",
        CASES as f64 / seconds
    );
    assert_eq!(stats.cases, CASES);
    for call in Call::ALL {
        assert!(stats.calls[call as usize] > 0, "{call:?} is not drawn");
    }
    stats.assert_refusals_are_met();
    let judged: u64 = stats.accepted + stats.refused.iter().sum::<u64>();
    assert!(
        stats.accepted * 4 > judged,
        "{} of {judged} are accepted",
        stats.accepted
    );
}

#[test]
fn every_planted_fault_is_found() {
    let mut missed = Vec::new();
    for (fault, mutant) in mutants::all() {
        match compare(&REFERENCE, mutant.as_ref(), 2, CASES_TO_FIND) {
            Ok(_) => missed.push(fault),
            Err(report) => println!("{fault:?}: {report:.300}"),
        }
    }
    assert!(missed.is_empty(), "not found: {missed:?}");
}

/// Offers the check alone, and passes every table.
struct PassesAll;

impl Codec for PassesAll {
    fn name(&self) -> String {
        "passes all".to_string()
    }

    fn offers(&self, call: Call) -> bool {
        call == Call::Check
    }

    fn check(&self, _table: &[u8]) -> Answer {
        Answer::PASSED
    }
}

#[test]
fn only_shared_calls_are_compared_and_a_report_can_be_repeated() {
    let report = compare(&REFERENCE, &PassesAll, 3, 1_000).expect_err("a difference");
    let number = report
        .split_once("case ")
        .and_then(|(_, rest)| rest.split_once(':'))
        .and_then(|(number, _)| number.parse().ok())
        .expect("the report names the case");
    assert!(report.starts_with("seed 3, case "), "{report}");
    assert!(report.contains("check 1,2 "), "{report}");
    let again = compare_case(&REFERENCE, &PassesAll, 3, number).expect_err("the same");
    assert_eq!(again, report);
}
