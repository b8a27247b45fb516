//! Every exported function, for some seconds, with drawn octets in slices of drawn lengths between
//! guards, against the reference. Nothing that is proved can fail here; the compiler's back end and
//! the boundary to Rust are not proved.
//!
//! The calls are made in a process of their own, so that one which dies or hangs is told. Longer,
//! or again, or one case alone:
//!
//! ```sh
//! TEYOLXAN_FUZZ_SECONDS=3600 cargo test --release --test guarded -- --nocapture
//! TEYOLXAN_FUZZ_SEED=1 cargo test --release --test guarded -- --nocapture
//! TEYOLXAN_FUZZ_SEED=1 TEYOLXAN_FUZZ_CASE=7 cargo test --release --test guarded -- --nocapture
//! ```
//!
//! For a debugger or valgrind, `--exact calls --ignored` makes the calls in the program itself.

mod draw;
mod process;

use std::collections::BTreeMap;
use std::env;
use std::thread;
use std::time::{Duration, Instant};

use draw::draw;
use process::{End, Ended, Progress};
use teyolxan_host::archive::Archive;
use teyolxan_host::compare::Stats;
use teyolxan_host::guarded::{Guarded, Trespass};
use teyolxan_host::random::Random;
use teyolxan_host::settings;

const SECONDS: &str = "TEYOLXAN_FUZZ_SECONDS";
const SEED: &str = "TEYOLXAN_FUZZ_SEED";
const CASE: &str = "TEYOLXAN_FUZZ_CASE";
/// Names what is planted in place of a case, to see that it is told.
const PLANT: &str = "TEYOLXAN_FUZZ_PLANT";

/// How long calls are made where nothing else is asked for.
const SECONDS_USUAL: u64 = 20;
/// How long a single case may take; it takes some microseconds.
const PATIENCE: Duration = Duration::from_secs(60);
/// The case that gives way to what is planted.
const PLANTED: u64 = 1_000;

/// The exported functions, as the crates have them.
fn exported() -> Vec<&'static str> {
    let sources = [
        include_str!("../../../crates/teyolxan/src/lib.rt"),
        include_str!("../../../crates/teyolxan_lm/src/lib.rt"),
        include_str!("../../../crates/probe/src/lib.rt"),
    ];
    let functions = sources
        .iter()
        .flat_map(|source| source.split("pub extern \"C\" fn ").skip(1));
    functions
        .map(|rest| rest.split('(').next().unwrap_or(rest))
        .collect()
}

/// What became of a process that makes the calls of a seed, where it did not end well.
fn report(ended: &Ended, seed: u64) -> Option<String> {
    let what = match ended.end {
        End::Left(0) => return None,
        End::Left(code) => format!("ended with code {code}:\n{}", ended.output),
        End::Died(signal) => format!("died by signal {signal}"),
        End::Hung => "hangs".to_string(),
    };
    let Some(case) = ended.case else {
        return Some(format!("before the first case: {what}\n{}", ended.output));
    };
    let text = draw(&mut Random::for_case(seed, case)).text();
    Some(format!(
        "case {case} of seed {seed} {what}\nin {text}\n\
         alone: {SEED}={seed} {CASE}={case} cargo test --release --test guarded"
    ))
}

#[test]
fn every_call_stays_between_the_guards() {
    let seed = settings::seed(SEED);
    println!("{SEED}={seed}");
    let ended = process::run("calls", &[(SEED, seed.to_string())], PATIENCE);
    if let Some(report) = report(&ended, seed) {
        panic!("{report}");
    }
    print!("{}", ended.output);
}

/// Makes the calls, for a time or one alone.
#[test]
#[ignore = "the other tests run it, in a process of its own"]
fn calls() {
    let seed = settings::seed(SEED);
    let time = Duration::from_secs(settings::number(SECONDS).unwrap_or(SECONDS_USUAL));
    let numbers = match settings::number(CASE) {
        Some(case) => case..case + 1,
        None => 0..u64::MAX,
    };
    let planted = env::var(PLANT).ok();
    let progress = Progress::of_this_process();
    let archive = Archive(Guarded::new());
    let mut stats = Stats::default();
    let mut functions = BTreeMap::new();
    let start = Instant::now();
    for number in numbers {
        if number % 64 == 0 && start.elapsed() >= time {
            break;
        }
        progress.begin(number);
        if let (PLANTED, Some(plant)) = (number, &planted) {
            harm(plant);
        }
        let random = &mut Random::for_case(seed, number);
        let call = draw(random);
        archive.0.draw_from(random.clone());
        call.run(&archive, &mut stats)
            .unwrap_or_else(|difference| panic!("seed {seed}, case {number}: {difference}"));
        for &function in call.functions() {
            *functions.entry(function).or_insert(0u64) += 1;
        }
    }
    let seconds = start.elapsed().as_secs_f64();
    let cases = stats.cases;
    println!(
        "{cases} cases in {seconds:.1} s, {:.0} cases a second",
        cases as f64 / seconds
    );
    println!("{functions:?}");
    println!("{stats}");
    if cases < 100_000 {
        return;
    }
    for function in exported() {
        assert!(functions.contains_key(function), "{function} is not called");
    }
    for (number, count) in stats.refusals() {
        assert!(count > 0, "refusal {number} is not met");
    }
}

/// Does what is planted.
fn harm(plant: &str) {
    match plant {
        "Difference" => panic!("a planted difference"),
        "Hang" => thread::sleep(Duration::from_secs(600)),
        _ => {
            let mut trespasses = Trespass::all().into_iter();
            let trespass = trespasses.find(|trespass| format!("{trespass:?}") == plant);
            trespass.expect("a trespass of this name").commit();
            panic!("{plant} was not stopped");
        }
    }
}

/// The report on a process in which something is planted.
fn planted(plant: String, patience: Duration) -> (End, String) {
    let variables = [
        (SEED, "1".to_string()),
        (CASE, PLANTED.to_string()),
        (PLANT, plant),
    ];
    let ended = process::run("calls", &variables, patience);
    let report = report(&ended, 1).unwrap_or_default();
    println!("{report}");
    assert!(
        report.starts_with(&format!("case {PLANTED} of seed 1 ")),
        "{report}"
    );
    assert!(
        report.ends_with(&format!(
            "alone: {SEED}=1 {CASE}={PLANTED} cargo test --release --test guarded"
        )),
        "{report}"
    );
    (ended.end, report)
}

/// Memory that may not be touched is a signal on Linux.
const SIGSEGV: i32 = 11;

#[test]
fn a_call_that_leaves_its_slices_dies_and_is_told() {
    for trespass in Trespass::all() {
        let (end, report) = planted(format!("{trespass:?}"), PATIENCE);
        assert_eq!(end, End::Died(SIGSEGV), "{trespass:?}");
        assert!(report.contains("died by signal 11\nin "), "{report}");
    }
}

#[test]
fn a_call_that_hangs_is_ended_and_told() {
    let (end, report) = planted("Hang".to_string(), Duration::from_secs(1));
    assert_eq!(end, End::Hung);
    assert!(report.contains("hangs\nin "), "{report}");
}

#[test]
fn a_difference_is_told() {
    let (end, report) = planted("Difference".to_string(), PATIENCE);
    assert!(matches!(end, End::Left(code) if code != 0));
    assert!(report.contains("a planted difference"), "{report}");
}
