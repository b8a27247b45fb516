//! Times, and instructions by valgrind's callgrind.

use std::env;
use std::mem;
use std::process::Command;
use std::time::{Duration, Instant};

use crate::calls::{prepare, Way, Work};
use crate::subjects::{Job, Subject};

/// How long a sample takes, how many there are in a round, and how many rounds. Short samples are
/// rarely interrupted, so that a busy machine hardly moves their median.
const SAMPLE: Duration = Duration::from_micros(200);
const SAMPLES: usize = 61;
const ROUNDS: usize = 5;
/// The calls that callgrind counts, beside one alone.
const COUNTED: u64 = 101;
/// Callgrind counts `rep stosb` once for each octet. With this glibc zeroes by vector stores, also
/// where there is much to zero, so that zeroing counts alike for everyone.
const NO_REPEATED_STORE: (&str, &str) = (
    "GLIBC_TUNABLES",
    "glibc.cpu.x86_rep_stosb_threshold=1073741824",
);

/// What a call costs: a number for each round of a measurement. A count has one round.
pub struct Cost(Vec<f64>);

impl Cost {
    /// The median of the rounds.
    pub fn number(&self) -> f64 {
        median(self.0.clone())
    }

    /// The median of the rounds' ratios: what moves a whole round meets both sides of its ratio.
    pub fn ratio(&self, other: &Cost) -> f64 {
        let rounds = self.0.iter().zip(&other.0);
        median(rounds.map(|(ours, other)| ours / other).collect())
    }
}

/// The one in the middle; there is an odd count of numbers.
fn median(mut numbers: Vec<f64>) -> f64 {
    numbers.sort_by(f64::total_cmp);
    numbers[numbers.len() / 2]
}

/// A call that is timed.
struct Timed {
    work: Work,
    /// The calls that take as long as a sample.
    count: u64,
    /// The nanoseconds of a call: by the samples of this round, and by the rounds before.
    samples: Vec<f64>,
    rounds: Vec<f64>,
}

impl Timed {
    fn new(work: Work) -> Timed {
        let mut timed = Timed {
            work,
            count: 1,
            samples: Vec::new(),
            rounds: Vec::new(),
        };
        while timed.time() < SAMPLE {
            timed.count *= 2;
        }
        timed
    }

    fn time(&mut self) -> Duration {
        let start = Instant::now();
        (self.work)(self.count);
        start.elapsed()
    }

    fn sample(&mut self) {
        let time = self.time().as_nanos() as f64 / self.count as f64;
        self.samples.push(time);
    }

    fn end_round(&mut self) {
        self.rounds.push(median(mem::take(&mut self.samples)));
    }
}

/// The nanoseconds of a call for each way, by round the median of its samples. The ways take turns,
/// so that what else the machine does meets them alike.
pub fn times(job: Job, subject: &Subject) -> Vec<Option<Cost>> {
    let mut ways: Vec<Option<Timed>> = Way::of(job)
        .into_iter()
        .map(|way| prepare(job, subject, way).map(Timed::new))
        .collect();
    for _ in 0..ROUNDS {
        for _ in 0..SAMPLES {
            ways.iter_mut().flatten().for_each(Timed::sample);
        }
        ways.iter_mut().flatten().for_each(Timed::end_round);
    }
    ways.into_iter()
        .map(|way| way.map(|timed| Cost(timed.rounds)))
        .collect()
}

/// Whether there is valgrind to count with.
pub fn counts() -> bool {
    Command::new("valgrind").arg("--version").output().is_ok()
}

/// The instructions of a call for each way: those of many calls less those of one.
pub fn instructions(job: Job, index: usize, subject: &Subject) -> Vec<Option<Cost>> {
    let ways = Way::of(job).into_iter().enumerate();
    ways.map(|(at, way)| {
        drop(prepare(job, subject, way)?);
        let many = collected(job, index, at, COUNTED);
        let one = collected(job, index, at, 1);
        Some(Cost(vec![(many - one) as f64 / (COUNTED - 1) as f64]))
    })
    .collect()
}

/// The instructions that callgrind collects over this program as it makes so many calls.
fn collected(job: Job, index: usize, way: usize, count: u64) -> u64 {
    let program = env::current_exe().expect("this program has a path");
    let mut command = Command::new("valgrind");
    if env::var_os(NO_REPEATED_STORE.0).is_none() {
        command.env(NO_REPEATED_STORE.0, NO_REPEATED_STORE.1);
    }
    let output = command
        .args(["--tool=callgrind", "--callgrind-out-file=/dev/null"])
        .arg(program)
        .arg("run")
        .args([job as usize, index, way].map(|number| number.to_string()))
        .arg(count.to_string())
        .output()
        .expect("valgrind runs");
    let text = String::from_utf8_lossy(&output.stderr);
    text.lines()
        .find_map(|line| line.split("Collected :").nth(1)?.trim().parse().ok())
        .unwrap_or_else(|| panic!("valgrind tells no count:\n{text}"))
}

#[cfg(test)]
mod tests {
    use super::*;

    #[test]
    fn a_ratio_is_the_median_of_the_rounds_ratios() {
        let ours = Cost(vec![10.0, 30.0, 20.0]);
        let other = Cost(vec![10.0, 10.0, 40.0]);
        assert_eq!((ours.number(), other.number()), (20.0, 10.0));
        assert_eq!(ours.ratio(&other), 1.0);
    }
}
