//! What the calls cost, side by side: ours by name, plain, with a loaded table and with a lent one, the
//! independent codec in Rust by name and lent, an LM reader in Rust without a table, and asn1c's code in
//! C where it is linked. `host/bench` runs it.
//!
//! - `bench` prints markdown tables of instructions and of times;
//! - `bench times` prints those of times alone;
//! - `bench once` makes each call once, and looks that it gives what it should;
//! - `bench run JOB ROW WAY COUNT` makes one call so many times, for callgrind to count.

use std::env;
use std::process::ExitCode;

#[cfg(feature = "asn1c")]
mod asn1c;
mod calls;
mod measure;
mod subjects;
mod tables;

use calls::{prepare, Way};
use subjects::Job;
use tables::{
    by_name_limits, fetch_limits, forward_limits, loaded_limits, plain_limits, print_table, summary,
};

/// The tables of times, with those of instructions or without, and what they come to.
fn print_tables(counts: bool) {
    try_all();
    let (mut times, mut counted) = (Vec::new(), Vec::new());
    for job in Job::ALL {
        if counts {
            let measured = print_table(job, "instructions a call", measure::instructions);
            counted.extend(measured.lines);
        }
        let measured = print_table(job, "nanoseconds a call", |job, _, subject| {
            measure::times(job, subject)
        });
        if matches!(job, Job::Read | Job::Write) {
            times.extend(measured.ratios);
        }
    }
    println!("\n{}", summary(&times));
    if counts {
        for limits in [
            loaded_limits,
            plain_limits,
            fetch_limits,
            forward_limits,
            by_name_limits,
        ] {
            println!("\n{}", limits(&counted));
        }
    }
}

/// The tables of instructions and of times, as far as there is something to count with.
fn print_all_tables() {
    let counts = measure::counts();
    if !counts {
        println!("\nThere is no valgrind: instructions are not counted.");
    }
    print_tables(counts);
}

/// Makes each call once, after the look that `prepare` takes. Gives their count.
fn try_all() -> usize {
    let mut count = 0;
    for job in Job::ALL {
        for subject in job.subjects() {
            for way in Way::of(job) {
                if let Some(mut work) = prepare(job, &subject, way) {
                    work(1);
                    count += 1;
                }
            }
        }
    }
    count
}

fn run([job, row, way, count]: [u64; 4]) -> Option<()> {
    let job = *Job::ALL.get(job as usize)?;
    let subjects = job.subjects();
    let way = *Way::of(job).get(way as usize)?;
    prepare(job, subjects.get(row as usize)?, way)?(count);
    Some(())
}

fn main() -> ExitCode {
    let words: Vec<String> = env::args().skip(1).collect();
    let words: Vec<&str> = words.iter().map(String::as_str).collect();
    match words[..] {
        [] => print_all_tables(),
        ["times"] => print_tables(false),
        ["once"] => println!("{} calls", try_all()),
        ["run", job, row, way, count] => {
            let numbers = [job, row, way, count].map(|word| word.parse().unwrap_or(u64::MAX));
            return run(numbers).map_or(ExitCode::from(2), |()| ExitCode::SUCCESS);
        }
        _ => {
            eprintln!("usage: bench [times | once | run JOB ROW WAY COUNT]");
            return ExitCode::from(2);
        }
    }
    ExitCode::SUCCESS
}
