//! What was measured, in markdown: a table for each job and unit, what the times come to, and whether
//! the counts stay below their limits.

use teyolxan_host::api::STATE_SIZE;

use crate::calls::Way;
use crate::measure::Cost;
use crate::subjects::{
    Job, Subject, ALL_OLD, LAST_FREE, NONE_USED, OTHER_SUBTYPE, P1, P2, P3, SERVICES, TEN_ELEMENTS,
    TEN_ROWS, TEN_ROWS_OF_MANY,
};

/// A ratio up to this is close.
const CLOSE: f64 = 1.1;

/// The most that reading P1 through a state may cost, divided by reading it lent.
const LOADED_BY_LENT: f64 = 0.65;
/// The most that reading through a state may cost under a long table, divided by a short one with the
/// same rows below its root.
const LONG_BY_SHORT: f64 = 1.02;
/// The most instructions that loading a table may cost beside checking it, for each octet of the state.
const LOADING_OF_OCTET: f64 = 1.5;

/// The LMs whose plain reading is held to limits: the most that it may cost, divided by straight Rust, and
/// what it has to cost less than, divided by ours by name.
const PLAIN: [&str; 4] = [P1, P2, P3, TEN_ELEMENTS];
const PLAIN_BY_STRAIGHT: f64 = 1.5;
const PLAIN_BY_NAME: f64 = 0.6;

/// The instructions that fetching bits has to stay below, the loop around it and the call included.
const FETCH_BELOW: f64 = 59.0;

/// The most instructions that forwarding may cost, and the most divided by straight Rust.
const FORWARD: [(&str, f64); 4] = [
    (OTHER_SUBTYPE, 150.0),
    (NONE_USED, 900.0),
    (ALL_OLD, 900.0),
    (LAST_FREE, 1_400.0),
];
const FORWARD_BY_STRAIGHT: f64 = 1.5;

/// The instructions of reading by name before messages were forwarded, and the most that it may cost
/// since, divided by them.
const BY_NAME: [(&str, f64); 4] = [
    (P1, 1_695.0),
    (P2, 1_886.0),
    (P3, 2_366.0),
    (SERVICES, 21_255.0),
];
const BY_NAME_SINCE: f64 = 1.01;

/// What a table tells beside what it prints.
pub struct Measured {
    pub ratios: Vec<Ratio>,
    pub lines: Vec<Line>,
}

/// What the calls of a line cost.
pub struct Line {
    job: Job,
    subject: String,
    costs: Vec<(Way, f64)>,
}

/// A ratio of a table: what one of our ways costs, divided by what another costs.
pub struct Ratio {
    /// The job and the subject, in words.
    line: String,
    ours: Way,
    other: Way,
    value: f64,
}

impl Ratio {
    /// How our call was given its table.
    fn form(&self) -> &'static str {
        match self.ours {
            Way::OursPlain => "plain",
            Way::OursLoaded => "loaded",
            Way::OursLent => "lent",
            _ => "by name",
        }
    }
}

/// The columns of ratios in a job's table, as far as it has the two ways.
fn ratios(job: Job) -> Vec<(&'static str, Way, Way)> {
    match job {
        Job::Read | Job::Write => vec![
            ("by name / asn1c", Way::Ours, Way::Asn1c),
            ("by name / Rust", Way::Ours, Way::Rust),
            ("by name / straight", Way::Ours, Way::Straight),
            ("plain / straight", Way::OursPlain, Way::Straight),
            ("plain / by name", Way::OursPlain, Way::Ours),
            ("loaded / asn1c", Way::OursLoaded, Way::Asn1c),
            ("loaded / lent", Way::OursLoaded, Way::OursLent),
            ("lent / asn1c", Way::OursLent, Way::Asn1c),
            ("lent / Rust", Way::OursLent, Way::RustLent),
        ],
        Job::Take | Job::Check => vec![
            ("ours / asn1c", Way::Ours, Way::Asn1c),
            ("ours / Rust", Way::Ours, Way::Rust),
            ("ours / bit by bit", Way::Ours, Way::OursBitwise),
        ],
        Job::Forward => vec![("ours / straight", Way::Ours, Way::Straight)],
    }
}

/// The cells before the measured ones: their titles, and those of a row.
fn sizes(job: Job) -> &'static [&'static str] {
    match job {
        Job::Read | Job::Write => &["octets", "values"],
        Job::Take => &[],
        Job::Check => &["octets"],
        Job::Forward => &["octets", "records"],
    }
}

fn sizes_of(subject: &Subject) -> Vec<usize> {
    match subject {
        Subject::Message(message) => vec![message.octets.len(), message.values.len()],
        Subject::Table { table, .. } => vec![table.len()],
        Subject::Bits(_) => vec![],
        Subject::Step(step) => vec![step.message.len(), step.seen.len()],
    }
}

/// A measured number; a small one with a decimal.
fn shown(number: f64) -> String {
    if number < 100.0 {
        format!("{number:.1}")
    } else {
        grouped(number.round() as usize)
    }
}

/// A number with commas.
fn grouped(number: usize) -> String {
    let digits = number.to_string();
    let mut text = String::new();
    for (at, digit) in digits.chars().enumerate() {
        if at > 0 && (digits.len() - at).is_multiple_of(3) {
            text.push(',');
        }
        text.push(digit);
    }
    text
}

/// Where we are behind, a ratio is bold.
fn shown_ratio(ratio: f64) -> String {
    if ratio > 1.0 {
        format!("**{ratio:.2}**")
    } else {
        format!("{ratio:.2}")
    }
}

/// A cell, or the mark of one that a line does not have.
fn cell(number: Option<f64>, shown: impl Fn(f64) -> String) -> String {
    number.map_or("-".to_string(), shown)
}

/// Our cost divided by the other's, where a line has both.
fn ratio_of(costs: &[Option<Cost>], ours: usize, other: usize) -> Option<f64> {
    Some(costs[ours].as_ref()?.ratio(costs[other].as_ref()?))
}

fn print_heading(job: Job, unit: &str, titles: &[&str]) {
    println!("\n{}, {unit}:\n", job.title());
    println!("| {} |", titles.join(" | "));
    println!("|---|{}", "--:|".repeat(titles.len() - 1));
}

/// Prints a job's table, and gives its ratios and lines; `row` gives a line's cost for each of the ways.
pub fn print_table(
    job: Job,
    unit: &str,
    row: impl Fn(Job, usize, &Subject) -> Vec<Option<Cost>>,
) -> Measured {
    let ways = Way::of(job);
    let at = |way: Way| ways.iter().position(|&other| other == way);
    let columns: Vec<(&str, usize, usize)> = ratios(job)
        .into_iter()
        .filter_map(|(title, ours, other)| Some((title, at(ours)?, at(other)?)))
        .collect();

    let mut titles = vec![""];
    titles.extend(sizes(job));
    titles.extend(ways.iter().filter_map(|way| way.title(job)));
    titles.extend(columns.iter().map(|&(title, _, _)| title));
    print_heading(job, unit, &titles);
    let (mut all, mut lines) = (Vec::new(), Vec::new());
    for (index, subject) in job.subjects().iter().enumerate() {
        let costs = row(job, index, subject);
        let mut cells = vec![subject.title()];
        cells.extend(sizes_of(subject).into_iter().map(grouped));
        let numbers = costs.iter().map(|cost| cost.as_ref().map(Cost::number));
        let of_ways: Vec<_> = ways.iter().copied().zip(numbers).collect();
        let in_columns = of_ways.iter().filter(|(way, _)| way.title(job).is_some());
        cells.extend(in_columns.map(|&(_, number)| cell(number, shown)));
        let costs_of_ways = of_ways.into_iter();
        lines.push(Line {
            job,
            subject: subject.title(),
            costs: costs_of_ways
                .filter_map(|(way, number)| Some((way, number?)))
                .collect(),
        });
        for &(_, ours, other) in &columns {
            let ratio = ratio_of(&costs, ours, other);
            cells.push(cell(ratio, shown_ratio));
            all.extend(ratio.map(|value| Ratio {
                line: format!("{} {}", job.doing(), subject.title()),
                ours: ways[ours],
                other: ways[other],
                value,
            }));
        }
        println!("| {} |", cells.join(" | "));
    }
    Measured { ratios: all, lines }
}

/// What the call of a line costs.
fn cost(counts: &[Line], job: Job, subject: &str, way: Way) -> f64 {
    let line = counts
        .iter()
        .find(|line| line.job == job && line.subject == subject);
    let costs = &line.expect("the line is counted").costs;
    let found = costs.iter().find(|(other, _)| *other == way);
    found.expect("the way is counted").1
}

/// The verdict on limits.
fn kept(all: bool) -> &'static str {
    if all {
        "All are kept."
    } else {
        "**Not all are kept.**"
    }
}

/// Whether the instructions of loaded tables stay below their limits.
pub fn loaded_limits(counts: &[Line]) -> String {
    let cost = |job: Job, subject: &str, way: Way| cost(counts, job, subject, way);
    let read = |subject: &str, way: Way| cost(Job::Read, subject, way);
    let by_lent = read(P1, Way::OursLoaded) / read(P1, Way::OursLent);
    let by_short = read(TEN_ROWS_OF_MANY, Way::OursLoaded) / read(TEN_ROWS, Way::OursLoaded);
    let loading: Vec<(&str, f64)> = counts
        .iter()
        .filter(|line| line.job == Job::Check)
        .map(|line| {
            let loading = cost(Job::Check, &line.subject, Way::OursLoaded);
            let checking = cost(Job::Check, &line.subject, Way::Ours);
            (line.subject.as_str(), loading - checking)
        })
        .collect();
    let most = LOADING_OF_OCTET * STATE_SIZE as f64;
    let listed: Vec<String> = loading
        .iter()
        .map(|(table, more)| format!("{} ({table})", shown(*more)))
        .collect();
    let all = by_lent <= LOADED_BY_LENT
        && by_short <= LONG_BY_SHORT
        && loading.iter().all(|&(_, more)| more <= most);
    format!(
        "Limits in instructions: reading {P1}, loaded / lent, {by_lent:.2} of {LOADED_BY_LENT}; reading \
         loaded, {TEN_ROWS_OF_MANY} / {TEN_ROWS}, {by_short:.2} of {LONG_BY_SHORT}; loading less checking, {} \
         of {}. {}",
        listed.join(", "),
        shown(most),
        kept(all),
    )
}

/// Whether the instructions of plain reading stay below their limits, with both forms of values.
pub fn plain_limits(counts: &[Line]) -> String {
    let forms = [Way::OursPlain, Way::OursPlainNumbers];
    let ratios = |other: Way| {
        PLAIN.map(|subject| {
            let cost = |way: Way| cost(counts, Job::Read, subject, way);
            forms.map(|way| cost(way) / cost(other))
        })
    };
    let (by_straight, by_name) = (ratios(Way::Straight), ratios(Way::Ours));
    let listed = |ratios: [[f64; 2]; 4]| {
        let lines = PLAIN.iter().zip(ratios);
        let lines = lines.map(|(subject, [octets, numbers])| {
            format!("{octets:.2} and {numbers:.2} ({subject})")
        });
        lines.collect::<Vec<String>>().join(", ")
    };
    let all = by_straight
        .as_flattened()
        .iter()
        .all(|&ratio| ratio <= PLAIN_BY_STRAIGHT)
        && by_name
            .as_flattened()
            .iter()
            .all(|&ratio| ratio < PLAIN_BY_NAME);
    format!(
        "Limits in instructions, reading plain with values as octets and as numbers: plain / straight, {} of \
         {PLAIN_BY_STRAIGHT}; plain / by name, {} below {PLAIN_BY_NAME}. {}",
        listed(by_straight),
        listed(by_name),
        kept(all),
    )
}

/// Whether the instructions of fetching bits stay below their limits: a number, and the Rust codec's.
pub fn fetch_limits(counts: &[Line]) -> String {
    let fetches: Vec<(&str, f64, f64)> = counts
        .iter()
        .filter(|line| line.job == Job::Take)
        .map(|line| {
            let cost = |way: Way| cost(counts, Job::Take, &line.subject, way);
            (line.subject.as_str(), cost(Way::Ours), cost(Way::Rust))
        })
        .collect();
    let listed: Vec<String> = fetches
        .iter()
        .map(|(width, ours, rust)| format!("{} of {} ({width})", shown(*ours), shown(*rust)))
        .collect();
    let all = fetches
        .iter()
        .all(|(_, ours, rust)| ours < &FETCH_BELOW && ours <= rust);
    format!(
        "Limits in instructions, fetching bits: below {FETCH_BELOW}, and at most the Rust codec's, {}. {}",
        listed.join(", "),
        kept(all),
    )
}

/// Whether the instructions of forwarding stay below their limits: numbers, and straight Rust's.
pub fn forward_limits(counts: &[Line]) -> String {
    let lines = FORWARD.map(|(subject, most)| {
        let cost = |way: Way| cost(counts, Job::Forward, subject, way);
        let ours = cost(Way::Ours);
        (subject, ours, most, ours / cost(Way::Straight))
    });
    let listed = lines.map(|(subject, ours, most, ratio)| {
        format!(
            "{} of {} and {ratio:.2} ({subject})",
            shown(ours),
            shown(most)
        )
    });
    let all = lines
        .iter()
        .all(|&(_, ours, most, ratio)| ours <= most && ratio <= FORWARD_BY_STRAIGHT);
    format!(
        "Limits in instructions, forwarding, and divided by straight Rust of {FORWARD_BY_STRAIGHT}: {}. {}",
        listed.join(", "),
        kept(all),
    )
}

/// Whether reading by name takes as many instructions as it did.
pub fn by_name_limits(counts: &[Line]) -> String {
    let lines = BY_NAME.map(|(subject, before)| {
        let now = cost(counts, Job::Read, subject, Way::Ours);
        (subject, now, before)
    });
    let listed = lines
        .map(|(subject, now, before)| format!("{} of {} ({subject})", shown(now), shown(before)));
    let all = lines
        .iter()
        .all(|&(_, now, before)| now <= BY_NAME_SINCE * before);
    format!(
        "Limits in instructions, reading by name, at most {BY_NAME_SINCE} of what it took before messages were \
         forwarded: {}. {}",
        listed.join(", "),
        kept(all),
    )
}

/// What the times of reading and writing come to.
pub fn summary(times: &[Ratio]) -> String {
    format!(
        "{} {} {}{}",
        beside(times, Way::Ours, Way::Rust, "By name / Rust"),
        beside(times, Way::Ours, Way::Straight, "By name / straight"),
        beside(times, Way::OursPlain, Way::Straight, "Plain / straight"),
        behind_asn1c(times)
    )
}

fn beside(times: &[Ratio], ours: Way, other: Way, title: &str) -> String {
    let mut ratios: Vec<&Ratio> = times.iter().collect();
    ratios.retain(|ratio| (ratio.ours, ratio.other) == (ours, other));
    ratios.sort_by(|left, right| left.value.total_cmp(&right.value));
    let close = ratios.partition_point(|ratio| ratio.value <= CLOSE);
    let largest = ratios.last().expect("both are timed");
    format!(
        "{title} in time: {} lines, {close} of them at most {CLOSE}, the largest {:.2} ({}).",
        ratios.len(),
        largest.value,
        largest.line,
    )
}

/// Nothing where asn1c's code is not linked.
fn behind_asn1c(times: &[Ratio]) -> String {
    let mut ratios: Vec<&Ratio> = times.iter().collect();
    ratios.retain(|ratio| ratio.other == Way::Asn1c);
    if ratios.is_empty() {
        return String::new();
    }
    ratios.retain(|ratio| ratio.value > 1.0);
    let lines: Vec<String> = ratios
        .chunk_by(|left, right| left.line == right.line)
        .map(|ratios| {
            let ways: Vec<&str> = ratios.iter().map(|ratio| ratio.form()).collect();
            format!("{} ({})", ratios[0].line, ways.join(", "))
        })
        .collect();
    if lines.is_empty() {
        return " Behind asn1c: none.".to_string();
    }
    format!(" Behind asn1c: {}.", lines.join("; "))
}

#[cfg(test)]
mod tests {
    use super::*;

    fn ratio(line: &str, ours: Way, other: Way, value: f64) -> Ratio {
        Ratio {
            line: line.to_string(),
            ours,
            other,
            value,
        }
    }

    fn line(job: Job, subject: &str, costs: &[(Way, f64)]) -> Line {
        Line {
            job,
            subject: subject.to_string(),
            costs: costs.to_vec(),
        }
    }

    #[test]
    fn limits_of_loaded_tables_are_told_with_what_they_are_held_to() {
        let counts = |loaded: f64, long: f64, loading: f64| {
            loaded_limits(&[
                line(
                    Job::Read,
                    P1,
                    &[(Way::OursLoaded, loaded), (Way::OursLent, 1_000.0)],
                ),
                line(Job::Read, TEN_ROWS, &[(Way::OursLoaded, 500.0)]),
                line(Job::Read, TEN_ROWS_OF_MANY, &[(Way::OursLoaded, long)]),
                line(
                    Job::Check,
                    "LM",
                    &[(Way::Ours, 100.0), (Way::OursLoaded, loading)],
                ),
            ])
        };
        assert_eq!(
            counts(650.0, 510.0, 9_340.0),
            "Limits in instructions: reading P1, loaded / lent, 0.65 of 0.65; reading loaded, ten rows of \
             many / ten rows, 1.02 of 1.02; loading less checking, 9,240 (LM) of 9,240. All are kept."
        );
        for counts in [
            counts(651.0, 500.0, 200.0),
            counts(500.0, 511.0, 200.0),
            counts(500.0, 500.0, 9_341.0),
        ] {
            assert!(counts.ends_with("**Not all are kept.**"), "{counts}");
        }
    }

    #[test]
    fn limits_of_plain_reading_are_told_with_what_they_are_held_to() {
        let counts = |octets: f64, numbers: f64, by_name: f64| {
            let costs = [
                (Way::Straight, 100.0),
                (Way::OursPlain, octets),
                (Way::OursPlainNumbers, numbers),
                (Way::Ours, by_name),
            ];
            let right = [100.0, 120.0, 110.0, 300.0];
            let others = [0, 1, 2, 3].map(|at| (costs[at].0, right[at]));
            plain_limits(&PLAIN.map(|subject| {
                let costs = if subject == P3 { costs } else { others };
                line(Job::Read, subject, &costs)
            }))
        };
        assert_eq!(
            counts(150.0, 140.0, 251.0),
            "Limits in instructions, reading plain with values as octets and as numbers: plain / straight, \
             1.20 and 1.10 (P1), 1.20 and 1.10 (P2), 1.50 and 1.40 (P3), 1.20 and 1.10 (LM, ten elements) of \
             1.5; plain / by name, 0.40 and 0.37 (P1), 0.40 and 0.37 (P2), 0.60 and 0.56 (P3), 0.40 and 0.37 \
             (LM, ten elements) below 0.6. All are kept."
        );
        for counts in [
            counts(151.0, 140.0, 300.0),
            counts(140.0, 151.0, 300.0),
            counts(150.0, 140.0, 250.0),
            counts(140.0, 150.0, 250.0),
        ] {
            assert!(counts.ends_with("**Not all are kept.**"), "{counts}");
        }
    }

    #[test]
    fn limits_of_fetching_are_told_with_what_they_are_held_to() {
        let counts = |ours: f64, rust: f64| {
            let costs = |ours: f64, rust: f64| [(Way::Ours, ours), (Way::Rust, rust)];
            fetch_limits(&[
                line(Job::Take, "1 bit", &costs(40.0, 50.0)),
                line(Job::Take, "8 bits", &costs(ours, rust)),
            ])
        };
        assert_eq!(
            counts(58.9, 58.9),
            "Limits in instructions, fetching bits: below 59, and at most the Rust codec's, 40.0 of 50.0 (1 \
             bit), 58.9 of 58.9 (8 bits). All are kept."
        );
        for counts in [counts(59.0, 60.0), counts(50.0, 49.9)] {
            assert!(counts.ends_with("**Not all are kept.**"), "{counts}");
        }
    }

    #[test]
    fn limits_of_forwarding_are_told_with_what_they_are_held_to() {
        let counts = |ours: f64, straight: f64| {
            forward_limits(&FORWARD.map(|(subject, _)| {
                let costs = match subject {
                    LAST_FREE => [(Way::Ours, ours), (Way::Straight, straight)],
                    _ => [(Way::Ours, 150.0), (Way::Straight, 100.0)],
                };
                line(Job::Forward, subject, &costs)
            }))
        };
        assert_eq!(
            counts(1_400.0, 1_000.0),
            "Limits in instructions, forwarding, and divided by straight Rust of 1.5: 150 of 150 and 1.50 \
             (refused at the head), 150 of 900 and 1.50 (none in use), 150 of 900 and 1.50 (all old), 1,400 of \
             1,400 and 1.40 (63 live, the last free). All are kept."
        );
        for counts in [counts(1_401.0, 1_000.0), counts(1_400.0, 933.0)] {
            assert!(counts.ends_with("**Not all are kept.**"), "{counts}");
        }
    }

    #[test]
    fn limits_of_reading_by_name_are_told_with_what_they_are_held_to() {
        let counts = |sam: f64| {
            by_name_limits(&BY_NAME.map(|(subject, before)| {
                let ours = if subject == SERVICES { sam } else { before };
                line(Job::Read, subject, &[(Way::Ours, ours)])
            }))
        };
        assert_eq!(
            counts(21_467.0),
            "Limits in instructions, reading by name, at most 1.01 of what it took before messages were \
             forwarded: 1,695 of 1,695 (P1), 1,886 of 1,886 (P2), 2,366 of 2,366 (P3), 21,467 of 21,255 (SAM, 31 \
             services). All are kept."
        );
        assert!(counts(21_468.0).ends_with("**Not all are kept.**"));
    }

    #[test]
    fn the_summary_counts_lines_and_names_those_behind() {
        let mut times = vec![
            ratio("reading P1", Way::Ours, Way::Rust, 1.1),
            ratio("reading P1", Way::OursLent, Way::RustLent, 9.0),
            ratio("writing P1", Way::Ours, Way::Rust, 1.5),
            ratio("writing P2", Way::Ours, Way::Rust, 0.5),
            ratio("reading P1", Way::Ours, Way::Straight, 2.0),
            ratio("reading P1", Way::OursPlain, Way::Straight, 1.0),
            ratio("reading P1", Way::OursPlain, Way::Ours, 0.5),
        ];
        let beside = "By name / Rust in time: 3 lines, 2 of them at most 1.1, the largest 1.50 \
                      (writing P1). By name / straight in time: 1 lines, 0 of them at most 1.1, \
                      the largest 2.00 (reading P1). Plain / straight in time: 1 lines, 1 of them at \
                      most 1.1, the largest 1.00 (reading P1).";
        assert_eq!(summary(&times), beside);

        times.push(ratio("reading P1", Way::Ours, Way::Asn1c, 1.0));
        let none = format!("{beside} Behind asn1c: none.");
        assert_eq!(summary(&times), none);

        times.extend([
            ratio("reading P1", Way::OursLent, Way::Asn1c, 1.01),
            ratio("writing P1", Way::Ours, Way::Asn1c, 1.2),
            ratio("writing P1", Way::OursLent, Way::Asn1c, 2.0),
        ]);
        let behind = "Behind asn1c: reading P1 (lent); writing P1 (by name, lent).";
        assert_eq!(summary(&times), format!("{beside} {behind}"));
    }
}
