//! The capture program, as `./build capture` built it: on the case files, on the files of host/captures, and
//! against the independent text on small files, drawn ones and a long one.

use std::fs;
use std::io::Write;
use std::ops::Range;
use std::process::ChildStdin;
use std::thread;
use std::time::{Duration, Instant};

use teyolxan_host::case::Case;
use teyolxan_host::codec::{Call, Codec};
use teyolxan_host::compare::{compare, compare_case, compare_one, Stats};
use teyolxan_host::mutants;
use teyolxan_host::programs::{pairs, printed, printed_while, root};
use teyolxan_host::random::{capture_file, Order, Random};
use teyolxan_host::reference::{self, REFERENCE};
use teyolxan_host::settings;
use teyolxan_host::vectors::{pass, CAPTURE, EDGES};

/// How many files stand in host/captures.
const CAPTURES: usize = 24;

/// What is drawn: the seed, and how many files.
const SEED: u64 = 6;
const FILES: u64 = 4_000;

struct Program;

impl Codec for Program {
    fn name(&self) -> String {
        "capture program".to_string()
    }

    fn offers(&self, call: Call) -> bool {
        call == Call::Capture
    }

    fn capture(&self, file: &[u8]) -> String {
        text(printed("capture", file))
    }
}

fn text(lines: Vec<u8>) -> String {
    String::from_utf8(lines).expect("lines of text")
}

// ---- Files that are stored -------------------------------------------------------------------

#[test]
fn vectors() {
    for (text, count) in [(CAPTURE, 569), (EDGES, 56)] {
        assert_eq!(pass(&Program, text), count);
    }
}

/// What tools of others wrote, with the texts that were worked out for it. The independent text is the
/// stored one too.
#[test]
fn captures() {
    let files = pairs("host/captures", "pcap", "txt");
    for (path, file, expected) in &files {
        let path = path.display();
        assert!(printed("capture", file) == *expected, "{path}");
        assert!(reference::capture(file).as_bytes() == expected, "{path}");
    }
    assert_eq!(files.len(), CAPTURES);
}

/// docs/CAPTURES.md: each command that needs the program alone prints what is said behind it.
#[test]
fn the_guide() {
    const GUIDE: &str = include_str!("../../docs/CAPTURES.md");
    let blocks: Vec<&str> = GUIDE.split("\n```").skip(1).step_by(2).collect();
    let mut count = 0;
    for pair in blocks.windows(2) {
        let (Some(command), Some(said)) =
            (pair[0].strip_prefix("sh\n"), pair[1].strip_prefix("text\n"))
        else {
            continue;
        };
        let Some(file) = command.strip_prefix("target/bin/capture <host/") else {
            continue;
        };
        let (file, lines) = match file.split_once(" | head -n ") {
            Some((file, lines)) => (file, lines.parse().expect("a count")),
            None => (file, usize::MAX),
        };
        let octets = fs::read(root().join("host").join(file)).expect("the file");
        let text = text(printed("capture", &octets));
        let first: Vec<&str> = text.lines().take(lines).collect();
        assert_eq!(first, said.lines().collect::<Vec<_>>(), "{command}");
        count += 1;
    }
    assert_eq!(count, 3);
}

// ---- A small file ----------------------------------------------------------------------------

/// A record whose original length is the kept one and so much more.
fn record(order: Order, frame: &[u8], more: i32) -> Vec<u8> {
    let kept = frame.len() as u32;
    let header = order.record_header(kept, kept.wrapping_add_signed(more));
    [&header, frame].concat()
}

/// An Ethernet frame of this type.
fn frame(ether_type: u16, rest: &[u8]) -> Vec<u8> {
    let stations = [0xFF, 0xFF, 0xFF, 0xFF, 0xFF, 0xFF, 2, 0, 0, 0, 0, 1];
    [&stations[..], &ether_type.to_be_bytes(), rest].concat()
}

const LM_TYPE: u16 = 0x88DC;
const LM: [u8; 6] = [0x03, 0x00, 0x20, 0x02, 0x48, 0x69];

/// A record of every kind.
fn records(order: Order) -> Vec<u8> {
    let lm = frame(LM_TYPE, &LM);
    let records = [
        record(order, &lm, 0),
        record(order, &frame(LM_TYPE, &[0x0B, 0x02]), 0),
        record(order, &frame(LM_TYPE, &[]), 0),
        record(order, &frame(0x0800, &LM), 0),
        record(order, &lm[..5], 0),
        record(order, &[], 60),
        record(order, &lm[..16], 4),
        record(order, &lm, -20),
        record(order, &[], 0),
    ];
    records.concat()
}

fn small_file(order: Order) -> Vec<u8> {
    [order.file_header(65_535), records(order)].concat()
}

const SMALL_TEXT: &str = "\
0 ok 9: 0 0 3 0 0 32 2 72 105
1 no 2 at 16
2 no 2 at 0
5 cut
6 cut
7 ok 9: 0 0 3 0 0 32 2 72 105
frames 9
";

/// Makes a check of each item, in as many threads as there are processors.
fn for_each<T: Sync>(items: &[T], check: impl Fn(&T) + Sync) {
    let threads = thread::available_parallelism().map_or(1, usize::from);
    let share = items.len().div_ceil(threads).max(1);
    thread::scope(|scope| {
        for items in items.chunks(share) {
            scope.spawn(|| items.iter().for_each(&check));
        }
    });
}

/// The program prints the independent text for each file.
fn prints_the_text(files: Vec<Vec<u8>>) {
    println!("{} files", files.len());
    let cases: Vec<Case> = files
        .into_iter()
        .map(|file| Case::Capture { file })
        .collect();
    for_each(&cases, |case| {
        compare_one(&REFERENCE, &Program, case, &mut Stats::default())
            .unwrap_or_else(|report| panic!("{report}"));
    });
}

#[test]
fn a_small_file() {
    for order in Order::BOTH {
        let file = small_file(order);
        assert_eq!(reference::capture(&file), SMALL_TEXT);
        assert_eq!(text(printed("capture", &file)), SMALL_TEXT);
    }
}

#[test]
fn a_small_file_cut_at_every_octet() {
    let mut files = Vec::new();
    for order in Order::BOTH {
        let file = small_file(order);
        files.extend((0..file.len()).map(|size| file[..size].to_vec()));
    }
    prints_the_text(files);
}

/// The octets of the small file that are set to every value: its link type, the kept length of its first
/// record, and the EtherType there.
const DECISIVE: [Range<usize>; 3] = [20..24, 32..36, 52..54];

#[test]
fn a_small_file_with_every_octet_changed() {
    let mut files = Vec::new();
    for order in Order::BOTH {
        let file = small_file(order);
        for (at, &octet) in file.iter().enumerate() {
            let values: Vec<u8> = if DECISIVE.iter().any(|range| range.contains(&at)) {
                (0..=255).collect()
            } else {
                let beside = [octet.wrapping_sub(1), octet.wrapping_add(1)];
                [&beside[..], &[octet ^ 0x80, !octet, 8]].concat()
            };
            for value in values.into_iter().filter(|&value| value != octet) {
                let mut file = file.clone();
                file[at] = value;
                files.push(file);
            }
        }
    }
    prints_the_text(files);
}

// ---- Drawn files -----------------------------------------------------------------------------

/// TEYOLXAN_SEED and TEYOLXAN_CASES draw other files, or more.
#[test]
fn drawn_files() {
    let seed = settings::number("TEYOLXAN_SEED").unwrap_or(SEED);
    let count = settings::number("TEYOLXAN_CASES").unwrap_or(FILES);
    println!("TEYOLXAN_SEED={seed} TEYOLXAN_CASES={count}");
    let numbers: Vec<u64> = (0..count).collect();
    for_each(&numbers, |&number| {
        compare_case(&REFERENCE, &Program, seed, number)
            .unwrap_or_else(|report| panic!("{report}"));
    });
}

/// The captures of a codec alone.
struct Captures<'a>(&'a dyn Codec);

impl Codec for Captures<'_> {
    fn name(&self) -> String {
        self.0.name()
    }

    fn offers(&self, call: Call) -> bool {
        call == Call::Capture
    }

    fn capture(&self, file: &[u8]) -> String {
        self.0.capture(file)
    }
}

/// The files that are drawn find every fault of captures.
#[test]
fn drawn_files_find_planted_faults() {
    let mut missed = Vec::new();
    for (fault, mutant) in mutants::all() {
        if fault.is_of_captures() {
            let mutant = Captures(mutant.as_ref());
            match compare(&REFERENCE, &mutant, SEED, FILES) {
                Ok(_) => missed.push(fault),
                Err(report) => println!("{fault:?}: {report:.300}"),
            }
        }
    }
    assert!(missed.is_empty(), "not found: {missed:?}");
}

// ---- Input that comes in pieces --------------------------------------------------------------

/// Asks for the independent text where each piece is sent for itself, mostly after the one before was
/// read.
fn prints_the_text_of_pieces(pieces: &[Vec<u8>]) {
    let send = |pipe: &mut ChildStdin, _| {
        for piece in pieces {
            pipe.write_all(piece)?;
            pipe.flush()?;
            thread::sleep(Duration::from_micros(20));
        }
        Ok(())
    };
    let expected = reference::capture(&pieces.concat());
    assert_eq!(text(printed_while("capture", send)), expected, "{pieces:?}");
}

/// A file in pieces of drawn sizes, the most common ones small.
fn in_pieces(random: &mut Random, file: &[u8]) -> Vec<Vec<u8>> {
    let most = random.pick(&[2, 5, 16, 24, 40, 700, 5_000]);
    let mut pieces = Vec::new();
    let mut rest = file;
    while !rest.is_empty() {
        let size = match pieces.len() {
            0..100 => 1 + random.index(most),
            _ => rest.len(),
        };
        let (piece, behind) = rest.split_at(size.min(rest.len()));
        pieces.push(piece.to_vec());
        rest = behind;
    }
    pieces
}

#[test]
fn a_small_file_octet_by_octet() {
    for order in Order::BOTH {
        let file = small_file(order);
        let pieces: Vec<Vec<u8>> = file.iter().map(|&octet| vec![octet]).collect();
        prints_the_text_of_pieces(&pieces);
    }
}

#[test]
fn a_small_file_in_two_pieces() {
    let mut files = Vec::new();
    for order in Order::BOTH {
        let file = small_file(order);
        files.extend((0..=file.len()).map(|at| vec![file[..at].to_vec(), file[at..].to_vec()]));
    }
    for_each(&files, |pieces| prints_the_text_of_pieces(pieces));
}

#[test]
fn drawn_files_in_pieces() {
    let files: Vec<Vec<Vec<u8>>> = (0..400)
        .map(|number| {
            let random = &mut Random::for_case(SEED + 1, number);
            let file = capture_file(random);
            in_pieces(random, &file)
        })
        .collect();
    let count: usize = files.iter().map(Vec::len).sum();
    println!("{count} pieces");
    for_each(&files, |pieces| prints_the_text_of_pieces(pieces));
}

// ---- Long input ------------------------------------------------------------------------------

/// The most memory that a process had so far, in units of 1,024 octets.
fn peak_of(process: u32) -> u64 {
    let status = fs::read_to_string(format!("/proc/{process}/status")).expect("a process");
    let peak = status
        .lines()
        .find_map(|line| line.strip_prefix("VmHWM:")?.trim().strip_suffix(" kB"));
    peak.and_then(|peak| peak.parse().ok()).expect("its peak")
}

/// Some 40 million octets, through a program that keeps few of them.
#[test]
fn a_long_stream() {
    const PEAK_MOST: u64 = 8 * 1_024;
    for order in Order::BOTH {
        let mut block = records(order);
        block.extend(record(order, &frame(0x0800, &[0x55; 1_000]), 0));
        block.extend(record(order, &frame(LM_TYPE, &[0x03; 2_034]), 0));
        let many_values = [&[0x03, 0x00, 0x20, 0x83, 0xF9][..], &[0x61; 1_017]].concat();
        block.extend(record(order, &frame(LM_TYPE, &many_values), 0));
        let mut file = order.file_header(65_535);
        while file.len() < 40_000_000 {
            file.extend(&block);
        }
        let expected = reference::capture(&file);
        let (last, before) = file.split_last().expect("octets");
        let mut peak = 0;
        let start = Instant::now();
        let lines = printed_while("capture", |pipe, process| {
            pipe.write_all(before)?;
            peak = peak_of(process);
            pipe.write_all(&[*last])
        });
        let seconds = start.elapsed().as_secs_f64();
        println!(
            "{} octets to {} in {seconds:.2} s, with at most {peak} kB of memory",
            file.len(),
            lines.len()
        );
        assert!(text(lines) == expected);
        assert!((1..PEAK_MOST).contains(&peak), "{peak} kB");
    }
}

/// What follows a stop need not be read: it can be sent, or it cannot.
#[test]
fn a_stop_before_long_input() {
    for order in Order::BOTH {
        let more = vec![0xFF; 1_000_000];
        let wrong_header = more.clone();
        let too_long = [small_file(order), more].concat();
        prints_the_text(vec![wrong_header, too_long]);
    }
}
