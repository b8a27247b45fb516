//! The capture program (document 02, ticket 6).

use std::fmt::Write as _;

use super::bench::{answer_line, line};
use super::{planted, Engine, BENCH_ROOM};
use crate::mutants::Fault;

/// The sizes of the file's header, a record's and a frame's, in octets.
const FILE_HEADER: usize = 24;
const RECORD_HEADER: usize = 16;
const ETHERNET_HEADER: usize = 14;
/// What a file of microseconds starts with, and its link type.
const MICROSECONDS: u32 = 0xA1B2_C3D4;
const NANOSECONDS: u32 = 0xA1B2_3C4D;
const ETHERNET: u32 = 1;
/// The most octets that a record keeps.
const KEPT_MOST: u32 = 2_048;
/// The EtherType of a frame with an LM, in its order in every file; and that of a tag.
const LM_TYPE: [u8; 2] = [0x88, 0xDC];
const TAG_TYPE: [u8; 2] = [0x81, 0x00];

/// What stops a run.
const NO_FILE_HEADER: u32 = 30;
const KEPT_TOO_MUCH: u32 = 31;
const FILE_ENDS: u32 = 32;

/// The order of the octets in the numbers of a file's headers.
#[derive(Clone, Copy, PartialEq, Eq)]
enum Order {
    Little,
    Big,
}

impl Order {
    /// The number of four octets that starts at a place.
    fn number(self, octets: &[u8], at: usize) -> u32 {
        let four = [octets[at], octets[at + 1], octets[at + 2], octets[at + 3]];
        match self {
            Order::Little => u32::from_le_bytes(four),
            Order::Big => u32::from_be_bytes(four),
        }
    }
}

/// A record that is whole.
struct Record<'a> {
    frame: &'a [u8],
    /// Whether less is kept than there was.
    cut: bool,
}

impl<const F: u8> Engine<F> {
    pub(super) fn run_capture(file: &[u8]) -> String {
        let mut text = String::new();
        let (count, stop) = match Self::order_of(file) {
            Some(order) => Self::run_records(order, file, &mut text),
            None => (0, Some((NO_FILE_HEADER, 0))),
        };
        if let Some((number, at)) = stop {
            if planted::<F>(Fault::StopNumbered) {
                let _ = write!(text, "{count} ");
            }
            line(&mut text, format_args!("stop {number} at {at}"));
        }
        line(&mut text, format_args!("frames {count}"));
        text
    }

    /// The order of a file whose header is as asked for; nothing else of it is looked at.
    fn order_of(file: &[u8]) -> Option<Order> {
        if planted::<F>(Fault::EmptyFileRead) && file.is_empty() {
            return Some(Order::Little);
        }
        let header = file.get(..FILE_HEADER)?;
        let starts = |order: &Order| match order.number(header, 0) {
            NANOSECONDS => planted::<F>(Fault::NanosecondsRead),
            start => start == MICROSECONDS,
        };
        let order = [Order::Little, Order::Big].into_iter().find(starts)?;
        if planted::<F>(Fault::VersionTested) {
            let version = match order {
                Order::Little => [2, 0, 4, 0],
                Order::Big => [0, 2, 0, 4],
            };
            if header[4..8] != version {
                return None;
            }
        }
        let mut link_type = order.number(header, 20);
        if planted::<F>(Fault::LinkTypeLowOctet) {
            link_type &= 0xFF;
        }
        if planted::<F>(Fault::LinkTypeLowTwoOctets) {
            link_type &= 0xFFFF;
        }
        (link_type == ETHERNET).then_some(order)
    }

    /// Adds the lines of the records. Gives the count of those that are whole, and where there is a stop
    /// its number and place.
    fn run_records(order: Order, file: &[u8], text: &mut String) -> (u64, Option<(u32, usize)>) {
        let mut most = KEPT_MOST + u32::from(planted::<F>(Fault::KeptOneMore));
        if planted::<F>(Fault::SnapLengthTested) {
            most = most.min(order.number(file, 16));
        }
        let mut count = 0;
        let mut at = FILE_HEADER;
        while at < file.len() {
            let rest = &file[at..];
            if planted::<F>(Fault::CutHeaderIgnored) && rest.len() < RECORD_HEADER {
                break;
            }
            match Self::first_record(order, most, rest) {
                Ok(record) => {
                    let number = if planted::<F>(Fault::NumbersOfLines) {
                        text.lines().count() as u64
                    } else {
                        count + u64::from(planted::<F>(Fault::NumbersFromOne))
                    };
                    Self::record_line(order, &record, number, text);
                    let uncounted = planted::<F>(Fault::CutUncounted) && record.cut
                        || planted::<F>(Fault::ShortUncounted)
                            && record.frame.len() < ETHERNET_HEADER;
                    count += u64::from(!uncounted);
                    at += RECORD_HEADER + record.frame.len();
                }
                Err(number) => {
                    if planted::<F>(Fault::OffsetsFromRecords) {
                        at -= FILE_HEADER;
                    }
                    if planted::<F>(Fault::OffsetBehindHeader) {
                        at += RECORD_HEADER;
                    }
                    count += u64::from(planted::<F>(Fault::StoppedCounted));
                    return (count, Some((number, at)));
                }
            }
        }
        (count, None)
    }

    /// The record that the octets start with, which keeps at most so much; or the number of the stop there.
    fn first_record(order: Order, most: u32, octets: &[u8]) -> Result<Record<'_>, u32> {
        let Some((header, rest)) = octets.split_at_checked(RECORD_HEADER) else {
            if planted::<F>(Fault::CutHeaderAsMuchKept)
                && octets.len() >= 12
                && order.number(octets, 8) > most
            {
                return Err(KEPT_TOO_MUCH);
            }
            return Err(FILE_ENDS);
        };
        let mut kept = order.number(header, 8);
        let mut original = order.number(header, 12);
        if planted::<F>(Fault::KeptLowTwoOctets) {
            kept &= 0xFFFF;
        }
        if planted::<F>(Fault::OriginalLowTwoOctets) {
            original &= 0xFFFF;
        }
        if planted::<F>(Fault::OriginalSigned) && original > i32::MAX as u32 {
            original = 0;
        }
        let mut cut = kept < original;
        if planted::<F>(Fault::KeptAboveOriginalCut) {
            cut = kept != original;
        }
        let ends = rest.len() < kept as usize;
        if planted::<F>(Fault::EndBeforeKept) && ends {
            return Err(FILE_ENDS);
        }
        if kept > most {
            return Err(KEPT_TOO_MUCH);
        }
        if planted::<F>(Fault::CutBeforeEnd) && cut && ends {
            return Ok(Record { frame: rest, cut });
        }
        match rest.get(..kept as usize) {
            Some(frame) => Ok(Record { frame, cut }),
            None => Err(FILE_ENDS),
        }
    }

    /// Adds the line of a record, if it has one.
    fn record_line(order: Order, record: &Record, number: u64, text: &mut String) {
        let lm = Self::lm_in(order, record.frame);
        if record.cut {
            if planted::<F>(Fault::CutAfterLine) {
                let whole = Record {
                    cut: false,
                    ..*record
                };
                Self::record_line(order, &whole, number, text);
            }
            let untold = planted::<F>(Fault::CutOfLmsAlone) && lm.is_none()
                || planted::<F>(Fault::ShortCutUntold) && record.frame.len() < ETHERNET_HEADER;
            if !untold {
                line(text, format_args!("{number} cut"));
            }
            return;
        }
        let Some(lm) = lm else {
            return;
        };
        let room = BENCH_ROOM << u32::from(planted::<F>(Fault::CaptureRoomDoubled));
        let mut values = vec![0i64; room];
        let answer = Self::read_lm_values(lm, values.as_mut_slice());
        let _ = write!(text, "{number} ");
        answer_line(text, answer, &values);
    }

    /// The LM of a frame that has one: all octets after the Ethernet header.
    fn lm_in(order: Order, frame: &[u8]) -> Option<&[u8]> {
        let (header, mut lm) = frame.split_at_checked(ETHERNET_HEADER)?;
        let mut ether_type = [header[12], header[13]];
        if planted::<F>(Fault::EtherTypeInFileOrder) && order == Order::Little {
            ether_type.reverse();
        }
        if planted::<F>(Fault::EtherTypeHighOctet) {
            ether_type[1] = LM_TYPE[1];
        }
        if planted::<F>(Fault::TagSkipped) && ether_type == TAG_TYPE {
            let (tag, rest) = lm.split_at_checked(4)?;
            (ether_type, lm) = ([tag[2], tag[3]], rest);
        }
        if planted::<F>(Fault::PaddingStripped) && frame.len() == 60 {
            let last = lm.iter().rposition(|&octet| octet != 0);
            lm = &lm[..last.map_or(0, |last| last + 1)];
        }
        if planted::<F>(Fault::EmptyLmUntold) && lm.is_empty() {
            return None;
        }
        (ether_type == LM_TYPE).then_some(lm)
    }
}
