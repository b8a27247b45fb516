//! The bench program (document 01, "The bench program").

use std::fmt::Write as _;

use super::table::word;
use super::{planted, Engine, BENCH_ROOM};
use crate::codec::Answer;
use crate::mutants::Fault;

/// The kinds of frames.
const FRAME_LM: u16 = 1;
const FRAME_SAM: u16 = 2;
const FRAME_SRM: u16 = 3;

impl<const F: u8> Engine<F> {
    pub(super) fn run_bench(input: &[u8], sam: &[u8], srm: &[u8]) -> String {
        let mut text = String::new();
        let mut values = [0i64; BENCH_ROOM];
        let mut frames = 0u64;
        let mut at = 0;
        while at < input.len() {
            let Some((kind, message, length)) = frame(&input[at..]) else {
                line(&mut text, format_args!("bad frame at {at}"));
                break;
            };
            at += length;
            frames += 1;
            let answer = match kind {
                FRAME_LM => Self::read_lm_values(message, values.as_mut_slice()),
                FRAME_SAM => Self::read_values(sam, message, values.as_mut_slice()),
                FRAME_SRM => Self::read_values(srm, message, values.as_mut_slice()),
                _ => {
                    line(&mut text, format_args!("no kind {kind}"));
                    frames -= u64::from(planted::<F>(Fault::UnknownKindUncounted));
                    continue;
                }
            };
            answer_line(&mut text, answer, &values);
        }
        line(&mut text, format_args!("frames {frames}"));
        text
    }
}

/// The line for what a reading into these values answered.
pub(super) fn answer_line(text: &mut String, answer: Answer, values: &[i64]) {
    match answer {
        Answer::Accepted { values: count, .. } => {
            let _ = write!(text, "ok {count}:");
            for value in &values[..count as usize] {
                let _ = write!(text, " {value}");
            }
            text.push('\n');
        }
        Answer::Refused { number, place } => {
            line(text, format_args!("no {number} at {place}"));
        }
    }
}

pub(super) fn line(text: &mut String, words: std::fmt::Arguments) {
    let _ = text.write_fmt(words);
    text.push('\n');
}

/// The kind, message and length of the frame that the input starts with, if it is whole.
fn frame(input: &[u8]) -> Option<(u16, &[u8], usize)> {
    if input.len() < 4 {
        return None;
    }
    let length = usize::from(word(input, 0));
    let message = input.get(4..length)?;
    Some((word(input, 2), message, length))
}
