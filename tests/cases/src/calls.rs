//! The calls of the second encoder and decoder, by entry. Values are numbers of 16 bits, which are bytes except for outer words.

use crate::layout::{FRAME, INNER_WORDS};
use crate::payloads::{from_bytes, to_bytes};
use crate::refusals::{Code::*, Entry, Operation::*};
use second::{g709, Changes, Corrected};

/// What a correction reports: the changed symbols of an outer word; the changed places of an inner word; those of each inner word of a frame, and the sum of
/// all; the changed bytes of a G.709 frame or row. Other calls report nothing.
#[derive(Debug, PartialEq)]
pub enum Report {
    None,
    Outer(usize),
    Inner(Changes),
    Frame([Changes; INNER_WORDS], u32),
    Bytes(usize),
}

impl Report {
    /// That of a refusal: every number is 0.
    pub fn refused(entry: &Entry, number: u8) -> Report {
        match (entry.operation, entry.code) {
            (Correct, Outer) => Report::Outer(0),
            (Correct, Inner) => Report::Inner(Changes::default()),
            (Correct, Frame) => Report::of_frame(&Err(number)),
            (Correct, G709 | Row) => Report::Bytes(0),
            _ => Report::None,
        }
    }

    fn of_frame(answer: &Result<Corrected, u8>) -> Report {
        let (changes, sum) = second::reported(answer);
        Report::Frame(changes, sum)
    }
}

/// What a call writes, and what it reports.
pub struct Done {
    pub written: Vec<u16>,
    pub report: Report,
}

fn written(written: Vec<u16>) -> Done {
    Done { written, report: Report::None }
}

/// A G.709 frame or row, and how many of its bytes are changed.
fn changed((bytes, n): (Vec<u8>, usize)) -> Done {
    Done { written: from_bytes(bytes), report: Report::Bytes(n) }
}

/// What comes of the call, or the refusal's number.
pub fn call(entry: &Entry, values: &[u16], space: usize) -> Result<Done, u8> {
    let bytes = if entry.code == Outer { vec![] } else { to_bytes(values) };
    match (entry.operation, entry.code) {
        (Check, Outer) => second::check_outer(values).map(|()| written(vec![])),
        (Check, Inner) => second::check_inner(&bytes).map(|()| written(vec![])),
        (Check, Frame) => second::check_frame(&bytes).map(|()| written(vec![])),
        (Check, G709) => g709::check(&bytes).map(|()| written(vec![])),
        (Check, Row) => g709::check_row(&bytes).map(|()| written(vec![])),
        (Encode, Outer) => second::encode_outer(values, space).map(written),
        (Encode, Inner) => second::encode_inner(&bytes, space).map(from_bytes).map(written),
        (Encode, Frame) => second::encode_frame(&bytes, space).map(from_bytes).map(written),
        (Encode, G709) => g709::encode(&bytes, space).map(from_bytes).map(written),
        (Encode, Row) => g709::encode_row(&bytes, space).map(from_bytes).map(written),
        (Extract, G709) => g709::extract(&bytes, space).map(from_bytes).map(written),
        (Extract, Row) => g709::extract_row(&bytes, space).map(from_bytes).map(written),
        (Extract, _) => second::extract_payload(&bytes, space).map(from_bytes).map(written),
        (Correct, Outer) => second::correct_outer(values, space).map(|(written, n)| Done { written, report: Report::Outer(n) }),
        (Correct, Inner) => second::correct_inner(&bytes, space).map(|(word, n)| Done { written: from_bytes(word), report: Report::Inner(n) }),
        (Correct, Frame) => {
            let answer = second::correct_frame(&bytes, space);
            let report = Report::of_frame(&answer);
            answer.map(|c| Done { written: from_bytes(c.frame), report })
        }
        (Correct, G709) => g709::correct(&bytes, space).map(changed),
        (Correct, Row) => g709::correct_row(&bytes, space).map(changed),
    }
}

/// 0 or the refusal's number.
pub fn number(entry: &Entry, values: &[u16], space: usize) -> u8 {
    call(entry, values, space).err().unwrap_or(0)
}

/// The correction of a block, with the right space.
pub fn correct_block(block: &[u8]) -> Result<Corrected, u8> {
    second::correct_frame(block, FRAME)
}
