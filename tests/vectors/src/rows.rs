//! A row: a line that names the call and what goes in, and gives the answer with the buffer, refused or not. The number that has to be answered follows from
//! the lengths, and from what the row says its content is.

use crate::errors::Errors;
use crate::far;
use crate::lines::{buffer, digest, list};
use cases::calls::{self, Report};
use cases::layout::{changes, changes_of_word};
use cases::payloads::{self, from_bytes, inner_code_word, outer_code_word, to_bytes, Data};
use cases::refusals::{Code, Content, Entry, Given, Operation};

/// A row on n values of the data; gives the buffer.
pub fn given(entry: &Entry, n: usize, data: Data, space: usize, content: Content) -> Vec<u16> {
    print!("{}, length {n}, {data}", name(entry));
    let values = if entry.operation == Operation::Encode { encoded(entry.code, data, n) } else { data.values(n) };
    answered(entry, &values, space, content).buffer
}

/// A row on what is received when the word or frame of d values of the data is sent; gives the buffer. A correction that is not refused gives the sent one, and
/// reports the errors; a word that is refused has nine.
pub fn received(entry: &Entry, d: usize, data: Data, errors: &Errors, space: usize, content: Content) -> Vec<u16> {
    let sent = sent(entry.code, &encoded(entry.code, data, d));
    print!("{}, length {d}, {data}, encoded to {}: 0, {errors}", name(entry), sent.len());
    let answer = answered(entry, &errors.in_sent(entry.code, &sent), space, content);
    if entry.operation == Operation::Correct && answer.number == 0 {
        assert!(answer.buffer == sent, "the sent word or frame comes back");
        assert_eq!(answer.report, reported(entry.code, &errors.places));
    } else if entry.operation == Operation::Correct && matches!(entry.code, Code::Outer | Code::Inner) {
        assert!(far::nine_in_word(entry.code, sent.len(), errors), "no code word is near");
    }
    answer.buffer
}

fn name(entry: &Entry) -> String {
    format!("{:?} {:?}", entry.operation, entry.code).to_lowercase()
}

/// What is encoded: a payload, or the data of a word or row.
fn encoded(code: Code, data: Data, n: usize) -> Vec<u16> {
    if matches!(code, Code::Frame | Code::G709) {
        from_bytes(payloads::of(data, n))
    } else {
        data.values(n)
    }
}

/// The code word, frame or row that is sent.
fn sent(code: Code, data: &[u16]) -> Vec<u16> {
    match code {
        Code::Outer => outer_code_word(data),
        Code::Inner => from_bytes(inner_code_word(&to_bytes(data))),
        Code::Frame => from_bytes(payloads::frame(&to_bytes(data))),
        Code::G709 => from_bytes(payloads::g709_frame(&to_bytes(data))),
        Code::Row => from_bytes(payloads::row(&to_bytes(data))),
    }
}

/// What a correction reports if it changes these symbols, places, frame bits or bytes.
fn reported(code: Code, wrong: &[usize]) -> Report {
    match code {
        Code::Outer => Report::Outer(wrong.len()),
        Code::Inner => Report::Inner(changes_of_word(wrong)),
        Code::Frame => Report::Frame(changes(wrong), wrong.len() as u32),
        Code::G709 | Code::Row => Report::Bytes(wrong.len()),
    }
}

/// 0 or the refusal's number, what a correction reports, and the buffer, which holds nines before the call.
struct Answer {
    number: u8,
    report: Report,
    buffer: Vec<u16>,
}

/// The rest of the line.
fn answered(entry: &Entry, values: &[u16], space: usize, content: Content) -> Answer {
    let answer = match calls::call(entry, values, space) {
        Ok(done) => Answer { number: 0, report: done.report, buffer: done.written },
        Err(number) => Answer { number, report: Report::refused(entry, number), buffer: vec![9; space] },
    };
    println!(", buffer of {space}: {}{}{}", answer.number, list(&numbers(&answer.report)), buffer(&answer.buffer));
    assert_eq!(answer.number, entry.answer(&Given::of(values, space, content)));
    answer
}

/// A report in numbers: changed symbols of an outer word, or bytes of a G.709 frame or row; changed data places and parity places of an inner word; of a frame
/// the sum, and the digests of the data places and of the parity places of all inner words.
fn numbers(report: &Report) -> Vec<u64> {
    match report {
        Report::None => vec![],
        Report::Outer(changed) | Report::Bytes(changed) => vec![*changed as u64],
        Report::Inner(changes) => vec![changes.data.into(), changes.parity.into()],
        Report::Frame(changes, sum) => vec![u64::from(*sum), digest(&changes.map(|c| c.data)), digest(&changes.map(|c| c.parity))],
    }
}
