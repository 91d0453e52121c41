//! One function for each entry: it makes the call on both sides, and compares the answers and every element of every buffer, before and after.

use crate::guarded::{Element, Guarded};
use cases::random::Random;
use cases::refusals::{Code::*, Entry, Operation::*};
use second::{Changes, Corrected};
use std::fmt::Debug;
use wrapper::{frames, g709, logging, words, Refusal};

/// 0 or the refusal's number, on which both sides agree; or what differs.
pub type Answer = Result<u8, String>;

/// The content of the buffer and the numbers of the answer, as the sum of a report; or the refusal's number.
type Expected<T, N> = Result<(Vec<T>, N), u8>;

fn compare<T: Element, N: PartialEq + Debug>(
    entry: &str,
    input: &[T],
    out: &mut Guarded<T>,
    expected: Expected<T, N>,
    call: impl FnOnce(&[T], &mut [T]) -> Result<N, Refusal>,
) -> Answer {
    let guarded = Guarded::new(input);
    let found = call(guarded.slice(), out.slice_mut()).map_err(Refusal::number);
    let answers = expected.as_ref().map(|e| &e.1).map_err(|n| *n);
    if found.as_ref().map_err(|n| *n) != answers {
        return Err(format!("{entry}: the library answers {found:?}, the second {answers:?}"));
    }
    let told = |e| format!("{entry}: {e}");
    guarded.kept("the input").map_err(told)?;
    match expected {
        Ok((content, _)) => out.holds("the output", &content).map(|()| 0).map_err(told),
        Err(number) => out.kept("the output").map(|()| number).map_err(told),
    }
}

pub fn bytes_before(random: &mut Random, space: usize) -> Guarded<u8> {
    Guarded::new(&random.bytes(space))
}

/// Symbols before a call may be any numbers of 16 bits.
pub fn symbols_before(random: &mut Random, space: usize) -> Guarded<u16> {
    let symbols: Vec<u16> = (0..space).map(|_| random.next() as u16).collect();
    Guarded::new(&symbols)
}

fn no_number<T>(answer: Result<Vec<T>, u8>) -> Expected<T, ()> {
    answer.map(|content| (content, ()))
}

pub fn encode_frame(random: &mut Random, payload: &[u8], space: usize) -> Answer {
    let expected = no_number(second::encode_frame(payload, space));
    compare("encode_frame", payload, &mut bytes_before(random, space), expected, frames::encode)
}

pub fn check_frame(block: &[u8]) -> Answer {
    let expected = no_number(second::check_frame(block).map(|()| vec![]));
    compare("check_frame", block, &mut Guarded::new(&[]), expected, |i, _| frames::check(i))
}

pub fn extract_payload(random: &mut Random, block: &[u8], space: usize) -> Answer {
    let expected = no_number(second::extract_payload(block, space));
    compare("extract_payload", block, &mut bytes_before(random, space), expected, frames::extract)
}

/// The spaces for the two lists of a report: the data places and the parity places of each inner word.
pub type Lists = (usize, usize);

/// Spaces that are right.
pub const LISTS: Lists = (frames::INNER_WORDS, frames::INNER_WORDS);

/// A list of a report, or the worst list: it is written only if it has exactly as many places.
fn compare_list<T: Element, const PLACES: usize>(name: &str, list: &Guarded<T>, expected: [T; PLACES]) -> Result<(), String> {
    if list.len() == PLACES {
        list.holds(name, &expected)
    } else {
        list.kept(name)
    }
}

/// The entry for C, and the one with the report: its sum, and both lists, of a refusal too.
pub fn correct_frame(random: &mut Random, block: &[u8], space: usize, lists: Lists) -> Result<Result<Corrected, u8>, String> {
    let answer = second::correct_frame(block, space);
    let restored = || answer.as_ref().map(|c| c.frame.clone()).map_err(|n| *n);
    compare("correct_frame", block, &mut bytes_before(random, space), no_number(restored()), frames::correct)?;
    let (changes, sum) = second::reported(&answer);
    let (mut data, mut parity) = (symbols_before(random, lists.0), symbols_before(random, lists.1));
    let expected = restored().map(|frame| (frame, u64::from(sum)));
    compare("correct_frame with its report", block, &mut bytes_before(random, space), expected, |i, o| {
        frames::correct_with_report(i, o, data.slice_mut(), parity.slice_mut())
    })?;
    compare_list("the list of data places", &data, changes.map(|c| c.data))?;
    compare_list("the list of parity places", &parity, changes.map(|c| c.parity))?;
    Ok(answer)
}

pub fn check_outer(word: &[u16]) -> Answer {
    let expected = no_number(second::check_outer(word).map(|()| vec![]));
    compare("check_outer", word, &mut Guarded::new(&[]), expected, |i, _| words::check_outer(i))
}

pub fn encode_outer(random: &mut Random, data: &[u16], space: usize) -> Answer {
    let expected = no_number(second::encode_outer(data, space));
    compare("encode_outer", data, &mut symbols_before(random, space), expected, words::encode_outer)
}

pub fn correct_outer(random: &mut Random, word: &[u16], space: usize) -> Answer {
    let expected = second::correct_outer(word, space).map(|(content, changed)| (content, changed as u64));
    compare("correct_outer", word, &mut symbols_before(random, space), expected, words::correct_outer)
}

pub fn check_inner(word: &[u8]) -> Answer {
    let expected = no_number(second::check_inner(word).map(|()| vec![]));
    compare("check_inner", word, &mut Guarded::new(&[]), expected, |i, _| words::check_inner(i))
}

pub fn encode_inner(random: &mut Random, data: &[u8], space: usize) -> Answer {
    let expected = no_number(second::encode_inner(data, space));
    compare("encode_inner", data, &mut bytes_before(random, space), expected, words::encode_inner)
}

/// The code word, and the data places and the parity places that are changed.
pub fn correct_inner(random: &mut Random, word: &[u8], space: usize) -> Result<Result<(Vec<u8>, Changes), u8>, String> {
    let answer = second::correct_inner(word, space);
    let expected = answer.clone().map(|(content, changes)| (content, (u64::from(changes.data), u64::from(changes.parity))));
    compare("correct_inner", word, &mut bytes_before(random, space), expected, words::correct_inner)?;
    Ok(answer)
}

pub fn encode_g709(random: &mut Random, payload: &[u8], space: usize) -> Answer {
    let expected = no_number(second::g709::encode(payload, space));
    compare("encode_g709", payload, &mut bytes_before(random, space), expected, g709::encode)
}

pub fn check_g709(block: &[u8]) -> Answer {
    let expected = no_number(second::g709::check(block).map(|()| vec![]));
    compare("check_g709", block, &mut Guarded::new(&[]), expected, |i, _| g709::check(i))
}

pub fn extract_g709(random: &mut Random, block: &[u8], space: usize) -> Answer {
    let expected = no_number(second::g709::extract(block, space));
    compare("extract_g709", block, &mut bytes_before(random, space), expected, g709::extract)
}

pub fn encode_row(random: &mut Random, data: &[u8], space: usize) -> Answer {
    let expected = no_number(second::g709::encode_row(data, space));
    compare("encode_row", data, &mut bytes_before(random, space), expected, g709::encode_row)
}

pub fn check_row(row: &[u8]) -> Answer {
    let expected = no_number(second::g709::check_row(row).map(|()| vec![]));
    compare("check_row", row, &mut Guarded::new(&[]), expected, |i, _| g709::check_row(i))
}

pub fn extract_row(random: &mut Random, row: &[u8], space: usize) -> Answer {
    let expected = no_number(second::g709::extract_row(row, space));
    compare("extract_row", row, &mut bytes_before(random, space), expected, g709::extract_row)
}

/// A G.709 frame or row with the number of bytes changed, or the refusal's number; or what differs.
pub type Counted = Result<Result<(Vec<u8>, usize), u8>, String>;

/// The entry for C, and the one with the number of bytes changed.
pub fn correct_g709(random: &mut Random, block: &[u8], space: usize) -> Counted {
    let answer = second::g709::correct(block, space);
    compare("correct_g709", block, &mut bytes_before(random, space), no_number(content(&answer)), g709::correct)?;
    compare("correct_g709 with its number", block, &mut bytes_before(random, space), numbered(&answer), g709::correct_counted)?;
    Ok(answer)
}

/// The same for a row.
pub fn correct_row(random: &mut Random, row: &[u8], space: usize) -> Counted {
    let answer = second::g709::correct_row(row, space);
    compare("correct_row", row, &mut bytes_before(random, space), no_number(content(&answer)), g709::correct_row)?;
    compare("correct_row with its number", row, &mut bytes_before(random, space), numbered(&answer), g709::correct_row_counted)?;
    Ok(answer)
}

fn content(answer: &Result<(Vec<u8>, usize), u8>) -> Result<Vec<u8>, u8> {
    answer.as_ref().map(|(content, _)| content.clone()).map_err(|n| *n)
}

fn numbered(answer: &Result<(Vec<u8>, usize), u8>) -> Expected<u8, u64> {
    answer.clone().map(|(content, changed)| (content, changed as u64))
}

/// Counts that are not 64 stand for zeros.
fn counts(lent: &[u16]) -> [u16; frames::INNER_WORDS] {
    lent.try_into().unwrap_or([0; frames::INNER_WORDS])
}

/// The worst list of a report with these counts of data places and of parity places, with a space for it.
pub fn worst_words(random: &mut Random, data: &[u16], parity: &[u16], space: usize) -> Result<(), String> {
    let (of_data, of_parity) = (counts(data), counts(parity));
    let expected = second::logging::worst_words(&std::array::from_fn(|k| Changes { data: of_data[k], parity: of_parity[k] }));
    let (data, parity, mut list) = (Guarded::new(data), Guarded::new(parity), bytes_before(random, space));
    logging::worst_words(data.slice(), parity.slice(), list.slice_mut());
    data.kept("the counts of data places")?;
    parity.kept("the counts of parity places")?;
    compare_list("the worst list", &list, expected)
}

/// 0 or the refusal's number.
pub fn number<T>(answer: Result<T, u8>) -> u8 {
    answer.err().unwrap_or(0)
}

/// What an entry reads: symbols for the outer code, else bytes.
pub enum Input {
    Bytes(Vec<u8>),
    Symbols(Vec<u16>),
}

use Input::*;

impl Input {
    pub fn len(&self) -> usize {
        match self {
            Bytes(bytes) => bytes.len(),
            Symbols(symbols) => symbols.len(),
        }
    }

    /// The largest symbol; bytes are none.
    pub fn largest(&self) -> u16 {
        match self {
            Bytes(_) => 0,
            Symbols(symbols) => symbols.iter().copied().max().unwrap_or(0),
        }
    }
}

/// The call of an entry of the table, with the spaces for the lists of a report.
pub fn call(entry: &Entry, random: &mut Random, input: &Input, space: usize, lists: Lists) -> Answer {
    match (entry.operation, entry.code, input) {
        (Encode, Frame, Bytes(payload)) => encode_frame(random, payload, space),
        (Check, Frame, Bytes(block)) => check_frame(block),
        (Extract, Frame, Bytes(block)) => extract_payload(random, block, space),
        (Correct, Frame, Bytes(block)) => correct_frame(random, block, space, lists).map(number),
        (Check, Outer, Symbols(word)) => check_outer(word),
        (Encode, Outer, Symbols(data)) => encode_outer(random, data, space),
        (Correct, Outer, Symbols(word)) => correct_outer(random, word, space),
        (Check, Inner, Bytes(word)) => check_inner(word),
        (Encode, Inner, Bytes(data)) => encode_inner(random, data, space),
        (Correct, Inner, Bytes(word)) => correct_inner(random, word, space).map(number),
        (Encode, G709, Bytes(payload)) => encode_g709(random, payload, space),
        (Check, G709, Bytes(block)) => check_g709(block),
        (Extract, G709, Bytes(block)) => extract_g709(random, block, space),
        (Correct, G709, Bytes(block)) => correct_g709(random, block, space).map(number),
        (Encode, Row, Bytes(data)) => encode_row(random, data, space),
        (Check, Row, Bytes(row)) => check_row(row),
        (Extract, Row, Bytes(row)) => extract_row(random, row, space),
        (Correct, Row, Bytes(row)) => correct_row(random, row, space).map(number),
        _ => Err(format!("{} reads something else", entry.name)),
    }
}

#[cfg(test)]
mod tests {
    use super::*;

    fn told(expected: Expected<u8, u64>, call: impl FnOnce(&[u8], &mut [u8]) -> Result<u64, Refusal>) -> bool {
        compare("entry", &[1, 2, 3], &mut Guarded::new(&[4, 5]), expected, call).is_ok()
    }

    #[test]
    fn equal_answers_are_no_difference() {
        assert!(told(Ok((vec![6, 7], 1)), |_, o| {
            o.copy_from_slice(&[6, 7]);
            Ok(1)
        }));
        assert!(told(Err(3), |_, _| Err(Refusal::BufferSize)));
    }

    #[test]
    fn another_answer_is_a_difference() {
        assert!(!told(Ok((vec![4, 5], 1)), |_, _| Ok(2)));
        assert!(!told(Ok((vec![4, 5], 1)), |_, _| Err(Refusal::BufferSize)));
        assert!(!told(Err(2), |_, _| Err(Refusal::BufferSize)));
        assert!(!told(Err(3), |_, _| Ok(0)));
    }

    #[test]
    fn another_content_is_a_difference() {
        assert!(!told(Ok((vec![6, 7], 1)), |_, o| {
            o.copy_from_slice(&[6, 8]);
            Ok(1)
        }));
        assert!(!told(Err(3), |_, o| {
            o[1] = 6;
            Err(Refusal::BufferSize)
        }));
    }

    #[test]
    fn a_list_is_written_whole_or_kept() {
        let expected: [u16; frames::INNER_WORDS] = std::array::from_fn(|k| k as u16);
        let mut list = Guarded::new(&[7; frames::INNER_WORDS]);
        assert!(compare_list("it", &list, expected).is_err());
        list.slice_mut().copy_from_slice(&expected);
        assert!(compare_list("it", &list, expected).is_ok());
        for places in [0, 63, 65] {
            let mut list = Guarded::new(&vec![7; places]);
            assert!(compare_list("it", &list, expected).is_ok());
            list.slice_mut().fill(0);
            assert_eq!(compare_list("it", &list, expected).is_ok(), places == 0);
        }
    }
}
