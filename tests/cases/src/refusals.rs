//! The refusals: the number of each, and for every entry the lengths that it takes, how much it writes, and which refusals it has in which order.

use crate::g709::{ROW, ROW_DATA};
use crate::layout::*;
use std::ops::RangeInclusive;

/// The payload has another length than those taken.
pub const PAYLOAD_LENGTH: u8 = 1;
/// The block has.
pub const BLOCK_LENGTH: u8 = 2;
/// The buffer is not exactly as long as the answer.
pub const SPACE: u8 = 3;
/// The block is no frame, the row no G.709 row, or the word no code word.
pub const NO_CODE_WORD: u8 = 4;
/// The block, the row or the word is beyond reach of a correction.
pub const UNCORRECTABLE: u8 = 5;
/// The word, or the data of one, has another length than those taken.
pub const WORD_LENGTH: u8 = 6;
/// A symbol is above 1,023.
pub const SYMBOL: u8 = 7;
/// The G.709 row, or the data of one, has another length than that taken.
pub const ROW_LENGTH: u8 = 8;

#[derive(Clone, Copy, Debug, PartialEq)]
pub enum Operation {
    Check,
    Encode,
    Extract,
    Correct,
}

#[derive(Clone, Copy, Debug, PartialEq)]
pub enum Code {
    Outer,
    Inner,
    Frame,
    /// G.709 frames.
    G709,
    /// Single rows of G.709 frames.
    Row,
}

/// How many elements an answer has.
#[derive(Clone, Copy, PartialEq)]
pub enum Written {
    Nothing,
    Exactly(usize),
    AsManyAsRead,
}

pub struct Entry {
    pub operation: Operation,
    pub code: Code,
    pub name: &'static str,
    /// What the input is called, and how many elements of it are taken.
    pub input: &'static str,
    pub lengths: RangeInclusive<usize>,
    pub written: Written,
    /// In the order in which they are tested.
    pub refusals: &'static [u8],
}

const fn entry(
    (operation, code): (Operation, Code),
    name: &'static str,
    input: &'static str,
    lengths: RangeInclusive<usize>,
    written: Written,
    refusals: &'static [u8],
) -> Entry {
    Entry { operation, code, name, input, lengths, written, refusals }
}

use Code::*;
use Operation::*;
use Written::*;

/// Lengths of outer words, of which any is taken up to the order of field A.
const OUTER: RangeInclusive<usize> = OUTER_PARITY + 1..=LARGEST_SYMBOL as usize;
const OUTER_DATA: RangeInclusive<usize> = 1..=LARGEST_SYMBOL as usize - OUTER_PARITY;

pub static ENTRIES: [Entry; 18] = [
    entry((Encode, Frame), "encode-frame", "payload", PAYLOAD..=PAYLOAD, Exactly(FRAME), &[PAYLOAD_LENGTH, SPACE]),
    entry((Check, Frame), "check-frame", "block", FRAME..=FRAME, Nothing, &[BLOCK_LENGTH, NO_CODE_WORD]),
    entry((Extract, Frame), "extract-payload", "block", FRAME..=FRAME, Exactly(PAYLOAD), &[BLOCK_LENGTH, SPACE, NO_CODE_WORD]),
    entry((Correct, Frame), "correct-frame", "block", FRAME..=FRAME, Exactly(FRAME), &[BLOCK_LENGTH, SPACE, UNCORRECTABLE]),
    entry((Check, Outer), "check-outer", "word", OUTER, Nothing, &[WORD_LENGTH, SYMBOL, NO_CODE_WORD]),
    entry((Encode, Outer), "encode-outer", "data", OUTER_DATA, Exactly(OUTER_PARITY), &[WORD_LENGTH, SPACE, SYMBOL]),
    entry((Correct, Outer), "correct-outer", "word", OUTER, AsManyAsRead, &[WORD_LENGTH, SPACE, SYMBOL, UNCORRECTABLE]),
    entry((Check, Inner), "check-inner", "word", INNER_BYTES..=INNER_BYTES, Nothing, &[WORD_LENGTH, NO_CODE_WORD]),
    entry((Encode, Inner), "encode-inner", "data", INNER_DATA..=INNER_DATA, Exactly(INNER_PARITY), &[WORD_LENGTH, SPACE]),
    entry((Correct, Inner), "correct-inner", "word", INNER_BYTES..=INNER_BYTES, Exactly(INNER_BYTES), &[WORD_LENGTH, SPACE, UNCORRECTABLE]),
    entry((Encode, G709), "encode-g709", "payload", PAYLOAD..=PAYLOAD, Exactly(FRAME), &[PAYLOAD_LENGTH, SPACE]),
    entry((Check, G709), "check-g709", "block", FRAME..=FRAME, Nothing, &[BLOCK_LENGTH, NO_CODE_WORD]),
    entry((Extract, G709), "extract-g709", "block", FRAME..=FRAME, Exactly(PAYLOAD), &[BLOCK_LENGTH, SPACE, NO_CODE_WORD]),
    entry((Correct, G709), "correct-g709", "block", FRAME..=FRAME, Exactly(FRAME), &[BLOCK_LENGTH, SPACE, UNCORRECTABLE]),
    entry((Encode, Row), "encode-row", "data", ROW_DATA..=ROW_DATA, Exactly(ROW), &[ROW_LENGTH, SPACE]),
    entry((Check, Row), "check-row", "row", ROW..=ROW, Nothing, &[ROW_LENGTH, NO_CODE_WORD]),
    entry((Extract, Row), "extract-row", "row", ROW..=ROW, Exactly(ROW_DATA), &[ROW_LENGTH, SPACE, NO_CODE_WORD]),
    entry((Correct, Row), "correct-row", "row", ROW..=ROW, Exactly(ROW), &[ROW_LENGTH, SPACE, UNCORRECTABLE]),
];

/// The entry for an operation and a code; a payload or data are extracted from a frame or row alone.
pub fn entry_of(operation: Operation, code: Code) -> &'static Entry {
    ENTRIES.iter().find(|entry| entry.operation == operation && entry.code == code).expect("an entry")
}

/// What a call is given, as far as its refusal depends on it.
#[derive(Clone, Copy, Debug)]
pub struct Given {
    pub length: usize,
    pub space: usize,
    /// The largest symbol of an outer word or its data; bytes are never too large.
    pub largest: u16,
    pub content: Content,
}

/// What a word or block is: as sent, within reach of a correction, or beyond it. Data are as sent.
#[derive(Clone, Copy, Debug, PartialEq)]
pub enum Content {
    AsSent,
    Correctable,
    Lost,
}

impl Given {
    /// So many bytes, or symbols of which none is too large.
    pub fn of_length(length: usize, space: usize, content: Content) -> Given {
        Given { length, space, largest: 0, content }
    }

    pub fn of(values: &[u16], space: usize, content: Content) -> Given {
        Given { largest: values.iter().copied().max().unwrap_or(0), ..Given::of_length(values.len(), space, content) }
    }
}

impl Entry {
    /// 0, or the number of the first refusal that applies.
    pub fn answer(&self, given: &Given) -> u8 {
        self.refusals.iter().copied().find(|&number| self.applies(number, given)).unwrap_or(0)
    }

    fn applies(&self, number: u8, given: &Given) -> bool {
        match number {
            PAYLOAD_LENGTH | BLOCK_LENGTH | WORD_LENGTH | ROW_LENGTH => !self.lengths.contains(&given.length),
            SPACE => given.space != self.space(given.length),
            SYMBOL => given.largest > LARGEST_SYMBOL,
            NO_CODE_WORD => given.content != Content::AsSent,
            UNCORRECTABLE => given.content == Content::Lost,
            other => panic!("{other} is no refusal"),
        }
    }

    /// How many elements the answer to an input of this length has.
    pub fn space(&self, length: usize) -> usize {
        match self.written {
            Nothing => 0,
            Exactly(elements) => elements,
            AsManyAsRead => length,
        }
    }

    pub fn takes_one_length(&self) -> bool {
        self.lengths.start() == self.lengths.end()
    }

    /// Lengths of the input that are refused: none, and just past each limit.
    pub fn past(&self) -> Vec<usize> {
        past(&self.lengths)
    }

    /// These, and the limits themselves.
    pub fn at_and_past(&self) -> Vec<usize> {
        let mut lengths = [self.past(), vec![*self.lengths.start(), *self.lengths.end()]].concat();
        lengths.sort_unstable();
        lengths.dedup();
        lengths
    }

    /// Spaces that are refused, where the right one is the same for every length.
    pub fn past_space(&self) -> Vec<usize> {
        let right = self.space(*self.lengths.start());
        past(&(right..=right))
    }
}

fn past(limits: &RangeInclusive<usize>) -> Vec<usize> {
    let mut lengths = vec![0, limits.start() - 1, limits.end() + 1];
    lengths.dedup();
    lengths
}

/// Every limit of every entry, for what it reads and what it writes, with the lengths next to it: at each entry those of the others are tried too.
pub fn all_limits() -> Vec<usize> {
    let limits = ENTRIES.iter().flat_map(|entry| [*entry.lengths.start(), *entry.lengths.end(), entry.space(0)]);
    let mut lengths: Vec<usize> = limits.flat_map(|limit| [limit.saturating_sub(1), limit, limit + 1]).collect();
    lengths.sort_unstable();
    lengths.dedup();
    lengths
}

#[cfg(test)]
mod tests {
    use super::*;

    #[test]
    fn limits_are_those_of_document_01() {
        assert_eq!(entry_of(Encode, Frame).past(), [0, 15_295, 15_297]);
        assert_eq!(entry_of(Correct, Frame).past(), [0, 16_319, 16_321]);
        assert_eq!(entry_of(Correct, Frame).past_space(), [0, 16_319, 16_321]);
        assert_eq!(entry_of(Check, Outer).at_and_past(), [0, 16, 17, 1_023, 1_024]);
        assert_eq!(entry_of(Encode, Outer).past(), [0, 1_008]);
        assert_eq!(entry_of(Encode, Outer).past_space(), [0, 15, 17]);
        assert_eq!(entry_of(Correct, Inner).past(), [0, 254, 256]);
        assert_eq!(entry_of(Encode, Inner).past(), [0, 243, 245]);
        assert_eq!(entry_of(Encode, Inner).past_space(), [0, 10, 12]);
    }

    #[test]
    fn limits_are_those_of_request_a3() {
        assert_eq!((entry_of(Encode, G709).past(), entry_of(Encode, G709).past_space()), (vec![0, 15_295, 15_297], vec![0, 16_319, 16_321]));
        assert_eq!((entry_of(Extract, G709).past(), entry_of(Extract, G709).past_space()), (vec![0, 16_319, 16_321], vec![0, 15_295, 15_297]));
        assert_eq!((entry_of(Encode, Row).past(), entry_of(Encode, Row).past_space()), (vec![0, 3_823, 3_825], vec![0, 4_079, 4_081]));
        assert_eq!((entry_of(Extract, Row).past(), entry_of(Extract, Row).past_space()), (vec![0, 4_079, 4_081], vec![0, 3_823, 3_825]));
        assert_eq!((entry_of(Correct, Row).past(), entry_of(Correct, Row).past_space()), (vec![0, 4_079, 4_081], vec![0, 4_079, 4_081]));
        assert!([3_823, 3_824, 3_825, 4_079, 4_080, 4_081].iter().all(|limit| all_limits().contains(limit)));
    }

    /// With each thing put right that is refused, the next refusal of the entry applies, and none after the last.
    #[test]
    fn the_first_refusal_that_applies_is_answered() {
        let correct = entry_of(Correct, Outer);
        let mut given = Given { length: 16, space: 18, largest: 1_024, content: Content::Lost };
        assert_eq!(correct.answer(&given), 6);
        given.length = 17;
        assert_eq!(correct.answer(&given), 3);
        given.space = 17;
        assert_eq!(correct.answer(&given), 7);
        given.largest = 1_023;
        assert_eq!(correct.answer(&given), 5);
        given.content = Content::Correctable;
        assert_eq!(correct.answer(&given), 0);
        assert_eq!(entry_of(Check, Outer).answer(&given), 4);
        assert_eq!(entry_of(Check, Frame).answer(&given), 2);
        assert_eq!(entry_of(Encode, Frame).answer(&given), 1);
        let (correct, mut given) = (entry_of(Correct, Row), Given::of_length(4_079, 4_079, Content::Lost));
        assert_eq!(correct.answer(&given), 8);
        given.length = 4_080;
        assert_eq!(correct.answer(&given), 3);
        given.space = 4_080;
        assert_eq!(correct.answer(&given), 5);
        assert_eq!(entry_of(Check, Row).answer(&given), 4);
    }
}
