//! Cases on lengths, of every entry of the table: the number of the case is the length of one buffer, while the other is as it should be; and any lengths
//! together. Where the table says that a call is refused for its lengths or symbols, that has to be the answer of both sides.

use crate::calls::{self, Input, Lists, LISTS};
use crate::Done;
use cases::damage::invert;
use cases::layout::{data_symbols, symbols_in, FRAME, INNER_WORDS};
use cases::payloads;
use cases::random::Random;
use cases::refusals::{entry_of, Code, Content, Entry, Given, Operation, Written, ENTRIES};

/// The length of an outer word or its data where another length is the case's.
const SOME_SYMBOLS: usize = 100;

fn answered(entry: &Entry, random: &mut Random, input: &Input, space: usize, lists: Lists) -> Result<Done, String> {
    let answer = calls::call(entry, random, input, space, lists)?;
    let refused = entry.answer(&Given { largest: input.largest(), ..Given::of_length(input.len(), space, Content::AsSent) });
    if refused != 0 && refused != answer {
        return Err(format!("{}: both sides answer {answer}, and its lengths and symbols are refused by {refused}", entry.name));
    }
    Ok(Done { answer, damaged: false })
}

/// The zero frame, which is one of G.709 too and has rows of zeros, with a bit inverted or none, cut or continued with random bytes to n.
fn block(random: &mut Random, n: usize) -> Vec<u8> {
    let mut block = payloads::zero_frame()[..n.min(FRAME)].to_vec();
    if n > 0 && random.chance(2) {
        let i = random.below(block.len());
        invert(&mut block, [8 * i + 7]);
    }
    block.extend(random.bytes(n - block.len()));
    block
}

/// A word of n zeros but for a 1 somewhere.
fn single_one(random: &mut Random, n: usize) -> Vec<u16> {
    let mut word = vec![0; n];
    word[random.below(n)] = 1;
    word
}

fn input(entry: &Entry, random: &mut Random, n: usize) -> Input {
    match (entry.operation, entry.code) {
        (_, Code::Outer) => Input::Symbols(random.symbols(n)),
        (_, Code::Inner) | (Operation::Encode, Code::Row) => Input::Bytes(random.bytes(n)),
        (Operation::Encode, Code::Frame | Code::G709) => Input::Bytes(payloads::random(random, n)),
        (_, Code::Frame | Code::G709 | Code::Row) => Input::Bytes(block(random, n)),
    }
}

/// The entry with input of a length.
pub fn of_input(entry: &Entry, random: &mut Random, n: usize) -> Result<Done, String> {
    let input = input(entry, random, n);
    answered(entry, random, &input, entry.space(n), LISTS)
}

/// The entry with a space for what it writes; single words that it corrects have one wrong symbol or bit.
pub fn of_space(entry: &Entry, random: &mut Random, space: usize) -> Result<Done, String> {
    let n = if entry.takes_one_length() { *entry.lengths.start() } else { SOME_SYMBOLS };
    let input = match (entry.operation, entry.code) {
        (Operation::Correct, Code::Outer) => Input::Symbols(single_one(random, n)),
        (Operation::Correct, Code::Inner) => Input::Bytes(payloads::to_bytes(&single_one(random, n))),
        _ => input(entry, random, n),
    };
    answered(entry, random, &input, space, LISTS)
}

/// A length that is right, near to it, or any up to 20,000.
pub fn near(random: &mut Random, right: usize) -> usize {
    match random.below(3) {
        0 => right,
        1 => (right + random.below(3)).saturating_sub(1),
        _ => random.from(0, 20_000),
    }
}

/// A length that the entry takes: the only one, or the least, the most or that of a frame's outer words.
fn right_length(entry: &Entry, random: &mut Random) -> usize {
    if entry.takes_one_length() {
        return *entry.lengths.start();
    }
    let in_frame = if entry.operation == Operation::Encode { data_symbols(0) } else { symbols_in(0) };
    [*entry.lengths.start(), in_frame, *entry.lengths.end()][random.below(3)]
}

/// Zeros and a few other bytes, or symbols, in some of which one is too large.
fn mixed_input(entry: &Entry, random: &mut Random, n: usize) -> Input {
    if entry.code != Code::Outer {
        let bytes = block(random, n);
        let payload = entry.operation == Operation::Encode && matches!(entry.code, Code::Frame | Code::G709);
        return Input::Bytes(if payload { payloads::of_bytes(&bytes) } else { bytes });
    }
    let mut symbols = random.symbols(n);
    if n > 0 && random.chance(2) {
        symbols[random.below(n)] = 1_024;
    }
    Input::Symbols(symbols)
}

/// Several lengths at once, so that the order of refusals shows, those of the lists of a report among them; outer words and data with a symbol above 1,023 in some.
pub fn together(random: &mut Random, number: u64) -> Result<Done, String> {
    let writing: Vec<&Entry> = ENTRIES.iter().filter(|entry| entry.written != Written::Nothing).collect();
    let entry = writing[number as usize % writing.len()];
    let right = right_length(entry, random);
    let length = near(random, right);
    let input = mixed_input(entry, random, length);
    let space = near(random, entry.space(right));
    if entry.operation != Operation::Correct {
        return answered(entry, random, &input, space, LISTS);
    }
    let lists = if entry.code == Code::Frame { (near(random, INNER_WORDS), near(random, INNER_WORDS)) } else { LISTS };
    answered(entry_of(Operation::Check, entry.code), random, &input, 0, LISTS)?;
    answered(entry, random, &input, space, lists)
}
