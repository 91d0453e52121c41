//! Every refusal at its boundaries, and their order.

use cases::calls;
use cases::payloads::{self, from_bytes, outer_code_word};
use cases::random::Random;
use cases::refusals::{all_limits, Code, Content, Entry, Given, Operation, ENTRIES};

/// An input of this length: a frame, row or code word if there is one so long, else something like it.
fn as_sent(random: &mut Random, entry: &Entry, length: usize) -> Vec<u16> {
    let taken = entry.lengths.contains(&length);
    let mut values = match (entry.operation, entry.code) {
        (Operation::Encode, Code::Outer) => random.symbols(length),
        (Operation::Encode, Code::Inner | Code::Row) => from_bytes(random.bytes(length)),
        (Operation::Encode, Code::Frame | Code::G709) => from_bytes(payloads::random(random, length)),
        (_, Code::Frame) => from_bytes(random.frame()),
        (_, Code::G709) => from_bytes(random.g709_frame()),
        (_, Code::Row) => from_bytes(random.row()),
        (_, Code::Outer) if taken => random.outer_code_word(length),
        (_, Code::Outer) => outer_code_word(&[1]),
        (_, Code::Inner) => from_bytes(random.inner_code_word()),
    };
    values.resize(length, 0);
    values
}

/// Inputs of this length of every kind: as sent, with one wrong bit, noise; data are as sent in any case.
fn inputs(random: &mut Random, entry: &Entry, length: usize) -> Vec<(Vec<u16>, Content)> {
    let sent = as_sent(random, entry, length);
    if entry.operation == Operation::Encode {
        return vec![(sent, Content::AsSent)];
    }
    let mut wrong = sent.clone();
    if length > 0 {
        wrong[random.below(length)] ^= 1;
    }
    let noise = if entry.code == Code::Outer { random.symbols(length) } else { from_bytes(random.bytes(length)) };
    vec![(sent, Content::AsSent), (wrong, Content::Correctable), (noise, Content::Lost)]
}

/// The input as it is and, for symbols, with one that is too large by 1, one that is as large as can be, and none but such.
fn with_large_symbols(entry: &Entry, values: Vec<u16>) -> Vec<Vec<u16>> {
    if entry.code != Code::Outer || values.is_empty() {
        return vec![values];
    }
    let last = |symbol| [&values[..values.len() - 1], &[symbol]].concat();
    vec![values.clone(), last(1_024), last(65_535), vec![1_024; values.len()]]
}

/// The input with spaces at, below and above all limits, and as large as can be: each call is answered by the first refusal that applies.
fn refused_in_order(entry: &Entry, values: &[u16], content: Content) {
    for space in all_limits().into_iter().chain([usize::MAX, (1 << 61) + 11]) {
        let given = Given::of(values, space, content);
        assert_eq!(calls::number(entry, values, space), entry.answer(&given), "{}, {given:?}", entry.name);
    }
}

/// The chosen entries with inputs of lengths at, below and above all limits.
fn all_refused_in_order(seed: u64, chosen: impl Fn(&Entry) -> bool) {
    let mut random = Random(seed);
    for entry in ENTRIES.iter().filter(|entry| chosen(entry)) {
        let inputs = all_limits().into_iter().flat_map(|length| inputs(&mut random, entry, length));
        for (values, content) in inputs {
            with_large_symbols(entry, values).iter().for_each(|values| refused_in_order(entry, values, content));
        }
    }
}

#[test]
fn payload_length_then_space() {
    all_refused_in_order(19, |entry| (entry.operation, entry.code) == (Operation::Encode, Code::Frame));
}

#[test]
fn block_length_then_space_then_the_rest() {
    all_refused_in_order(20, |entry| entry.operation != Operation::Encode && entry.code == Code::Frame);
}

#[test]
fn outer_refusals_in_order() {
    all_refused_in_order(21, |entry| entry.code == Code::Outer);
}

#[test]
fn inner_refusals_in_order() {
    all_refused_in_order(22, |entry| entry.code == Code::Inner);
}

#[test]
fn g709_refusals_in_order() {
    all_refused_in_order(23, |entry| entry.code == Code::G709);
}

#[test]
fn row_refusals_in_order() {
    all_refused_in_order(24, |entry| entry.code == Code::Row);
}
