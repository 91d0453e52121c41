//! The frame: where the bits of outer and inner words stand, and the two passes.
//!
//! A frame is 2,040 groups of 64 bits. Bit k of group p is place p of inner word
//! k, for data and parity alike. The first 1,952 groups are, one bit after the
//! other, the sixteen outer words.

use crate::reed_solomon::OUTER;
use crate::{bits, inner, Changes, Corrected};

pub const PAYLOAD_BYTES: usize = 15_296;
pub const FRAME_BYTES: usize = 16_320;
pub const INNER_WORDS: usize = 64;

const OUTER_WORDS: usize = 16;
/// Payload bits of an outer word other than the last.
const FULL_DATA_BITS: usize = 7_650;
/// Payload bits of the last outer word: what is left.
const LAST_DATA_BITS: usize = 8 * PAYLOAD_BYTES - 15 * FULL_DATA_BITS;
const OUTER_PARITY_BITS: usize = 160;
/// Frame bits of an outer word other than the last.
const OUTER_WORD_BITS: usize = FULL_DATA_BITS + OUTER_PARITY_BITS;
/// The padding bits: zeros that complete the last data symbol of the last outer
/// word. They are not sent.
const PADDING: [bool; 2] = [false; 2];

/// Payload bits of outer word w, and its padding bits.
fn data_layout(w: usize) -> (usize, &'static [bool]) {
    if w < OUTER_WORDS - 1 {
        (FULL_DATA_BITS, &[])
    } else {
        (LAST_DATA_BITS, &PADDING)
    }
}

/// The frame of a payload.
pub fn encode(payload: &[u8]) -> Vec<u8> {
    let payload = bits::from_bytes(payload);
    let words: Vec<_> = (0..OUTER_WORDS).map(|w| encode_outer_word(&payload, w)).collect();
    bits::to_bytes(&assemble(&words))
}

/// Is the block the frame of some payload? If so, of the one that stands in it.
pub fn is_frame(block: &[u8]) -> bool {
    encode(&payload(block)) == block
}

/// The bytes that stand at the places of the payload.
pub fn payload(block: &[u8]) -> Vec<u8> {
    let block = bits::from_bytes(block);
    let data_of = |w| &block[OUTER_WORD_BITS * w..][..data_layout(w).0];
    let payload = (0..OUTER_WORDS).map(data_of).collect::<Vec<_>>().concat();
    bits::to_bytes(&payload)
}

/// The restored frame and what is changed in it; nothing if an outer word is
/// uncorrectable.
pub fn correct(block: &[u8]) -> Option<Corrected> {
    let received = bits::from_bytes(block);
    let passed = inner_pass(&received);
    let words: Option<Vec<_>> = (0..OUTER_WORDS).map(|w| correct_outer_word(&passed, w)).collect();
    let frame = assemble(&words?);
    let changes = differences(&received, &frame);
    let sum = changes.into_iter().map(Changes::total).sum();
    Some(Corrected { frame: bits::to_bytes(&frame), changes, sum })
}

/// Outer word w as a code word, from the bits of the payload.
fn encode_outer_word(payload: &[bool], w: usize) -> Vec<u16> {
    let (data_bits, padding) = data_layout(w);
    let data = &payload[FULL_DATA_BITS * w..][..data_bits];
    let mut word = bits::to_symbols(&[data, padding].concat());
    word.extend(OUTER.parity(&word));
    word
}

/// The frame made of sixteen outer code words, with inner parity made afresh.
fn assemble(words: &[Vec<u16>]) -> Vec<bool> {
    let sent: Vec<_> = words.iter().enumerate().map(|(w, word)| sent_bits(word, w)).collect();
    let mut frame = sent.concat();
    let inner_parity = |k| inner::parity(&inner_word(&frame, k));
    let parity: Vec<_> = (0..INNER_WORDS).map(inner_parity).collect();
    for p in 0..inner::PARITY {
        frame.extend(parity.iter().map(|bits| bits[p]));
    }
    frame
}

/// The bits of outer word w without the padding bits.
fn sent_bits(word: &[u16], w: usize) -> Vec<bool> {
    let (data_bits, padding) = data_layout(w);
    let mut sent = bits::from_symbols(word);
    sent.drain(data_bits..data_bits + padding.len());
    sent
}

/// Outer word w as it stands in the bits of a frame, the padding bits as zeros.
fn outer_word(frame: &[bool], w: usize) -> Vec<u16> {
    let (data_bits, padding) = data_layout(w);
    let sent = &frame[OUTER_WORD_BITS * w..][..data_bits + OUTER_PARITY_BITS];
    let (data, parity) = sent.split_at(data_bits);
    bits::to_symbols(&[data, padding, parity].concat())
}

/// Outer word w corrected. A code word with a padding bit of one is not
/// permitted; no other code word is near enough then.
fn correct_outer_word(frame: &[bool], w: usize) -> Option<Vec<u16>> {
    let (word, _) = OUTER.correct(&outer_word(frame, w))?;
    let (data_bits, padding) = data_layout(w);
    let padded = &bits::from_symbols(&word)[data_bits..][..padding.len()];
    (padded == padding).then_some(word)
}

/// Inner word k, as far as the frame is there.
fn inner_word(frame: &[bool], k: usize) -> Vec<bool> {
    frame.chunks_exact(INNER_WORDS).map(|group| group[k]).collect()
}

/// Every inner word corrected, or left as received if it is uncorrectable.
fn inner_pass(received: &[bool]) -> Vec<bool> {
    let mut passed = received.to_vec();
    for k in 0..INNER_WORDS {
        if let Some((word, _)) = inner::correct(&inner_word(received, k)) {
            for (p, bit) in word.into_iter().enumerate() {
                passed[INNER_WORDS * p + k] = bit;
            }
        }
    }
    passed
}

/// For each inner word, the numbers of data places and of parity places in which
/// two frames differ.
fn differences(received: &[bool], restored: &[bool]) -> [Changes; INNER_WORDS] {
    let mut changes = [Changes::default(); INNER_WORDS];
    for (i, (old, new)) in received.iter().zip(restored).enumerate() {
        if old != new {
            changes[i % INNER_WORDS].add(i / INNER_WORDS);
        }
    }
    changes
}
