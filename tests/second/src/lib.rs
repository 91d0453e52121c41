//! Encoder and decoder for the frames of ITU-T G.975.1 appendix I.4, and for the
//! RS(255,239) frames of G.709.
//!
//! What goes in, and what comes out:
//!
//! * `encode_frame`: a payload of 15,296 bytes gives a frame of 16,320 bytes;
//! * `check_frame`: is a block of 16,320 bytes a frame of some payload?
//! * `extract_payload`: the payload of a block that is a frame;
//! * `correct_frame`: a received block gives the restored frame and the numbers
//!   of data places and of parity places corrected in each inner word;
//! * the same for single outer words (symbols of ten bits) and inner words;
//! * `logging`: counters of the answers of `correct_frame`, and the worst list
//!   of what is changed;
//! * `g709`: the same four for G.709 frames and for single rows of them.
//!
//! Encoding: the payload bits fill sixteen outer words (`frame`), each gets
//! sixteen parity symbols by long division (`reed_solomon`); the bits of these
//! words are dealt out to 64 inner words, and each gets 88 parity bits by long
//! division (`inner`).
//!
//! Correcting: one inner pass, then one outer pass, then the inner parity bits
//! made afresh. Inner words: the remainder by the generator, syndromes from it,
//! the algorithm of Berlekamp and Massey, and a Chien search. Outer words:
//! syndromes by Horner's rule, the Euclidean algorithm of Sugiyama, a Chien
//! search, and Forney's formula. Both decoders hand back a candidate only
//! after a test that it is a code word that differs in at most eight places.
//! The words of G.709 rows have the same encoder and decoder as outer words,
//! over another field.
//!
//! Below these lie the three fields (`field`: carry-less products and reduction),
//! polynomials over a field (`poly`), and lists of bits (`bits`). `Exponents`
//! gives the products of a field once more, from tables of powers and of
//! exponents and without division; the encoder and decoder do not use it.
//!
//! Every public function tests its input in one order: lengths, then space,
//! then symbols, then code words. `space` is the number of elements of the
//! buffer that is to take the answer; it has to be the size of the answer. An
//! `Err` holds the number of the refusal.

#![forbid(unsafe_code)]

mod bits;
mod exponents;
mod field;
mod frame;
pub mod g709;
mod inner;
pub mod logging;
mod poly;
mod reed_solomon;
#[cfg(test)]
mod tests;

pub use exponents::Exponents;
pub use field::{Field, FieldA, FieldB, FieldC};
pub use frame::{FRAME_BYTES, INNER_WORDS, PAYLOAD_BYTES};
pub use inner::Changes;

use reed_solomon::{OUTER, PARITY};

const REFUSED_PAYLOAD_LENGTH: u8 = 1;
const REFUSED_BLOCK_LENGTH: u8 = 2;
const REFUSED_SPACE: u8 = 3;
const REFUSED_NO_CODE_WORD: u8 = 4;
const REFUSED_UNCORRECTABLE: u8 = 5;
const REFUSED_WORD_LENGTH: u8 = 6;
const REFUSED_SYMBOL: u8 = 7;
const REFUSED_ROW_LENGTH: u8 = 8;

/// A restored frame, the numbers of data places and of parity places in which
/// each inner word of the received block differs from it, and the sum of all
/// these numbers.
#[derive(Clone, Debug, PartialEq, Eq)]
pub struct Corrected {
    pub frame: Vec<u8>,
    pub changes: [Changes; INNER_WORDS],
    pub sum: u32,
}

/// The frame of a payload.
pub fn encode_frame(payload: &[u8], space: usize) -> Result<Vec<u8>, u8> {
    require(payload.len() == PAYLOAD_BYTES, REFUSED_PAYLOAD_LENGTH)?;
    require(space == FRAME_BYTES, REFUSED_SPACE)?;
    Ok(frame::encode(payload))
}

/// Accepts a block that is the frame of some payload.
pub fn check_frame(block: &[u8]) -> Result<(), u8> {
    require(block.len() == FRAME_BYTES, REFUSED_BLOCK_LENGTH)?;
    require(frame::is_frame(block), REFUSED_NO_CODE_WORD)
}

/// The payload of a block that is a frame.
pub fn extract_payload(block: &[u8], space: usize) -> Result<Vec<u8>, u8> {
    require(block.len() == FRAME_BYTES, REFUSED_BLOCK_LENGTH)?;
    require(space == PAYLOAD_BYTES, REFUSED_SPACE)?;
    require(frame::is_frame(block), REFUSED_NO_CODE_WORD)?;
    Ok(frame::payload(block))
}

/// The frame that the two passes restore from a received block.
pub fn correct_frame(block: &[u8], space: usize) -> Result<Corrected, u8> {
    require(block.len() == FRAME_BYTES, REFUSED_BLOCK_LENGTH)?;
    require(space == FRAME_BYTES, REFUSED_SPACE)?;
    frame::correct(block).ok_or(REFUSED_UNCORRECTABLE)
}

/// What is reported of a block, whether it was corrected or not: the changes in
/// each inner word, and their sum. Of a refusal all these numbers are 0.
pub fn reported(answer: &Result<Corrected, u8>) -> ([Changes; INNER_WORDS], u32) {
    match answer {
        Ok(corrected) => (corrected.changes, corrected.sum),
        Err(_) => ([Changes::default(); INNER_WORDS], 0),
    }
}

/// Accepts an outer code word.
pub fn check_outer(word: &[u16]) -> Result<(), u8> {
    require(OUTER.lengths().contains(&word.len()), REFUSED_WORD_LENGTH)?;
    require_symbols(word)?;
    require(OUTER.is_code_word(word), REFUSED_NO_CODE_WORD)
}

/// The sixteen parity symbols of outer data.
pub fn encode_outer(data: &[u16], space: usize) -> Result<Vec<u16>, u8> {
    let length = data.len() + PARITY;
    require(OUTER.lengths().contains(&length), REFUSED_WORD_LENGTH)?;
    require(space == PARITY, REFUSED_SPACE)?;
    require_symbols(data)?;
    Ok(OUTER.parity(data).to_vec())
}

/// The outer code word within eight symbols, and the number of symbols changed.
pub fn correct_outer(word: &[u16], space: usize) -> Result<(Vec<u16>, usize), u8> {
    require(OUTER.lengths().contains(&word.len()), REFUSED_WORD_LENGTH)?;
    require(space == word.len(), REFUSED_SPACE)?;
    require_symbols(word)?;
    OUTER.correct(word).ok_or(REFUSED_UNCORRECTABLE)
}

/// Accepts an inner code word.
pub fn check_inner(word: &[u8]) -> Result<(), u8> {
    require(word.len() == inner::LENGTH / 8, REFUSED_WORD_LENGTH)?;
    require(inner::is_code_word(&bits::from_bytes(word)), REFUSED_NO_CODE_WORD)
}

/// The eleven parity bytes of inner data.
pub fn encode_inner(data: &[u8], space: usize) -> Result<Vec<u8>, u8> {
    require(data.len() == inner::DATA / 8, REFUSED_WORD_LENGTH)?;
    require(space == inner::PARITY / 8, REFUSED_SPACE)?;
    Ok(bits::to_bytes(&inner::parity(&bits::from_bytes(data))))
}

/// The inner code word within eight places, and the numbers of data places and
/// of parity places changed.
pub fn correct_inner(word: &[u8], space: usize) -> Result<(Vec<u8>, Changes), u8> {
    require(word.len() == inner::LENGTH / 8, REFUSED_WORD_LENGTH)?;
    require(space == word.len(), REFUSED_SPACE)?;
    let (code_word, changes) = inner::correct(&bits::from_bytes(word)).ok_or(REFUSED_UNCORRECTABLE)?;
    Ok((bits::to_bytes(&code_word), changes))
}

fn require_symbols(symbols: &[u16]) -> Result<(), u8> {
    require(symbols.iter().all(|&symbol| symbol <= OUTER.max_symbol()), REFUSED_SYMBOL)
}

fn require(condition: bool, refusal: u8) -> Result<(), u8> {
    if condition {
        Ok(())
    } else {
        Err(refusal)
    }
}
