//! What is encoded, and what is sent for it: payloads and their frames, the data of single words and their code words.

use crate::g709::{ROW, ROW_DATA};
use crate::layout::{FRAME, INNER_DATA, INNER_PARITY, OUTER_PARITY, PAYLOAD};
use crate::random::Random;
use std::fmt;
use std::sync::OnceLock;

/// A payload, byte by byte. Every payload is made here; one of another length is there to be refused.
fn filled(length: usize, byte: impl Fn(usize) -> u8) -> Vec<u8> {
    (0..length).map(byte).collect()
}

/// So many bytes of a payload of this content.
pub fn of(data: Data, length: usize) -> Vec<u8> {
    filled(length, |i| u8::try_from(data.value(i)).expect("a byte"))
}

/// A payload of these bytes.
pub fn of_bytes(bytes: &[u8]) -> Vec<u8> {
    filled(bytes.len(), |i| bytes[i])
}

/// So many random bytes.
pub fn random(random: &mut Random, length: usize) -> Vec<u8> {
    of_bytes(&random.bytes(length))
}

/// A payload of one value throughout, of one bit, or, more often, of random bytes.
pub fn any(random: &mut Random) -> Vec<u8> {
    let data = match random.below(10) {
        0 => Data::Each(0),
        1 => Data::Each(255),
        2 => Data::Each(u16::from(random.next() as u8)),
        3 => Data::Bit(random.below(8 * PAYLOAD)),
        _ => return self::random(random, PAYLOAD),
    };
    of(data, PAYLOAD)
}

/// The frame of a payload.
pub fn frame(payload: &[u8]) -> Vec<u8> {
    second::encode_frame(payload, FRAME).expect("a payload has a frame")
}

/// The frame that the runs of document 01 on zeros are about.
pub fn zero_frame() -> &'static [u8] {
    static SENT: OnceLock<Vec<u8>> = OnceLock::new();
    SENT.get_or_init(|| frame(&of(Data::Each(0), PAYLOAD)))
}

/// The G.709 frame of a payload.
pub fn g709_frame(payload: &[u8]) -> Vec<u8> {
    second::g709::encode(payload, FRAME).expect("a payload has a frame")
}

/// The G.709 row of data.
pub fn row(data: &[u8]) -> Vec<u8> {
    second::g709::encode_row(data, ROW).expect("data have a row")
}

/// The outer code word of data, parity after them.
pub fn outer_code_word(data: &[u16]) -> Vec<u16> {
    [data, &second::encode_outer(data, OUTER_PARITY).expect("data has parity")].concat()
}

/// The inner code word of data, parity after them.
pub fn inner_code_word(data: &[u8]) -> Vec<u8> {
    [data, &second::encode_inner(data, INNER_PARITY).expect("data has parity")].concat()
}

/// What is sent for random data: a frame, a G.709 frame or row, an outer word of a length, an inner word.
impl Random {
    pub fn frame(&mut self) -> Vec<u8> {
        frame(&random(self, PAYLOAD))
    }

    pub fn g709_frame(&mut self) -> Vec<u8> {
        g709_frame(&random(self, PAYLOAD))
    }

    pub fn row(&mut self) -> Vec<u8> {
        row(&self.bytes(ROW_DATA))
    }

    pub fn outer_code_word(&mut self, length: usize) -> Vec<u16> {
        outer_code_word(&self.symbols(length - OUTER_PARITY))
    }

    pub fn inner_code_word(&mut self) -> Vec<u8> {
        inner_code_word(&self.bytes(INNER_DATA))
    }
}

/// Content that a line can name: numbers of 16 bits, which are bytes except for outer words.
#[derive(Clone, Copy)]
pub enum Data {
    /// One value throughout.
    Each(u16),
    /// Counted modulo 251.
    Counted,
    /// Zeros but for four symbols.
    Symbols,
    /// Zeros but for four bits.
    Bits,
    /// Zeros but for one bit.
    Bit(usize),
    /// Nine symbols of the shortest code word of data 2, then zeros.
    Near,
}

use Data::*;

impl Data {
    pub fn value(self, i: usize) -> u16 {
        match (self, i) {
            (Each(value), _) => value,
            (Counted, _) => (i % 251) as u16,
            (Symbols, 0) => 1,
            (Symbols, 1) => 1_023,
            (Symbols, 400) => 512,
            (Symbols, 761) => 4,
            (Bits, 0) => 128,
            (Bits, 100) => 3,
            (Bits, 243) => 1,
            (Bit(one), _) if one / 8 == i => 128 >> (one % 8),
            (Near, 0..=8) => outer_code_word(&[2])[i],
            (Symbols | Bits | Bit(_) | Near, _) => 0,
        }
    }

    pub fn values(self, n: usize) -> Vec<u16> {
        (0..n).map(|i| self.value(i)).collect()
    }
}

impl fmt::Display for Data {
    fn fmt(&self, f: &mut fmt::Formatter) -> fmt::Result {
        match self {
            Each(value) => write!(f, "each {value}"),
            Counted => write!(f, "counted modulo 251"),
            Symbols | Bits => write!(f, "zeros but for four symbols or bits"),
            Bit(i) => write!(f, "zeros but for bit {i}"),
            Near => write!(f, "nine symbols of a code word, then zeros"),
        }
    }
}

pub fn to_bytes(values: &[u16]) -> Vec<u8> {
    values.iter().map(|&value| u8::try_from(value).expect("a byte")).collect()
}

pub fn from_bytes(bytes: Vec<u8>) -> Vec<u16> {
    bytes.into_iter().map(u16::from).collect()
}
