//! The errors of a row, as its line tells them.

use cases::damage::{add, apart, inverted};
use cases::layout::FRAME;
use cases::payloads::{from_bytes, to_bytes};
use cases::refusals::Code;
use std::fmt;

/// Errors of a row, all at different places. In an outer word, and in a G.709 frame or row of one, an error is a value that is added to a symbol or byte; else
/// it is an inverted bit.
pub struct Errors {
    pub places: Vec<usize>,
    pub values: Vec<u16>,
    /// How the places and values are chosen, where that is told.
    rule: String,
}

impl Errors {
    /// Errors of one value at places that are the same step apart.
    pub fn spaced(count: usize, value: u16, first: usize, step: usize) -> Errors {
        let rule = format!(" of value {value} from {first} apart {step}");
        Errors { places: apart(count, first, step), values: vec![value; count], rule }
    }

    /// Wrong bytes of one value that are the same step apart, going round at the end of a G.709 frame.
    pub fn of_bytes(count: usize, value: u16, first: usize, step: usize) -> Errors {
        let mut errors = Errors::spaced(count, value, first, step);
        errors.places.iter_mut().for_each(|place| *place %= FRAME);
        errors
    }

    /// Errors at the listed places, each of another value.
    pub fn listed(places: &[usize]) -> Errors {
        let values = (0..places.len()).map(|k| 100 * k as u16 + 1).collect();
        Errors { places: places.to_vec(), values, rule: String::new() }
    }

    /// What is received.
    pub fn in_sent(&self, code: Code, sent: &[u16]) -> Vec<u16> {
        if matches!(code, Code::Inner | Code::Frame) {
            return from_bytes(inverted(&to_bytes(sent), self.places.iter().copied()));
        }
        let mut word = sent.to_vec();
        add(&mut word, &self.places, &self.values);
        word
    }
}

impl fmt::Display for Errors {
    fn fmt(&self, f: &mut fmt::Formatter) -> fmt::Result {
        write!(f, "errors {}{}", self.places.len(), self.rule)
    }
}
