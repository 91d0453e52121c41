//! What is logged of the corrector's answers: counters, and the worst list of a
//! report.

use crate::frame::INNER_WORDS;
use crate::{Changes, Corrected, REFUSED_UNCORRECTABLE};
use std::cmp::Reverse;

/// Places of a worst list.
pub const LISTED: usize = 8;
/// What an empty place of a worst list holds.
pub const EMPTY: u8 = INNER_WORDS as u8;

/// What the corrector's answers since the last clearing add up to. The sums are
/// kept whole, and limited where they are read.
#[derive(Clone, Copy, Debug, Default, PartialEq, Eq)]
pub struct Counters {
    /// Frames that were corrected, those without a wrong bit among them.
    pub frames: u64,
    /// Uncorrectable blocks.
    pub uncorrectable: u64,
    /// Bits corrected.
    pub bits: u64,
}

impl Counters {
    /// One more answer. A block that is refused for another reason than that it
    /// is uncorrectable does not count.
    pub fn count(&mut self, answer: &Result<Corrected, u8>) {
        match answer {
            Ok(corrected) => {
                self.frames += 1;
                self.bits += u64::from(corrected.sum);
            }
            Err(REFUSED_UNCORRECTABLE) => self.uncorrectable += 1,
            Err(_) => {}
        }
    }

    /// Frames, uncorrectable blocks and bits as numbers of 32 bits: the sum, or
    /// the largest such number if that is less.
    pub fn read(&self) -> [u32; 3] {
        let sums = [self.frames, self.uncorrectable, self.bits];
        sums.map(|sum| u32::try_from(sum).unwrap_or(u32::MAX))
    }
}

/// The inner words with a changed place, as far as there are places in the list.
/// Most changes come first, data places and parity places together; of equal
/// totals the word with more changed data places; of words equal in both the
/// higher number. Empty places hold 64.
pub fn worst_words(changes: &[Changes; INNER_WORDS]) -> [u8; LISTED] {
    let of = |k: u8| changes[usize::from(k)];
    let mut words: Vec<u8> = (0..EMPTY).filter(|&k| of(k).total() > 0).collect();
    words.sort_by_key(|&k| Reverse((of(k).total(), of(k).data, k)));
    let mut list = [EMPTY; LISTED];
    for (place, word) in list.iter_mut().zip(words) {
        *place = word;
    }
    list
}
