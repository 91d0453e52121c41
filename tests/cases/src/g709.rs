//! G.709 frames and rows, by document 02's request A.3: where their words stand, and which bytes are received wrong. Words are counted through the frame, and
//! those of a single row are its first sixteen.

use crate::random::Random;

pub const ROW: usize = 4_080;
pub const ROW_DATA: usize = 3_824;
/// Words of a row, and of a frame.
pub const ROW_WORDS: usize = 16;
pub const WORDS: usize = 4 * ROW_WORDS;
/// Bytes of a word, and those of its data.
pub const WORD: usize = 255;
pub const WORD_DATA: usize = 239;
/// Neighbouring bytes of a row that are eight of each of its words.
pub const BURST: usize = 128;

/// The frame byte of place i of word k, parity places included.
pub fn place(k: usize, i: usize) -> usize {
    ROW * (k / ROW_WORDS) + ROW_WORDS * i + k % ROW_WORDS
}

/// The word, and the place in it, of a frame byte.
pub fn word_of(byte: usize) -> (usize, usize) {
    let (row, j) = (byte / ROW, byte % ROW);
    (ROW_WORDS * row + j % ROW_WORDS, j / ROW_WORDS)
}

/// The frame bytes of so many places of word k.
pub fn in_word(random: &mut Random, k: usize, n: usize) -> Vec<usize> {
    random.choose(n, WORD).into_iter().map(|i| place(k, i)).collect()
}

/// Makes each of these bytes any other one.
pub fn change(random: &mut Random, bytes: &mut [u8], places: impl IntoIterator<Item = usize>) {
    for i in places {
        bytes[i] ^= random.from(1, 255) as u8;
    }
}

/// The bytes in which two frames or rows differ.
pub fn wrong_bytes(sent: &[u8], received: &[u8]) -> Vec<usize> {
    assert_eq!(sent.len(), received.len());
    (0..sent.len()).filter(|&i| sent[i] != received[i]).collect()
}

/// How many of these bytes each word has.
pub fn in_each_word(bytes: &[usize]) -> [usize; WORDS] {
    let mut numbers = [0; WORDS];
    bytes.iter().for_each(|&byte| numbers[word_of(byte).0] += 1);
    numbers
}

#[cfg(test)]
mod tests {
    use super::*;
    use crate::layout::{FRAME, PAYLOAD, RADIUS};

    #[test]
    fn every_byte_stands_at_one_place_of_a_word() {
        let mut seen = [false; FRAME];
        for k in 0..WORDS {
            for i in 0..WORD {
                assert!(!seen[place(k, i)]);
                assert_eq!(word_of(place(k, i)), (k, i));
                assert_eq!(place(k, i) % ROW < ROW_DATA, i < WORD_DATA);
                seen[place(k, i)] = true;
            }
        }
        assert!(seen.iter().all(|&byte| byte));
        assert_eq!((WORDS * WORD_DATA, ROW_WORDS * WORD), (PAYLOAD, ROW));
    }

    #[test]
    fn a_burst_is_eight_of_each_word_of_its_row() {
        for from in [0, 1, 3_760, ROW - BURST] {
            let numbers = in_each_word(&(from..from + BURST).collect::<Vec<_>>());
            assert_eq!(numbers[..ROW_WORDS], [RADIUS; ROW_WORDS]);
            assert_eq!(numbers[ROW_WORDS..], [0; WORDS - ROW_WORDS]);
        }
    }
}
