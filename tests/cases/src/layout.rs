//! Where things stand in a block, by document 01's section on outer words and inner words.

use second::Changes;
use std::ops::Range;

pub const PAYLOAD: usize = 15_296;
pub const FRAME: usize = 16_320;
pub const FRAME_BITS: usize = 8 * FRAME;
/// Frame bits of the outer words; those of inner parity come after them.
pub const OUTER_BITS: usize = 124_928;
pub const OUTER_WORDS: usize = 16;
/// Frame bits and payload bits of an outer word other than the last.
pub const WORD_BITS: usize = 7_810;
pub const WORD_DATA_BITS: usize = 7_650;
/// The last outer word, and its last data symbol, whose two padding bits are not sent.
pub const LAST_WORD: usize = 15;
pub const PADDED_SYMBOL: usize = 761;
/// Symbols of parity of an outer word, and the largest symbol.
pub const OUTER_PARITY: usize = 16;
pub const LARGEST_SYMBOL: u16 = 1_023;
pub const INNER_WORDS: usize = 64;
/// Places of an inner word, those of its data, and the bytes of both and of its parity.
pub const PLACES: usize = 2_040;
pub const DATA_PLACES: usize = 1_952;
pub const INNER_BYTES: usize = PLACES / 8;
pub const INNER_DATA: usize = DATA_PLACES / 8;
pub const INNER_PARITY: usize = INNER_BYTES - INNER_DATA;
/// Symbols of an outer word, or places of an inner one, that a correction puts right.
pub const RADIUS: usize = 8;

pub fn bit(bytes: &[u8], i: usize) -> bool {
    bytes[i / 8] & (128 >> (i % 8)) != 0
}

pub fn put(bytes: &mut [u8], i: usize, value: bool) {
    let one = 128 >> (i % 8);
    bytes[i / 8] = if value { bytes[i / 8] | one } else { bytes[i / 8] & !one };
}

/// The frame bit of place p of inner word k, parity places included.
pub fn place(k: usize, p: usize) -> usize {
    INNER_WORDS * p + k
}

/// The frame bit of a payload bit.
pub fn payload_place(i: usize) -> usize {
    let w = i / WORD_DATA_BITS;
    WORD_BITS * w + i - WORD_DATA_BITS * w
}

/// Data symbols of an outer word.
pub fn data_symbols(w: usize) -> usize {
    if w < LAST_WORD {
        765
    } else {
        762
    }
}

/// Symbols of an outer word.
pub fn symbols_in(w: usize) -> usize {
    data_symbols(w) + OUTER_PARITY
}

/// The frame bits of a symbol; the last data symbol of word 15 has eight, since its two padding bits are not sent.
pub fn symbol(w: usize, s: usize) -> Range<usize> {
    let from = WORD_BITS * w + 10 * s;
    match (w, s) {
        (LAST_WORD, PADDED_SYMBOL) => from..from + 8,
        (LAST_WORD, 762..) => from - 2..from + 8,
        _ => from..from + 10,
    }
}

/// The outer word and the symbol in which a frame bit below 124,928 stands.
pub fn symbol_of(i: usize) -> (usize, usize) {
    let w = (i / WORD_BITS).min(LAST_WORD);
    let r = i - WORD_BITS * w;
    (w, if w == LAST_WORD && r >= 7_618 { (r + 2) / 10 } else { r / 10 })
}

/// An outer word, the padding bits read as zeros.
pub fn outer_word(block: &[u8], w: usize) -> Vec<u16> {
    let value = |s: usize| symbol(w, s).enumerate().map(|(j, i)| u16::from(bit(block, i)) << (9 - j)).sum();
    (0..symbols_in(w)).map(value).collect()
}

/// Writes the symbols of an outer word, highest bit first; padding bits fall away.
pub fn put_outer_word(block: &mut [u8], w: usize, symbols: &[u16]) {
    assert_eq!(symbols.len(), symbols_in(w));
    for (s, x) in symbols.iter().enumerate() {
        for (j, i) in symbol(w, s).enumerate() {
            put(block, i, x >> (9 - j) & 1 == 1);
        }
    }
}

pub fn inner_word(block: &[u8], k: usize) -> Vec<u8> {
    let mut word = vec![0; INNER_BYTES];
    for p in 0..PLACES {
        put(&mut word, p, bit(block, place(k, p)));
    }
    word
}

pub fn put_inner_word(block: &mut [u8], k: usize, word: &[u8]) {
    for p in 0..PLACES {
        put(block, place(k, p), bit(word, p));
    }
}

/// Makes the parity bits of every inner word afresh, from whatever stands in its data places: the inner pass then changes nothing.
pub fn renew_parity(block: &mut [u8]) {
    for k in 0..INNER_WORDS {
        let word = inner_word(block, k);
        let parity = second::encode_inner(&word[..INNER_DATA], INNER_PARITY).expect("244 bytes have parity");
        for p in DATA_PLACES..PLACES {
            put(block, place(k, p), bit(&parity, p - DATA_PLACES));
        }
    }
}

/// The bits in which two lists of bytes differ.
pub fn wrong_bits(sent: &[u8], received: &[u8]) -> Vec<usize> {
    assert_eq!(sent.len(), received.len());
    let bytes = (0..sent.len()).filter(|&i| sent[i] != received[i]);
    bytes.flat_map(|i| (8 * i..8 * i + 8).filter(|&b| bit(sent, b) != bit(received, b))).collect()
}

/// How many of these frame bits each inner word has, at data places and at parity places: the first frame bits are those of the outer words.
pub fn changes(bits: &[usize]) -> [Changes; INNER_WORDS] {
    let mut changes = [Changes::default(); INNER_WORDS];
    for &i in bits {
        let of_word = &mut changes[i % INNER_WORDS];
        let number = if i < OUTER_BITS { &mut of_word.data } else { &mut of_word.parity };
        *number += 1;
    }
    changes
}

/// How many of these places of an inner word are data places, and how many parity places.
pub fn changes_of_word(places: &[usize]) -> Changes {
    let data = places.iter().filter(|&&p| p < DATA_PLACES).count();
    Changes { data: data as u16, parity: (places.len() - data) as u16 }
}

#[cfg(test)]
mod tests {
    use super::*;

    #[test]
    fn every_bit_of_outer_words_stands_in_one_symbol() {
        let mut next = 0;
        for w in 0..OUTER_WORDS {
            for s in 0..symbols_in(w) {
                assert_eq!(symbol(w, s).start, next);
                assert!(symbol(w, s).all(|i| symbol_of(i) == (w, s)));
                next = symbol(w, s).end;
            }
        }
        assert_eq!(next, OUTER_BITS);
    }

    /// The last data place and the first parity place of an inner word, from its places and from its frame bits.
    #[test]
    fn data_places_end_where_parity_places_begin() {
        assert_eq!((place(63, DATA_PLACES - 1), place(0, DATA_PLACES)), (124_927, OUTER_BITS));
        for (places, data, parity) in [(vec![], 0, 0), (vec![1_951], 1, 0), (vec![1_952], 0, 1), (vec![0, 1_951, 1_952, 1_953, 2_039], 2, 3)] {
            assert_eq!(changes_of_word(&places), Changes { data, parity });
            for k in [0, 37, 63] {
                let bits: Vec<usize> = places.iter().map(|&p| place(k, p)).collect();
                let mut expected = [Changes::default(); INNER_WORDS];
                expected[k] = Changes { data, parity };
                assert_eq!(changes(&bits), expected);
            }
        }
    }

    #[test]
    fn words_are_read_as_they_were_written() {
        let mut block = vec![0; FRAME];
        for w in 0..OUTER_WORDS {
            let word: Vec<u16> = (0..symbols_in(w)).map(|s| (4 * (31 * s + w) % 1_024) as u16).collect();
            put_outer_word(&mut block, w, &word);
            assert_eq!(outer_word(&block, w), word);
        }
        for k in 0..INNER_WORDS {
            let word: Vec<u8> = (0..INNER_BYTES).map(|i| (31 * i + k) as u8).collect();
            put_inner_word(&mut block, k, &word);
            assert_eq!(inner_word(&block, k), word);
        }
    }
}
