//! What is received wrong. Damage to a block or an inner word is the list of its wrong bits, which are inverted; damage to a single outer word is a list of
//! symbols and of what is added to each.

use crate::layout::*;
use crate::payloads::outer_code_word;
use crate::random::Random;
use second::Changes;
use std::ops::Range;

/// Inverts these bits.
pub fn invert(bytes: &mut [u8], bits: impl IntoIterator<Item = usize>) {
    for i in bits {
        bytes[i / 8] ^= 128 >> (i % 8);
    }
}

/// Bytes with these bits inverted.
pub fn inverted(bytes: &[u8], bits: impl IntoIterator<Item = usize>) -> Vec<u8> {
    let mut bytes = bytes.to_vec();
    invert(&mut bytes, bits);
    bytes
}

/// Adds the values to the symbols at these places.
pub fn add(word: &mut [u16], places: &[usize], values: &[u16]) {
    for (&place, value) in places.iter().zip(values) {
        word[place] ^= value;
    }
}

/// Bits that are the same step apart, going round at the end of a frame.
pub fn apart(count: usize, first: usize, step: usize) -> Vec<usize> {
    (0..count).map(|j| (first + step * j) % FRAME_BITS).collect()
}

/// So many bits among these, any of them more than once.
pub fn scattered(random: &mut Random, n: usize, among: Range<usize>) -> Vec<usize> {
    (0..n).map(|_| among.start + random.below(among.len())).collect()
}

/// Of neighbouring bits all, or any.
pub fn run(random: &mut Random, bits: Range<usize>, whole: bool) -> Vec<usize> {
    bits.filter(|_| whole || random.chance(2)).collect()
}

/// So many frame bits of inner word k.
pub fn in_word(random: &mut Random, k: usize, n: usize) -> Vec<usize> {
    random.choose(n, PLACES).into_iter().map(|p| place(k, p)).collect()
}

/// So many frame bits of inner word k at data places, and so many at parity places.
pub fn in_data_and_parity(random: &mut Random, k: usize, Changes { data, parity }: Changes) -> Vec<usize> {
    let in_parity = random.choose(usize::from(parity), PLACES - DATA_PLACES).into_iter().map(|p| DATA_PLACES + p);
    let places = [random.choose(usize::from(data), DATA_PLACES), in_parity.collect()].concat();
    places.into_iter().map(|p| place(k, p)).collect()
}

/// So many inner words with so many wrong bits each; the numbers are the least and the most.
pub fn in_words(random: &mut Random, words: (usize, usize), bits: (usize, usize)) -> Vec<usize> {
    let several = random.from(words.0, words.1);
    let chosen = random.choose(several, INNER_WORDS).into_iter();
    let wrong = chosen.map(|k| {
        let n = random.from(bits.0, bits.1);
        in_word(random, k, n)
    });
    wrong.collect::<Vec<_>>().concat()
}

/// So many symbols of outer word w, each with all its bits wrong that stand in one of the lost inner words, of which it has one at least.
pub fn in_symbols_of_lost(random: &mut Random, w: usize, n: usize, lost: &[usize]) -> Vec<usize> {
    let of_lost = |s: usize| symbol(w, s).filter(|i| lost.contains(&(i % INNER_WORDS))).collect::<Vec<_>>();
    let symbols: Vec<Vec<usize>> = (0..symbols_in(w)).map(of_lost).filter(|bits| !bits.is_empty()).collect();
    random.choose(n, symbols.len()).into_iter().flat_map(|s| symbols[s].clone()).collect()
}

/// So many symbols of outer word w among these, each changed to any other that can be sent.
pub fn in_symbols(random: &mut Random, w: usize, n: usize, among: Range<usize>) -> Vec<usize> {
    let chosen = random.choose(n, among.len()).into_iter();
    let wrong = chosen.map(|s| {
        let bits = symbol(w, among.start + s);
        let change = random.from(1, (1 << bits.len()) - 1);
        bits.enumerate().filter(|(j, _)| change >> j & 1 == 1).map(|(_, i)| i).collect::<Vec<_>>()
    });
    wrong.collect::<Vec<_>>().concat()
}

/// What makes a symbol another one when it is added.
pub fn symbol_error(random: &mut Random) -> u16 {
    random.from(1, usize::from(LARGEST_SYMBOL)) as u16
}

/// So many wrong symbols of a single outer word.
pub fn wrong_symbols(random: &mut Random, word: &mut [u16], n: usize) {
    for i in random.choose(n, word.len()) {
        word[i] ^= symbol_error(random);
    }
}

/// Any code word in place of outer word w, which it gives; in word 15 the padding bits are those given, and are not sent.
pub fn exchange(random: &mut Random, block: &mut [u8], w: usize, padding: u16) -> Vec<u16> {
    let mut data = random.symbols(data_symbols(w));
    if w == LAST_WORD {
        data[PADDED_SYMBOL] = data[PADDED_SYMBOL] & !3 | padding;
    }
    let word = outer_code_word(&data);
    put_outer_word(block, w, &word);
    word
}
