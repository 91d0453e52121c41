//! That no code word is near, known from nine errors themselves and with no decoder.

use crate::errors::Errors;
use cases::g709::{in_each_word, word_of, WORD};
use cases::layout::{changes, symbol, symbol_of, symbols_in, INNER_WORDS, LAST_WORD, PLACES, RADIUS};
use cases::refusals::Code;
use second::{Field, FieldA, FieldB, FieldC};

/// The roots of the outer generator and of that of G.709 words are a^0 to a^15, and those of the inner one have a^1 to a^16 among them.
const FIRST_OUTER_ROOT: usize = 0;
const FIRST_G709_ROOT: usize = 0;
const FIRST_INNER_ROOT: usize = 1;

/// Is a single word with nine errors too far from every code word? Its length is given in symbols or bytes.
pub fn nine_in_word(code: Code, length: usize, errors: &Errors) -> bool {
    let places = &errors.places;
    if code == Code::Outer {
        nine::<FieldA>(FIRST_OUTER_ROOT, length, places, &errors.values)
    } else {
        nine::<FieldB>(FIRST_INNER_ROOT, 8 * length, places, &[1; 9])
    }
}

/// Is a frame with these bits inverted uncorrectable? One inner word has nine of them, in nine symbols of an outer word, and both words are too far from every
/// code word; each other inner word has at most eight, and is corrected to what was sent.
pub fn nine_in_frame(inverted: &[usize]) -> bool {
    let changes = changes(inverted);
    let nine_of: Vec<usize> = inverted.iter().copied().filter(|i| changes[i % INNER_WORDS].total() as usize > RADIUS).collect();
    let w = symbol_of(nine_of[0]).0;
    assert!(w < LAST_WORD && nine_of.iter().all(|&i| symbol_of(i).0 == w), "all in an outer word other than the last");
    let places: Vec<usize> = nine_of.iter().map(|i| i / INNER_WORDS).collect();
    let symbols: Vec<usize> = nine_of.iter().map(|&i| symbol_of(i).1).collect();
    let values: Vec<u16> = nine_of.iter().zip(&symbols).map(|(i, &s)| 512 >> (i - symbol(w, s).start)).collect();
    nine::<FieldB>(FIRST_INNER_ROOT, PLACES, &places, &[1; 9]) && nine::<FieldA>(FIRST_OUTER_ROOT, symbols_in(w), &symbols, &values)
}

/// Is a G.709 frame or row with these wrong bytes uncorrectable? The first word that has more than eight of them has nine, and is too far from every code word.
pub fn nine_in_a_g709_word(errors: &Errors) -> bool {
    let k = in_each_word(&errors.places).into_iter().position(|n| n > RADIUS).expect("a word with more than eight");
    let of_word = errors.places.iter().zip(&errors.values).filter(|(&byte, _)| word_of(byte).0 == k);
    let (places, values): (Vec<usize>, Vec<u16>) = of_word.map(|(&byte, &value)| (word_of(byte).1, value)).unzip();
    nine::<FieldC>(FIRST_G709_ROOT, WORD, &places, &values)
}

/// Is a word with nine errors more than eight places from every code word?
///
/// The sent word differs in nine. Another one within eight differs from the sent one in seventeen places, since no two differ in fewer: the nine, by the
/// errors, and eight more. Let e_i be the errors, X_i their locators, m the polynomial of degree 8 whose roots are the locators of the eight, and r the
/// exponent of the first root. For every polynomial q of degree below 8 the e_i X_i^r m(X_i) q(X_i) add up to 0, since the difference is a code word and
/// the eight add nothing. Nine numbers do so for every q only if they are multiples of the w_i, where w_i is 1 over the product of the X_i - X_j. So m(X_i)
/// is w_i / (e_i X_i^r), up to a common factor, and by Lagrange's formula m is 0 at a place that is none of the nine just where the sum of the w_i^2 / (e_i
/// X_i^r (x - X_i)) is 0. If that is so at fewer than eight places, there is no such code word.
fn nine<F: Field>(first_root: usize, length: usize, places: &[usize], values: &[u16]) -> bool {
    assert!(places.len() == 9 && values.len() == 9);
    let locator = |place: usize| F::alpha(length - 1 - place);
    let nine: Vec<u32> = places.iter().map(|&place| locator(place)).collect();
    let factor = |i: usize| {
        let one_over_w = (0..9).filter(|&j| j != i).fold(1, |product, j| F::multiply(product, nine[i] ^ nine[j]));
        let error = F::multiply(u32::from(values[i]), F::power(nine[i], first_root));
        F::inverse(F::multiply(F::multiply(one_over_w, one_over_w), error))
    };
    let factors: Vec<u32> = (0..9).map(factor).collect();
    let sum = |x: u32| (0..9).fold(0, |sum, i| sum ^ F::multiply(factors[i], F::inverse(x ^ nine[i])));
    let others = (0..length).filter(|place| !places.contains(place));
    others.filter(|&place| sum(locator(place)) == 0).count() < 8
}

#[cfg(test)]
mod tests {
    use super::*;
    use cases::damage::add;
    use cases::g709::{ROW, ROW_DATA, ROW_WORDS};
    use cases::light::POWERS;
    use cases::payloads::{self, outer_code_word, to_bytes, Data};
    use cases::refusals::UNCORRECTABLE;

    /// Nine of the seventeen places in which two code words differ: the second one is within eight.
    #[test]
    fn between_two_code_words_one_is_near() {
        for n in [17, 18, 781, 1_023] {
            let mut data = vec![0; n - 16];
            data[(n - 16) / 2] = 77;
            let word = outer_code_word(&data);
            let places: Vec<usize> = (0..n).filter(|&i| word[i] != 0).collect();
            assert_eq!(places.len(), 17);
            for from in 0..=8 {
                let places = &places[from..from + 9];
                let values: Vec<u16> = places.iter().map(|&i| word[i]).collect();
                assert!(!nine::<FieldA>(FIRST_OUTER_ROOT, n, places, &values));
                let other: Vec<u16> = values.iter().map(|value| value ^ 1).collect();
                assert!(nine::<FieldA>(FIRST_OUTER_ROOT, n, places, &other));
            }
        }
    }

    /// An inner code word with seventeen ones, by their powers: with nine of them it is within eight, with eight of them and another place it is not.
    #[test]
    fn towards_an_inner_code_word_it_is_near() {
        let mut places = POWERS[0].map(|power| PLACES - 1 - power);
        assert!(!nine::<FieldB>(FIRST_INNER_ROOT, PLACES, &places[8..], &[1; 9]));
        places[8] += 1;
        assert!(nine::<FieldB>(FIRST_INNER_ROOT, PLACES, &places[8..], &[1; 9]));
    }

    /// The row of one data byte has seventeen bytes other than zero, all in one word: with nine of them it is within eight.
    #[test]
    fn between_two_g709_words_one_is_near() {
        let row = payloads::row(&payloads::of(Data::Bit(9_000), ROW_DATA));
        let (places, values): (Vec<usize>, Vec<u16>) = (0..ROW).filter(|&i| row[i] != 0).map(|i| (word_of(i).1, u16::from(row[i]))).unzip();
        assert_eq!(places.len(), 17);
        for from in 0..=8 {
            let (places, values) = (&places[from..from + 9], &values[from..from + 9]);
            assert!(!nine::<FieldC>(FIRST_G709_ROOT, WORD, places, values));
            let other: Vec<u16> = values.iter().map(|value| value % 255 + 1).collect();
            assert!(nine::<FieldC>(FIRST_G709_ROOT, WORD, places, &other));
        }
    }

    /// Nine wrong bytes of a word of a row, a step apart: the decoder says the same.
    #[test]
    fn the_decoder_of_rows_agrees() {
        for step in 1..=28 {
            let errors = Errors::of_bytes(9, 9 * step as u16, 7 * step, ROW_WORDS * (step % 26 + 1));
            let received = to_bytes(&errors.in_sent(Code::Row, &[0; ROW]));
            assert_eq!(nine_in_a_g709_word(&errors), second::g709::correct_row(&received, ROW) == Err(UNCORRECTABLE));
        }
    }

    /// Nine errors at places a step apart: the decoder says the same.
    #[test]
    fn the_decoder_agrees() {
        for (n, step) in (1..100).map(|s| (17 + 10 * s, s)) {
            let places: Vec<usize> = (0..9).map(|k| (k * step + step * step) % n).collect();
            let values: Vec<u16> = (1..=9).map(|k| (k * k * step % 1_023) as u16 + 1).collect();
            let mut word = vec![0; n];
            add(&mut word, &places, &values);
            assert_eq!(nine::<FieldA>(FIRST_OUTER_ROOT, n, &places, &values), second::correct_outer(&word, n) == Err(UNCORRECTABLE));
        }
    }
}
