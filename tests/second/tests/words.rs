//! Single outer and inner words.

mod common;
use cases::damage::{inverted, symbol_error, wrong_symbols};
use cases::layout::{changes_of_word, wrong_bits, DATA_PLACES, INNER_BYTES, INNER_DATA, INNER_PARITY, PLACES, RADIUS};
use cases::light;
use cases::payloads::outer_code_word;
use cases::random::Random;
use cases::refusals::{NO_CODE_WORD, UNCORRECTABLE};
use common::symbol_differences;
use second::*;

const LENGTHS: [usize; 9] = [17, 18, 24, 25, 100, 778, 781, 1_022, 1_023];

#[test]
fn outer_encoding_gives_the_only_code_word() {
    let mut random = Random(30);
    for length in LENGTHS {
        let word = random.outer_code_word(length);
        assert_eq!(check_outer(&word), Ok(()));
        for _ in 0..30 {
            let mut other = word.clone();
            let errors = 1 + random.below(16);
            wrong_symbols(&mut random, &mut other, errors);
            assert_eq!(check_outer(&other), Err(NO_CODE_WORD));
        }
    }
}

/// The sum of all symbols of a code word is its value at a^0.
#[test]
fn outer_code_words_are_zero_at_one() {
    let mut random = Random(31);
    for length in LENGTHS {
        let word = random.outer_code_word(length);
        assert_eq!(word.iter().fold(0, |sum, symbol| sum ^ symbol), 0);
    }
}

#[test]
fn outer_up_to_eight_errors() {
    let mut random = Random(32);
    for length in LENGTHS {
        for errors in 0..=8 {
            for _ in 0..40 {
                let word = random.outer_code_word(length);
                let mut received = word.clone();
                wrong_symbols(&mut random, &mut received, errors);
                assert_eq!(correct_outer(&received, length), Ok((word, errors)));
            }
        }
    }
}

/// Errors side by side at the first and the last places (powers 7 to 0), and
/// errors of equal value, for which early syndromes vanish.
#[test]
fn outer_errors_at_the_ends() {
    let mut random = Random(33);
    for length in LENGTHS {
        for errors in 1..=8 {
            for start in [0, length - errors, (length - errors) / 2] {
                for value in [1, 2, 512, 1_023] {
                    let word = random.outer_code_word(length);
                    let mut received = word.clone();
                    received[start..start + errors].iter_mut().for_each(|s| *s ^= value);
                    assert_eq!(correct_outer(&received, length), Ok((word, errors)));
                }
            }
        }
    }
}

#[test]
fn outer_every_single_error() {
    let mut random = Random(34);
    for length in [17, 781, 1_023] {
        let word = random.outer_code_word(length);
        for place in 0..length {
            let mut received = word.clone();
            received[place] ^= symbol_error(&mut random);
            assert_eq!(correct_outer(&received, length), Ok((word.clone(), 1)));
        }
    }
}

/// Whatever comes back is a code word within eight, with the right number.
fn assert_sound_outer(received: &[u16]) -> bool {
    match correct_outer(received, received.len()) {
        Ok((word, changed)) => {
            assert_eq!(check_outer(&word), Ok(()));
            assert_eq!(symbol_differences(&word, received), changed);
            assert!(changed <= RADIUS);
            true
        }
        Err(refusal) => {
            assert_eq!(refusal, UNCORRECTABLE);
            false
        }
    }
}

#[test]
fn outer_more_than_eight_errors() {
    let mut random = Random(35);
    for length in LENGTHS {
        for errors in 9..=17 {
            for _ in 0..40 {
                let word = random.outer_code_word(length);
                let mut received = word.clone();
                wrong_symbols(&mut random, &mut received, errors);
                if assert_sound_outer(&received) {
                    assert_ne!(correct_outer(&received, length).unwrap().0, word);
                }
            }
        }
        for _ in 0..100 {
            assert_sound_outer(&random.symbols(length));
        }
    }
}

/// With 17 symbols there are 1,024 code words: all are tried.
#[test]
fn outer_against_all_code_words_of_17_symbols() {
    let mut random = Random(36);
    let code: Vec<_> = (0..1_024).map(|data| outer_code_word(&[data])).collect();
    let (mut found, mut refused) = (0, 0);
    for round in 0..4_000 {
        // A mixture of two code words and noise: near to one, or to none.
        let (p, q) = (&code[random.below(1_024)], &code[random.below(1_024)]);
        let from_p = random.below(12);
        let mut received: Vec<u16> = (0..17).map(|i| if i < from_p { p[i] } else { q[i] }).collect();
        for place in random.choose(round % 5, 17) {
            received[place] = random.below(1_024) as u16;
        }
        let near = code.iter().map(|word| (word, symbol_differences(word, &received)));
        let near: Vec<_> = near.filter(|&(_, distance)| distance <= RADIUS).collect();
        assert!(near.len() <= 1);
        match near.first() {
            Some(&(word, distance)) => {
                assert_eq!(correct_outer(&received, 17), Ok((word.clone(), distance)));
                found += 1;
            }
            None => {
                assert_eq!(correct_outer(&received, 17), Err(UNCORRECTABLE));
                refused += 1;
            }
        }
    }
    assert!(found > 1_000 && refused > 300, "{found} found, {refused} refused");
}

/// Two code words at the least distance, 17: of the words between, each belongs
/// to the nearer one.
#[test]
fn outer_between_two_code_words() {
    let mut random = Random(37);
    for length in LENGTHS {
        let p = random.outer_code_word(length);
        let mut step = vec![0; length];
        let offset = random.below(length - 16);
        let generator = outer_code_word(&[symbol_error(&mut random)]);
        step[offset..offset + 17].copy_from_slice(&generator);
        let q: Vec<u16> = p.iter().zip(&step).map(|(x, y)| x ^ y).collect();
        assert_eq!(check_outer(&q), Ok(()));
        assert_eq!(symbol_differences(&p, &q), 17);
        for from_q in 0..=17 {
            let mut received = p.clone();
            for place in random.choose(from_q, 17) {
                received[offset + place] = q[offset + place];
            }
            let expected = if from_q <= 8 { (p.clone(), from_q) } else { (q.clone(), 17 - from_q) };
            assert_eq!(correct_outer(&received, length), Ok(expected));
        }
    }
}

#[test]
fn inner_encoding_gives_the_only_code_word() {
    let mut random = Random(40);
    for _ in 0..20 {
        let word = random.inner_code_word();
        assert_eq!(check_inner(&word), Ok(()));
        for errors in 1..=16 {
            let other = inverted(&word, random.choose(errors, PLACES));
            assert_eq!(check_inner(&other), Err(NO_CODE_WORD));
        }
    }
    let zero = vec![0; INNER_DATA];
    assert_eq!(encode_inner(&zero, INNER_PARITY), Ok(vec![0; INNER_PARITY]));
}

/// Asserts that an inner code word comes back from what these wrong places make of it, with so many data places and parity places changed.
fn assert_inner_corrected(word: &[u8], places: &[usize], data: u16, parity: u16) {
    let received = inverted(word, places.iter().copied());
    assert_eq!(correct_inner(&received, INNER_BYTES), Ok((word.to_vec(), Changes { data, parity })));
}

#[test]
fn inner_up_to_eight_errors() {
    let mut random = Random(41);
    for errors in 0..=8 {
        for _ in 0..300 {
            let places = random.choose(errors, PLACES);
            let Changes { data, parity } = changes_of_word(&places);
            assert_inner_corrected(&random.inner_code_word(), &places, data, parity);
        }
    }
}

/// Each number of wrong data places with each number of wrong parity places, one of them 0 or neither, up to eight in all.
#[test]
fn inner_data_places_and_parity_places() {
    let mut random = Random(46);
    for data in 0..=RADIUS {
        for parity in 0..=RADIUS - data {
            for _ in 0..20 {
                let in_parity = random.choose(parity, PLACES - DATA_PLACES).into_iter().map(|p| DATA_PLACES + p);
                let places = [random.choose(data, DATA_PLACES), in_parity.collect()].concat();
                assert_inner_corrected(&random.inner_code_word(), &places, data as u16, parity as u16);
            }
        }
    }
}

/// Place 1,951 is the last data place, and 1,952 the first parity place.
#[test]
fn inner_border_of_data_and_parity() {
    let word = Random(47).inner_code_word();
    assert_inner_corrected(&word, &[1_951], 1, 0);
    assert_inner_corrected(&word, &[1_952], 0, 1);
    assert_inner_corrected(&word, &[1_951, 1_952], 1, 1);
    assert_inner_corrected(&word, &[0, 1_951, 1_952, 2_039], 2, 2);
    for data in 0..=8 {
        let run: Vec<usize> = (1_952 - data..1_960 - data).collect();
        assert_inner_corrected(&word, &run, data as u16, 8 - data as u16);
    }
}

#[test]
fn inner_errors_side_by_side() {
    let mut random = Random(42);
    for errors in 1..=8 {
        for start in [0, 1, 1_948, 1_952, PLACES - errors] {
            let places: Vec<usize> = (start..start + errors).collect();
            let Changes { data, parity } = changes_of_word(&places);
            assert_inner_corrected(&random.inner_code_word(), &places, data, parity);
        }
    }
}

#[test]
fn inner_every_single_error() {
    let word = Random(43).inner_code_word();
    (0..1_952).for_each(|place| assert_inner_corrected(&word, &[place], 1, 0));
    (1_952..PLACES).for_each(|place| assert_inner_corrected(&word, &[place], 0, 1));
}

/// Errors whose first syndrome is zero, that is, whose field elements add up to
/// zero: the powers 11, 2 and 0, moved along the word.
#[test]
fn inner_errors_with_vanishing_first_syndrome() {
    let mut random = Random(44);
    for (shift, data, parity) in [(0, 0, 3), (1, 0, 3), (64, 0, 3), (86, 2, 1), (1_000, 3, 0), (2_028, 3, 0)] {
        let places = [11, 2, 0].map(|power| PLACES - 1 - shift - power);
        assert_inner_corrected(&random.inner_code_word(), &places, data, parity);
    }
}

#[test]
fn inner_more_than_eight_errors() {
    let mut random = Random(45);
    for errors in (9..=40).chain([500, 1_020, 2_000]) {
        for _ in 0..40 {
            let word = random.inner_code_word();
            let received = inverted(&word, random.choose(errors, PLACES));
            match correct_inner(&received, INNER_BYTES) {
                Ok((other, changes)) => {
                    assert_eq!(check_inner(&other), Ok(()));
                    assert_eq!(changes, changes_of_word(&wrong_bits(&other, &received)));
                    assert!(changes.total() as usize <= RADIUS && other != word);
                }
                Err(refusal) => assert_eq!(refusal, UNCORRECTABLE),
            }
        }
    }
}

/// Nine wrong places on the way to another code word, which is eight away: the numbers are those of the eight.
#[test]
fn inner_changes_towards_another_code_word() {
    let mut random = Random(48);
    let mut both = 0;
    for _ in 0..100 {
        let (word, ones) = (random.inner_code_word(), light::code_word(&mut random));
        let (eight, nine) = ones.split_at(RADIUS);
        let received = inverted(&word, nine.iter().copied());
        let changes = changes_of_word(eight);
        assert_eq!(correct_inner(&received, INNER_BYTES), Ok((inverted(&word, ones), changes)));
        both += usize::from(changes.data > 0 && changes.parity > 0);
    }
    assert!(both > 0);
}
