//! Whole frames.

mod common;
use cases::calls::correct_block;
use cases::damage::{exchange, in_data_and_parity, in_symbols, in_symbols_of_lost, in_word, invert, inverted, run, scattered};
use cases::layout::*;
use cases::payloads::{self, inner_code_word};
use cases::random::Random;
use cases::refusals::{BLOCK_LENGTH, NO_CODE_WORD, SPACE, UNCORRECTABLE};
use common::assert_corrected;
use second::{check_frame, check_inner, check_outer, correct_frame, correct_inner, correct_outer, extract_payload, reported, Changes};

/// The frame of a payload, word by word from the stated places.
#[test]
fn frames_are_made_of_code_words() {
    let mut random = Random(50);
    for _ in 0..5 {
        let payload = payloads::random(&mut random, PAYLOAD);
        let frame = payloads::frame(&payload);
        assert_eq!(check_frame(&frame), Ok(()));
        assert_eq!(extract_payload(&frame, PAYLOAD).as_ref(), Ok(&payload));
        assert_corrected(&frame, &frame);
        for i in 0..8 * PAYLOAD {
            assert_eq!(bit(&frame, payload_place(i)), bit(&payload, i));
        }
        (0..OUTER_WORDS).for_each(|w| assert_eq!(check_outer(&outer_word(&frame, w)), Ok(())));
        (0..INNER_WORDS).for_each(|k| assert_eq!(check_inner(&inner_word(&frame, k)), Ok(())));
    }
}

#[test]
fn every_place_counts_in_the_check() {
    let mut random = Random(51);
    let frame = random.frame();
    for _ in 0..100 {
        let block = inverted(&frame, [random.below(FRAME_BITS)]);
        assert_eq!(check_frame(&block), Err(NO_CODE_WORD));
        assert_eq!(extract_payload(&block, PAYLOAD), Err(NO_CODE_WORD));
        assert_corrected(&block, &frame);
    }
}

/// A block of inner code words whose outer words are none, and the reverse.
#[test]
fn both_codes_count_in_the_check() {
    let mut random = Random(52);
    let frame = random.frame();
    let mut block = inverted(&frame, [7_700]);
    renew_parity(&mut block);
    (0..INNER_WORDS).for_each(|k| assert_eq!(check_inner(&inner_word(&block, k)), Ok(())));
    assert_eq!(check_frame(&block), Err(NO_CODE_WORD));
    assert_corrected(&block, &frame);

    let block = inverted(&frame, run(&mut random, OUTER_BITS..FRAME_BITS, false));
    assert_eq!(check_frame(&block), Err(NO_CODE_WORD));
    assert_corrected(&block, &frame);
}

#[test]
fn up_to_eight_errors_in_every_inner_word() {
    let mut random = Random(53);
    for round in 0..12 {
        let frame = random.frame();
        let mut block = frame.clone();
        for k in 0..INNER_WORDS {
            let errors = if round < 6 { RADIUS } else { random.below(RADIUS + 1) };
            invert(&mut block, in_word(&mut random, k, errors));
        }
        assert_corrected(&block, &frame);
    }
}

#[test]
fn bursts_of_512() {
    let mut random = Random(54);
    let frame = random.frame();
    let starts = [0, 1, 7_300, 117_000, 124_500, 124_928, FRAME_BITS - 512];
    for start in starts.into_iter().chain((0..20).map(|_| random.below(FRAME_BITS - 511))) {
        let run = start..start + 512;
        assert_eq!(changes(&run.clone().collect::<Vec<_>>()).map(Changes::total), [8; INNER_WORDS]);
        assert_corrected(&inverted(&frame, run), &frame);
    }
}

/// Each inner word with its numbers of wrong data places and of wrong parity places: with the first alone, with the second alone, with both.
#[test]
fn data_places_and_parity_places_are_reported_apart() {
    let mut random = Random(62);
    let numbers: [fn(u16) -> (u16, u16); 3] = [|k| (k % 9, 0), |k| (0, k % 9), |k| (k % 5, k / 5 % 5)];
    for number in numbers {
        let of_word: [Changes; INNER_WORDS] = std::array::from_fn(|k| {
            let (data, parity) = number(k as u16);
            Changes { data, parity }
        });
        let frame = random.frame();
        let wrong = (0..INNER_WORDS).flat_map(|k| in_data_and_parity(&mut random, k, of_word[k]));
        let answer = correct_block(&inverted(&frame, wrong.collect::<Vec<_>>())).expect("at most eight in each inner word");
        assert!(answer.frame == frame);
        assert_eq!(answer.changes, of_word);
        assert_eq!(answer.sum, of_word.iter().map(|c| u32::from(c.data) + u32::from(c.parity)).sum::<u32>());
    }
}

/// The last data place and the first parity place, of the inner words at both ends and between.
#[test]
fn border_of_data_and_parity() {
    let frame = Random(63).frame();
    for k in [0, 31, 63] {
        for (places, data, parity) in [(1_951..1_952, 1, 0), (1_952..1_953, 0, 1), (1_951..1_953, 1, 1), (1_945..1_953, 7, 1), (1_951..1_959, 1, 7)] {
            let answer = correct_block(&inverted(&frame, places.map(|p| 64 * p + k))).unwrap();
            assert_eq!((answer.changes[k], answer.sum), (Changes { data, parity }, u32::from(data + parity)));
            assert!(answer.frame == frame && (0..INNER_WORDS).all(|j| j == k || answer.changes[j] == Changes::default()));
        }
    }
}

/// All parity bits wrong: the inner pass leaves every inner word, and the outer words, which have none of these bits, are as sent.
#[test]
fn every_parity_place_wrong() {
    let frame = Random(64).frame();
    let answer = correct_block(&inverted(&frame, OUTER_BITS..FRAME_BITS)).unwrap();
    assert!(answer.frame == frame);
    assert_eq!((answer.changes, answer.sum), ([Changes { data: 0, parity: 88 }; INNER_WORDS], 5_632));
}

/// An inner word far beyond eight, which the outer pass restores: one wrong bit in each outer word, and any parity places.
#[test]
fn places_of_a_lost_word_are_reported_apart() {
    let mut random = Random(65);
    for parity in [0, 1, 40, 88] {
        let (frame, k) = (random.frame(), random.below(INNER_WORDS));
        let mut wrong = in_data_and_parity(&mut random, k, Changes { data: 0, parity });
        wrong.extend((0..OUTER_WORDS).map(|w| place(k, (WORD_BITS * w).div_ceil(INNER_WORDS) + random.below(110))));
        let block = inverted(&frame, wrong);
        assert_eq!(correct_inner(&inner_word(&block, k), INNER_BYTES), Err(UNCORRECTABLE));
        let answer = correct_block(&block).unwrap();
        assert!(answer.frame == frame);
        assert_eq!((answer.changes[k], answer.sum), (Changes { data: 16, parity }, 16 + u32::from(parity)));
    }
}

/// A refusal reports zeros, whatever is wrong with the block and wherever.
#[test]
fn refusals_report_zeros() {
    let frame = Random(66).frame();
    let zeros = ([Changes::default(); INNER_WORDS], 0);
    let lost = inverted(&frame, (0..513).chain(OUTER_BITS..FRAME_BITS));
    for (block, space, number) in [
        (&frame[1..], FRAME, BLOCK_LENGTH),
        (&lost[1..], FRAME - 1, BLOCK_LENGTH),
        (&frame[..], FRAME - 1, SPACE),
        (&lost[..], FRAME + 1, SPACE),
        (&lost[..], FRAME, UNCORRECTABLE),
    ] {
        let answer = correct_frame(block, space);
        assert_eq!(answer.as_ref().err(), Some(&number));
        assert_eq!(reported(&answer), zeros);
    }
}

/// Inner pass idle: up to eight wrong symbols in each outer word, under inner
/// parity that agrees with them, are corrected; nine in one word are not.
#[test]
fn outer_pass_alone() {
    let mut random = Random(55);
    for round in 0..12 {
        let frame = random.frame();
        let mut block = frame.clone();
        for w in 0..OUTER_WORDS {
            let errors = if round < 6 { RADIUS } else { random.below(RADIUS + 1) };
            invert(&mut block, in_symbols(&mut random, w, errors, 0..symbols_in(w)));
        }
        renew_parity(&mut block);
        assert_corrected(&block, &frame);

        let w = random.below(OUTER_WORDS);
        put_outer_word(&mut block, w, &outer_word(&frame, w));
        invert(&mut block, in_symbols(&mut random, w, RADIUS + 1, 0..symbols_in(w)));
        renew_parity(&mut block);
        if correct_outer(&outer_word(&block, w), symbols_in(w)).is_err() {
            assert_eq!(correct_block(&block), Err(UNCORRECTABLE));
        }
    }
}

/// A few inner words have far more than eight wrong bits, yet each outer word
/// has at most eight symbols with a wrong bit from them. All other inner words
/// have up to eight wrong bits anywhere.
#[test]
fn some_inner_words_destroyed() {
    let mut random = Random(56);
    for round in 0..20 {
        let frame = random.frame();
        let mut block = frame.clone();
        let destroyed = random.choose(1 + round % 5, INNER_WORDS);
        for k in (0..INNER_WORDS).filter(|k| !destroyed.contains(k)) {
            let errors = random.below(RADIUS + 1);
            invert(&mut block, in_word(&mut random, k, errors));
        }
        for w in 0..OUTER_WORDS {
            invert(&mut block, in_symbols_of_lost(&mut random, w, RADIUS, &destroyed));
        }
        for &k in &destroyed {
            invert(&mut block, run(&mut random, DATA_PLACES..PLACES, false).into_iter().map(|p| place(k, p)));
            assert_eq!(correct_inner(&inner_word(&block, k), INNER_BYTES), Err(UNCORRECTABLE));
        }
        assert_corrected(&block, &frame);
    }
}

/// One inner word with nine wrong bits, all in different symbols of one outer
/// word, at data places: uncorrectable, whatever the other inner words are like.
#[test]
fn nine_symbols_are_uncorrectable() {
    let mut random = Random(57);
    for _ in 0..10 {
        let mut block = random.frame();
        let (w, k) = (random.below(OUTER_WORDS), random.below(INNER_WORDS));
        let first_row = (WORD_BITS * w).div_ceil(INNER_WORDS);
        invert(&mut block, random.choose(RADIUS + 1, 119).into_iter().map(|p| place(k, first_row + p)));
        assert_eq!(correct_inner(&inner_word(&block, k), INNER_BYTES), Err(UNCORRECTABLE));
        assert_eq!(correct_block(&block), Err(UNCORRECTABLE));
    }
}

/// An inner word that was sent as one code word and is received near another:
/// the inner pass goes to the wrong one, the outer pass restores the frame, and
/// the report counts the places of the received block, not those of the passes.
#[test]
fn wrong_inner_code_word_is_repaired_by_the_outer_pass() {
    let mut random = Random(58);
    for errors in 0..=8 {
        let frame = random.frame();
        let mut block = frame.clone();
        let k = random.below(INNER_WORDS);
        // One data bit in each outer word is another one.
        let rows = (0..OUTER_WORDS).map(|w| (WORD_BITS * w).div_ceil(INNER_WORDS) + random.below(110));
        let word = inverted(&inner_word(&frame, k), rows);
        let wrong = inner_code_word(&word[..INNER_DATA]);
        let received = inverted(&wrong, random.choose(errors, PLACES));
        assert_eq!(correct_inner(&received, INNER_BYTES), Ok((wrong.clone(), changes_of_word(&wrong_bits(&wrong, &received)))));
        put_inner_word(&mut block, k, &received);
        assert_corrected(&block, &frame);
    }
}

/// A word 15 whose code word has ones as padding bits, which are not sent. It
/// would be within eight symbols, and is the only one that is.
#[test]
fn padding_bits_of_one_are_uncorrectable() {
    let mut random = Random(59);
    for padding in 1..4 {
        for more in 0..8 {
            let mut block = random.frame();
            let code_word = exchange(&mut random, &mut block, LAST_WORD, padding);
            invert(&mut block, in_symbols(&mut random, LAST_WORD, more, 0..PADDED_SYMBOL));
            renew_parity(&mut block);
            let received = outer_word(&block, LAST_WORD);
            assert_eq!(received[PADDED_SYMBOL], code_word[PADDED_SYMBOL] - padding);
            assert_eq!(correct_outer(&received, received.len()), Ok((code_word, more + 1)));
            assert_eq!(check_frame(&block), Err(NO_CODE_WORD));
            assert_eq!(correct_block(&block), Err(UNCORRECTABLE));
        }
    }
}

/// The last data symbol of word 15 can be wrong like any other.
#[test]
fn last_data_symbol_is_corrected() {
    let mut random = Random(60);
    for more in 0..8 {
        let frame = random.frame();
        let mut block = inverted(&frame, in_symbols(&mut random, LAST_WORD, 1, PADDED_SYMBOL..PADDED_SYMBOL + 1));
        invert(&mut block, in_symbols(&mut random, LAST_WORD, more, 0..PADDED_SYMBOL));
        renew_parity(&mut block);
        assert_corrected(&block, &frame);
    }
}

/// From random damage of any density comes a frame with a true report, or the
/// refusal 5.
#[test]
fn any_damage_is_answered() {
    let mut random = Random(61);
    let frame = random.frame();
    let densities = [50, 200, 300, 350, 400, 450, 500, 600, 1_000, 10_000, 65_280, 130_560];
    let mut corrected = 0;
    for wrong in densities {
        let all = 0..FRAME_BITS;
        let block = if wrong == FRAME_BITS { inverted(&frame, all) } else { inverted(&frame, scattered(&mut random, wrong, all)) };
        match correct_block(&block) {
            Ok(answer) => {
                assert_eq!(check_frame(&answer.frame), Ok(()));
                assert_corrected(&block, &answer.frame);
                corrected += 1;
            }
            Err(refusal) => assert_eq!(refusal, UNCORRECTABLE),
        }
    }
    assert!(corrected >= 3);
}
