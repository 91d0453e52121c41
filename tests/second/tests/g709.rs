//! G.709 frames and rows.

use cases::g709::*;
use cases::layout::{FRAME, PAYLOAD, RADIUS};
use cases::payloads::{self, g709_frame, row, Data};
use cases::random::Random;
use cases::refusals::{NO_CODE_WORD, UNCORRECTABLE};
use second::g709::{check, check_row, correct, correct_row, encode_row, extract, extract_row};
use second::{Field, FieldC};

/// The value of word k at a^n, by Horner's rule: the earlier byte has the higher power.
fn value_at(block: &[u8], k: usize, n: usize) -> u32 {
    let step = |value, i| FieldC::multiply(value, FieldC::alpha(n)) ^ u32::from(block[place(k, i)]);
    (0..WORD).fold(0, step)
}

fn correct_block(block: &[u8]) -> Result<(Vec<u8>, usize), u8> {
    correct(block, FRAME)
}

/// A block in place of a frame, with so many wrong bytes in each word.
fn damaged(random: &mut Random, frame: &[u8], numbers: [usize; WORDS]) -> Vec<u8> {
    let mut block = frame.to_vec();
    for (k, n) in numbers.into_iter().enumerate() {
        let places = in_word(random, k, n);
        change(random, &mut block, places);
    }
    block
}

/// The frame of a payload, word by word from the stated places.
#[test]
fn frames_are_made_of_code_words() {
    let mut random = Random(70);
    let payload = payloads::random(&mut random, PAYLOAD);
    let frame = g709_frame(&payload);
    for r in 0..4 {
        for j in 0..ROW_DATA {
            assert_eq!(frame[4_080 * r + j], payload[3_824 * r + j]);
        }
    }
    for k in 0..WORDS {
        assert!((0..16).all(|n| value_at(&frame, k, n) == 0));
    }
    assert_eq!((check(&frame), extract(&frame, PAYLOAD)), (Ok(()), Ok(payload)));
    assert_eq!(correct_block(&frame), Ok((frame, 0)));
}

/// A frame is the rows of its four parts, and each row is answered as in it.
#[test]
fn frames_are_made_of_rows() {
    let mut random = Random(71);
    let payload = payloads::random(&mut random, PAYLOAD);
    let frame = g709_frame(&payload);
    for (data, row) in payload.chunks(ROW_DATA).zip(frame.chunks(ROW)) {
        assert_eq!(encode_row(data, ROW).as_deref(), Ok(row));
        assert_eq!((check_row(row), extract_row(row, ROW_DATA).as_deref()), (Ok(()), Ok(data)));
        assert_eq!(correct_row(row, ROW), Ok((row.to_vec(), 0)));
    }
}

/// The row of the last data byte 1: word 15 is the generator, the other words are zeros. Multiplied out, the product of x - a^0 to x - a^15 has these
/// coefficients.
#[test]
fn last_data_byte_gives_the_generator() {
    let generator = [1, 59, 13, 104, 189, 68, 209, 30, 8, 163, 65, 41, 229, 98, 50, 36, 59];
    let row = row(&payloads::of(Data::Bit(8 * ROW_DATA - 1), ROW_DATA));
    for (j, &byte) in row.iter().enumerate() {
        let (k, i) = word_of(j);
        let expected = if k == 15 && i >= 238 { generator[i - 238] } else { 0 };
        assert_eq!(byte, expected, "byte {j}");
    }
}

/// Byte c of the parity of word k is row byte 3,824 + 16 c + k.
#[test]
fn parity_follows_the_data_byte_by_byte() {
    let mut random = Random(72);
    let row = random.row();
    for k in 0..ROW_WORDS {
        let data: Vec<u8> = (0..WORD_DATA).map(|i| row[16 * i + k]).collect();
        let mut alone = [0; ROW_DATA];
        data.iter().enumerate().for_each(|(i, &byte)| alone[16 * i] = byte);
        let of_word_0 = payloads::row(&alone);
        for c in 0..16 {
            assert_eq!(row[3_824 + 16 * c + k], of_word_0[3_824 + 16 * c]);
        }
    }
}

#[test]
fn every_byte_counts_in_the_check() {
    let mut random = Random(73);
    let frame = random.g709_frame();
    for i in (0..FRAME).step_by(61).chain([ROW_DATA - 1, ROW_DATA, ROW - 1, ROW, FRAME - 1]) {
        let mut block = frame.clone();
        change(&mut random, &mut block, [i]);
        assert_eq!((check(&block), extract(&block, PAYLOAD)), (Err(NO_CODE_WORD), Err(NO_CODE_WORD)));
        let row = &block[i / ROW * ROW..][..ROW];
        assert_eq!((check_row(row), extract_row(row, ROW_DATA)), (Err(NO_CODE_WORD), Err(NO_CODE_WORD)));
        assert_eq!(correct_row(row, ROW).map(|(_, n)| n), Ok(1));
    }
}

/// Each number of wrong bytes up to eight, in all words; then numbers of their own.
#[test]
fn up_to_eight_wrong_bytes_in_every_word() {
    let mut random = Random(74);
    for n in 0..=RADIUS + 4 {
        let frame = random.g709_frame();
        let numbers = std::array::from_fn(|_| if n <= RADIUS { n } else { random.below(RADIUS + 1) });
        let block = damaged(&mut random, &frame, numbers);
        assert_eq!(in_each_word(&wrong_bytes(&frame, &block)), numbers);
        assert_eq!(correct_block(&block), Ok((frame.clone(), numbers.iter().sum())));
        for (r, (row, sent)) in block.chunks(ROW).zip(frame.chunks(ROW)).enumerate() {
            assert_eq!(correct_row(row, ROW), Ok((sent.to_vec(), numbers[16 * r..][..16].iter().sum())));
        }
    }
}

/// Bytes are counted, not their wrong bits.
#[test]
fn a_byte_counts_once() {
    let frame = Random(75).g709_frame();
    for value in [1, 128, 3, 255] {
        let mut block = frame.clone();
        (0..8).for_each(|i| block[place(40, 30 * i)] ^= value);
        assert_eq!(correct_block(&block), Ok((frame.clone(), 8)));
    }
}

/// Nine wrong bytes in a word: if anything comes back, it is another row, within eight bytes in each word.
#[test]
fn nine_wrong_bytes_in_a_word() {
    let mut random = Random(76);
    let mut refused = 0;
    for round in 0..200 {
        let sent = random.row();
        let mut received = sent.clone();
        let places = in_word(&mut random, round % ROW_WORDS, RADIUS + 1);
        change(&mut random, &mut received, places);
        match correct_row(&received, ROW) {
            Ok((row, n)) => {
                let changed = wrong_bytes(&row, &received);
                assert!(row != sent && n == changed.len() && n <= RADIUS);
                assert_eq!(check_row(&row), Ok(()));
            }
            Err(number) => {
                assert_eq!(number, UNCORRECTABLE);
                refused += 1;
            }
        }
    }
    assert!(refused > 190, "{refused} refused");
}

/// One word of 64 with the same value added to all its bytes, whatever the other words are like. What is added is zero at a^1 to a^15 and not at a^0. So is
/// every change that makes a code word of it, and with these fifteen zeros a change has at least sixteen bytes.
#[test]
fn one_uncorrectable_word_refuses_the_whole() {
    let mut random = Random(77);
    for k in 0..WORDS {
        let frame = random.g709_frame();
        let numbers = std::array::from_fn(|_| if k % 2 == 0 { 0 } else { random.below(RADIUS + 1) });
        let mut block = damaged(&mut random, &frame, numbers);
        for i in 0..WORD {
            block[place(k, i)] = frame[place(k, i)] ^ 77;
        }
        assert_eq!(correct_block(&block), Err(UNCORRECTABLE));
        for (r, row) in block.chunks(ROW).enumerate() {
            assert_eq!(correct_row(row, ROW).err(), if r == k / ROW_WORDS { Some(UNCORRECTABLE) } else { None });
        }
    }
}

/// Two code words at the least distance, 17: of the words between, each belongs to the nearer one.
#[test]
fn between_two_code_words() {
    let mut random = Random(78);
    for from_q in 0..=17 {
        let mut data = random.bytes(ROW_DATA);
        let p = row(&data);
        let one = random.below(ROW_DATA);
        change(&mut random, &mut data, [one]);
        let q = row(&data);
        let places = wrong_bytes(&p, &q);
        assert!(places.len() == 17 && places.iter().all(|&j| j % ROW_WORDS == one % ROW_WORDS));
        let mut received = p.clone();
        random.choose(from_q, 17).into_iter().for_each(|i| received[places[i]] = q[places[i]]);
        let expected = if from_q <= RADIUS { (p, from_q) } else { (q, 17 - from_q) };
        assert_eq!(correct_row(&received, ROW), Ok(expected));
    }
}

/// A burst of 128 bytes is corrected wherever it begins; across the end of a row one of 256 can be.
#[test]
fn bursts() {
    let mut random = Random(79);
    let frame = random.g709_frame();
    for (from, length) in [(0, 128), (1, 128), (3_760, 128), (4_016, 128), (12_000, 128), (FRAME - 128, 128), (ROW - 128, 256), (4_016, 129)] {
        let mut block = frame.clone();
        change(&mut random, &mut block, from..from + length);
        assert_eq!(correct_block(&block), Ok((frame.clone(), length)));
    }
    for (from, length) in [(0, 129), (5_000, 129), (ROW - 128, 257), (FRAME - 129, 129)] {
        let mut block = frame.clone();
        change(&mut random, &mut block, from..from + length);
        assert_ne!(correct_block(&block).map(|(restored, _)| restored), Ok(frame.clone()));
    }
}

/// Zeros are a frame, and equal bytes other than zeros are none.
#[test]
fn equal_bytes() {
    for value in [0, 1, 255] {
        let block = vec![value; FRAME];
        let (checked, corrected) = if value == 0 { (Ok(()), Ok((block.clone(), 0))) } else { (Err(NO_CODE_WORD), Err(UNCORRECTABLE)) };
        assert_eq!((check(&block), correct_block(&block)), (checked, corrected));
    }
}
