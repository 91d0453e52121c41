//! The bench rows 5 to 12, and the cases that the scope has run by a program.
//! Rows 1 to 4 are about the fields and stand with the inner tests.

mod common;
use cases::calls;
use cases::damage::{apart, inverted};
use cases::layout::{bit, changes, inner_word, put, wrong_bits, DATA_PLACES, FRAME, INNER_BYTES, INNER_DATA, INNER_PARITY, PAYLOAD};
use cases::payloads::{self, zero_frame, Data};
use cases::random::Random;
use cases::refusals::{entry_of, Code, Content, Given, Operation, ENTRIES, NO_CODE_WORD, UNCORRECTABLE};
use common::assert_corrected;
use second::*;

/// Is a frame bit below the inner parity outside all outer parity?
fn holds_payload(i: usize) -> bool {
    i < 124_768 && (i >= 117_150 || i % 7_810 < 7_650)
}

/// Rows 5 to 9: of the frame bits that hold payload, a payload bit sets one that the zero frame does not.
#[test]
fn payload_bits_stand_where_the_rows_say() {
    let rows = [(0, 0), (7_649, 7_649), (7_650, 7_810), (114_749, 116_989), (114_750, 117_150), (122_367, 124_767)];
    for (payload_bit, frame_bit) in rows {
        let frame = payloads::frame(&payloads::of(Data::Bit(payload_bit), PAYLOAD));
        let set: Vec<usize> = wrong_bits(zero_frame(), &frame).into_iter().filter(|&i| i < 124_928).collect();
        assert_eq!(set.iter().copied().filter(|&i| holds_payload(i)).collect::<Vec<_>>(), [frame_bit]);
        // All else below the inner parity is the parity of that outer word.
        let start = 7_810 * (frame_bit / 7_810).min(15);
        let end = (start + 7_810).min(124_928);
        assert!(set.iter().all(|i| (start..end).contains(i)));
    }
}

/// Rows 10 and 11: parity bits of single inner words stand at the stated places.
#[test]
fn inner_parity_stands_where_the_rows_say() {
    let mut random = Random(10);
    let (mut row_10, mut row_11) = ([false; 2], [false; 2]);
    for _ in 0..12 {
        let frame = random.frame();
        for k in 0..64 {
            let mut data = vec![0; INNER_DATA];
            (0..DATA_PLACES).for_each(|p| put(&mut data, p, bit(&frame, 64 * p + k)));
            let parity = encode_inner(&data, INNER_PARITY).unwrap();
            for p in 0..88 {
                assert_eq!(bit(&frame, 124_928 + 64 * p + k), bit(&parity, p));
            }
            if k == 63 {
                assert_eq!(bit(&frame, 124_991), bit(&parity, 0));
                row_10[usize::from(bit(&parity, 0))] = true;
            }
            if k == 0 {
                assert_eq!(bit(&frame, 124_992), bit(&parity, 1));
                row_11[usize::from(bit(&parity, 1))] = true;
            }
        }
    }
    assert_eq!((row_10, row_11), ([true; 2], [true; 2]));
}

/// Row 12.
#[test]
fn zero_payload_has_the_zero_frame() {
    assert_eq!(encode_frame(&[0; PAYLOAD], FRAME), Ok(vec![0; FRAME]));
    assert_eq!(check_frame(&[0; FRAME]), Ok(()));
    assert_eq!(extract_payload(&[0; FRAME], PAYLOAD), Ok(vec![0; PAYLOAD]));
    assert_corrected(&[0; FRAME], &[0; FRAME]);
}

/// The frame that the runs on zeros are about, with these bits inverted, is restored, with the numbers of these bits.
fn restored(bits: &[usize]) {
    let answer = calls::correct_block(&inverted(zero_frame(), bits.iter().copied()));
    assert_eq!(answer, Ok(Corrected { frame: zero_frame().to_vec(), changes: changes(bits), sum: bits.len() as u32 }));
}

/// The example of the report program: two data places of inner word 0.
#[test]
fn bytes_0_and_8() {
    restored(&[0, 64]);
    let (changes, sum) = reported(&calls::correct_block(&inverted(zero_frame(), [0, 64])));
    assert_eq!((changes[0], sum), (Changes { data: 2, parity: 0 }, 2));
    assert_eq!(logging::worst_words(&changes), [0, 64, 64, 64, 64, 64, 64, 64]);
}

#[test]
fn one_bit_in_zeros() {
    for i in [0, 1, 63, 64, 7_649, 7_650, 117_149, 124_767, 124_768, 124_927, 124_928, 130_559] {
        let block = inverted(zero_frame(), [i]);
        assert_eq!(check_frame(&block), Err(NO_CODE_WORD));
        assert_eq!(extract_payload(&block, PAYLOAD), Err(NO_CODE_WORD));
        restored(&[i]);
    }
}

#[test]
fn eight_bits_of_one_inner_word() {
    restored(&apart(8, 0, 64));
}

#[test]
fn bits_0_to_511() {
    let run = apart(512, 0, 1);
    assert_eq!(changes(&run), [Changes { data: 8, parity: 0 }; 64]);
    restored(&run);
}

/// Inner word 0 then has nine wrong bits, at frame bits 0, 64 and so on to 512.
/// They are in nine symbols of outer word 0, so the block is uncorrectable.
#[test]
fn bits_0_to_512() {
    let block = inverted(zero_frame(), 0..513);
    assert_eq!(correct_inner(&inner_word(&block, 0), INNER_BYTES), Err(UNCORRECTABLE));
    assert_eq!(check_frame(&block), Err(NO_CODE_WORD));
    assert_eq!(calls::correct_block(&block), Err(UNCORRECTABLE));
}

/// Zeros of the lengths at the limits and just past them, at every entry of a code.
fn zeros_at_and_past_the_limits(code: Code) {
    for entry in ENTRIES.iter().filter(|entry| entry.code == code) {
        for length in entry.at_and_past() {
            let (zeros, space) = (vec![0; length], entry.space(length));
            let expected = entry.answer(&Given::of(&zeros, space, Content::AsSent));
            assert_eq!(calls::number(entry, &zeros, space), expected, "{} of {length}", entry.name);
        }
    }
}

#[test]
fn outer_words_of_boundary_lengths() {
    zeros_at_and_past_the_limits(Code::Outer);
}

#[test]
fn blocks_of_wrong_length() {
    zeros_at_and_past_the_limits(Code::Frame);
}

#[test]
fn symbols_of_1023_and_1024() {
    let data = [1_023; 5];
    let word = payloads::outer_code_word(&data);
    assert_eq!(check_outer(&word), Ok(()));
    assert_eq!(correct_outer(&word, 21), Ok((word.clone(), 0)));
    for i in 0..21 {
        let mut wrong = word.clone();
        wrong[i] = 1_024;
        for (operation, read) in [(Operation::Check, 21), (Operation::Correct, 21), (Operation::Encode, 5)] {
            let entry = entry_of(operation, Code::Outer);
            let (values, space) = (&wrong[..read], entry.space(read));
            if i < read {
                assert_eq!(calls::number(entry, values, space), entry.answer(&Given::of(values, space, Content::Correctable)));
            }
        }
    }
}
