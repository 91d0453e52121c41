//! Rows on single words: lengths, symbols above 1,023 and buffers that are refused, parity, and words with errors.

use crate::errors::Errors;
use crate::rows::{given, received};
use cases::layout::{INNER_BYTES, INNER_DATA, INNER_PARITY, OUTER_PARITY, RADIUS};
use cases::payloads::{outer_code_word, Data, Data::*};
use cases::refusals::Code::{Inner, Outer};
use cases::refusals::Content::{AsSent, Correctable, Lost};
use cases::refusals::Operation::{Check, Correct, Encode};
use cases::refusals::{entry_of, Entry};

pub fn print() {
    outer();
    inner();
    corrections();
}

fn outer() {
    let [check, encode, correct] = [Check, Encode, Correct].map(|operation| entry_of(operation, Outer));
    for n in check.at_and_past() {
        given(check, n, Each(0), 0, AsSent);
    }
    for value in [1_023, 1_024] {
        received(check, 1, Each(0), &Errors::spaced(1, value, 3, 0), 0, Correctable);
    }
    received(check, 1, Each(2), &Errors::spaced(0, 0, 0, 0), 0, AsSent);
    received(check, 1, Each(2), &Errors::spaced(1, 1, 16, 0), 0, Correctable);
    for (n, data) in [(1, Each(1)), (1, Each(2)), (765, Each(1_023)), (1_007, Each(1)), (762, Symbols)] {
        given(encode, n, data, OUTER_PARITY, AsSent);
    }
    for (n, space) in encode.past().into_iter().zip([OUTER_PARITY - 1, OUTER_PARITY]) {
        given(encode, n, Each(0), space, AsSent);
    }
    for space in encode.past_space().into_iter().chain([OUTER_PARITY]) {
        given(encode, 2, Each(1_024), space, AsSent);
    }
    assert!(given(correct, 17, Near, 17, Correctable) == outer_code_word(&[2]));
    for (n, value, space) in [(0, 0, 17), (16, 0, 16), (17, 0, 17), (1_024, 0, 1_024), (17, 1_024, 16), (17, 1_024, 17)] {
        given(correct, n, Each(value), space, AsSent);
    }
}

fn inner() {
    let [check, encode, correct] = [Check, Encode, Correct].map(|operation| entry_of(operation, Inner));
    for n in check.at_and_past() {
        given(check, n, Each(0), 0, AsSent);
    }
    received(check, INNER_DATA, Each(0), &Errors::spaced(1, 1, 0, 0), 0, Correctable);
    // the code word of the last data bit is the generator
    received(check, INNER_DATA, Bit(1_951), &Errors::spaced(0, 1, 0, 0), 0, AsSent);
    received(check, INNER_DATA, Bit(1_951), &Errors::spaced(1, 1, 2_039, 0), 0, Correctable);
    for data in [Bit(1_951), Each(255), Bits] {
        given(encode, INNER_DATA, data, INNER_PARITY, AsSent);
    }
    for (n, space) in encode.past().into_iter().zip([INNER_PARITY - 1, INNER_PARITY, INNER_PARITY]) {
        given(encode, n, Each(0), space, AsSent);
    }
    for space in encode.past_space() {
        given(encode, INNER_DATA, Each(0), space, AsSent);
    }
    for (n, space) in [(0, 255), (254, 254), (255, 255), (256, 256), (255, 254), (255, 256)] {
        given(correct, n, Each(0), space, AsSent);
    }
}

/// The shortest outer word, one of a frame and the longest; inner words with errors anywhere, in the parity alone, and in the data alone, then on both sides
/// of the border between places 1,951 and 1,952.
fn corrections() {
    let (outer, inner) = (entry_of(Correct, Outer), entry_of(Correct, Inner));
    corrected(outer, 1, Each(2), 17, 1_023, [0, 16, 8, 1, 15, 9, 2, 14, 10]);
    corrected(outer, 765, Each(1_023), 781, 1_023, [0, 780, 390, 1, 779, 391, 2, 778, 392]);
    corrected(outer, 1_007, Each(1), 1_023, 1_023, [0, 1_022, 511, 1, 1_021, 512, 2, 1_020, 513]);
    corrected(inner, INNER_DATA, Each(255), INNER_BYTES, 1, [0, 2_039, 1_020, 1, 2_038, 1_021, 2, 2_037, 1_022]);
    corrected(inner, INNER_DATA, Each(255), INNER_BYTES, 1, [1_952, 2_039, 1_995, 1_953, 2_038, 1_996, 1_954, 2_037, 1_997]);
    corrected(inner, INNER_DATA, Each(255), INNER_BYTES, 1, [1_951, 0, 976, 1_950, 1_952, 1_949, 1_953, 1_948, 1_954]);
}

/// One error at each of three places; then zero to nine errors, of which nine are too many.
fn corrected(entry: &Entry, d: usize, data: Data, n: usize, value: u16, places: [usize; 9]) {
    for i in [0, 2, 1] {
        received(entry, d, data, &Errors::spaced(1, value, places[i], 0), n, Correctable);
    }
    for count in 0..=9 {
        received(entry, d, data, &Errors::listed(&places[..count]), n, if count <= RADIUS { Correctable } else { Lost });
    }
}
