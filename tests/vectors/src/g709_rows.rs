//! Rows on G.709 frames, and on single rows of them: payloads and data that are encoded, checked and extracted again, refusals, and corrections.

use crate::errors::Errors;
use crate::far;
use crate::frame_rows;
use crate::rows::{given, received};
use cases::g709::{in_each_word, BURST, ROW, ROW_DATA};
use cases::layout::{FRAME, PAYLOAD, RADIUS};
use cases::payloads::{Data, Data::*};
use cases::refusals::Code::{Row, G709};
use cases::refusals::Content::{AsSent, Correctable, Lost};
use cases::refusals::{entry_of, Code, Entry, Operation};

pub fn print() {
    sent();
    frame_rows::refusals(G709);
    row_refusals();
    row_corrections();
    frame_corrections();
}

/// Bits 30,591 and 30,592 of a payload are the last of the first row and the first of the second. The row of bit 30,591 has the generator as word 15.
fn sent() {
    for data in [Each(0), Each(255), Counted, Bit(0), Bit(30_591), Bit(30_592), Bit(122_367)] {
        encoded_and_read(G709, PAYLOAD, FRAME, data);
    }
    for data in [Each(0), Each(255), Counted, Bit(0), Bit(30_591)] {
        encoded_and_read(Row, ROW_DATA, ROW, data);
    }
}

fn encoded_and_read(code: Code, d: usize, n: usize, data: Data) {
    let [encode, check, extract, _] = frame_rows::entries(code);
    given(encode, d, data, n, AsSent);
    let none = Errors::of_bytes(0, 1, 0, 0);
    received(check, d, data, &none, 0, AsSent);
    assert!(received(extract, d, data, &none, d, AsSent) == data.values(d));
}

/// Every length with the right buffer and with one that is too short; then the right length with every wrong buffer, a wrong bit in data and parity of a frame
/// and of a row, and equal bytes, which are beyond reach.
fn row_refusals() {
    let [encode, check, extract, correct] = frame_rows::entries(Row);
    for n in [0, ROW_DATA - 1, ROW_DATA, ROW_DATA + 1, ROW] {
        [ROW - 1, ROW].into_iter().for_each(|space| drop(given(encode, n, Each(0), space, AsSent)));
    }
    for n in [0, ROW_DATA, ROW - 1, ROW, ROW + 1] {
        given(check, n, Each(0), 0, AsSent);
        [ROW_DATA - 1, ROW_DATA].into_iter().for_each(|space| drop(given(extract, n, Each(0), space, AsSent)));
        [ROW - 1, ROW].into_iter().for_each(|space| drop(given(correct, n, Each(0), space, AsSent)));
    }
    let wrong_buffers = |entry: &Entry| entry.past_space().into_iter().for_each(|space| drop(given(entry, ROW, Each(255), space, Lost)));
    [extract, correct].into_iter().for_each(wrong_buffers);
    for space in encode.past_space() {
        given(encode, ROW_DATA, Each(255), space, AsSent);
    }
    for (code, i) in [(G709, 30_591), (G709, 30_592), (G709, 32_639), (G709, 32_640), (Row, 0), (Row, 30_591), (Row, 30_592), (Row, 32_639)] {
        let [_, check, extract, _] = frame_rows::entries(code);
        given(check, *check.lengths.start(), Bit(i), 0, Correctable);
        given(extract, *extract.lengths.start(), Bit(i), extract.space(0), Correctable);
    }
    given(correct, ROW, Each(255), ROW, Lost);
}

/// So many bytes of one value, all at different places of a row or frame. Up to eight in each word they are put right; nine in one word are too many.
fn corrected(code: Code, d: usize, n: usize, data: Data, (count, value, first, step): (usize, u16, usize, usize)) {
    let errors = Errors::of_bytes(count, value, first, step);
    let most = in_each_word(&errors.places).into_iter().max();
    assert!(most <= Some(RADIUS) || count == n || far::nine_in_a_g709_word(&errors));
    let content = if most <= Some(RADIUS) { Correctable } else { Lost };
    received(entry_of(Operation::Correct, code), d, data, &errors, n, content);
}

/// Bytes 16 apart are those of one word. 496 apart, nine reach from the first byte of word 15 into its parity. Neighbouring bytes, and those 31 apart, are
/// taken from all words by turns.
fn row_corrections() {
    for errors in [(0, 1, 0, 1), (1, 1, 0, 1), (1, 255, ROW_DATA, 1), (1, 128, ROW - 1, 1)] {
        corrected(Row, ROW_DATA, ROW, Each(0), errors);
    }
    for (value, first, step) in [(255, 3, 16), (1, 15, 496), (255, 0, 1), (77, ROW - BURST - 1, 1), (3, 5, 31)] {
        let in_words = if step % 16 == 0 { RADIUS } else { BURST };
        for count in [in_words, in_words + 1] {
            corrected(Row, ROW_DATA, ROW, Counted, (count, value, first, step));
        }
    }
    corrected(Row, ROW_DATA, ROW, Counted, (ROW, 255, 0, 1));
}

/// From 8,168 on, bytes 16 apart are those of word 40. 1,339 apart, 512 bytes are eight of each of the 64 words, and the next is one of word 5. From 3,952 on,
/// 256 neighbouring bytes are the last 128 of a row and the first 128 of the next one.
fn frame_corrections() {
    for errors in [(0, 1, 0, 1), (1, 1, 0, 1), (1, 255, FRAME - 1, 1)] {
        corrected(G709, PAYLOAD, FRAME, Each(0), errors);
    }
    for (count, value, first, step) in [(8, 255, 8_168, 16), (512, 255, 5, 1_339), (128, 1, 9_000, 1), (256, 99, 3_952, 1)] {
        for count in [count, count + 1] {
            corrected(G709, PAYLOAD, FRAME, Counted, (count, value, first, step));
        }
    }
    corrected(G709, PAYLOAD, FRAME, Counted, (129, 1, 4_016, 1));
    corrected(G709, PAYLOAD, FRAME, Counted, (FRAME, 255, 0, 1));
}
