//! Blocks to try the report program on, each with its report. A report is made from the bits that are inverted, and has to be that of the decoder's answer.

use crate::far;
use cases::calls::correct_block;
use cases::damage::{apart, inverted};
use cases::layout::{changes, place, DATA_PLACES, FRAME, INNER_WORDS, PAYLOAD, PLACES};
use cases::payloads::{self, Data};
use cases::refusals::{BLOCK_LENGTH, UNCORRECTABLE};
use second::logging::{worst_words, EMPTY};
use second::Changes;
use std::fs;
use std::path::Path;

pub fn write_all(folder: &Path) {
    let sent = payloads::frame(&payloads::of(Data::Counted, PAYLOAD));
    correctable(folder, "undamaged", &sent, &[]);
    correctable(folder, "burst", &sent, &burst(512));
    correctable(folder, "worst_list", &sent, &twelve_words());
    correctable(folder, "outer_pass", &sent, &spread());
    correctable(folder, "parity_places", &sent, &parity_places());
    correctable(folder, "data_and_parity", &sent, &data_and_parity());
    correctable(folder, "ties", &sent, &ties());
    // nine wrong bits of inner word 37 stand in nine symbols of outer word 7
    assert!(far::nine_in_frame(&burst(513)));
    refusal(folder, "uncorrectable", &inverted(&sent, burst(513)), UNCORRECTABLE);
    refusal(folder, "short", &sent[..FRAME - 1], BLOCK_LENGTH);
    refusal(folder, "empty", &[], BLOCK_LENGTH);
    refusal(folder, "long", &[&sent[..], &[0]].concat(), BLOCK_LENGTH);
}

/// A run of wrong bits within outer word 7.
fn burst(length: usize) -> Vec<usize> {
    apart(length, 60_005, 1)
}

/// Twelve inner words with their numbers of wrong bits, which stand 251 places apart. Three words have equal counts where the list of eight ends.
fn twelve_words() -> Vec<usize> {
    let words = [(0, 2), (5, 7), (9, 4), (12, 1), (17, 5), (22, 3), (30, 5), (33, 1), (40, 7), (51, 3), (58, 3), (63, 8)];
    words.into_iter().flat_map(|(k, n)| (0..n).map(move |j| place(k, (31 * k + 251 * j) % PLACES))).collect()
}

/// 24 places of inner word 37, at most two of them in the same outer word.
fn spread() -> Vec<usize> {
    apart(24, place(37, 0), place(0, 81))
}

/// So many wrong bits of inner word k at data places, from the last of these back and 200 apart, so that no two are in the same outer word; and so many at
/// parity places, from the first of these on.
fn at_the_border((k, data, parity): (usize, usize, usize)) -> Vec<usize> {
    let places = (0..data).map(|j| DATA_PLACES - 1 - 200 * j).chain(DATA_PLACES..DATA_PLACES + parity);
    places.map(|p| place(k, p)).collect()
}

/// Four inner words with wrong bits at parity places alone; of two of them more than eight, which no outer word has.
fn parity_places() -> Vec<usize> {
    [(3, 0, 8), (21, 0, 88), (44, 0, 1), (62, 0, 9)].into_iter().flat_map(at_the_border).collect()
}

/// Ten inner words with wrong bits at data places, at parity places or at both. By either of the two numbers alone the list would be another one.
fn data_and_parity() -> Vec<usize> {
    let words = [(2, 5, 0), (7, 3, 0), (11, 0, 6), (20, 3, 4), (29, 9, 4), (33, 0, 5), (38, 0, 3), (47, 2, 2), (50, 3, 2), (56, 1, 1)];
    words.into_iter().flat_map(at_the_border).collect()
}

/// Fifteen inner words: two with six wrong bits, twelve with four, one with three. The list ends among five of the twelve that have equally many data places.
/// Inner word 58 has more data places than most, and the smallest total.
fn ties() -> Vec<usize> {
    let six = [(6, 1, 5), (44, 0, 6)];
    let four = [(9, 4, 0), (15, 3, 1), (48, 3, 1), (1, 2, 2), (20, 2, 2), (26, 2, 2), (35, 2, 2), (52, 2, 2), (40, 1, 3), (63, 1, 3), (31, 0, 4), (59, 0, 4)];
    six.into_iter().chain(four).chain([(58, 3, 0)]).flat_map(at_the_border).collect()
}

/// A frame with wrong bits that the two passes correct.
fn correctable(folder: &Path, name: &str, sent: &[u8], wrong: &[usize]) {
    let block = inverted(sent, wrong.iter().copied());
    let answer = correct_block(&block).expect(name);
    assert!(answer.frame == sent, "{name}");
    assert_eq!((answer.changes, answer.sum as usize), (changes(wrong), wrong.len()), "{name}");
    write(folder, name, &block, &report(&changes(wrong)));
}

fn refusal(folder: &Path, name: &str, block: &[u8], number: u8) {
    assert_eq!(correct_block(block).err(), Some(number), "{name}");
    write(folder, name, block, &format!("refused {number}\n"));
}

/// The report on a corrected block: the sum, and data places and parity places of each listed inner word.
fn report(changes: &[Changes; INNER_WORDS]) -> String {
    let listed = worst_words(changes).into_iter().filter(|&k| k != EMPTY).map(usize::from);
    let lines: String = listed.map(|k| format!("inner {k} {} {}\n", changes[k].data, changes[k].parity)).collect();
    format!("mended {}\n{lines}", changes.iter().copied().map(Changes::total).sum::<u32>())
}

fn write(folder: &Path, name: &str, block: &[u8], report: &str) {
    fs::write(folder.join(format!("{name}.bin")), block).unwrap();
    fs::write(folder.join(format!("{name}.txt")), report).unwrap();
}

#[cfg(test)]
mod tests {
    use super::*;
    use cases::payloads::zero_frame;

    /// The report program's case of document 01, which stands with the program: bits 0 and 64 of the zero frame.
    #[test]
    fn the_case_of_the_report_program() {
        assert!(inverted(zero_frame(), [0, 64]) == include_bytes!("../../../crates/report/stdin"));
        assert_eq!(report(&changes(&[0, 64])), include_str!("../../../crates/report/stdout"));
        assert_eq!(correct_block(include_bytes!("../../../crates/report/stdin")).unwrap().changes, changes(&[0, 64]));
    }
}
