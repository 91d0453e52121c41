//! How an answer is compared with what was sent.
#![allow(dead_code)]

use cases::calls::correct_block;
use cases::layout::{changes, wrong_bits};

pub fn symbol_differences(p: &[u16], q: &[u16]) -> usize {
    assert_eq!(p.len(), q.len());
    p.iter().zip(q).filter(|(x, y)| x != y).count()
}

/// Asserts that the block is corrected to the frame, with a true report.
pub fn assert_corrected(block: &[u8], frame: &[u8]) {
    let answer = correct_block(block).expect("the block can be corrected");
    assert!(answer.frame == frame, "another frame");
    let wrong = wrong_bits(block, frame);
    assert_eq!(answer.changes, changes(&wrong));
    assert_eq!(answer.sum as usize, wrong.len());
}
