//! G.709 frames, and single rows of them: sixteen interleaved Reed-Solomon words
//! in each row.
//!
//! A frame is four rows of 4,080 bytes. Byte j of a row belongs to word j mod
//! 16, the earlier to the higher power. The first 3,824 bytes of a row are data,
//! and so 239 of each word; the rest are parity. The data of the rows are the
//! payload, one row after the other.

use crate::reed_solomon::{G709, PARITY};
use crate::{require, REFUSED_BLOCK_LENGTH, REFUSED_NO_CODE_WORD, REFUSED_PAYLOAD_LENGTH, REFUSED_ROW_LENGTH, REFUSED_SPACE, REFUSED_UNCORRECTABLE};

const ROWS: usize = 4;
/// Words of a row.
const WORDS: usize = 16;
/// Bytes of a word: the longest that the code has.
const WORD_BYTES: usize = 255;
/// Data bytes of a word.
const WORD_DATA_BYTES: usize = WORD_BYTES - PARITY;

pub const ROW_BYTES: usize = WORDS * WORD_BYTES;
pub const ROW_DATA_BYTES: usize = WORDS * WORD_DATA_BYTES;
pub const FRAME_BYTES: usize = ROWS * ROW_BYTES;
pub const PAYLOAD_BYTES: usize = ROWS * ROW_DATA_BYTES;

/// The frame of a payload.
pub fn encode(payload: &[u8], space: usize) -> Result<Vec<u8>, u8> {
    require(payload.len() == PAYLOAD_BYTES, REFUSED_PAYLOAD_LENGTH)?;
    require(space == FRAME_BYTES, REFUSED_SPACE)?;
    Ok(payload.chunks_exact(ROW_DATA_BYTES).flat_map(row_of).collect())
}

/// Accepts a block that is the frame of some payload.
pub fn check(block: &[u8]) -> Result<(), u8> {
    require(block.len() == FRAME_BYTES, REFUSED_BLOCK_LENGTH)?;
    require(block.chunks_exact(ROW_BYTES).all(is_row), REFUSED_NO_CODE_WORD)
}

/// The payload of a block that is a frame.
pub fn extract(block: &[u8], space: usize) -> Result<Vec<u8>, u8> {
    require(block.len() == FRAME_BYTES, REFUSED_BLOCK_LENGTH)?;
    require(space == PAYLOAD_BYTES, REFUSED_SPACE)?;
    require(block.chunks_exact(ROW_BYTES).all(is_row), REFUSED_NO_CODE_WORD)?;
    Ok(block.chunks_exact(ROW_BYTES).flat_map(data_of).copied().collect())
}

/// The frame whose words are each within eight bytes of those of the block, and
/// the number of bytes changed in all of them. One word beyond reach refuses the
/// block.
pub fn correct(block: &[u8], space: usize) -> Result<(Vec<u8>, usize), u8> {
    require(block.len() == FRAME_BYTES, REFUSED_BLOCK_LENGTH)?;
    require(space == FRAME_BYTES, REFUSED_SPACE)?;
    let rows: Option<Vec<_>> = block.chunks_exact(ROW_BYTES).map(corrected).collect();
    let (rows, changed): (Vec<_>, Vec<_>) = rows.ok_or(REFUSED_UNCORRECTABLE)?.into_iter().unzip();
    Ok((rows.concat(), changed.into_iter().sum()))
}

/// The row of 3,824 bytes of data.
pub fn encode_row(data: &[u8], space: usize) -> Result<Vec<u8>, u8> {
    require(data.len() == ROW_DATA_BYTES, REFUSED_ROW_LENGTH)?;
    require(space == ROW_BYTES, REFUSED_SPACE)?;
    Ok(row_of(data))
}

/// Accepts the row of some data.
pub fn check_row(row: &[u8]) -> Result<(), u8> {
    require(row.len() == ROW_BYTES, REFUSED_ROW_LENGTH)?;
    require(is_row(row), REFUSED_NO_CODE_WORD)
}

/// The data of a row.
pub fn extract_row(row: &[u8], space: usize) -> Result<Vec<u8>, u8> {
    require(row.len() == ROW_BYTES, REFUSED_ROW_LENGTH)?;
    require(space == ROW_DATA_BYTES, REFUSED_SPACE)?;
    require(is_row(row), REFUSED_NO_CODE_WORD)?;
    Ok(data_of(row).to_vec())
}

/// As `correct`, for one row.
pub fn correct_row(row: &[u8], space: usize) -> Result<(Vec<u8>, usize), u8> {
    require(row.len() == ROW_BYTES, REFUSED_ROW_LENGTH)?;
    require(space == ROW_BYTES, REFUSED_SPACE)?;
    corrected(row).ok_or(REFUSED_UNCORRECTABLE)
}

/// The sixteen words of a row, or the data of them.
fn words(bytes: &[u8]) -> impl Iterator<Item = Vec<u16>> + '_ {
    (0..WORDS).map(|k| bytes.iter().skip(k).step_by(WORDS).copied().map(u16::from).collect())
}

/// The row made of its sixteen words.
fn interleaved(words: &[Vec<u16>]) -> Vec<u8> {
    (0..ROW_BYTES).map(|j| words[j % WORDS][j / WORDS] as u8).collect()
}

fn row_of(data: &[u8]) -> Vec<u8> {
    let code_word = |data: Vec<u16>| [&data[..], &G709.parity(&data)].concat();
    interleaved(&words(data).map(code_word).collect::<Vec<_>>())
}

fn is_row(row: &[u8]) -> bool {
    words(row).all(|word| G709.is_code_word(&word))
}

fn data_of(row: &[u8]) -> &[u8] {
    &row[..ROW_DATA_BYTES]
}

/// The row with every word corrected, and the number of bytes changed; nothing
/// if a word is uncorrectable.
fn corrected(row: &[u8]) -> Option<(Vec<u8>, usize)> {
    let words: Option<Vec<_>> = words(row).map(|word| G709.correct(&word)).collect();
    let (words, changed): (Vec<_>, Vec<_>) = words?.into_iter().unzip();
    Some((interleaved(&words), changed.into_iter().sum()))
}
