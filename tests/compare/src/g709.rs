//! Cases on G.709 frames and rows. A frame is corrected whole, and one of its rows alone.

use crate::calls::{self, Answer};
use crate::Done;
use cases::damage;
use cases::g709::*;
use cases::layout::{FRAME, FRAME_BITS, PAYLOAD, RADIUS};
use cases::payloads;
use cases::random::Random;

fn sent(random: &mut Random) -> Vec<u8> {
    payloads::g709_frame(&payloads::any(random))
}

/// Row r of a frame.
fn row(frame: &[u8], r: usize) -> &[u8] {
    &frame[ROW * r..][..ROW]
}

/// Any of the four rows.
fn any_row(random: &mut Random) -> usize {
    random.below(WORDS / ROW_WORDS)
}

pub fn encode(random: &mut Random, _: u64) -> Result<Done, String> {
    let payload = payloads::any(random);
    let answer = calls::encode_g709(random, &payload, FRAME)?;
    let r = any_row(random);
    calls::encode_row(random, &payload[ROW_DATA * r..][..ROW_DATA], ROW)?;
    Ok(Done { answer, damaged: false })
}

/// Checked and read: a frame; a frame with a wrong bit, a few wrong bytes or a wrong byte of parity; a frame with a row of another one, in part or whole.
pub fn check_and_extract(random: &mut Random, number: u64) -> Result<Done, String> {
    let mut block = sent(random);
    let frame = block.clone();
    let r = any_row(random);
    match number % 6 {
        0 => {}
        1 => damage::invert(&mut block, [random.below(FRAME_BITS)]),
        2 => wrong_anywhere(random, &mut block, 20),
        3 => {
            let parity = ROW * r + random.from(ROW_DATA, ROW - 1);
            change(random, &mut block, [parity]);
        }
        turn => {
            let taken = if turn == 4 { ROW } else { ROW_DATA };
            block[ROW * r..][..taken].copy_from_slice(&random.row()[..taken]);
        }
    }
    let answer = check_both(random, &block, r)?;
    Ok(Done { answer, damaged: block != frame && answer != 0 })
}

/// Check and reader agree on a block, and on one of its rows.
fn check_both(random: &mut Random, block: &[u8], r: usize) -> Answer {
    let frame = [calls::check_g709(block)?, calls::extract_g709(random, block, PAYLOAD)?];
    let row = [calls::check_row(row(block, r))?, calls::extract_row(random, row(block, r), ROW_DATA)?];
    if frame[0] != frame[1] || row[0] != row[1] {
        return Err(format!("check and extract answer {frame:?}, and of row {r} {row:?}"));
    }
    Ok(frame[0])
}

/// What comes back is within eight bytes in each word, and the number is that of the bytes changed. Where no word has more than eight wrong bytes, it is what
/// was sent.
fn held(answer: Result<(Vec<u8>, usize), u8>, sent: &[u8], received: &[u8]) -> Answer {
    let within = |other: &[u8]| in_each_word(&wrong_bytes(other, received)).iter().all(|&n| n <= RADIUS);
    match answer {
        Ok((restored, n)) if !within(&restored) || n != wrong_bytes(&restored, received).len() => {
            Err(format!("both sides change other bytes than {n} within eight"))
        }
        Ok((restored, _)) if restored != sent && within(sent) => {
            Err("no word has more than eight wrong bytes, and both sides give something else than was sent".into())
        }
        Err(number) if within(sent) => Err(format!("no word has more than eight wrong bytes, and both sides refuse by {number}")),
        answer => Ok(calls::number(answer)),
    }
}

/// The block corrected on both sides, and one of its rows.
fn correct(random: &mut Random, sent: &[u8], block: &[u8]) -> Result<Done, String> {
    let answer = held(calls::correct_g709(random, block, FRAME)?, sent, block)?;
    let r = any_row(random);
    held(calls::correct_row(random, row(block, r), ROW)?, row(sent, r), row(block, r))?;
    if random.chance(4) {
        check_both(random, block, r)?;
    }
    Ok(Done { answer, damaged: block != sent })
}

/// Up to so many wrong bytes.
fn wrong_anywhere(random: &mut Random, block: &mut [u8], most: usize) {
    let several = random.from(0, most);
    let places = damage::scattered(random, several, 0..block.len());
    change(random, block, places);
}

/// So many wrong bytes in word k.
fn wrong_in_word(random: &mut Random, block: &mut [u8], k: usize, n: usize) {
    let places = in_word(random, k, n);
    change(random, block, places);
}

/// Any number of wrong bytes, anywhere.
pub fn scattered(random: &mut Random, _: u64) -> Result<Done, String> {
    let sent = sent(random);
    let mut block = sent.clone();
    let most = [8, 64, 150, 300, 600, 5_000][random.below(6)];
    wrong_anywhere(random, &mut block, most);
    correct(random, &sent, &block)
}

/// Every word with the same number of wrong bytes, 0 to 10 by turns.
pub fn each_word(random: &mut Random, number: u64) -> Result<Done, String> {
    let sent = sent(random);
    let mut block = sent.clone();
    (0..WORDS).for_each(|k| wrong_in_word(random, &mut block, k, (number % 11) as usize));
    correct(random, &sent, &block)
}

/// Every word with a number of its own, 0 to 8; in every other case a few words have 9 or 10.
pub fn mixed(random: &mut Random, number: u64) -> Result<Done, String> {
    let sent = sent(random);
    let mut block = sent.clone();
    let past = if number % 2 == 0 { 0 } else { random.from(1, 3) };
    for (i, k) in random.choose(WORDS, WORDS).into_iter().enumerate() {
        let n = if i < past { random.from(RADIUS + 1, RADIUS + 2) } else { random.from(0, RADIUS) };
        wrong_in_word(random, &mut block, k, n);
    }
    correct(random, &sent, &block)
}

/// One word of 64 with more than eight wrong bytes, up to all; the others have none, or up to eight.
pub fn one_word(random: &mut Random, number: u64) -> Result<Done, String> {
    let sent = sent(random);
    let mut block = sent.clone();
    let (lost, most_lost) = (number as usize % WORDS, [9, 16, 17, WORD][random.below(4)]);
    let most = if number / WORDS as u64 % 2 == 0 { 0 } else { RADIUS };
    for k in 0..WORDS {
        let n = if k == lost { random.from(RADIUS + 1, most_lost) } else { random.from(0, most) };
        wrong_in_word(random, &mut block, k, n);
    }
    correct(random, &sent, &block)
}

/// Neighbouring bytes, all wrong or any of them: 128, fewer, just past, or more; anywhere, or around the end of a row, where a row's burst ends.
pub fn burst(random: &mut Random, number: u64) -> Result<Done, String> {
    let sent = sent(random);
    let length = match number % 4 {
        0 => BURST,
        1 => random.from(1, BURST - 1),
        2 => random.from(BURST + 1, BURST + 8),
        _ => random.from(BURST + 1, 3 * BURST),
    };
    let from = match random.below(4) {
        0 => (ROW * random.from(1, 3)).saturating_sub(random.from(0, length)),
        _ => random.below(FRAME - length + 1),
    };
    let mut block = sent.clone();
    let whole = random.chance(2);
    let places = damage::run(random, from..from + length, whole);
    change(random, &mut block, places);
    let done = correct(random, &sent, &block)?;
    if length <= BURST && done.answer != 0 {
        return Err(format!("{length} neighbouring bytes from {from} on are refused by {}", done.answer));
    }
    Ok(done)
}

/// Two frames whose payloads differ in one byte differ in 17 bytes of one word; some of these as in the other frame, and a few wrong bytes.
pub fn between(random: &mut Random, _: u64) -> Result<Done, String> {
    let payload = payloads::any(random);
    let mut other = payload.clone();
    let one = random.below(PAYLOAD);
    change(random, &mut other, [one]);
    let (sent, other) = (payloads::g709_frame(&payload), payloads::g709_frame(&other));
    let places = wrong_bytes(&sent, &other);
    let mut block = sent.clone();
    let several = random.from(6, 11);
    random.choose(several, places.len()).into_iter().for_each(|i| block[places[i]] = other[places[i]]);
    let few = random.below(3);
    wrong_in_word(random, &mut block, word_of(places[0]).0, few);
    correct(random, &sent, &block)
}

/// Blocks that no frame stands behind: constant bytes, with a few wrong ones or none, and random ones.
pub fn no_frame(random: &mut Random, number: u64) -> Result<Done, String> {
    let mut block = match number % 4 {
        0 => vec![0; FRAME],
        1 => vec![255; FRAME],
        2 => vec![random.next() as u8; FRAME],
        _ => random.bytes(FRAME),
    };
    if number >= 8 {
        wrong_anywhere(random, &mut block, 20);
    }
    let done = correct(random, &[0; FRAME], &block)?;
    check_both(random, &block, number as usize / 4 % 4)?;
    Ok(Done { damaged: false, ..done })
}

/// A single row, each of its words with the same number of wrong bytes, 0 to 10 by turns, or with a number of its own, up to eight or nine.
pub fn single_row(random: &mut Random, number: u64) -> Result<Done, String> {
    let sent = random.row();
    let mut row = sent.clone();
    let most = RADIUS + number as usize / 22 % 2;
    for k in 0..ROW_WORDS {
        let n = if number / 11 % 2 == 0 { number as usize % 11 } else { random.from(0, most) };
        wrong_in_word(random, &mut row, k, n);
    }
    let answer = held(calls::correct_row(random, &row, ROW)?, &sent, &row)?;
    Ok(Done { answer, damaged: row != sent })
}
