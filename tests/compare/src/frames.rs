//! Cases on whole frames.

use crate::calls::{self, Answer, LISTS};
use crate::Done;
use cases::damage::{self, in_data_and_parity, in_symbols_of_lost, in_word, in_words, invert, inverted};
use cases::layout::*;
use cases::light;
use cases::payloads;
use cases::random::Random;
use cases::refusals::UNCORRECTABLE;
use second::Changes;

fn sent(random: &mut Random) -> Vec<u8> {
    payloads::frame(&payloads::any(random))
}

pub fn encode(random: &mut Random, _: u64) -> Result<Done, String> {
    let payload = payloads::any(random);
    let answer = calls::encode_frame(random, &payload, FRAME)?;
    Ok(Done { answer, damaged: false })
}

/// Checked and read: a frame; a frame with a few wrong bits, anywhere or in one place; a frame with an outer word of another, parity afresh or as it was.
pub fn check_and_extract(random: &mut Random, number: u64) -> Result<Done, String> {
    let mut block = sent(random);
    let frame = block.clone();
    let few = if number % 6 == 2 { random.from(2, 20) } else { 1 };
    match number % 6 {
        0 => {}
        1 | 2 => invert(&mut block, damage::scattered(random, few, 0..FRAME_BITS)),
        3 => invert(&mut block, damage::scattered(random, few, OUTER_BITS..FRAME_BITS)),
        4 => exchange(random, &mut block, true),
        _ => exchange(random, &mut block, false),
    }
    let answer = check_both(random, &block)?;
    Ok(Done { answer, damaged: block != frame && answer != 0 })
}

fn check_both(random: &mut Random, block: &[u8]) -> Answer {
    let checked = calls::check_frame(block)?;
    let read = calls::extract_payload(random, block, PAYLOAD)?;
    if checked != read {
        return Err(format!("check answers {checked}, extract {read}"));
    }
    Ok(read)
}

/// The premise of demand 3: inner words with more than eight wrong bits lie beyond eight of every inner code word, and no outer word has more than eight
/// symbols with a wrong bit from one of them. Gives the wrong data places and parity places of each inner word, where it holds.
fn premise(sent: &[u8], block: &[u8]) -> Option<[Changes; INNER_WORDS]> {
    let wrong = wrong_bits(sent, block);
    let changes = changes(&wrong);
    let lost = |k: usize| changes[k].total() as usize > RADIUS;
    let mut symbols: Vec<_> = wrong.iter().filter(|&&i| i < OUTER_BITS && lost(i % INNER_WORDS)).map(|&i| symbol_of(i)).collect();
    symbols.dedup();
    let within = (0..OUTER_WORDS).all(|w| symbols.iter().filter(|s| s.0 == w).count() <= RADIUS);
    let far = |k: usize| !lost(k) || second::correct_inner(&inner_word(block, k), INNER_BYTES).is_err();
    (within && (0..INNER_WORDS).all(far)).then_some(changes)
}

/// Corrected on both sides; and within demand 3's premise the answer is the sent frame with exact numbers.
fn correct(random: &mut Random, sent: &[u8], block: &[u8]) -> Result<Done, String> {
    let answer = calls::correct_frame(random, block, FRAME, LISTS)?;
    if let Some(changes) = premise(sent, block) {
        match &answer {
            Ok(c) if c.frame == sent && c.changes == changes => {}
            _ => return Err("within demand 3's premise both sides give something else than the sent frame with its numbers".into()),
        }
    }
    if random.chance(4) {
        check_both(random, block)?;
    }
    Ok(Done { answer: calls::number(answer), damaged: block != sent })
}

/// Any number of wrong bits, anywhere.
pub fn scattered(random: &mut Random, _: u64) -> Result<Done, String> {
    let sent = sent(random);
    let most = [8, 64, 300, 600, 2_000, 20_000][random.below(6)];
    let several = random.from(0, most);
    let block = inverted(&sent, damage::scattered(random, several, 0..FRAME_BITS));
    correct(random, &sent, &block)
}

/// Neighbouring bits, all inverted or in any pattern; up to 512 they are within demand 3's premise.
pub fn burst(random: &mut Random, number: u64) -> Result<Done, String> {
    let sent = sent(random);
    let length = match number % 4 {
        0 => 512,
        1 => random.from(1, 511),
        2 => random.from(513, 520),
        _ => random.from(513, 1_100),
    };
    let from = random.below(FRAME_BITS - length + 1);
    let whole = random.chance(2);
    let block = inverted(&sent, damage::run(random, from..from + length, whole));
    if length <= 512 && premise(&sent, &block).is_none() {
        return Err(format!("{length} neighbouring bits from {from} on break demand 3's premise"));
    }
    correct(random, &sent, &block)
}

/// Every inner word with the same number of wrong bits, 0 to 10 by turns.
pub fn each_word(random: &mut Random, number: u64) -> Result<Done, String> {
    let sent = sent(random);
    let mut block = sent.clone();
    for k in 0..INNER_WORDS {
        invert(&mut block, in_word(random, k, (number % 11) as usize));
    }
    correct(random, &sent, &block)
}

/// Every inner word with a number of its own, 0 to 8, or, in a few of them, 9 and 10.
pub fn mixed(random: &mut Random, _: u64) -> Result<Done, String> {
    let sent = sent(random);
    let mut block = sent.clone();
    let past = random.below(13);
    for k in 0..INNER_WORDS {
        let n = if k < past { random.from(9, 10) } else { random.below(9) };
        invert(&mut block, in_word(random, (k * 37) % INNER_WORDS, n));
    }
    correct(random, &sent, &block)
}

/// A few inner words with far more than eight wrong bits, the others with up to eight.
pub fn few_words(random: &mut Random, _: u64) -> Result<Done, String> {
    let sent = sent(random);
    let mut block = sent.clone();
    let most = [12, 25, 50, 200][random.below(4)];
    invert(&mut block, in_words(random, (1, 9), (9, most)));
    if random.chance(2) {
        invert(&mut block, in_words(random, (0, 39), (0, 8)));
    }
    correct(random, &sent, &block)
}

/// Wrong symbols counted out: up to eight in each outer word, and in one of them 7 to 10, all from a few inner words.
pub fn outer_limit(random: &mut Random, _: u64) -> Result<Done, String> {
    let sent = sent(random);
    let mut block = sent.clone();
    let several = random.from(1, 4);
    let lost = random.choose(several, INNER_WORDS);
    let chosen = random.below(OUTER_WORDS);
    for w in 0..OUTER_WORDS {
        let n = if w == chosen { random.from(7, 10) } else { random.from(0, 8) };
        invert(&mut block, in_symbols_of_lost(random, w, n, &lost));
    }
    correct(random, &sent, &block)
}

/// Inner words with wrong parity places, up to all 88, which no outer word has; by turns none of them, eight or all have wrong data places too.
pub fn parity_places(random: &mut Random, number: u64) -> Result<Done, String> {
    let sent = sent(random);
    let mut block = sent.clone();
    let most = [1, 8, 9, 88][number as usize % 4];
    let with_data = [0, 8, INNER_WORDS][number as usize / 4 % 3];
    for (i, k) in random.choose(INNER_WORDS, INNER_WORDS).into_iter().enumerate() {
        let parity = random.from(0, most) as u16;
        let data = if i < with_data { random.from(0, 9) as u16 } else { 0 };
        invert(&mut block, in_data_and_parity(random, k, Changes { data, parity }));
    }
    correct(random, &sent, &block)
}

/// Around the end of word 15: its last data symbol, the parity symbols after it and the first parity bits of inner words, or around its start.
pub fn last_word(random: &mut Random, _: u64) -> Result<Done, String> {
    let sent = sent(random);
    let middle = [117_150, 124_767, OUTER_BITS, FRAME_BITS - 1][random.below(4)];
    let around = [4, 20, 100, 300][random.below(4)];
    let several = random.from(1, 3 * around);
    let mut block = inverted(&sent, damage::scattered(random, several, middle - around..(middle + around + 1).min(FRAME_BITS)));
    if random.chance(2) {
        let k = random.below(INNER_WORDS);
        let n = random.from(9, 30);
        invert(&mut block, in_word(random, k, n));
    }
    correct(random, &sent, &block)
}

/// Blocks that no frame stands behind: constant bytes, with a few bits inverted or none, and random ones.
pub fn no_frame(random: &mut Random, number: u64) -> Result<Done, String> {
    let mut block = match number % 4 {
        0 => vec![0; FRAME],
        1 => vec![255; FRAME],
        2 => vec![random.next() as u8; FRAME],
        _ => random.bytes(FRAME),
    };
    if number >= 8 {
        let few = random.below(20);
        invert(&mut block, damage::scattered(random, few, 0..FRAME_BITS));
    }
    let zeros = vec![0; FRAME];
    let done = correct(random, &zeros, &block)?;
    check_both(random, &block)?;
    Ok(Done { damaged: false, ..done })
}

/// One outer word becomes another code word, whose padding bits are zero; parity bits afresh, so that the block is a frame, or as they were.
fn exchange(random: &mut Random, block: &mut [u8], afresh: bool) {
    let w = random.below(OUTER_WORDS);
    damage::exchange(random, block, w, 0);
    if afresh {
        renew_parity(block);
    }
}

/// An outer word exchanged, and damage on top.
pub fn exchanged(random: &mut Random, number: u64) -> Result<Done, String> {
    let sent = sent(random);
    let mut block = sent.clone();
    exchange(random, &mut block, number % 2 == 0);
    invert(&mut block, in_words(random, (0, 19), (0, 9)));
    correct(random, &sent, &block)
}

/// Word 15 a code word whose padding bits are not zero: they are not sent, and no permitted code word is near. Parity bits afresh, and damage on top.
pub fn padding(random: &mut Random, number: u64) -> Result<Done, String> {
    let sent = sent(random);
    let mut block = sent.clone();
    damage::exchange(random, &mut block, LAST_WORD, 1 + (number % 3) as u16);
    renew_parity(&mut block);
    invert(&mut block, in_words(random, (0, 9), (0, 8)));
    let done = correct(random, &sent, &block)?;
    if done.answer != UNCORRECTABLE {
        return Err(format!("word 15 with padding bits that are not zero: answer {}", done.answer));
    }
    Ok(done)
}

/// Two frames whose payloads differ in one symbol differ in 17 symbols of one outer word; some of these as in the other frame, parity bits afresh, and a few wrong bits.
pub fn between_frames(random: &mut Random, _: u64) -> Result<Done, String> {
    let payload = payloads::any(random);
    let w = random.below(OUTER_WORDS);
    let s = random.below(data_symbols(w));
    let (first, few) = (WORD_DATA_BITS * w + 10 * s, random.from(1, 3));
    let other = inverted(&payload, damage::scattered(random, few, first..first + symbol(w, s).len()));
    let (sent, other) = (payloads::frame(&payload), payloads::frame(&other));
    let different = |s: &usize| symbol(w, *s).any(|i| bit(&sent, i) != bit(&other, i));
    let symbols: Vec<usize> = (0..symbols_in(w)).filter(different).collect();
    let mut block = sent.clone();
    let several = random.from(6, 11).min(symbols.len());
    for s in random.choose(several, symbols.len()) {
        symbol(w, symbols[s]).for_each(|i| put(&mut block, i, bit(&other, i)));
    }
    renew_parity(&mut block);
    let few = random.below(40);
    invert(&mut block, damage::scattered(random, few, 0..FRAME_BITS));
    correct(random, &sent, &block)
}

/// Inner words on the way to another code word: with nine of its 17 places the inner pass takes the wrong one, and the outer pass has to correct that.
pub fn towards_code_words(random: &mut Random, _: u64) -> Result<Done, String> {
    let sent = sent(random);
    let mut block = sent.clone();
    let several = random.from(1, 7);
    for k in random.choose(several, INNER_WORDS) {
        let places = light::code_word(random);
        let n = random.from(7, 11);
        invert(&mut block, random.choose(n, places.len()).into_iter().map(|p| place(k, places[p])));
    }
    correct(random, &sent, &block)
}

/// Inner words near to a code word of 2,047 places with ones in the omitted front, which is no code word of theirs.
pub fn omitted_places(random: &mut Random, _: u64) -> Result<Done, String> {
    let sent = sent(random);
    let mut block = sent.clone();
    let several = random.from(1, 7);
    for k in random.choose(several, INNER_WORDS) {
        let (places, front) = light::with_ones_in_front(random);
        invert(&mut block, places.into_iter().map(|p| place(k, p)));
        let n = random.from(0, RADIUS - front);
        invert(&mut block, in_word(random, k, n));
    }
    correct(random, &sent, &block)
}
