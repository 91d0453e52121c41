//! Cases on single words.

use crate::calls;
use crate::Done;
use cases::damage::{invert, inverted, scattered, symbol_error, wrong_symbols};
use cases::layout::{changes_of_word, DATA_PLACES, INNER_BYTES, INNER_DATA, INNER_PARITY, OUTER_PARITY, PLACES, RADIUS};
use cases::light;
use cases::payloads::outer_code_word;
use cases::random::Random;

/// Lengths of outer words: any, with those at both ends and those of a frame more often.
fn length(random: &mut Random) -> usize {
    match random.below(8) {
        0 => 17,
        1 => 1_023,
        2 => random.from(17, 40),
        3 => 781,
        4 => 778,
        _ => random.from(17, 1_023),
    }
}

/// Data of any length, some of it past the limits; in some a symbol above 1,023.
pub fn encode_outer(random: &mut Random, _: u64) -> Result<Done, String> {
    let n = match random.below(8) {
        0 => random.from(0, 3),
        1 => random.from(1_005, 1_010),
        _ => random.from(1, 1_007),
    };
    let mut data = random.symbols(n);
    if n > 0 && random.chance(8) {
        data[random.below(n)] = random.from(1_020, 1_030) as u16;
    }
    let answer = calls::encode_outer(random, &data, OUTER_PARITY)?;
    Ok(Done { answer, damaged: false })
}

pub fn encode_inner(random: &mut Random, _: u64) -> Result<Done, String> {
    let mut data = random.bytes(INNER_DATA);
    if random.chance(8) {
        data = inverted(&[0; INNER_DATA], [random.below(DATA_PLACES)]);
    }
    let answer = calls::encode_inner(random, &data, INNER_PARITY)?;
    Ok(Done { answer, damaged: false })
}

/// 0 to 10 wrong symbols by turns.
pub fn correct_outer(random: &mut Random, number: u64) -> Result<Done, String> {
    let length = length(random);
    let mut word = random.outer_code_word(length);
    let n = (number % 11) as usize;
    wrong_symbols(random, &mut word, n);
    let answer = calls::correct_outer(random, &word, word.len())?;
    if n <= RADIUS && answer != 0 {
        return Err(format!("{n} wrong symbols, and refused by {answer}"));
    }
    if random.chance(4) {
        calls::check_outer(&word)?;
    }
    Ok(Done { answer, damaged: n > 0 })
}

/// Two code words that differ in 17 symbols, and a word between them, or up to two symbols aside: with nine of the seventeen the other one is the nearer.
pub fn between_outer(random: &mut Random, _: u64) -> Result<Done, String> {
    let length = length(random);
    let data = random.symbols(length - OUTER_PARITY);
    let mut other = data.clone();
    other[random.below(data.len())] ^= symbol_error(random);
    let (mut word, other) = (outer_code_word(&data), outer_code_word(&other));
    let places: Vec<usize> = (0..word.len()).filter(|&i| word[i] != other[i]).collect();
    if places.len() != 17 {
        return Err(format!("code words that differ in {} symbols", places.len()));
    }
    let several = random.from(6, 11);
    for i in random.choose(several, 17) {
        word[places[i]] = other[places[i]];
    }
    for _ in 0..random.below(3) {
        word[random.below(length)] ^= random.below(1_024) as u16;
    }
    let answer = calls::correct_outer(random, &word, word.len())?;
    Ok(Done { answer, damaged: true })
}

/// Words of random symbols, some with a symbol above 1,023, and of lengths past the limits.
pub fn any_outer(random: &mut Random, _: u64) -> Result<Done, String> {
    let n = match random.below(4) {
        0 => random.from(0, 20),
        1 => random.from(1_020, 1_030),
        _ => length(random),
    };
    let mut word = random.symbols(n);
    if n > 0 && random.chance(4) {
        word[random.below(n)] = random.next() as u16;
    }
    let space = if random.chance(4) { random.from(0, 1_100) } else { n };
    calls::check_outer(&word)?;
    let answer = calls::correct_outer(random, &word, space)?;
    Ok(Done { answer, damaged: false })
}

/// Wrong symbols, and one of them where the code has been shortened: as long as the full code the word would be within eight, at its own length it is not.
pub fn omitted_outer(random: &mut Random, _: u64) -> Result<Done, String> {
    let n = random.from(18, 1_022);
    let longer = random.from(n + 1, 1_023);
    let mut data = vec![0; longer - n];
    let front = random.below(data.len());
    data[front] = symbol_error(random);
    data.extend(random.symbols(n - OUTER_PARITY));
    let mut word = outer_code_word(&data).split_off(longer - n);
    let several = random.below(RADIUS);
    wrong_symbols(random, &mut word, several);
    let answer = calls::correct_outer(random, &word, n)?;
    Ok(Done { answer, damaged: true })
}

/// 0 to 10 wrong places by turns: anywhere, side by side, near an end of the word, in its parity alone, or around the border of data and parity, as near as
/// can be or within 16 places. Up to eight are put right, and counted as data places and parity places.
pub fn correct_inner(random: &mut Random, number: u64) -> Result<Done, String> {
    let sent = random.inner_code_word();
    let n = (number % 11) as usize;
    let (from, among) = match random.below(7) {
        0 => (random.below(PLACES - 15), 16),
        1 => (0, 40),
        2 => (PLACES - 100, 100),
        3 => (DATA_PLACES, PLACES - DATA_PLACES),
        4 => (DATA_PLACES - n / 2, n),
        5 => (DATA_PLACES - 8, 16),
        _ => (0, PLACES),
    };
    let places: Vec<usize> = random.choose(n, among).into_iter().map(|p| from + p).collect();
    let word = inverted(&sent, places.iter().copied());
    let answer = calls::correct_inner(random, &word, INNER_BYTES)?;
    if n <= RADIUS && answer != Ok((sent, changes_of_word(&places))) {
        return Err(format!("{n} wrong places, and both sides give something else than the sent word with its numbers"));
    }
    if random.chance(4) {
        calls::check_inner(&word)?;
    }
    Ok(Done { answer: calls::number(answer), damaged: n > 0 })
}

/// On the way to another code word that is 17 places away, or up to two places aside.
pub fn between_inner(random: &mut Random, _: u64) -> Result<Done, String> {
    let mut word = random.inner_code_word();
    let places = light::code_word(random);
    let several = random.from(6, 12);
    invert(&mut word, random.choose(several, places.len()).into_iter().map(|p| places[p]));
    let few = random.below(3);
    invert(&mut word, scattered(random, few, 0..PLACES));
    let answer = calls::number(calls::correct_inner(random, &word, INNER_BYTES)?);
    Ok(Done { answer, damaged: true })
}

/// Near to a code word of 2,047 places that has ones in the omitted front: a search that looked there would find one within eight, and there is none.
pub fn omitted_inner(random: &mut Random, _: u64) -> Result<Done, String> {
    let mut word = random.inner_code_word();
    let (places, front) = light::with_ones_in_front(random);
    invert(&mut word, places);
    let several = random.from(0, RADIUS - front);
    invert(&mut word, random.choose(several, PLACES));
    let answer = calls::number(calls::correct_inner(random, &word, INNER_BYTES)?);
    Ok(Done { answer, damaged: true })
}

/// Random and constant bytes.
pub fn any_inner(random: &mut Random, number: u64) -> Result<Done, String> {
    let word = match number % 8 {
        0 => vec![random.next() as u8; INNER_BYTES],
        _ => random.bytes(INNER_BYTES),
    };
    calls::check_inner(&word)?;
    let answer = calls::number(calls::correct_inner(random, &word, INNER_BYTES)?);
    Ok(Done { answer, damaged: false })
}
