//! Cases on what is logged of a report.

use crate::calls;
use crate::lengths::near;
use crate::Done;
use cases::layout::{DATA_PLACES, INNER_WORDS, PLACES};
use cases::random::Random;
use second::Changes;
use wrapper::logging::LISTED;

/// The most changed data places and parity places of an inner word: few, so that many words have the same numbers; all that it has; all that 16 bits hold.
const MOST: [(usize, usize); 5] = [(1, 1), (2, 2), (8, 8), (DATA_PLACES, PLACES - DATA_PLACES), (65_535, 65_535)];

/// The numbers of an inner word with so many changes, any of them in data places.
fn of_total(random: &mut Random, total: usize, most: (usize, usize)) -> Changes {
    let data = random.from(total.saturating_sub(most.1), total.min(most.0));
    Changes { data: data as u16, parity: (total - data) as u16 }
}

/// The numbers of an inner word with any changes, at least one.
fn changed(random: &mut Random, most: (usize, usize)) -> Changes {
    loop {
        let (data, parity) = (random.from(0, most.0) as u16, random.from(0, most.1) as u16);
        if (data, parity) != (0, 0) {
            return Changes { data, parity };
        }
    }
}

/// How many inner words have a change, by turns: few; so many that the list is nearly full, just full or a place too short; more; all.
fn several(random: &mut Random, turn: usize) -> usize {
    match turn {
        0 => random.from(0, LISTED - 2),
        1 => random.from(LISTED - 1, LISTED + 1),
        2 => random.from(LISTED + 2, INNER_WORDS - 1),
        _ => INNER_WORDS,
    }
}

/// The inner words with a change have, by turns: numbers of their own, twice; the same total; the same numbers. In one case of sixteen the counts need not be
/// 64, nor the places of the list eight.
pub fn worst_lists(random: &mut Random, number: u64) -> Result<Done, String> {
    let number = number as usize;
    let most = MOST[number % 5];
    let same = changed(random, most);
    let (mut data, mut parity, mut space) = (vec![0; INNER_WORDS], vec![0; INNER_WORDS], LISTED);
    let several = several(random, number / 20 % 4);
    for k in random.choose(several, INNER_WORDS) {
        let changes = match number / 5 % 4 {
            0 | 1 => changed(random, most),
            2 => of_total(random, same.total() as usize, most),
            _ => same,
        };
        (data[k], parity[k]) = (changes.data, changes.parity);
    }
    if random.chance(16) {
        data.resize(near(random, INNER_WORDS), same.data);
        parity.resize(near(random, INNER_WORDS), same.parity);
        space = near(random, LISTED);
    }
    calls::worst_words(random, &data, &parity, space)?;
    Ok(Done { answer: 0, damaged: false })
}
