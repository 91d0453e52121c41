//! Inner code words with few ones, which lie as near to each other as code words can.

use crate::layout::PLACES;
use crate::random::Random;

/// Powers at which a code word has its 17 ones: found by correcting words with nine ones, until one was within eight places of a code word.
pub const POWERS: [[usize; 17]; 6] = [
    [34, 51, 58, 106, 146, 205, 244, 307, 628, 883, 1027, 1157, 1470, 1612, 1693, 1836, 1990],
    [50, 171, 175, 263, 343, 437, 609, 611, 940, 977, 1079, 1219, 1355, 1513, 1583, 1824, 1945],
    [87, 133, 225, 335, 533, 823, 883, 920, 1067, 1173, 1256, 1405, 1658, 1727, 1847, 1889, 1978],
    [92, 151, 157, 297, 340, 432, 956, 1020, 1137, 1441, 1520, 1561, 1582, 1664, 1693, 1757, 1791],
    [14, 107, 143, 233, 413, 444, 587, 701, 1183, 1284, 1334, 1415, 1441, 1626, 1992, 2002, 2020],
    [161, 193, 195, 322, 326, 366, 449, 701, 1045, 1078, 1135, 1140, 1242, 1563, 1712, 1734, 1860],
];

/// The places of the ones: a code word of those above, moved by any number of places within the word, which leaves it a code word.
pub fn code_word(random: &mut Random) -> [usize; 17] {
    let powers = POWERS[random.below(POWERS.len())];
    let (least, most) = (powers[0], powers[16]);
    let shift = random.below(PLACES - (most - least));
    powers.map(|power| PLACES - 1 - (power - least + shift))
}

/// A code word of the full length of 2,047 with ones among the seven places that are omitted in front: the places of its other ones, and how many are in front.
pub fn with_ones_in_front(random: &mut Random) -> (Vec<usize>, usize) {
    let powers = POWERS[random.below(POWERS.len())];
    let shift = random.from(PLACES, PLACES + 6) - powers[16];
    let within: Vec<usize> = powers.iter().map(|power| power + shift).filter(|&power| power < PLACES).map(|power| PLACES - 1 - power).collect();
    let front = powers.len() - within.len();
    (within, front)
}

#[cfg(test)]
mod tests {
    use super::*;
    use crate::damage::inverted;
    use crate::layout::INNER_BYTES;

    #[test]
    fn they_are_code_words() {
        let mut random = Random::of_case(1, "light", 0);
        for _ in 0..1_000 {
            let word = inverted(&[0; INNER_BYTES], code_word(&mut random));
            assert_eq!(second::check_inner(&word), Ok(()));
        }
    }
}
