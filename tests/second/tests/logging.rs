//! Counters and worst lists.

use cases::damage::inverted;
use cases::layout::FRAME;
use cases::random::Random;
use cases::refusals::UNCORRECTABLE;
use second::logging::*;
use second::*;

const NONE: Changes = Changes { data: 0, parity: 0 };

fn corrected(sum: u32) -> Result<Corrected, u8> {
    Ok(Corrected { frame: vec![], changes: [NONE; 64], sum })
}

#[test]
fn counters_start_cleared() {
    assert_eq!(Counters::default().read(), [0, 0, 0]);
}

/// Each answer once: a frame as sent, frames with wrong bits, and every refusal.
#[test]
fn corrected_and_uncorrectable_blocks_count() {
    let frame = Random(60).frame();
    let mut counters = Counters::default();
    let mut after = |block: &[u8], space| {
        counters.count(&correct_frame(block, space));
        counters.read()
    };
    assert_eq!(after(&frame, FRAME), [1, 0, 0]);
    assert_eq!(after(&inverted(&frame, 0..512), FRAME), [2, 0, 512]);
    let block = inverted(&frame, 0..513);
    assert_eq!(after(&block, FRAME), [2, 1, 512]);
    assert_eq!(after(&block, FRAME - 1), [2, 1, 512]);
    assert_eq!(after(&block[1..], FRAME), [2, 1, 512]);
    for number in (0..=u8::MAX).filter(|&number| number != UNCORRECTABLE) {
        counters.count(&Err(number));
    }
    assert_eq!(counters.read(), [2, 1, 512]);
}

/// Each number stops at the largest of 32 bits, and no other stops with it.
#[test]
fn counters_stop_at_the_largest_number() {
    const LARGEST: u32 = 4_294_967_295;
    let mut counters = Counters { frames: 5, uncorrectable: 6, bits: u64::from(LARGEST) - 130_560 };
    counters.count(&corrected(130_559));
    assert_eq!(counters.read(), [6, 6, LARGEST - 1]);
    counters.count(&corrected(1));
    assert_eq!(counters.read(), [7, 6, LARGEST]);
    counters.count(&corrected(130_560));
    assert_eq!(counters.read(), [8, 6, LARGEST]);
    let mut counters = Counters { frames: u64::from(LARGEST) - 1, uncorrectable: u64::from(LARGEST) - 1, bits: 7 };
    for read in [[LARGEST, LARGEST, 8], [LARGEST, LARGEST, 9]] {
        counters.count(&Err(UNCORRECTABLE));
        counters.count(&corrected(1));
        assert_eq!(counters.read(), read);
    }
}

/// The worst list of inner words, each given by its number, its data places and its parity places.
fn listed(words: &[(usize, u16, u16)]) -> [u8; 8] {
    let mut all = [NONE; 64];
    words.iter().for_each(|&(k, data, parity)| all[k] = Changes { data, parity });
    worst_words(&all)
}

#[test]
fn worst_words_of_a_few_counts() {
    assert_eq!(listed(&[]), [64; 8]);
    assert_eq!(listed(&[(37, 1, 0)]), [37, 64, 64, 64, 64, 64, 64, 64]);
    assert_eq!(listed(&[(37, 0, 1)]), [37, 64, 64, 64, 64, 64, 64, 64]);
    assert_eq!(listed(&[(0, 2, 0), (63, 1_952, 88), (5, 0, 3)]), [63, 5, 0, 64, 64, 64, 64, 64]);
    // of three equal counts where the list ends the highest two are named
    let twelve = [(0, 2), (5, 7), (9, 4), (12, 1), (17, 5), (22, 3), (30, 5), (33, 1), (40, 7), (51, 3), (58, 3), (63, 8)];
    assert_eq!(listed(&twelve.map(|(k, n)| (k, n, 0))), [63, 40, 5, 30, 17, 9, 58, 51]);
    assert_eq!(listed(&twelve.map(|(k, n)| (k, 0, n))), [63, 40, 5, 30, 17, 9, 58, 51]);
    assert_eq!(listed(&twelve.map(|(k, n)| (k, n / 2, n - n / 2))), [63, 40, 5, 30, 17, 9, 58, 51]);
}

/// Neither the data places alone nor the parity places alone give this list.
#[test]
fn worst_words_go_by_both_numbers_together() {
    let words = [(2, 5, 0), (11, 0, 6), (20, 3, 4), (29, 4, 0), (38, 0, 3), (47, 2, 2), (56, 1, 0)];
    assert_eq!(listed(&words), [20, 11, 2, 29, 47, 38, 56, 64]);
    assert_eq!(listed(&words.map(|(k, data, _)| (k, data, 0))), [2, 29, 20, 47, 56, 64, 64, 64]);
    assert_eq!(listed(&words.map(|(k, _, parity)| (k, 0, parity))), [11, 20, 38, 47, 64, 64, 64, 64]);
}

/// The total decides first: neither more data places nor a higher number makes up for a smaller one.
#[test]
fn a_smaller_total_stays_behind() {
    assert_eq!(listed(&[(0, 0, 6), (63, 5, 0)]), [0, 63, 64, 64, 64, 64, 64, 64]);
    assert_eq!(listed(&[(0, 0, 88), (31, 86, 1), (63, 86, 0)]), [0, 31, 63, 64, 64, 64, 64, 64]);
    // of ten words two with more data places than the others do not come into the list
    let ten = |with_more: [usize; 2]| std::array::from_fn::<_, 10, _>(|k| if with_more.contains(&k) { (k, 3, 0) } else { (k, 2, 2) });
    assert_eq!(listed(&ten([0, 1])), [9, 8, 7, 6, 5, 4, 3, 2]);
    assert_eq!(listed(&ten([8, 9])), [7, 6, 5, 4, 3, 2, 1, 0]);
    assert_eq!(listed(&ten([3, 6])), [9, 8, 7, 5, 4, 2, 1, 0]);
}

/// Neither order of the numbers gives these lists, nor do the parity places.
#[test]
fn equal_totals_go_by_data_places() {
    assert_eq!(listed(&[(10, 4, 0), (20, 3, 1), (30, 0, 4), (40, 2, 2), (50, 1, 3)]), [10, 20, 40, 50, 30, 64, 64, 64]);
    assert_eq!(listed(&[(0, 1, 0), (63, 0, 1)]), [0, 63, 64, 64, 64, 64, 64, 64]);
    assert_eq!(listed(&[(0, 0, 1), (63, 1, 0)]), [63, 0, 64, 64, 64, 64, 64, 64]);
    assert_eq!(listed(&[(7, 1, 87), (8, 0, 88), (9, 88, 0), (10, 87, 1)]), [9, 10, 7, 8, 64, 64, 64, 64]);
    assert_eq!(listed(&[(3, 256, 0), (9, 255, 1)]), [3, 9, 64, 64, 64, 64, 64, 64]);
    // a tie behind a larger total and before a smaller one
    assert_eq!(listed(&[(1, 3, 2), (2, 1, 3), (3, 3, 0), (4, 2, 2), (5, 4, 0)]), [1, 5, 4, 2, 3, 64, 64, 64]);
    // ten words in one tie, the data places of word k being k or 9 - k: those with the fewest are left out
    assert_eq!(listed(&std::array::from_fn::<_, 10, _>(|k| (k, k as u16, 9 - k as u16))), [9, 8, 7, 6, 5, 4, 3, 2]);
    assert_eq!(listed(&std::array::from_fn::<_, 10, _>(|k| (k, 9 - k as u16, k as u16))), [0, 1, 2, 3, 4, 5, 6, 7]);
}

#[test]
fn words_equal_in_both_numbers_go_by_the_higher_number() {
    for (data, parity) in [(2, 1), (1, 2), (3, 0), (0, 3), (1_952, 88)] {
        assert_eq!(listed(&[3, 60, 31, 32].map(|k| (k, data, parity))), [60, 32, 31, 3, 64, 64, 64, 64]);
        assert_eq!(listed(&[0, 63].map(|k| (k, data, parity))), [63, 0, 64, 64, 64, 64, 64, 64]);
    }
    // within one tie of totals: two words with 3 data places, three with 2, two with 0
    let words = [(4, 2, 1), (12, 0, 3), (18, 3, 0), (25, 2, 1), (33, 0, 3), (46, 3, 0), (59, 2, 1)];
    assert_eq!(listed(&words), [46, 18, 59, 25, 4, 33, 12, 64]);
}

/// Where more words are equal in both numbers than the list has places left, the highest are named.
#[test]
fn ties_that_the_list_does_not_hold() {
    for (data, parity) in [(4, 0), (0, 4), (2, 2)] {
        let sixteen = std::array::from_fn::<_, 16, _>(|i| (1 + 4 * i, data, parity));
        assert_eq!(listed(&sixteen), [61, 57, 53, 49, 45, 41, 37, 33]);
        // and among words with smaller totals
        assert_eq!(listed(&[&[(0, 3, 0), (35, 0, 3), (63, 3, 0)][..], &sixteen].concat()), [61, 57, 53, 49, 45, 41, 37, 33]);
        // and behind two words with larger ones
        assert_eq!(listed(&[&[(0, 0, 5), (2, 5, 0)][..], &sixteen].concat()), [2, 0, 61, 57, 53, 49, 45, 41]);
    }
    for (data, parity) in [(8, 0), (1, 0), (1_952, 0), (0, 1), (0, 8), (0, 88), (4, 4), (1_952, 88)] {
        assert_eq!(worst_words(&[Changes { data, parity }; 64]), [63, 62, 61, 60, 59, 58, 57, 56]);
    }
}

/// A word without a change does not come into the list, though places are left and its number is higher.
#[test]
fn words_without_a_change_are_never_listed() {
    assert_eq!(listed(&[(0, 1, 0), (1, 0, 1), (62, 0, 0), (63, 0, 0)]), [0, 1, 64, 64, 64, 64, 64, 64]);
    assert_eq!(listed(&[0, 1, 2, 3, 4, 5, 6].map(|k| (k, 0, 1))), [6, 5, 4, 3, 2, 1, 0, 64]);
    assert_eq!(listed(&[0, 1, 2, 3, 4, 5, 6].map(|k| (k, 1, 0))), [6, 5, 4, 3, 2, 1, 0, 64]);
    assert_eq!(listed(&[0, 1, 2, 3, 4, 5, 6, 7].map(|k| (k, 0, 1))), [7, 6, 5, 4, 3, 2, 1, 0]);
    for k in 0..64 {
        assert_eq!(listed(&[(k, 0, 1)]), [k as u8, 64, 64, 64, 64, 64, 64, 64]);
    }
}

/// Numbers that no correction gives: together they are more than 16 bits hold.
#[test]
fn worst_words_of_numbers_beyond_a_report() {
    const LARGEST: u16 = 65_535;
    let words = [(1, LARGEST, 0), (3, LARGEST, 1), (7, LARGEST, LARGEST), (40, 1, LARGEST), (50, 0, LARGEST), (60, LARGEST - 1, 1), (61, 1_953, 89)];
    assert_eq!(listed(&words), [7, 3, 40, 1, 60, 50, 61, 64]);
    assert_eq!(worst_words(&[Changes { data: LARGEST, parity: LARGEST }; 64]), [63, 62, 61, 60, 59, 58, 57, 56]);
    // ties in total at the largest number of 16 bits and just past it
    assert_eq!(listed(&[(5, LARGEST, 0), (6, LARGEST - 1, 1)]), [5, 6, 64, 64, 64, 64, 64, 64]);
    assert_eq!(listed(&[(5, LARGEST, 1), (6, LARGEST - 1, 2)]), [5, 6, 64, 64, 64, 64, 64, 64]);
    assert_eq!(listed(&[(5, LARGEST - 1, 2), (6, LARGEST, 1)]), [6, 5, 64, 64, 64, 64, 64, 64]);
    for past in [0, 1] {
        let falling = std::array::from_fn(|k| Changes { data: LARGEST - k as u16, parity: k as u16 + past });
        assert_eq!(worst_words(&falling), [0, 1, 2, 3, 4, 5, 6, 7]);
        let rising = std::array::from_fn(|k| Changes { data: k as u16 + past, parity: LARGEST - k as u16 });
        assert_eq!(worst_words(&rising), [63, 62, 61, 60, 59, 58, 57, 56]);
    }
}

/// A refusal has no inner word to name, whatever was wrong.
#[test]
fn worst_words_of_a_refusal() {
    let block = inverted(&Random(62).frame(), 0..513);
    let (changes, _) = reported(&correct_frame(&block, FRAME));
    assert_eq!(worst_words(&changes), [64; 8]);
}

/// Does inner word j stand before k? There are three cases: j has more changes in all; they have equally many, and j has more of them at data places; they have
/// equally many at data places and equally many at parity places, and j is the higher number.
fn stands_before(changes: &[Changes; 64], j: usize, k: usize) -> bool {
    let [in_all_j, in_all_k] = [j, k].map(|i| u32::from(changes[i].data) + u32::from(changes[i].parity));
    in_all_j > in_all_k || in_all_j == in_all_k && changes[j].data > changes[k].data || changes[j] == changes[k] && j > k
}

/// The changes of an inner word in one of three ways: two numbers below the bound, which are 0 more or less often; numbers that are together less than the
/// bound; numbers that are together 65,535 or more, by less than the bound. The smaller the bound, the more ties there are.
fn any_changes(random: &mut Random, round: usize) -> Changes {
    let bound = [2, 3, 9, 2_041][round / 3 % 4];
    let (data, parity) = match round % 3 {
        0 => {
            let mut number = || if random.below(64) < round % 65 { random.below(bound) } else { 0 };
            (number(), number())
        }
        1 => {
            let together = random.below(bound);
            let data = random.from(0, together);
            (data, together - data)
        }
        _ => {
            let missing = random.below(bound);
            (65_535 - missing, missing + random.below(bound))
        }
    };
    Changes { data: data as u16, parity: parity as u16 }
}

/// Place i holds the word that i others stand before, if it has a change; else 64.
#[test]
fn worst_words_stand_in_their_order() {
    let mut random = Random(61);
    for round in 0..2_000 {
        let changes: [Changes; 64] = std::array::from_fn(|_| any_changes(&mut random, round));
        let place_of = |k: usize| (0..64).filter(|&j| stands_before(&changes, j, k)).count();
        let at = |i: usize| (0..64).find(|&k| changes[k] != NONE && place_of(k) == i).unwrap_or(64) as u8;
        assert_eq!(worst_words(&changes), std::array::from_fn(at));
    }
}
