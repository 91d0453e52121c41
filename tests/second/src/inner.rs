//! The inner code: a binary BCH code over field B, shortened to 2,040 places.
//!
//! A word is a list of bits, the one of the highest power first. The generator
//! has the roots a^1 to a^16, so two code words differ in at least 17 places,
//! and at most one lies within eight of a given word.

use crate::field::{Field, FieldB};
use crate::poly;
use std::sync::OnceLock;

/// Places of a word.
pub const LENGTH: usize = 2040;
/// Parity bits of a word.
pub const PARITY: usize = 88;
/// Data bits of a word.
pub const DATA: usize = LENGTH - PARITY;
/// Places that can be corrected.
const RADIUS: usize = 8;
/// Syndromes: the values at a^1 to a^16.
const SYNDROMES: usize = 2 * RADIUS;

/// How many places of a word are changed: data places, which are those below
/// 1,952, and parity places, which are the others.
#[derive(Clone, Copy, Debug, Default, PartialEq, Eq)]
pub struct Changes {
    pub data: u16,
    pub parity: u16,
}

impl Changes {
    /// One more changed place.
    pub(crate) fn add(&mut self, place: usize) {
        if place < DATA {
            self.data += 1;
        } else {
            self.parity += 1;
        }
    }

    /// Both numbers together.
    pub fn total(self) -> u32 {
        u32::from(self.data) + u32::from(self.parity)
    }
}

/// The least binary polynomial of a^j, bit i for power i: the product of x + c
/// over the conjugates c of a^j. Field B has 2^11 elements and 11 is prime, so
/// an element other than 0 and 1 has eleven conjugates, found by squaring.
pub fn least_polynomial(j: usize) -> u128 {
    let square = |&c: &u32| Some(FieldB::multiply(c, c));
    let conjugates = std::iter::successors(Some(FieldB::alpha(j)), square);
    let product = poly::from_roots::<FieldB>(conjugates.take(FieldB::DEGREE as usize));
    product.iter().rev().fold(0, |packed, &c| {
        assert!(c <= 1, "the coefficients of a least polynomial are binary");
        (packed << 1) | u128::from(c)
    })
}

/// The generator, of degree 88: the product of the least polynomials of a, a^3
/// and so on to a^15.
pub fn generator() -> u128 {
    static GENERATOR: OnceLock<u128> = OnceLock::new();
    *GENERATOR.get_or_init(|| {
        let odd = (1..SYNDROMES).step_by(2);
        odd.fold(1, |product, j| binary_product(product, least_polynomial(j)))
    })
}

fn binary_product(p: u128, q: u128) -> u128 {
    let terms = (0..=PARITY).filter(|i| (q >> i) & 1 == 1).map(|i| p << i);
    terms.fold(0, |sum, term| sum ^ term)
}

/// The remainder of a list of bits, highest power first, after long division by
/// the generator.
///
/// The register holds the powers 87 to 0 in its upper 88 bits. A step moves it
/// up by one power; the bit that leaves it is the coefficient of power 88, and
/// where that is one the generator, whose own leading bit is out of sight, is
/// subtracted.
pub fn remainder(bits: impl Iterator<Item = bool>) -> u128 {
    const UNUSED: u32 = u128::BITS - PARITY as u32;
    let generator = generator() << UNUSED;
    let step = |rest: u128, bit| {
        let all_or_none = ((rest as i128) >> (u128::BITS - 1)) as u128;
        (rest << 1) ^ (u128::from(bit) << UNUSED) ^ (generator & all_or_none)
    };
    bits.fold(0, step) >> UNUSED
}

/// The parity bits of data: the remainder of the data moved up by 88 powers.
pub fn parity(data: &[bool]) -> Vec<bool> {
    let rest = remainder(data.iter().copied().chain([false; PARITY]));
    (0..PARITY).rev().map(|i| (rest >> i) & 1 == 1).collect()
}

/// Does the generator divide the word?
pub fn is_code_word(word: &[bool]) -> bool {
    remainder(word.iter().copied()) == 0
}

/// The code word of 2,040 places within eight places, and how many data places
/// and parity places are changed; nothing if there is none.
///
/// If there is one, the word differs from it in v places, v at most eight; the
/// shortest recurrence of the syndromes then has length v, and its polynomial
/// is their locator, with v roots at places of the word. In other cases one of
/// the tests below fails.
pub fn correct(word: &[bool]) -> Option<(Vec<bool>, Changes)> {
    let rest = remainder(word.iter().copied());
    if rest == 0 {
        return Some((word.to_vec(), Changes::default()));
    }
    let (locator, errors) = shortest_recurrence(&syndromes(rest));
    if errors > RADIUS {
        return None;
    }
    let roots = poly::chien_search::<FieldB>(&locator[..=RADIUS], LENGTH);
    if roots.len() != errors {
        return None;
    }
    let (mut candidate, mut changes) = (word.to_vec(), Changes::default());
    for root in roots {
        candidate[root.place] = !candidate[root.place];
        changes.add(root.place);
    }
    is_code_word(&candidate).then_some((candidate, changes))
}

/// The values at a^1 to a^16 of a word, from its remainder: the generator is
/// zero at these points. Over binary coefficients the value at a^2j is the
/// square of that at a^j.
fn syndromes(rest: u128) -> [u32; SYNDROMES] {
    let mut values = [0; SYNDROMES];
    for j in (1..SYNDROMES).step_by(2) {
        let step = |value, i| FieldB::times_power(value, j as u32) ^ ((rest >> i) & 1) as u32;
        values[j - 1] = (0..PARITY).rev().fold(0, step);
    }
    for j in (2..=SYNDROMES).step_by(2) {
        values[j - 1] = FieldB::multiply(values[j / 2 - 1], values[j / 2 - 1]);
    }
    values
}

/// The algorithm of Berlekamp and Massey: the connection polynomial of the
/// shortest linear recurrence of the syndromes, and its length.
///
/// After n syndromes, `current` produces them with length `length`. `before` is
/// the polynomial from ahead of the last change of length, `discrepancy_before`
/// the discrepancy that led to this change, `gap` the steps since.
fn shortest_recurrence(syndromes: &[u32; SYNDROMES]) -> ([u32; SYNDROMES + 1], usize) {
    let mut current = [0; SYNDROMES + 1];
    current[0] = 1;
    let mut before = current;
    let (mut length, mut gap, mut discrepancy_before) = (0, 1, 1);
    for n in 0..SYNDROMES {
        let terms = (0..=length).map(|i| FieldB::multiply(current[i], syndromes[n - i]));
        let discrepancy = terms.fold(0, |sum, term| sum ^ term);
        if discrepancy != 0 {
            let factor = FieldB::multiply(discrepancy, FieldB::inverse(discrepancy_before));
            let mut next = current;
            for (coefficient, &c) in next[gap..].iter_mut().zip(&before) {
                *coefficient ^= FieldB::multiply(c, factor);
            }
            if 2 * length <= n {
                (before, discrepancy_before, gap) = (current, discrepancy, 0);
                length = n + 1 - length;
            }
            current = next;
        }
        gap += 1;
    }
    (current, length)
}
