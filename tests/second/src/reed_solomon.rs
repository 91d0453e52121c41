//! Reed-Solomon codes with sixteen parity symbols, over any of the fields.
//!
//! A word is a list of symbols, the one of the highest power first. A code takes
//! words of any length from 17 to the order of its field. The generator has the
//! roots a^0 to a^15, so two code words of one length differ in at least 17
//! symbols, and at most one lies within eight of a given word.

use crate::field::{Field, FieldA, FieldC};
use crate::poly;
use std::marker::PhantomData;
use std::ops::RangeInclusive;
use std::sync::OnceLock;

/// Parity symbols of a word: the roots of the generator.
pub const PARITY: usize = 16;
/// Symbols that can be corrected.
const RADIUS: usize = PARITY / 2;

/// The code over a field.
pub struct Code<F: Field> {
    generator: OnceLock<[u32; PARITY]>,
    field: PhantomData<F>,
}

/// The outer code of I.4 frames.
pub static OUTER: Code<FieldA> = Code::new();
/// The code of the words of G.709 rows.
pub static G709: Code<FieldC> = Code::new();

impl<F: Field> Code<F> {
    const fn new() -> Code<F> {
        Code { generator: OnceLock::new(), field: PhantomData }
    }

    /// Lengths of a word.
    pub fn lengths(&self) -> RangeInclusive<usize> {
        PARITY + 1..=F::ORDER
    }

    /// The largest symbol.
    pub fn max_symbol(&self) -> u16 {
        F::ORDER as u16
    }

    /// The coefficients of the generator, the one of power 15 first; that of
    /// power 16 is 1 and left out.
    fn generator(&self) -> &[u32; PARITY] {
        self.generator.get_or_init(|| {
            let product = poly::from_roots::<F>((0..PARITY).map(F::alpha));
            std::array::from_fn(|i| product[PARITY - 1 - i])
        })
    }

    /// The parity symbols of data: the remainder, after long division by the
    /// generator, of the data moved up by sixteen powers.
    pub fn parity(&self, data: &[u16]) -> [u16; PARITY] {
        let generator = self.generator();
        let mut rest = [0; PARITY];
        for &symbol in data {
            let lead = rest[0] ^ u32::from(symbol);
            rest.copy_within(1.., 0);
            rest[PARITY - 1] = 0;
            for (r, &g) in rest.iter_mut().zip(generator) {
                *r ^= F::multiply(g, lead);
            }
        }
        rest.map(|symbol| symbol as u16)
    }

    /// Is the word zero at all roots of the generator?
    pub fn is_code_word(&self, word: &[u16]) -> bool {
        syndromes::<F>(word) == [0; PARITY]
    }

    /// The code word of the same length within eight symbols, and the number of
    /// symbols changed; nothing if there is none.
    ///
    /// If there is one, the word differs from it in v symbols, v at most eight,
    /// and the Euclidean algorithm gives their locator, of degree v, which has
    /// all its roots at places of the word: these are then the symbols that are
    /// changed. What it gives in other cases does not pass one of the tests
    /// below.
    pub fn correct(&self, word: &[u16]) -> Option<(Vec<u16>, usize)> {
        let syndromes = syndromes::<F>(word);
        if syndromes == [0; PARITY] {
            return Some((word.to_vec(), 0));
        }
        let (locator, evaluator) = solve_key_equation::<F>(&syndromes);
        let roots = poly::chien_search::<F>(&locator, word.len());
        if roots.len() != locator.len() - 1 {
            return None;
        }
        let mut candidate = word.to_vec();
        for root in roots {
            candidate[root.place] ^= error_value::<F>(&locator, &evaluator, root.point);
        }
        let changed = word.iter().zip(&candidate).filter(|(old, new)| old != new).count();
        (changed <= RADIUS && self.is_code_word(&candidate)).then_some((candidate, changed))
    }
}

/// The values of a word at a^0 to a^15, by Horner's rule.
fn syndromes<F: Field>(word: &[u16]) -> [u32; PARITY] {
    let mut values = [0; PARITY];
    for &symbol in word {
        for (i, value) in values.iter_mut().enumerate() {
            *value = F::times_power(*value, i as u32) ^ u32::from(symbol);
        }
    }
    values
}

/// Error locator and error evaluator by Sugiyama's algorithm, up to a common
/// factor. The locator is not zero and has degree at most eight.
///
/// Euclid's algorithm on x^16 and the syndrome polynomial S, up to the first
/// remainder of degree below eight. Throughout, `rest` is `factor` times S
/// modulo x^16, and the degree of `factor` is 16 less that of `rest_before`.
fn solve_key_equation<F: Field>(syndromes: &[u32; PARITY]) -> (Vec<u32>, Vec<u32>) {
    let mut rest_before = vec![0; PARITY + 1];
    rest_before[PARITY] = 1;
    let mut rest = poly::trim(syndromes.to_vec());
    let (mut factor_before, mut factor) = (vec![], vec![1]);
    while rest.len() > RADIUS {
        let (quotient, remainder) = poly::divide::<F>(&rest_before, &rest);
        (rest_before, rest) = (rest, remainder);
        let next = poly::add(&factor_before, &poly::multiply::<F>(&quotient, &factor));
        (factor_before, factor) = (factor, next);
    }
    (factor, rest)
}

/// The error at a simple root of the locator, by Forney's formula.
///
/// The errors Y_l at the points 1/X_l give the syndromes S_i as the sums of
/// Y_l X_l^i, with i from 0 on since a^0 is the first root. So S is the sum of
/// Y_l / (1 - X_l x), and Y_l is X_l times evaluator by derivative of locator.
fn error_value<F: Field>(locator: &[u32], evaluator: &[u32], point: u32) -> u16 {
    let above = poly::evaluate::<F>(evaluator, point);
    let below = poly::evaluate::<F>(&poly::derivative(locator), point);
    F::multiply(above, F::inverse(F::multiply(point, below))) as u16
}
