//! Polynomials over a field, and the search for the roots of an error locator.
//!
//! A polynomial is the list of its coefficients, the one of power 0 first,
//! without zeros at the end. The zero polynomial is the empty list.

use crate::field::Field;

/// Takes the zeros off the end of a list of coefficients.
pub fn trim(mut coefficients: Vec<u32>) -> Vec<u32> {
    while coefficients.last() == Some(&0) {
        coefficients.pop();
    }
    coefficients
}

/// The value at a point, by Horner's rule.
pub fn evaluate<F: Field>(polynomial: &[u32], point: u32) -> u32 {
    let step = |value, &coefficient: &u32| F::multiply(value, point) ^ coefficient;
    polynomial.iter().rev().fold(0, step)
}

/// The sum.
pub fn add(p: &[u32], q: &[u32]) -> Vec<u32> {
    let (long, short) = if p.len() < q.len() { (q, p) } else { (p, q) };
    let mut sum = long.to_vec();
    for (s, &c) in sum.iter_mut().zip(short) {
        *s ^= c;
    }
    trim(sum)
}

/// The product.
pub fn multiply<F: Field>(p: &[u32], q: &[u32]) -> Vec<u32> {
    let mut product = vec![0; p.len() + q.len()];
    for (i, &x) in p.iter().enumerate() {
        for (j, &y) in q.iter().enumerate() {
            product[i + j] ^= F::multiply(x, y);
        }
    }
    trim(product)
}

/// Quotient and remainder. The divisor is not zero, and the degree of the
/// dividend is not below that of the divisor.
pub fn divide<F: Field>(dividend: &[u32], divisor: &[u32]) -> (Vec<u32>, Vec<u32>) {
    let degree = divisor.len() - 1;
    let lead_inverse = F::inverse(divisor[degree]);
    let mut rest = dividend.to_vec();
    let mut quotient = vec![0; dividend.len() - degree];
    for shift in (0..quotient.len()).rev() {
        let factor = F::multiply(rest[shift + degree], lead_inverse);
        quotient[shift] = factor;
        for (i, &c) in divisor.iter().enumerate() {
            rest[shift + i] ^= F::multiply(c, factor);
        }
    }
    (trim(quotient), trim(rest))
}

/// The product of x + r over the given roots r.
pub fn from_roots<F: Field>(roots: impl Iterator<Item = u32>) -> Vec<u32> {
    roots.fold(vec![1], |product, root| multiply::<F>(&product, &[root, 1]))
}

/// The derivative. In characteristic 2 a term of even power vanishes, and the
/// factor of an odd one is 1.
pub fn derivative(polynomial: &[u32]) -> Vec<u32> {
    let odd_only = |(i, &c): (usize, &u32)| if i % 2 == 1 { c } else { 0 };
    trim(polynomial.iter().enumerate().skip(1).map(odd_only).collect())
}

/// A root of an error locator.
pub struct Root {
    /// Index in the word; index 0 has the highest power.
    pub place: usize,
    /// a^-j, where j is the power at that place.
    pub point: u32,
}

/// Most terms that a locator given to `chien_search` may have.
const TERMS: usize = 9;

/// The places of a word of `length` whose points are roots of the locator, a
/// polynomial of degree at most eight.
///
/// The place 0 has the power length - 1, and thus the point a^(ORDER + 1 -
/// length). From place to place the point is multiplied by a, hence the term of
/// power i by a^i. The powers from `length` on, which a shortened word omits,
/// are never looked at.
pub fn chien_search<F: Field>(locator: &[u32], length: usize) -> Vec<Root> {
    let mut point = F::alpha(F::ORDER + 1 - length);
    let mut terms = [0; TERMS];
    for (i, &coefficient) in locator.iter().enumerate() {
        terms[i] = F::multiply(coefficient, F::power(point, i));
    }
    let mut roots = Vec::new();
    for place in 0..length {
        if terms.iter().fold(0, |sum, term| sum ^ term) == 0 {
            roots.push(Root { place, point });
        }
        point = F::times_power(point, 1);
        for (i, term) in terms.iter_mut().enumerate() {
            *term = F::times_power(*term, i as u32);
        }
    }
    roots
}
