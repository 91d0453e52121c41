//! Products by exponents, without division.
//!
//! Each non-zero element is a power of a, and exponents are below the order of
//! a. A product of two of them has the sum of their exponents, less the order if
//! the sum reaches it.

use crate::field::Field;
use std::marker::PhantomData;

/// The tables of a field.
pub struct Exponents<F: Field> {
    /// Entry i is a^i, for i below the order.
    pub(crate) powers: Vec<u32>,
    /// Entry x is the exponent of x. Entry 0 is never read: 0 is no power.
    pub(crate) exponents: Vec<usize>,
    field: PhantomData<F>,
}

impl<F: Field> Exponents<F> {
    /// Makes both tables: each power is a times the one before it.
    pub fn new() -> Self {
        let mut powers = Vec::with_capacity(F::ORDER);
        let mut exponents = vec![0; F::ORDER + 1];
        let mut power = 1;
        for exponent in 0..F::ORDER {
            powers.push(power);
            exponents[power as usize] = exponent;
            power = F::times_power(power, 1);
        }
        Exponents { powers, exponents, field: PhantomData }
    }

    /// The product of two elements. The sum of two exponents is below twice the
    /// order, so one subtraction brings it below the order.
    pub fn product(&self, x: u32, y: u32) -> u32 {
        if x == 0 || y == 0 {
            return 0;
        }
        let sum = self.exponent_sum(x, y);
        let exponent = if sum < F::ORDER { sum } else { sum - F::ORDER };
        self.powers[exponent]
    }

    /// The sum of the exponents of two non-zero elements, before the comparison
    /// with the order.
    pub fn exponent_sum(&self, x: u32, y: u32) -> usize {
        debug_assert!(x != 0 && y != 0);
        self.exponents[x as usize] + self.exponents[y as usize]
    }
}
