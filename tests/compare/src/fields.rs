//! Products in the three fields: every pair of elements, factors past a field's size, and chains.

use crate::Done;
use cases::random::Random;
use second::{Exponents, Field, FieldA, FieldB, FieldC};
use wrapper::fields::{products_a, products_b, products_c};

/// The library's chain of products in a field.
type Chain = fn(u16, u16, u32) -> u16;

const fn size<F: Field>() -> u64 {
    F::ORDER as u64 + 1
}

/// A case is one element times all others; the elements of the three fields one after the other.
pub const ELEMENTS: u64 = size::<FieldA>() + size::<FieldB>() + size::<FieldC>();

pub fn products(random: &mut Random, number: u64) -> Result<Done, String> {
    let in_a = size::<FieldA>();
    let in_b = in_a + size::<FieldB>();
    match number {
        n if n < in_a => multiples::<FieldA>(random, n as u32, products_a),
        n if n < in_b => multiples::<FieldB>(random, (n - in_a) as u32, products_b),
        n => multiples::<FieldC>(random, (n - in_b) as u32, products_c),
    }?;
    Ok(Done { answer: 0, damaged: false })
}

/// x times each element, by the library, by the second's exponents and by its multiplication.
fn multiples<F: Field>(random: &mut Random, x: u32, library: Chain) -> Result<(), String> {
    let exponents = Exponents::<F>::new();
    for y in 0..size::<F>() as u32 {
        let (found, expected) = (library(x as u16, y as u16, 1), F::multiply(x, y));
        if u32::from(found) != expected || exponents.product(x, y) != expected {
            return Err(format!("{x} times {y}: the library {found}, the second {expected} and by exponents {}", exponents.product(x, y)));
        }
    }
    (0..64).try_for_each(|_| chain::<F>(random, x, library))
}

/// A chain of up to forty products, whose factors are any numbers of 16 bits: the first has x as its low bits.
fn chain<F: Field>(random: &mut Random, x: u32, library: Chain) -> Result<(), String> {
    let low = |value: u32| value & F::ORDER as u32;
    let first = x + (random.below(65_536) as u32 & !(F::ORDER as u32));
    let (second, n) = (random.below(65_536) as u32, random.below(41) as u32);
    let expected = (0..n).fold(first, |value, _| F::multiply(low(value), low(second)));
    let found = library(first as u16, second as u16, n);
    if u32::from(found) == expected {
        Ok(())
    } else {
        Err(format!("{first} times {second}, {n} times over: the library {found}, the second {expected}"))
    }
}
