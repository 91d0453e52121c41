//! The three binary fields.
//!
//! An element is a number whose bit i is the coefficient of z^i; a is the
//! element 2, that is z.

/// Arithmetic modulo a field polynomial of degree m. Addition is the exclusive
/// or.
pub trait Field {
    /// The powers of z that add up to the field polynomial, the highest first:
    /// m, then t, then those below.
    const POWERS: &'static [u32];
    /// The m of the field polynomial.
    const DEGREE: u32 = Self::POWERS[0];
    /// The order of a: the number of non-zero elements.
    const ORDER: usize = (1 << Self::DEGREE) - 1;
    /// Folds that bring every degree up to 30 below m, at m - t each.
    const FOLDS: u32 = (30 - Self::DEGREE) / (Self::DEGREE - Self::POWERS[1]) + 1;

    /// The remainder of a binary polynomial of degree at most 30.
    ///
    /// One fold replaces the part h z^m by h times the lower powers of the field
    /// polynomial, and so lowers a degree of m or more by at least m - t, or to
    /// below m.
    #[inline(always)]
    fn reduce(polynomial: u32) -> u32 {
        let mut rest = polynomial;
        for _ in 0..Self::FOLDS {
            let high = rest >> Self::DEGREE;
            let low = rest & ((1 << Self::DEGREE) - 1);
            rest = Self::POWERS[1..].iter().fold(low, |sum, power| sum ^ (high << power));
        }
        rest
    }

    /// The product of two elements: carry-less multiplication, then reduction.
    #[inline(always)]
    fn multiply(x: u32, y: u32) -> u32 {
        let mut product = 0;
        for i in 0..Self::DEGREE {
            let all_or_none = 0u32.wrapping_sub((y >> i) & 1);
            product ^= (x << i) & all_or_none;
        }
        Self::reduce(product)
    }

    /// x times a^n, for n up to 20: the polynomial moves up by n.
    #[inline(always)]
    fn times_power(x: u32, n: u32) -> u32 {
        debug_assert!(n <= 20);
        Self::reduce(x << n)
    }

    /// x^n by squaring and multiplying.
    fn power(x: u32, n: usize) -> u32 {
        let (mut result, mut square, mut left) = (1, x, n);
        while left > 0 {
            if left % 2 == 1 {
                result = Self::multiply(result, square);
            }
            square = Self::multiply(square, square);
            left /= 2;
        }
        result
    }

    /// a^n.
    fn alpha(n: usize) -> u32 {
        Self::power(2, n % Self::ORDER)
    }

    /// The inverse of a non-zero element: x^ORDER is 1 for each of them.
    fn inverse(x: u32) -> u32 {
        debug_assert!(x != 0);
        Self::power(x, Self::ORDER - 1)
    }
}

/// Field A, of the outer code: z^10 + z^3 + 1.
pub struct FieldA;

impl Field for FieldA {
    const POWERS: &'static [u32] = &[10, 3, 0];
}

/// Field B, of the inner code: z^11 + z^2 + 1.
pub struct FieldB;

impl Field for FieldB {
    const POWERS: &'static [u32] = &[11, 2, 0];
}

/// Field C, of the words of G.709 rows: z^8 + z^4 + z^3 + z^2 + 1.
pub struct FieldC;

impl Field for FieldC {
    const POWERS: &'static [u32] = &[8, 4, 3, 2, 0];
}
