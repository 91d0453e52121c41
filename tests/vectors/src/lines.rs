//! How values are shown in a line.

use std::fmt::Display;

/// A number that tells lists apart.
pub fn digest(values: &[u16]) -> u64 {
    values.iter().fold(0, |h, &value| (257 * h + u64::from(value) + 1) % 1_000_000_007)
}

/// Numbers, each after a space.
pub fn list<T: Display>(numbers: &[T]) -> String {
    numbers.iter().map(|number| format!(" {number}")).collect()
}

/// A short list as it is; a longer one by its digest, and how many nines it has.
pub fn buffer(values: &[u16]) -> String {
    if values.len() <= 17 {
        list(values)
    } else {
        format!(" {} {}", digest(values), values.iter().filter(|&&value| value == 9).count())
    }
}
