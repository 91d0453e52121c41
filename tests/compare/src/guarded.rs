//! Buffers that the library is lent, with guards on both sides, and a copy of how they were.

const GUARD: usize = 32;

pub trait Element: Copy + PartialEq + std::fmt::Debug {
    const GUARDS: Self;
}

impl Element for u8 {
    const GUARDS: u8 = 0xA5;
}

impl Element for u16 {
    const GUARDS: u16 = 0xA5C3;
}

pub struct Guarded<T> {
    now: Vec<T>,
    before: Vec<T>,
}

impl<T: Element> Guarded<T> {
    pub fn new(content: &[T]) -> Guarded<T> {
        let mut now = vec![T::GUARDS; GUARD];
        now.extend_from_slice(content);
        now.extend_from_slice(&[T::GUARDS; GUARD]);
        Guarded { before: now.clone(), now }
    }

    pub fn len(&self) -> usize {
        self.now.len() - 2 * GUARD
    }

    pub fn slice(&self) -> &[T] {
        &self.now[GUARD..GUARD + self.len()]
    }

    pub fn slice_mut(&mut self) -> &mut [T] {
        let n = self.len();
        &mut self.now[GUARD..GUARD + n]
    }

    /// Every element, guards included, is as it was.
    pub fn kept(&self, name: &str) -> Result<(), String> {
        differs(name, &self.now, &self.before)
    }

    /// The guards are as they were, and the buffer holds the content.
    pub fn holds(&self, name: &str, content: &[T]) -> Result<(), String> {
        let n = self.len();
        if content.len() != n {
            return Err(format!("{name} has {n} elements, the answer {}", content.len()));
        }
        let end = GUARD + n;
        differs(&format!("what stands before {name}"), &self.now[..GUARD], &self.before[..GUARD])?;
        differs(&format!("what stands after {name}"), &self.now[end..], &self.before[end..])?;
        differs(name, self.slice(), content)
    }
}

/// Equal lists are compared at once; of others the first element that differs is looked for.
fn differs<T: Element>(name: &str, found: &[T], expected: &[T]) -> Result<(), String> {
    if found == expected {
        return Ok(());
    }
    match (0..expected.len()).find(|&i| found[i] != expected[i]) {
        None => Ok(()),
        Some(i) => Err(format!("{name}: element {i} is {:?} and should be {:?}", found[i], expected[i])),
    }
}

#[cfg(test)]
mod tests {
    use super::*;

    #[test]
    fn a_write_is_seen_inside_and_outside() {
        for i in 0..2 * GUARD + 3 {
            let mut guarded = Guarded::new(&[1u8, 2, 3]);
            assert!(guarded.kept("it").is_ok() && guarded.holds("it", &[1, 2, 3]).is_ok());
            guarded.now[i] ^= 1;
            assert!(guarded.kept("it").is_err() && guarded.holds("it", &[1, 2, 3]).is_err());
        }
    }
}
