//! Random numbers that depend on nothing but their seed (splitmix64).

pub struct Random(pub u64);

impl Random {
    /// The numbers of one case: its seed, the name of its group and its own number.
    pub fn of_case(seed: u64, group: &str, number: u64) -> Random {
        let name = group.bytes().fold(seed, |h, b| (h ^ b as u64).wrapping_mul(0x0000_0100_0000_01B3));
        let mut random = Random(name);
        random.0 = random.next() ^ number;
        random.0 = random.next();
        random
    }

    pub fn next(&mut self) -> u64 {
        self.0 = self.0.wrapping_add(0x9E37_79B9_7F4A_7C15);
        let mut x = self.0;
        x = (x ^ (x >> 30)).wrapping_mul(0xBF58_476D_1CE4_E5B9);
        x = (x ^ (x >> 27)).wrapping_mul(0x94D0_49BB_1331_11EB);
        x ^ (x >> 31)
    }

    pub fn below(&mut self, n: usize) -> usize {
        ((self.next() as u128 * n as u128) >> 64) as usize
    }

    /// From low to high, both included.
    pub fn from(&mut self, low: usize, high: usize) -> usize {
        low + self.below(high - low + 1)
    }

    pub fn chance(&mut self, one_in: usize) -> bool {
        self.below(one_in) == 0
    }

    pub fn bytes(&mut self, n: usize) -> Vec<u8> {
        let mut bytes = Vec::with_capacity(n + 8);
        while bytes.len() < n {
            bytes.extend(self.next().to_le_bytes());
        }
        bytes.truncate(n);
        bytes
    }

    pub fn symbols(&mut self, n: usize) -> Vec<u16> {
        (0..n).map(|_| self.below(1024) as u16).collect()
    }

    /// n different numbers below `below`, in any order.
    pub fn choose(&mut self, n: usize, below: usize) -> Vec<usize> {
        let mut chosen = Vec::with_capacity(n);
        while chosen.len() < n {
            let next = self.below(below);
            if !chosen.contains(&next) {
                chosen.push(next);
            }
        }
        chosen
    }
}
