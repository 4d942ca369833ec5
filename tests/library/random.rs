//! Numbers for tests and measurements.
#![allow(dead_code)]

/// Numbers from a fuzzer's bytes while they last, then by splitmix64. The same bytes and the same seed give the same numbers, everywhere.
pub struct Random {
    bytes: std::vec::IntoIter<u8>,
    state: u64,
}

impl Random {
    pub fn seeded(seed: u64) -> Self {
        Random { bytes: Vec::new().into_iter(), state: seed }
    }
    pub fn from_bytes(bytes: &[u8]) -> Self {
        Random { bytes: bytes.to_vec().into_iter(), state: 0 }
    }
    fn splitmix(&mut self) -> u64 {
        self.state = self.state.wrapping_add(0x9E3779B97F4A7C15);
        let mut z = self.state;
        z = (z ^ (z >> 30)).wrapping_mul(0xBF58476D1CE4E5B9);
        z = (z ^ (z >> 27)).wrapping_mul(0x94D049BB133111EB);
        z ^ (z >> 31)
    }
    /// A number of `count` bytes of the fuzzer's, or of all 64 bits where they have run out.
    fn number(&mut self, count: usize) -> u64 {
        if self.bytes.len() < count {
            return self.splitmix();
        }
        self.bytes.by_ref().take(count).fold(0, |number, byte| number << 8 | byte as u64)
    }
    pub fn next(&mut self) -> u64 {
        self.number(8)
    }
    /// A number below n, from as few bytes as n needs.
    pub fn below(&mut self, n: u64) -> u64 {
        let count = if n <= 1 << 8 { 1 } else if n <= 1 << 16 { 2 } else { 8 };
        self.number(count) % n.max(1)
    }
    pub fn one_in(&mut self, n: u64) -> bool {
        self.below(n) == 0
    }
    pub fn pick<T: Copy>(&mut self, of: &[T]) -> T {
        of[self.below(of.len() as u64) as usize]
    }
}
