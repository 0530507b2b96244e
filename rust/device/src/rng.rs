//! Numbers at random, from a seed (splitmix64).

#[derive(Clone, Debug)]
pub struct Rng(u64);

/// One number for each number, each bit of which depends on all of the other's.
pub fn mix(z: u64) -> u64 {
    let z = (z ^ (z >> 30)).wrapping_mul(0xbf58_476d_1ce4_e5b9);
    let z = (z ^ (z >> 27)).wrapping_mul(0x94d0_49bb_1331_11eb);
    z ^ (z >> 31)
}

impl Rng {
    pub fn new(seed: u64) -> Rng {
        Rng(seed)
    }

    pub fn number(&mut self) -> u64 {
        self.0 = self.0.wrapping_add(0x9e37_79b9_7f4a_7c15);
        mix(self.0)
    }

    /// Below n, which is not 0.
    pub fn below(&mut self, n: u64) -> u64 {
        self.number() % n
    }

    /// Of 1,024 times, so many.
    pub fn chance(&mut self, of_1024: u32) -> bool {
        of_1024 > 0 && self.below(1024) < of_1024.into()
    }

    pub fn fill(&mut self, bytes: &mut [u8]) {
        for part in bytes.chunks_mut(8) {
            part.copy_from_slice(&self.number().to_le_bytes()[..part.len()]);
        }
    }

    /// From 1 to n, which is not 0: often short, often all, else anything.
    pub fn piece(&mut self, n: usize) -> usize {
        match self.below(4) {
            0 => n.min(1 + self.below(8) as usize),
            1 => n,
            _ => 1 + self.below(n as u64) as usize,
        }
    }
}
