//! What conversations draw from the simulated device's numbers: a run is repeated by its seed.
use device::Rng;

pub trait Draws {
    /// From 0 to n.
    fn upto(&mut self, n: usize) -> usize;
    fn one_in(&mut self, n: u64) -> bool;
    fn pick<T: Copy>(&mut self, of: &[T]) -> T;
    fn bytes(&mut self, n: usize) -> Vec<u8>;
}

impl Draws for Rng {
    fn upto(&mut self, n: usize) -> usize {
        self.below(n as u64 + 1) as usize
    }

    fn one_in(&mut self, n: u64) -> bool {
        self.below(n) == 0
    }

    fn pick<T: Copy>(&mut self, of: &[T]) -> T {
        of[self.below(of.len() as u64) as usize]
    }

    fn bytes(&mut self, n: usize) -> Vec<u8> {
        (0..n).map(|_| self.number() as u8).collect()
    }
}
