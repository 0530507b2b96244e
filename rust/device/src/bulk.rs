//! A device behind USB bulk endpoints, seen through a library that reads transfers.
use crate::{Device, Rng};
use std::io::{self, ErrorKind, Read, Write};

/// Reads give whole packets of up to `size` bytes, as many as there is room for; a shorter packet ends a read. Behind a piece that is a multiple of `size` the
/// device sends an empty packet, if it sends any. A read without room for the next packet fails and loses it, as on the wire.
pub struct Bulk {
    pub device: Device,
    size: usize,
    /// an empty packet ends each piece that is a multiple of a packet
    sends_empty: bool,
    /// the next packet is an empty one
    empty: bool,
    rng: Rng,
    /// empty packets that were read, packets that had no room
    pub empties: u64,
    pub overflows: u64,
}

impl Bulk {
    pub fn new(device: Device, size: usize, sends_empty: bool, seed: u64) -> Bulk {
        Bulk { device, size, sends_empty, empty: false, rng: Rng::new(seed), empties: 0, overflows: 0 }
    }
}

impl Read for Bulk {
    fn read(&mut self, to: &mut [u8]) -> io::Result<usize> {
        if std::mem::take(&mut self.empty) {
            self.empties += 1;
            return Ok(0);
        }
        // a hub may end a read after any packet
        let packets = if self.rng.chance(256) { 1 + self.rng.below(4) as usize } else { usize::MAX };
        let mut filled = 0;
        for _ in 0..packets {
            let mut packet = vec![0; self.size];
            if filled > 0 && to.len() - filled < self.size {
                break;
            }
            let Some((n, ended)) = self.device.say_of_one(&mut packet) else { break };
            if n > to.len() - filled {
                self.overflows += 1;
                return Err(io::Error::other("a packet had no room"));
            }
            to[filled..filled + n].copy_from_slice(&packet[..n]);
            filled += n;
            if ended {
                let full = n == self.size && self.sends_empty;
                // with room left, the empty packet ends this read; else the next one
                self.empty = full && to.len() - filled < self.size;
                break;
            }
        }
        match filled {
            0 => Err(io::Error::new(ErrorKind::TimedOut, "the device says nothing")),
            n => Ok(n),
        }
    }
}

impl Write for Bulk {
    fn write(&mut self, bytes: &[u8]) -> io::Result<usize> {
        self.device.hear(bytes);
        Ok(bytes.len())
    }
    fn flush(&mut self) -> io::Result<()> {
        Ok(())
    }
}
