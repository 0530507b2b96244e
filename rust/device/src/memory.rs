//! A device's memory: a function from addresses to bytes, with a table of regions in it.
use crate::{mix, Rng, Width};
use std::sync::Arc;

/// What an entry of the memory table says.
#[derive(Clone, Copy, Debug, PartialEq, Eq)]
pub struct Region {
    pub save_pref: u64,
    pub base: u64,
    pub len: u64,
    pub description: [u8; 20],
    pub filename: [u8; 20],
}

/// Text in 20 bytes, zeros behind it; cut where it is longer.
pub fn padded(text: &[u8]) -> [u8; 20] {
    let mut f = [0; 20];
    let n = text.len().min(20);
    f[..n].copy_from_slice(&text[..n]);
    f
}

impl Region {
    pub fn new(filename: impl AsRef<[u8]>, base: u64, len: u64) -> Region {
        Region { save_pref: 1, base, len, description: padded(b"region"), filename: padded(filename.as_ref()) }
    }

    /// Not dumped unless it is named.
    pub fn unpreferred(self) -> Region {
        Region { save_pref: 0, ..self }
    }

    /// Its line in a region sheet.
    pub fn line(&self) -> String {
        let name = self.filename.split(|b| *b == 0).next().unwrap_or_default();
        let name: String = name.iter().map(|b| if (0x20..0x7f).contains(b) { *b as char } else { '?' }).collect();
        let mark = if self.save_pref == 0 { ' ' } else { '*' };
        format!("{name:<20} {:016X} {:016X} {mark}\n", self.base, self.len)
    }

    /// The entry in a table of this width.
    pub fn bytes(&self, width: Width) -> Vec<u8> {
        let mut e = Vec::with_capacity(width.entry_len());
        for n in [self.save_pref, self.base, self.len] {
            assert_eq!(n >> (width.bits() - 1) >> 1, 0, "a number that is wider than {width:?}");
            e.extend(&n.to_le_bytes()[..width.number_len()]);
        }
        e.extend(self.description);
        e.extend(self.filename);
        e
    }
}

// A prime, so that bytes taken from a wrong place show: chunks and blocks are of other lengths.
const PERIOD: usize = 65_521;

#[derive(Clone, Debug)]
enum Fill {
    /// twice the period, so that a stretch of it lies in one piece
    Pattern(Arc<Vec<u8>>),
    /// of each address its own byte, by this seed
    Mixed(u64),
}

/// Bytes at random, and the table at its address.
#[derive(Clone, Debug)]
pub struct Memory {
    width: Width,
    fill: Fill,
    table_at: u64,
    table: Vec<u8>,
}

/// Of 64 bits, unless it is said.
impl Memory {
    /// Bytes that repeat after 65,521 addresses.
    pub fn new(seed: u64, table_at: u64, regions: &[Region]) -> Memory {
        Memory::of(Width::Bits64, seed, table_at, regions)
    }

    /// The same of this width.
    pub fn of(width: Width, seed: u64, table_at: u64, regions: &[Region]) -> Memory {
        let table = regions.iter().flat_map(|r| r.bytes(width)).collect();
        Memory::with_table(seed, table_at, table).wide(width)
    }

    pub fn with_table(seed: u64, table_at: u64, table: Vec<u8>) -> Memory {
        let mut pattern = vec![0; PERIOD];
        Rng::new(seed).fill(&mut pattern);
        pattern.extend_from_within(..);
        Memory { width: Width::Bits64, fill: Fill::Pattern(Arc::new(pattern)), table_at, table }
    }

    /// Bytes that do not repeat. It costs little to make and much to read.
    pub fn mixed(seed: u64, table_at: u64, table: Vec<u8>) -> Memory {
        Memory { width: Width::Bits64, fill: Fill::Mixed(seed), table_at, table }
    }

    pub fn empty() -> Memory {
        Memory { width: Width::Bits64, fill: Fill::Pattern(Arc::new(vec![0; 2 * PERIOD])), table_at: 0, table: Vec::new() }
    }

    /// The memory of a board of this width.
    pub fn wide(self, width: Width) -> Memory {
        Memory { width, ..self }
    }

    pub fn width(&self) -> Width {
        self.width
    }

    pub fn table_at(&self) -> u64 {
        self.table_at
    }

    pub fn table_len(&self) -> u64 {
        self.table.len() as u64
    }

    pub fn table(&self) -> &[u8] {
        &self.table
    }

    /// The bytes at an address. Addresses wrap at 2^64, whatever the width.
    pub fn read(&self, at: u64, to: &mut [u8]) {
        match &self.fill {
            Fill::Pattern(pattern) => repeat(pattern, at, to),
            Fill::Mixed(seed) => (0..).zip(to.iter_mut()).for_each(|(i, b)| *b = mix(at.wrapping_add(i) ^ seed) as u8),
        }
        self.overlay(at, to);
    }

    // The table's bytes, where they are among those of `to`.
    fn overlay(&self, at: u64, to: &mut [u8]) {
        let begin = self.table_at.wrapping_sub(at);
        if begin < to.len() as u64 {
            let begin = begin as usize;
            let n = self.table.len().min(to.len() - begin);
            to[begin..begin + n].copy_from_slice(&self.table[..n]);
        }
        let into = at.wrapping_sub(self.table_at);
        if into < self.table.len() as u64 {
            let into = into as usize;
            let n = to.len().min(self.table.len() - into);
            to[..n].copy_from_slice(&self.table[into..into + n]);
        }
    }

    pub fn bytes(&self, at: u64, len: usize) -> Vec<u8> {
        let mut bytes = vec![0; len];
        self.read(at, &mut bytes);
        bytes
    }
}

fn repeat(pattern: &[u8], at: u64, to: &mut [u8]) {
    let mut from = 0;
    while from < to.len() {
        let here = at.wrapping_add(from as u64);
        // no stretch passes the last address
        let rest = (to.len() - from).min(PERIOD).min((u64::MAX - here).saturating_add(1).min(PERIOD as u64) as usize);
        let place = (here % PERIOD as u64) as usize;
        to[from..from + rest].copy_from_slice(&pattern[place..place + rest]);
        from += rest;
    }
}
