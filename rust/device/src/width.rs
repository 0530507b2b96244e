//! The two kinds of boards.
use crate::{packet, packet64};

/// How wide the addresses and lengths of a board are, in its memory debug and in the entries of its table.
#[derive(Clone, Copy, Debug, PartialEq, Eq)]
pub enum Width {
    /// an older board: MemDebug, MemRead
    Bits32,
    /// MemDebug64, MemRead64
    Bits64,
}

impl Width {
    pub const BOTH: [Width; 2] = [Width::Bits32, Width::Bits64];

    /// Each of these with each width.
    pub fn with_both<T: Clone>(cases: impl IntoIterator<Item = T>) -> impl Iterator<Item = (T, Width)> {
        cases.into_iter().flat_map(|case| Width::BOTH.map(|width| (case.clone(), width)))
    }

    pub fn bits(self) -> u32 {
        match self {
            Width::Bits32 => 32,
            Width::Bits64 => 64,
        }
    }

    /// The bytes of a number.
    pub fn number_len(self) -> usize {
        self.bits() as usize / 8
    }

    /// The bytes of a table's entry: three numbers and two texts.
    pub fn entry_len(self) -> usize {
        3 * self.number_len() + 40
    }

    /// The bytes of a memory debug and of a memory read.
    pub fn packet_len(self) -> usize {
        8 + 2 * self.number_len()
    }

    /// The address in the middle.
    pub fn half(self) -> u64 {
        1 << (self.bits() - 1)
    }

    /// The address so many bytes, and at least one, before the end of all addresses.
    pub fn end_less(self, n: u64) -> u64 {
        self.half() - n + self.half()
    }

    /// The packet by which a board offers the memory whose table is there.
    pub fn mem_debug(self, at: u64, len: u64) -> Vec<u8> {
        self.packet([0x09, 0x10], at, len)
    }

    /// The packet by which a host asks for memory.
    pub fn mem_read(self, at: u64, len: u64) -> Vec<u8> {
        self.packet([0x0a, 0x11], at, len)
    }

    /// How each of these begins: its command and its length.
    pub fn mem_read_head(self) -> [u8; 8] {
        match self {
            Width::Bits32 => [0x0a, 0, 0, 0, 16, 0, 0, 0],
            Width::Bits64 => [0x11, 0, 0, 0, 24, 0, 0, 0],
        }
    }

    fn packet(self, commands: [u32; 2], at: u64, len: u64) -> Vec<u8> {
        let word = |n: u64| n.try_into().expect("a number of 32 bits");
        match self {
            Width::Bits32 => packet(commands[0], &[word(at), word(len)]),
            Width::Bits64 => packet64(commands[1], &[at, len]),
        }
    }
}
