//! The packets that a device says, and those that it hears in a dump.
use crate::Width;

/// A command, the length of the whole, and words of 4 bytes.
pub fn packet(command: u32, words: &[u32]) -> Vec<u8> {
    let len = 8 + 4 * words.len() as u32;
    [command, len].iter().chain(words).flat_map(|w| w.to_le_bytes()).collect()
}

/// The same with words of 8 bytes.
pub fn packet64(command: u32, words: &[u64]) -> Vec<u8> {
    let halves: Vec<u32> = words.iter().flat_map(|w| [*w as u32, (w >> 32) as u32]).collect();
    packet(command, &halves)
}

/// A packet whose length field is given, whatever its body is.
pub fn framed(command: u32, len: u32, body: &[u8]) -> Vec<u8> {
    [&command.to_le_bytes(), &len.to_le_bytes(), body].concat()
}

pub fn hello(mode: u32) -> Vec<u8> {
    packet(1, &[2, 1, 4096, mode, 0, 0, 0, 0, 0, 0])
}

pub fn read_data(id: u32, offset: u32, len: u32) -> Vec<u8> {
    packet(3, &[id, offset, len])
}

pub fn read_data64(id: u64, offset: u64, len: u64) -> Vec<u8> {
    packet64(0x12, &[id, offset, len])
}

pub fn end_of_image(id: u32, status: u32) -> Vec<u8> {
    packet(4, &[id, status])
}

pub fn done_resp(status: u32) -> Vec<u8> {
    packet(6, &[status])
}

pub fn reset_resp() -> Vec<u8> {
    packet(8, &[])
}

pub fn command_ready() -> Vec<u8> {
    packet(0x0b, &[])
}

pub fn execute_resp(command: u32, len: u32) -> Vec<u8> {
    packet(0x0e, &[command, len])
}

pub fn mem_debug64(at: u64, len: u64) -> Vec<u8> {
    Width::Bits64.mem_debug(at, len)
}

/// The address and length of a memory read of either width.
pub fn mem_read(packet: &[u8]) -> Option<(u64, u64)> {
    let width = Width::BOTH.into_iter().find(|w| packet.len() == w.packet_len() && packet[..8] == w.mem_read_head())?;
    let word = |at: usize| u32::from_le_bytes(packet[at..at + 4].try_into().unwrap()).into();
    let long = |at: usize| u64::from_le_bytes(packet[at..at + 8].try_into().unwrap());
    Some(match width {
        Width::Bits32 => (word(8), word(12)),
        Width::Bits64 => (long(8), long(16)),
    })
}
