//! The simulated device's packets, with numbers and bodies as conversations have them.
use crate::talk::{long, word};
use device::Region;
pub use device::{
    command_ready, done_resp, end_of_image, execute_resp, framed, hello, mem_debug64, mem_read, packet, padded, read_data64,
    reset_resp, Width,
};

/// Numbers of 8 bytes, cut to the 4 of the packet.
pub fn read_data(id: u64, offset: u64, len: u64) -> Vec<u8> {
    device::read_data(id as u32, offset as u32, len as u32)
}

pub fn entry(preference: u64, base: u64, len: u64, name: &[u8; 20]) -> Vec<u8> {
    Region { save_pref: preference, base, len, description: *b"described in 20 byte", filename: *name }.bytes(Width::Bits64)
}

/// An entry's base, length and filename.
pub fn parts(width: Width, e: &[u8]) -> (u64, u64, &[u8]) {
    match width {
        Width::Bits32 => (word(e, 4).into(), word(e, 8).into(), &e[32..52]),
        Width::Bits64 => (long(e, 8), long(e, 16), &e[44..64]),
    }
}
