//! Packets, decoded and built.
use crate::{raw, Command, Mode, Refusal};

/// The six unused words of a hello.
pub type Unk = [u32; 6];

/// A packet's body, by kind; the fields have the original's names. The original has no MemDebug and MemRead.
#[derive(Clone, Copy, Debug, PartialEq, Eq)]
#[non_exhaustive]
#[allow(missing_docs)]
pub enum Body {
    /// Hello (1): a device offers a mode
    HelloReq { ver: u32, compatible: u32, max_len: u32, mode: Mode, unk: Unk },
    /// HelloResp (2): the host's answer
    HelloResp { ver: u32, compatible: u32, status: u32, mode: Mode, unk: Unk },
    /// ReadData (3): a part of an image is asked for
    ReadReq { image: u32, offset: u32, len: u32 },
    /// EndOfImage (4)
    Eoi { image: u32, status: u32 },
    /// Done (5)
    DoneReq,
    /// DoneResp (6)
    DoneResp { status: u32 },
    /// ResetResp (8)
    ResetResp,
    /// MemDebug (9): an older device offers its memory, whose table is there
    DebugReq { addr: u32, len: u32 },
    /// MemRead (0x0a): the host asks an older device for memory
    ReadMemReq { addr: u32, len: u32 },
    /// CommandReady (0x0b): a device waits for a command
    CommandReady,
    /// ExecuteResp (0x0e): a reply of this length is there
    ExecResp { command: Command, len: u32 },
    /// ExecuteData (0x0f): the host asks for the reply
    ExecData { command: Command },
    /// MemDebug64 (0x10): a device offers its memory, whose table is there
    Debug64Req { addr: u64, len: u64 },
    /// MemRead64 (0x11): the host asks for memory
    ReadMem64Req { addr: u64, len: u64 },
    /// ReadData64 (0x12): a part of an image is asked for
    ReadData64Req { image: u64, offset: u64, len: u64 },
}

/// A decoded packet. Its length field is not judged.
#[derive(Clone, Copy, Debug, PartialEq, Eq)]
#[non_exhaustive]
pub struct Packet {
    /// the length field
    pub len: u32,
    /// what follows it
    pub body: Body,
}

/// A packet's bytes decoded. Refused: 6 to 9.
pub fn parse_packet(bytes: &[u8]) -> Result<Packet, Refusal> {
    let p = raw::parse_packet(bytes);
    Refusal::check(p.refused)?;
    let body = body(&p).ok_or(Refusal::new(9))?;
    Ok(Packet { len: p.len, body })
}

// None does not arise: what is not refused has one of these kinds, and a mode or command where its kind has one.
fn body(p: &raw::Packet) -> Option<Body> {
    let (first, second, third) = (p.first as u32, p.second as u32, p.third as u32);
    let unk = [p.unk0, p.unk1, p.unk2, p.unk3, p.unk4, p.unk5];
    let (ver, compatible) = (first, second);
    Some(match p.command {
        0x01 => Body::HelloReq { ver, compatible, max_len: third, mode: Mode::from_number(p.value)?, unk },
        0x02 => Body::HelloResp { ver, compatible, status: third, mode: Mode::from_number(p.value)?, unk },
        0x03 => Body::ReadReq { image: first, offset: second, len: third },
        0x04 => Body::Eoi { image: first, status: second },
        0x05 => Body::DoneReq,
        0x06 => Body::DoneResp { status: first },
        0x08 => Body::ResetResp,
        0x09 => Body::DebugReq { addr: first, len: second },
        0x0a => Body::ReadMemReq { addr: first, len: second },
        0x0b => Body::CommandReady,
        0x0e => Body::ExecResp { command: Command::from_number(p.value)?, len: first },
        0x0f => Body::ExecData { command: Command::from_number(p.value)? },
        0x10 => Body::Debug64Req { addr: p.first, len: p.second },
        0x11 => Body::ReadMem64Req { addr: p.first, len: p.second },
        0x12 => Body::ReadData64Req { image: p.first, offset: p.second, len: p.third },
        _ => return None,
    })
}

/// Writes a Reset packet into the first 8 bytes. Refused (3) below 48 bytes.
pub fn reset(out: &mut [u8]) -> Result<usize, Refusal> {
    Refusal::check(raw::reset(out))?;
    Ok(8)
}
