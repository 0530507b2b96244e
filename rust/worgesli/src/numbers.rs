//! What the interface says in numbers: modes, commands, backends, widths, phases, answers and refusals.
use std::fmt;

/// What the host asks of the device.
#[derive(Clone, Copy, Debug, PartialEq, Eq)]
#[repr(u32)]
#[non_exhaustive]
pub enum Mode {
    /// load images
    WaitingForImage = 0,
    /// no images: their transfer is complete, as some boards say after a warm restart
    ImageTransferComplete = 1,
    /// dump memory
    MemoryDebug = 2,
    /// answer a command
    Command = 3,
}

impl Mode {
    /// The mode of a number, if it has one.
    pub fn from_number(n: u32) -> Option<Mode> {
        [Mode::WaitingForImage, Mode::ImageTransferComplete, Mode::MemoryDebug, Mode::Command]
            .into_iter()
            .find(|m| *m as u32 == n)
    }
}

/// What a device in command mode is asked for.
#[derive(Clone, Copy, Debug, PartialEq, Eq)]
#[repr(u32)]
pub enum Command {
    /// nothing
    Nop = 0,
    /// the serial number
    ReadSerialNum = 1,
    /// the hardware's ID
    ReadHwId = 2,
    /// the hash of the maker's key
    ReadOemKeyHash = 3,
}

impl Command {
    /// The command of a number, if it has one.
    pub fn from_number(n: u32) -> Option<Command> {
        [Command::Nop, Command::ReadSerialNum, Command::ReadHwId, Command::ReadOemKeyHash].into_iter().find(|c| *c as u32 == n)
    }
}

/// The channel's kind: on USB the host makes empty reads, which take the empty packets behind full ones.
#[derive(Clone, Copy, Debug, PartialEq, Eq)]
#[repr(u32)]
pub enum Backend {
    /// a serial line, or what the system shows as one: no empty reads
    Serial = 0,
    /// bulk endpoints
    Usb = 1,
}

/// How wide a device's addresses and lengths are, in its memory debug and in its memory table.
#[derive(Clone, Copy, Debug, PartialEq, Eq)]
#[repr(u64)]
pub enum Width {
    /// older boards: MemDebug, MemRead
    Bits32 = 32,
    /// MemDebug64, MemRead64
    Bits64 = 64,
}

impl Width {
    /// Both.
    pub const BOTH: [Width; 2] = [Width::Bits32, Width::Bits64];

    /// The width of a number, if it has one.
    pub fn from_number(n: u64) -> Option<Width> {
        Width::BOTH.into_iter().find(|w| *w as u64 == n)
    }

    /// The bytes of an entry of the memory table.
    pub const fn entry_len(self) -> usize {
        match self {
            Width::Bits32 => 52,
            Width::Bits64 => 64,
        }
    }
}

/// Where a session stands.
#[derive(Clone, Copy, Debug, PartialEq, Eq)]
#[repr(u32)]
#[non_exhaustive]
pub enum Phase {
    /// a packet is being heard
    Packet = 0,
    /// the response to a command comes
    Response = 1,
    /// it is there, and SwitchMode was sent
    Switched = 2,
    /// the memory table comes
    Table = 3,
    /// between two regions
    Between = 4,
    /// a region comes
    Region = 5,
    /// finished or refused
    Ended = 6,
}

/// What the caller is to do after a step.
#[derive(Clone, Copy, Debug, PartialEq, Eq)]
#[non_exhaustive]
pub enum Answer {
    /// nothing
    Go,
    /// send the out buffer's first bytes, so many
    Send(usize),
    /// send this part of the image set's bytes
    Image {
        /// its place in the set's bytes
        start: usize,
        /// its length
        len: usize,
    },
    /// a region begins: its place in the table
    Open(usize),
    /// the delivery's first bytes, so many, belong to the region
    Bytes(usize),
    /// read into an empty buffer
    EmptyRead,
    /// the region at this place is whole
    Close(usize),
    /// the end: 1 images sent, 2 reset, 3 memory dumped, 4 a reply is there; and the memory reads
    Finished {
        /// from 1 to 4
        how: u8,
        /// since opening
        reads: u64,
    },
    /// nothing, or the end: see the number
    Refused(Refusal),
}

/// A numbered refusal. `Debug` says what `Display` says.
#[derive(Clone, Copy, PartialEq, Eq)]
pub struct Refusal(u8);

impl Refusal {
    pub(crate) fn new(number: u64) -> Refusal {
        Refusal(number.try_into().unwrap_or(u8::MAX))
    }

    /// 0 of an operation's result is no refusal.
    pub(crate) fn check(number: u32) -> Result<(), Refusal> {
        match number {
            0 => Ok(()),
            n => Err(Refusal::new(n.into())),
        }
    }

    /// From 1 to 29.
    pub fn number(self) -> u8 {
        self.0
    }

    /// What the number means.
    pub fn words(self) -> &'static str {
        match self.0 {
            1 => "the image set is malformed: its length, a slot's range, or more than 64 slots",
            2 => "the name list is malformed: its length, a name's range, an absent name, or more than 64 names",
            3 => "the out buffer has fewer than 48 bytes",
            4 => "the session has already ended",
            5 => "the device sent a packet whose length is not from 8 to 4096",
            6 => "the device sent an unknown command",
            7 => "the device sent XML: it runs a loader already",
            8 => "the device sent a command that is not implemented",
            9 => "the device sent a packet too short for its kind, or a mode or command that is none",
            10 => "the device sent a packet that only a host sends",
            11 => "the device sent a packet whose length is not that of its kind",
            12 => "the device asked for an image that is not in the set",
            13 => "the device asked for bytes past an image's end",
            14 => "the device ended an image with an error status",
            15 => "the device is ready for a command, and none was given",
            16 => "the device announced a response longer than the reply buffer",
            17 => "the device announced a memory table longer than 65,536 bytes or the table buffer",
            18 => "a lent buffer is shorter than what the session fills, or a number of the session is above its limit",
            19 => "a region's filename has no zero byte",
            20 => "a region's filename is not UTF-8 before its first zero byte",
            21 => "the 20 bytes of a region's filename are not UTF-8",
            22 => "a region ends above 2^64",
            23 => "the channel was closed before the end",
            24 => "a region of a 32-bit device ends above 2^32",
            25 => "the page has fewer than 57 bytes for each entry of the table",
            26 => "the name list of a forecast is malformed",
            27 => "the bytes or the memory reads of a forecast are above 2^64 - 1",
            28 => "the image set that is to be tidied is malformed",
            29 => "the tidy form is longer than its buffer, or has more than 2^32 - 2 data bytes",
            _ => "no such refusal",
        }
    }
}

impl fmt::Display for Refusal {
    fn fmt(&self, f: &mut fmt::Formatter<'_>) -> fmt::Result {
        write!(f, "refused ({}): {}", self.0, self.words())
    }
}

impl fmt::Debug for Refusal {
    fn fmt(&self, f: &mut fmt::Formatter<'_>) -> fmt::Result {
        fmt::Display::fmt(self, f)
    }
}

impl std::error::Error for Refusal {}

#[cfg(test)]
mod tests {
    use super::Refusal;
    use crate::raw::interface::tool;

    /// The words are those of the C header.
    #[test]
    fn words_of_the_header() {
        let ours: Vec<String> = (1..=29).map(|n| format!("{n}\t{}", Refusal(n).words())).collect();
        assert_eq!(tool("refusals").lines().collect::<Vec<_>>(), ours);
        assert_eq!((Refusal(0).words(), Refusal(30).words()), ("no such refusal", "no such refusal"));
    }
}
