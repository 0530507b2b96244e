//! A channel to a device in memory, that divides bytes and fails as it is told.
use crate::{Device, Rng};
use std::io::{self, ErrorKind, Read, Write};

/// How many of the queued bytes one read gives.
#[derive(Clone, Copy, Debug, PartialEq, Eq)]
pub enum Division {
    /// as many as there is room for
    Whole,
    /// at most so many
    AtMost(usize),
    Random,
}

/// Faults. Chances are of 1,024 calls; a failed call moves no byte.
#[derive(Clone, Copy, Debug, Default)]
pub struct Faults {
    pub interrupted: u32,
    pub timed_out: u32,
    pub would_block: u32,
    /// writes take a part only
    pub short_writes: bool,
    /// writes time out
    pub no_writes: bool,
    /// the device hears what is written at the next flush
    pub buffered: bool,
    /// the byte behind so many is lost on the way
    pub loses: Option<u64>,
    /// after so many bytes were read the channel is at its end
    pub ends_after: Option<u64>,
    /// after so many bytes were read each read gives this error
    pub fails_after: Option<(u64, ErrorKind)>,
}

/// Reads what the device says, writes what it hears. A read where nothing is queued times out: a real one would wait for ever.
pub struct Wire {
    pub device: Device,
    pub division: Division,
    pub faults: Faults,
    rng: Rng,
    /// reads that asked for bytes and got some, those that got fewer than they asked for, empty reads that were not interrupted, flushes
    pub reads: u64,
    pub short: u64,
    pub empty_reads: u64,
    pub flushes: u64,
    /// bytes read
    pub given: u64,
    /// bytes written since the last flush
    pub unflushed: u64,
    buffer: Vec<u8>,
}

impl Wire {
    pub fn new(device: Device, division: Division, seed: u64) -> Wire {
        Wire {
            device,
            division,
            faults: Faults::default(),
            rng: Rng::new(seed),
            reads: 0,
            short: 0,
            empty_reads: 0,
            flushes: 0,
            given: 0,
            unflushed: 0,
            buffer: Vec::new(),
        }
    }

    pub fn with(self, faults: Faults) -> Wire {
        Wire { faults, ..self }
    }

    fn fault(&mut self) -> io::Result<()> {
        let f = self.faults;
        let kinds =
            [(f.interrupted, ErrorKind::Interrupted), (f.timed_out, ErrorKind::TimedOut), (f.would_block, ErrorKind::WouldBlock)];
        for (chance, kind) in kinds {
            if self.rng.chance(chance) {
                return Err(kind.into());
            }
        }
        Ok(())
    }

    /// The first n bytes without the one that is lost.
    fn lose(&mut self, to: &mut [u8], n: usize) -> usize {
        let Some(at) = self.faults.loses.filter(|at| (self.given..self.given + n as u64).contains(at)) else { return n };
        self.faults.loses = None;
        let at = (at - self.given) as usize;
        to.copy_within(at + 1..n, at);
        self.given += 1;
        n - 1
    }

    /// The room that a read of n bytes has, by division and faults; 0 at the channel's end.
    fn room(&mut self, n: usize) -> io::Result<usize> {
        let mut n = match self.division {
            Division::Whole => n,
            Division::AtMost(most) => n.min(most),
            Division::Random => self.rng.piece(n),
        };
        if let Some(end) = self.faults.ends_after {
            n = n.min((end - self.given) as usize);
        }
        if let Some((end, kind)) = self.faults.fails_after {
            if self.given == end {
                return Err(kind.into());
            }
            n = n.min((end - self.given) as usize);
        }
        Ok(n)
    }
}

impl Read for Wire {
    fn read(&mut self, to: &mut [u8]) -> io::Result<usize> {
        let fault = self.fault();
        if to.is_empty() {
            let interrupted = matches!(&fault, Err(e) if e.kind() == ErrorKind::Interrupted);
            self.empty_reads += u64::from(!interrupted);
            return fault.map(|()| 0);
        }
        fault?;
        let room = self.room(to.len())?;
        if room == 0 {
            return Ok(0);
        }
        let n = self.device.say(&mut to[..room]);
        let n = self.lose(to, n);
        if n == 0 {
            return Err(io::Error::new(ErrorKind::TimedOut, "the device says nothing"));
        }
        self.reads += 1;
        self.short += u64::from(n < to.len());
        self.given += n as u64;
        Ok(n)
    }
}

impl Write for Wire {
    fn write(&mut self, bytes: &[u8]) -> io::Result<usize> {
        self.fault()?;
        if self.faults.no_writes {
            return Err(ErrorKind::TimedOut.into());
        }
        let n = match self.faults.short_writes && !bytes.is_empty() {
            true => self.rng.piece(bytes.len()),
            false => bytes.len(),
        };
        match self.faults.buffered {
            true => self.buffer.extend_from_slice(&bytes[..n]),
            false => self.device.hear(&bytes[..n]),
        }
        self.unflushed += n as u64;
        Ok(n)
    }

    fn flush(&mut self) -> io::Result<()> {
        self.fault()?;
        self.device.hear(&self.buffer);
        self.buffer.clear();
        self.flushes += 1;
        self.unflushed = 0;
        Ok(())
    }
}
