//! A channel over USB bulk packets.
use std::fmt;
use std::io::{self, ErrorKind, Read, Write};

/// Empty packets that are passed over in a row where bytes are wanted; then a read gives 0 bytes, so that an endpoint that is gone is noticed.
const EMPTY: u32 = 8;
/// What is read at a time, at most: a multiple of every packet size.
const BUFFER: usize = 65_536;

/// A channel over anything whose reads give whole bulk packets, as USB libraries do: such a read must have room for a packet, and one
/// of 0 bytes is an empty packet and not the end.
///
/// Reads have room for what is wanted and the rest of a packet, no more, so that a device that sends no empty packet is not waited for; what was not
/// asked for yet waits in a buffer. An empty packet where bytes are wanted is passed over (a device sends one behind a table that is a multiple of
/// 512 bytes). An empty read takes the empty packet behind a chunk; if bytes come in its place, they are kept.
pub struct Packets<B> {
    bulk: B,
    size: usize,
    buffer: Box<[u8]>,
    /// buffer[from..to] was read and not given yet
    from: usize,
    to: usize,
}

impl<B> Packets<B> {
    /// `size` is the endpoint's largest packet (wMaxPacketSize): a power of two up to 1,024; 512 at USB 2's high speed, 1,024 at USB 3's.
    pub fn new(bulk: B, size: usize) -> io::Result<Packets<B>> {
        Packets::with_unread(bulk, size, &[])
    }

    /// With bytes, at most 65,536, that an earlier one had read and not given: see [`unread`](Packets::unread).
    pub fn with_unread(bulk: B, size: usize, unread: &[u8]) -> io::Result<Packets<B>> {
        if !size.is_power_of_two() || size > 1024 {
            return Err(io::Error::new(ErrorKind::InvalidInput, format!("no size of a bulk packet: {size}")));
        }
        let mut buffer: Box<[u8]> = vec![0; BUFFER].into();
        buffer.get_mut(..unread.len()).ok_or(ErrorKind::InvalidInput)?.copy_from_slice(unread);
        Ok(Packets { bulk, size, buffer, from: 0, to: unread.len() })
    }

    /// What was read and not given yet. A run that is saved for another process saves this beside it.
    pub fn unread(&self) -> &[u8] {
        &self.buffer[self.from..self.to]
    }

    /// The endpoints, and what was read from them and not given.
    pub fn into_parts(self) -> (B, Vec<u8>) {
        let unread = self.unread().to_vec();
        (self.bulk, unread)
    }
}

impl<B: Read> Packets<B> {
    /// Reads into the buffer, all of which was given: room for so many bytes and the rest of a packet.
    fn fill(&mut self, wanted: usize) -> io::Result<usize> {
        (self.from, self.to) = (0, 0);
        let room = &mut self.buffer[..wanted.min(BUFFER).next_multiple_of(self.size)];
        self.to = read_into(&mut self.bulk, room)?;
        Ok(self.to)
    }
}

fn read_into(bulk: &mut impl Read, room: &mut [u8]) -> io::Result<usize> {
    match bulk.read(room)? {
        n if n > room.len() => Err(io::Error::new(ErrorKind::InvalidData, "it says that it read more bytes than it was lent")),
        n => Ok(n),
    }
}

impl<B: Read> Read for Packets<B> {
    fn read(&mut self, to: &mut [u8]) -> io::Result<usize> {
        if to.is_empty() {
            if self.from == self.to {
                self.fill(1)?;
            }
            return Ok(0);
        }
        let whole = to.len().is_multiple_of(self.size);
        let mut empty = 0;
        while self.from == self.to && empty < EMPTY {
            // whole packets go where they are wanted
            let n = if whole { read_into(&mut self.bulk, to)? } else { self.fill(to.len())? };
            if whole && n > 0 {
                return Ok(n);
            }
            empty += u32::from(n == 0);
        }
        let n = to.len().min(self.to - self.from);
        to[..n].copy_from_slice(&self.buffer[self.from..self.from + n]);
        self.from += n;
        Ok(n)
    }
}

impl<B: Write> Write for Packets<B> {
    fn write(&mut self, bytes: &[u8]) -> io::Result<usize> {
        self.bulk.write(bytes)
    }
    fn flush(&mut self) -> io::Result<()> {
        self.bulk.flush()
    }
}

impl<B: fmt::Debug> fmt::Debug for Packets<B> {
    fn fmt(&self, f: &mut fmt::Formatter<'_>) -> fmt::Result {
        f.debug_struct("Packets").field("bulk", &self.bulk).field("unread", &(self.to - self.from)).finish_non_exhaustive()
    }
}
