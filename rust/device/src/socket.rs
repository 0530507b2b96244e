//! A device at the other end of a socket.
use crate::{Device, Rng};
use std::io::{self, ErrorKind, Read, Write};
use std::os::unix::net::UnixStream;
use std::time::Duration;

/// A host's end of a socket. The system's receive of an empty buffer waits for bytes; an empty read must not.
pub struct Socket {
    stream: UnixStream,
    /// reads that got bytes, those that got fewer than they asked for, empty reads
    pub reads: u64,
    pub short: u64,
    pub empty_reads: u64,
}

impl Socket {
    /// A socket, and the device's end of it.
    pub fn pair() -> io::Result<(Socket, UnixStream)> {
        let (stream, far) = UnixStream::pair()?;
        Ok((Socket { stream, reads: 0, short: 0, empty_reads: 0 }, far))
    }
}

impl Read for Socket {
    fn read(&mut self, to: &mut [u8]) -> io::Result<usize> {
        if to.is_empty() {
            self.empty_reads += 1;
            return Ok(0);
        }
        let n = self.stream.read(to)?;
        self.reads += u64::from(n > 0);
        self.short += u64::from(n < to.len());
        Ok(n)
    }
}

impl Write for Socket {
    fn write(&mut self, bytes: &[u8]) -> io::Result<usize> {
        self.stream.write(bytes)
    }
    fn flush(&mut self) -> io::Result<()> {
        self.stream.flush()
    }
}

/// Plays the device until the host goes. It writes its bytes in pieces at random and rests now and then, so that the host finds them
/// divided. Gives the device back, and the number of pieces.
pub fn serve<C: Read + Write>(device: Device, channel: C, seed: u64) -> io::Result<(Device, u64)> {
    serve_until(device, channel, seed, u64::MAX)
}

/// As [`serve`], of a device that is gone after so many bytes.
pub fn serve_until<C: Read + Write>(mut device: Device, mut channel: C, seed: u64, mut left: u64) -> io::Result<(Device, u64)> {
    let mut rng = Rng::new(seed);
    let mut buf = [0; 4096];
    let mut pieces = 0;
    loop {
        while device.queued() > 0 {
            if left == 0 {
                return Ok((device, pieces));
            }
            let room = rng.piece(buf.len()).min(left.try_into().unwrap_or(usize::MAX));
            let n = device.say(&mut buf[..room]);
            match channel.write_all(&buf[..n]) {
                Err(e) if e.kind() == ErrorKind::BrokenPipe => return Ok((device, pieces)),
                written => written?,
            }
            left -= n as u64;
            pieces += 1;
            if rng.chance(256) {
                std::thread::sleep(Duration::from_micros(rng.below(200)));
            }
        }
        let room = rng.piece(buf.len());
        match channel.read(&mut buf[..room])? {
            0 => return Ok((device, pieces)),
            n => device.hear(&buf[..n]),
        }
    }
}
