//! A channel over a tty.
use crate::tty;
use std::fs::{File, OpenOptions};
use std::io::{self, ErrorKind, Read, Write};
use std::os::fd::{AsFd, BorrowedFd};
use std::os::unix::fs::OpenOptionsExt;
use std::path::Path;
use std::time::Duration;

/// A serial line, or a USB device that the system shows as one (`/dev/ttyUSB0`, `/dev/ttyACM0`): set raw, so that every byte goes through as it is, with
/// reads and writes that time out.
///
/// Bytes that wait in the line are kept when it is opened: they may be the device's hello. It stays raw when this is dropped, so that
/// what a device says before a next process opens it is neither changed nor echoed.
#[derive(Debug)]
pub struct Serial {
    line: File,
    timeout: Duration,
}

impl Serial {
    /// Opens a tty. `speed` is in bits a second, one that the system knows (115,200, 921,600, …; a USB device takes any). A read or a
    /// write that waits longer than `timeout` is `TimedOut`.
    pub fn open(path: impl AsRef<Path>, speed: u32, timeout: Duration) -> io::Result<Serial> {
        let path = path.as_ref();
        let flags = tty::O_NOCTTY | tty::O_NONBLOCK;
        let opened = OpenOptions::new().read(true).write(true).custom_flags(flags).open(path);
        let raw = opened.and_then(|line| tty::make_raw(line.as_fd(), speed).map(|()| line));
        let line = raw.map_err(|e| io::Error::new(e.kind(), format!("{}: {e}", path.display())))?;
        Ok(Serial { line, timeout })
    }

    /// How long a read or a write waits.
    pub fn set_timeout(&mut self, timeout: Duration) {
        self.timeout = timeout;
    }

    /// Makes a call until it does not say that it would wait.
    fn wait<T>(&self, event: tty::Event, mut call: impl FnMut(&File) -> io::Result<T>) -> io::Result<T> {
        loop {
            match call(&self.line) {
                Err(e) if e.kind() == ErrorKind::WouldBlock => {}
                done => return done,
            }
            if !tty::wait(self.line.as_fd(), event, self.timeout)? {
                let what = format!("nothing within {:?}", self.timeout);
                return Err(io::Error::new(ErrorKind::TimedOut, what));
            }
        }
    }
}

impl Read for Serial {
    /// Some bytes; 0 where the line was hung up, or none are asked for.
    fn read(&mut self, to: &mut [u8]) -> io::Result<usize> {
        if to.is_empty() {
            return Ok(0);
        }
        self.wait(tty::Event::Readable, |mut line| line.read(to))
    }
}

impl Write for Serial {
    fn write(&mut self, bytes: &[u8]) -> io::Result<usize> {
        self.wait(tty::Event::Writable, |mut line| line.write(bytes))
    }

    /// Nothing: what was written is on its way.
    fn flush(&mut self) -> io::Result<()> {
        Ok(())
    }
}

impl AsFd for Serial {
    fn as_fd(&self) -> BorrowedFd<'_> {
        self.line.as_fd()
    }
}
