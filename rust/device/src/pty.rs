//! A device behind a pseudo-terminal, which is a tty to the host.
use std::ffi::{c_char, c_int, c_uint, CStr};
use std::fs::File;
use std::io::{self, ErrorKind, Read, Write};
use std::os::fd::AsRawFd;
use std::os::unix::fs::OpenOptionsExt;
use std::path::{Path, PathBuf};

unsafe extern "C" {
    fn grantpt(fd: c_int) -> c_int;
    fn unlockpt(fd: c_int) -> c_int;
    fn ptsname_r(fd: c_int, name: *mut c_char, len: usize) -> c_int;
    fn tcgetattr(fd: c_int, to: *mut c_uint) -> c_int;
}

const O_NOCTTY: i32 = 0o400;
const EIO: i32 = 5;

/// The device's end of a line. It is at its end when no host has the line open any more.
pub struct Pty {
    far: File,
    path: PathBuf,
}

impl Pty {
    /// The device's end, and the host's, left cooked and echoing, as a system gives it: to be held until a host has opened the path.
    pub fn open() -> io::Result<(Pty, File)> {
        let line = |path: &Path| File::options().read(true).write(true).custom_flags(O_NOCTTY).open(path);
        let far = line("/dev/ptmx".as_ref())?;
        let (fd, mut name) = (far.as_raw_fd(), [0 as c_char; 128]);
        // Safe: the calls take a descriptor of ours and write a name, with a zero byte behind it, within its array.
        let name = unsafe {
            if grantpt(fd) != 0 || unlockpt(fd) != 0 || ptsname_r(fd, name.as_mut_ptr(), name.len()) != 0 {
                return Err(io::Error::last_os_error());
            }
            CStr::from_ptr(name.as_ptr())
        };
        let path: PathBuf = name.to_str().map_err(|_| ErrorKind::InvalidData)?.into();
        let near = line(&path)?;
        Ok((Pty { far, path }, near))
    }

    /// The host's end.
    pub fn path(&self) -> &Path {
        &self.path
    }

    /// Whether a host has set the line raw: before, the device's bytes would be changed and echoed.
    pub fn raw(&self) -> bool {
        let mut t = [0; 64];
        // Safe: more bytes than a termios has; its fourth word is c_lflag, of which 2 is ICANON and 8 ECHO.
        assert_eq!(unsafe { tcgetattr(self.far.as_raw_fd(), t.as_mut_ptr()) }, 0);
        t[3] & 10 == 0
    }
}

impl Read for Pty {
    fn read(&mut self, to: &mut [u8]) -> io::Result<usize> {
        match self.far.read(to) {
            Err(e) if e.raw_os_error() == Some(EIO) => Ok(0),
            n => n,
        }
    }
}

impl Write for Pty {
    fn write(&mut self, bytes: &[u8]) -> io::Result<usize> {
        self.far.write(bytes)
    }
    fn flush(&mut self) -> io::Result<()> {
        Ok(())
    }
}
