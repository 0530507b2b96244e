//! What [`Serial`](crate::Serial) asks of the C library (Linux, x86-64): a raw tty, and waiting for it.
#![allow(unsafe_code)]
use std::ffi::{c_int, c_short, c_uint, c_ulong};
use std::io;
use std::os::fd::{AsRawFd, BorrowedFd};
use std::time::Duration;

pub const O_NOCTTY: i32 = 0o400;
pub const O_NONBLOCK: i32 = 0o4000;

/// `struct termios` of the C library.
#[repr(C)]
#[derive(Clone, Copy, PartialEq, Eq)]
struct Termios {
    iflag: c_uint,
    oflag: c_uint,
    cflag: c_uint,
    lflag: c_uint,
    line: u8,
    cc: [u8; 32],
    ispeed: c_uint,
    ospeed: c_uint,
}

#[repr(C)]
struct PollFd {
    fd: c_int,
    events: c_short,
    revents: c_short,
}

const _: () = assert!(std::mem::size_of::<Termios>() == 60 && std::mem::size_of::<PollFd>() == 8);

const VTIME: usize = 5;
const VMIN: usize = 6;
const CSIZE: c_uint = 0o60;
const PARENB: c_uint = 0o400;
const CREAD: c_uint = 0o200;
const CLOCAL: c_uint = 0o4000;
const CRTSCTS: c_uint = 0o20_000_000_000;
const TCSANOW: c_int = 0;

unsafe extern "C" {
    fn tcgetattr(fd: c_int, to: *mut Termios) -> c_int;
    fn tcsetattr(fd: c_int, when: c_int, from: *const Termios) -> c_int;
    fn cfmakeraw(t: *mut Termios);
    fn cfsetspeed(t: *mut Termios, speed: c_uint) -> c_int;
    fn poll(fds: *mut PollFd, n: c_ulong, timeout: c_int) -> c_int;
}

/// Speeds and their numbers in `struct termios`.
const SPEEDS: [(u32, c_uint); 18] = [
    (9_600, 0o15),
    (19_200, 0o16),
    (38_400, 0o17),
    (57_600, 0o10_001),
    (115_200, 0o10_002),
    (230_400, 0o10_003),
    (460_800, 0o10_004),
    (500_000, 0o10_005),
    (576_000, 0o10_006),
    (921_600, 0o10_007),
    (1_000_000, 0o10_010),
    (1_152_000, 0o10_011),
    (1_500_000, 0o10_012),
    (2_000_000, 0o10_013),
    (2_500_000, 0o10_014),
    (3_000_000, 0o10_015),
    (3_500_000, 0o10_016),
    (4_000_000, 0o10_017),
];

fn checked(result: c_int) -> io::Result<c_int> {
    match result {
        -1 => Err(io::Error::last_os_error()),
        n => Ok(n),
    }
}

fn settings(fd: BorrowedFd) -> io::Result<Termios> {
    let mut t = Termios { iflag: 0, oflag: 0, cflag: 0, lflag: 0, line: 0, cc: [0; 32], ispeed: 0, ospeed: 0 };
    // Safe: the call writes a struct of this layout.
    checked(unsafe { tcgetattr(fd.as_raw_fd(), &mut t) })?;
    Ok(t)
}

/// Every byte as it is, 8 bits, no echo, no flow control, no modem lines; a read gives what is there, from one byte on.
pub fn make_raw(fd: BorrowedFd, speed: u32) -> io::Result<()> {
    let number = SPEEDS.iter().find(|(s, _)| *s == speed).map(|(_, n)| *n);
    let number = number.ok_or_else(|| io::Error::new(io::ErrorKind::InvalidInput, format!("no speed of a tty: {speed}")))?;
    let mut t = settings(fd)?;
    // Safe: both calls change this struct alone.
    unsafe {
        cfmakeraw(&mut t);
        checked(cfsetspeed(&mut t, number))?;
    }
    t.cflag = (t.cflag | CREAD | CLOCAL) & !CRTSCTS;
    (t.cc[VMIN], t.cc[VTIME]) = (1, 0);
    // Safe: the call reads this struct.
    checked(unsafe { tcsetattr(fd.as_raw_fd(), TCSANOW, &t) })?;
    // the call succeeds if any of it was done
    let got = settings(fd)?;
    let form = |t: &Termios| (t.iflag, t.oflag, t.lflag, t.cflag & (CSIZE | PARENB), t.cc[VMIN], t.cc[VTIME]);
    if form(&got) != form(&t) {
        return Err(io::Error::other("the tty would not be set raw"));
    }
    Ok(())
}

#[derive(Clone, Copy)]
pub enum Event {
    Readable = 1,
    Writable = 4,
}

/// Waits until a call would not wait; false when the time is over. An interruption is an error, as of any call.
pub fn wait(fd: BorrowedFd, event: Event, timeout: Duration) -> io::Result<bool> {
    let mut p = PollFd { fd: fd.as_raw_fd(), events: event as c_short, revents: 0 };
    let ms = timeout.as_millis().min(c_int::MAX as u128) as c_int;
    // Safe: one struct, which the call writes.
    Ok(checked(unsafe { poll(&mut p, 1, ms) })? > 0)
}
