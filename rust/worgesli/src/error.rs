//! Why a run stopped.
use crate::Refusal;
use std::fmt;
use std::io::{self, ErrorKind};

/// Why a run stopped. After all but `Refused` it can go on where it was. `Debug` says what `Display` says, for a `main` that returns it.
#[non_exhaustive]
pub enum Error {
    /// the session has ended
    Refused(Refusal),
    /// the channel said `TimedOut` or `WouldBlock`
    TimedOut(io::Error),
    /// a read gave 0 bytes: a tty's time-out, an empty USB packet, or the channel's end
    NoBytes,
    /// any other error of the channel
    Channel(io::Error),
    /// an error of the sink
    Sink(io::Error),
}

impl Error {
    pub(crate) fn channel(e: io::Error) -> Error {
        match e.kind() {
            ErrorKind::TimedOut | ErrorKind::WouldBlock => Error::TimedOut(e),
            _ => Error::Channel(e),
        }
    }

    /// The refusal's number, if it is one.
    pub fn number(&self) -> Option<u8> {
        match self {
            Error::Refused(why) => Some(why.number()),
            _ => None,
        }
    }

    /// Nothing came: what [`Options::timeouts`](crate::Options::timeouts) bears.
    pub fn is_silence(&self) -> bool {
        matches!(self, Error::TimedOut(_) | Error::NoBytes)
    }
}

impl fmt::Display for Error {
    fn fmt(&self, f: &mut fmt::Formatter<'_>) -> fmt::Result {
        match self {
            Error::Refused(why) => why.fmt(f),
            Error::TimedOut(e) => write!(f, "the channel timed out: {e}"),
            Error::NoBytes => write!(f, "the channel gave no bytes"),
            Error::Channel(e) => write!(f, "the channel failed: {e}"),
            Error::Sink(e) => write!(f, "what was fetched could not be kept: {e}"),
        }
    }
}

impl fmt::Debug for Error {
    fn fmt(&self, f: &mut fmt::Formatter<'_>) -> fmt::Result {
        fmt::Display::fmt(self, f)
    }
}

impl std::error::Error for Error {
    fn source(&self) -> Option<&(dyn std::error::Error + 'static)> {
        match self {
            Error::Refused(why) => Some(why),
            Error::NoBytes => None,
            Error::TimedOut(e) | Error::Channel(e) | Error::Sink(e) => Some(e),
        }
    }
}

impl From<Refusal> for Error {
    fn from(why: Refusal) -> Error {
        Error::Refused(why)
    }
}
