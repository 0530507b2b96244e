//! Where the bytes of regions go.
use crate::{Entry, Forecast, Refusal, Width};
use std::fmt;
use std::io::{self, ErrorKind};

/// Takes the table and the forecast, then regions, one at a time: an open, its bytes in order, a close. What failed, or panicked, is asked anew when the run
/// goes on.
pub trait Sink {
    /// The memory table came whole: its bytes, and how wide the numbers in it are. Told before the first region is opened or goes on and, where none is
    /// chosen, before the end; where no table came, or not all of one, it is not. It may be told more than once: by a call that begins with no region open, whose
    /// sink may be another, after an error or a panic, behind other names, by another process that goes on with the run, or of another table, where a run that is
    /// older than the table asked for it again. A sink that wraps another hands it on.
    fn table(&mut self, _table: &[u8], _width: Width) -> io::Result<()> {
        Ok(())
    }
    /// How large the rest of the fetch is: the regions that the run is still to open, by the names as they stand, with their bytes and memory reads, the
    /// table's read among these. Before the first region that is all of it ([`Driver::forecast`](crate::Driver::forecast)); of a run that goes on, regions that
    /// were closed are not in it, and not the one that is open: what is left of that comes on top, and `reopen` tells how much of it there is. Refused (27): their
    /// bytes, or memory reads, are above 2^64 - 1.
    ///
    /// Told right behind [`table`](Sink::table), each time that is, but not by a run that is closed, which fetches nothing more; and so before a byte of a
    /// region is asked for: for a sink that reserves space, or has too little. An error stops the run as one of `table` does, and the next call tells both
    /// again; so does one behind other [names](crate::Driver::set_names), in a region too. A sink that wraps another hands it on.
    fn forecast(&mut self, _forecast: Result<Forecast, Refusal>) -> io::Result<()> {
        Ok(())
    }
    /// A region begins: its place in the table, from 0, and its entry. It may be one that was [lost](Unkept::Lost) before.
    fn open(&mut self, place: usize, entry: &Entry) -> io::Result<()>;
    /// Bytes of the open region. Gives how many were taken, as `Write::write` does: the rest comes again.
    fn bytes(&mut self, bytes: &[u8]) -> io::Result<usize>;
    /// All bytes of the region were taken.
    fn close(&mut self, place: usize) -> Result<(), Unkept>;
    /// A region goes on of which the sink has the first `taken` bytes: one that an earlier process opened, or one that a resync cuts back. What it has
    /// behind them is not the region's.
    fn reopen(&mut self, _place: usize, _entry: &Entry, _taken: u64) -> Result<(), Unkept> {
        Err(Unkept::Again(io::Error::new(ErrorKind::Unsupported, "this sink cannot go on with a region of an earlier process")))
    }
    /// Short deliveries are gathered until there are so many bytes, or the region or the call ends; 0: each is handed over as it comes.
    fn gathers(&self) -> usize {
        0
    }
}

/// Why a region could not be closed or reopened. `Debug` says what `Display` says.
pub enum Unkept {
    /// nothing is lost, and the call is made anew when the run goes on
    Again(io::Error),
    /// what was taken of the region cannot be relied on: it is fetched again from its beginning, with an `open` of its own
    Lost(io::Error),
}

impl fmt::Display for Unkept {
    fn fmt(&self, f: &mut fmt::Formatter<'_>) -> fmt::Result {
        match self {
            Unkept::Again(e) => write!(f, "a region could not be kept yet: {e}"),
            Unkept::Lost(e) => write!(f, "a region is lost, and comes again: {e}"),
        }
    }
}

impl fmt::Debug for Unkept {
    fn fmt(&self, f: &mut fmt::Formatter<'_>) -> fmt::Result {
        fmt::Display::fmt(self, f)
    }
}

impl std::error::Error for Unkept {}

impl From<io::Error> for Unkept {
    fn from(e: io::Error) -> Unkept {
        Unkept::Again(e)
    }
}

impl<S: Sink + ?Sized> Sink for &mut S {
    fn table(&mut self, table: &[u8], width: Width) -> io::Result<()> {
        (**self).table(table, width)
    }
    fn forecast(&mut self, forecast: Result<Forecast, Refusal>) -> io::Result<()> {
        (**self).forecast(forecast)
    }
    fn open(&mut self, place: usize, entry: &Entry) -> io::Result<()> {
        (**self).open(place, entry)
    }
    #[inline]
    fn bytes(&mut self, bytes: &[u8]) -> io::Result<usize> {
        (**self).bytes(bytes)
    }
    fn close(&mut self, place: usize) -> Result<(), Unkept> {
        (**self).close(place)
    }
    fn reopen(&mut self, place: usize, entry: &Entry, taken: u64) -> Result<(), Unkept> {
        (**self).reopen(place, entry, taken)
    }
    fn gathers(&self) -> usize {
        (**self).gathers()
    }
}

/// Counts regions and bytes, and keeps nothing.
#[derive(Clone, Copy, Debug, Default, PartialEq, Eq)]
pub struct Count {
    /// regions that were opened
    pub opened: u64,
    /// regions that were closed
    pub closed: u64,
    /// their bytes
    pub bytes: u64,
}

impl Sink for Count {
    fn open(&mut self, _: usize, _: &Entry) -> io::Result<()> {
        self.opened += 1;
        Ok(())
    }
    #[inline]
    fn bytes(&mut self, bytes: &[u8]) -> io::Result<usize> {
        self.bytes += bytes.len() as u64;
        Ok(bytes.len())
    }
    fn close(&mut self, _: usize) -> Result<(), Unkept> {
        self.closed += 1;
        Ok(())
    }
}
