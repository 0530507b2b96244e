//! Everything that can go wrong, at random and together: channels that fail, time out, give nothing or panic; sinks that fail, take a part, lose regions or
//! panic; callbacks that panic; runs that are saved and go on from their bytes.
use crate::world::{worlds, Record};
use device::{Device, Division, Faults, Rng, Wire};
use std::cell::RefCell;
use std::io::{self, ErrorKind, Read, Write};
use std::panic::{catch_unwind, resume_unwind, AssertUnwindSafe};
use worgesli::{Entry, Error, Forecast, Outcome, Refusal, Sink, Unkept, Width};

/// The same dice for all.
struct Dice(RefCell<Rng>);

impl Dice {
    fn one_in(&self, n: u64) -> bool {
        self.0.borrow_mut().below(n) == 0
    }

    /// Before a call has done anything: nothing, an error, or a panic.
    fn roll(&self) -> io::Result<()> {
        if self.one_in(40) {
            resume_unwind(Box::new("panic"));
        }
        match self.0.borrow_mut().below(30) {
            0 => Err(ErrorKind::StorageFull.into()),
            1 => Err(ErrorKind::Interrupted.into()),
            2 => Err(ErrorKind::TimedOut.into()),
            _ => Ok(()),
        }
    }
}

struct Channel<'a>(Wire, &'a Dice);

impl Read for Channel<'_> {
    fn read(&mut self, to: &mut [u8]) -> io::Result<usize> {
        self.1.roll()?;
        if self.1.one_in(30) {
            return Ok(0);
        }
        self.0.read(to)
    }
}

impl Write for Channel<'_> {
    fn write(&mut self, bytes: &[u8]) -> io::Result<usize> {
        self.1.roll()?;
        self.0.write(bytes)
    }
    fn flush(&mut self) -> io::Result<()> {
        self.1.roll()?;
        self.0.flush()
    }
}

/// Keeps regions, and what comes first: the table, and the first forecast behind it. A region that is opened anew was lost.
struct Keeper<'a>(Record, &'a Dice, usize, Option<Vec<u8>>, Option<Forecast>);

impl Sink for Keeper<'_> {
    fn table(&mut self, table: &[u8], _: Width) -> io::Result<()> {
        self.1.roll()?;
        self.3 = Some(table.to_vec());
        Ok(())
    }
    fn forecast(&mut self, forecast: Result<Forecast, Refusal>) -> io::Result<()> {
        assert!(self.3.is_some());
        self.1.roll()?;
        self.4.get_or_insert(forecast.unwrap());
        Ok(())
    }
    fn open(&mut self, place: usize, entry: &Entry) -> io::Result<()> {
        assert!(self.4.is_some());
        self.1.roll()?;
        if self.0 .0.last().is_some_and(|r| !r.closed) {
            assert_eq!(self.0 .0.pop().unwrap().place, place);
        }
        self.0.open(place, entry)
    }
    fn bytes(&mut self, bytes: &[u8]) -> io::Result<usize> {
        self.1.roll()?;
        let n = self.1 .0.borrow_mut().piece(bytes.len());
        self.0.bytes(&bytes[..n])
    }
    fn close(&mut self, place: usize) -> Result<(), Unkept> {
        self.1.roll()?;
        if self.1.one_in(4) {
            return Err(Unkept::Lost(ErrorKind::Other.into()));
        }
        self.0.close(place)
    }
    fn reopen(&mut self, place: usize, entry: &Entry, taken: u64) -> Result<(), Unkept> {
        self.1.roll()?;
        if self.1.one_in(6) {
            return Err(Unkept::Lost(ErrorKind::Other.into()));
        }
        self.0.reopen(place, entry, taken)
    }
    fn gathers(&self) -> usize {
        self.2
    }
}

/// Whatever happens on the way, each region comes out as the memory holds it, and the device is asked for nothing that it should not be.
#[test]
fn everything_at_once() {
    let (mut stops, mut panics) = (0, 0);
    for (seed, w) in worlds(0..4000) {
        let dice = Dice(RefCell::new(Rng::new(seed)));
        let wire = Wire::new(Device::dump(w.memory.clone()), Division::Random, seed);
        let faults = Faults { short_writes: seed % 2 == 0, buffered: seed % 3 == 0, ..Faults::default() };
        let mut channel = Channel(wire.with(faults), &dice);
        let mut sink = Keeper(Record::default(), &dice, [0, 1000, 5000, 65_536][seed as usize % 4], None, None);
        let mut run = w.options().timeouts(seed as u32 % 3).start().unwrap();
        let end = loop {
            let whole = dice.one_in(2);
            let ended = catch_unwind(AssertUnwindSafe(|| match whole {
                true => run.run(&mut channel, &mut sink, |_| drop(dice.roll())).map(Some),
                false => run.step(&mut channel, &mut sink, |_| drop(dice.roll())),
            }));
            match ended {
                Ok(Ok(Some(end))) => break end,
                Ok(Ok(None)) => {}
                Ok(Err(Error::Refused(why))) => panic!("seed {seed}, {w:?}: {why}"),
                Ok(Err(_)) => stops += 1,
                Err(_) => panics += 1,
            }
            if dice.one_in(3) {
                run = w.options().timeouts(1).restore(&run.save()).unwrap();
            }
        };
        let Outcome::Dumped { reads } = end else { panic!("seed {seed}, {w:?}: {end:?}") };
        assert_eq!(sink.0 .0, w.kept(), "seed {seed}, {w:?}");
        assert_eq!(sink.3.as_deref(), Some(w.memory.table()), "seed {seed}, {w:?}");
        assert_eq!((sink.4, run.forecast()), (Some(w.forecast()), Ok(Some(w.forecast()))), "seed {seed}, {w:?}");
        let device = &channel.0.device;
        assert_eq!((device.wrong(), device.queued(), device.reads()), (None, 0, reads), "seed {seed}, {w:?}");
    }
    assert!(stops > 10_000 && panics > 5_000, "{stops} {panics}");
}
