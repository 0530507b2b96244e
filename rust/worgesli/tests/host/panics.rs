//! Channels, sinks and progress callbacks that panic, and a caller who catches it and goes on.
use crate::world::{worlds, Record};
use device::{Device, Division, Wire};
use std::cell::Cell;
use std::io::{self, Read, Write};
use std::panic::{catch_unwind, resume_unwind, AssertUnwindSafe};
use worgesli::{Entry, Forecast, Outcome, Refusal, Sink, Unkept, Width};

/// Panics at one of its calls.
struct Fuse(Cell<u64>);

impl Fuse {
    fn burn(&self) {
        let left = self.0.get();
        self.0.set(left.wrapping_sub(1));
        if left == 0 {
            // no message: it is expected
            resume_unwind(Box::new("panic"));
        }
    }
}

struct Shaky<'a, T>(T, &'a Fuse, usize);

impl Sink for Shaky<'_, Record> {
    fn table(&mut self, table: &[u8], width: Width) -> io::Result<()> {
        self.1.burn();
        self.0.table(table, width)
    }
    fn forecast(&mut self, forecast: Result<Forecast, Refusal>) -> io::Result<()> {
        self.1.burn();
        self.0.forecast(forecast)
    }
    fn open(&mut self, place: usize, entry: &Entry) -> io::Result<()> {
        self.1.burn();
        self.0.open(place, entry)
    }
    fn bytes(&mut self, bytes: &[u8]) -> io::Result<usize> {
        self.1.burn();
        self.0.bytes(&bytes[..bytes.len().div_ceil(2)])
    }
    fn close(&mut self, place: usize) -> Result<(), Unkept> {
        self.1.burn();
        self.0.close(place)
    }
    fn gathers(&self) -> usize {
        self.2
    }
}

impl Read for Shaky<'_, Wire> {
    fn read(&mut self, to: &mut [u8]) -> io::Result<usize> {
        self.1.burn();
        self.0.read(to)
    }
}

impl Write for Shaky<'_, Wire> {
    fn write(&mut self, bytes: &[u8]) -> io::Result<usize> {
        self.1.burn();
        self.0.write(bytes)
    }
    fn flush(&mut self) -> io::Result<()> {
        self.1.burn();
        self.0.flush()
    }
}

/// At each call in turn: the run goes on, no byte is lost, none is another region's, and it ends as it would have.
#[test]
fn panics_lose_nothing() {
    let mut caught = 0;
    for (seed, w) in worlds(0..40) {
        for gathers in [0, 3000, 65_536] {
            for k in 0.. {
                let fuse = Fuse(Cell::new(k));
                let wire = Wire::new(Device::dump(w.memory.clone()), Division::Random, seed);
                let (mut channel, mut sink) = (Shaky(wire, &fuse, 0), Shaky(Record::default(), &fuse, gathers));
                let mut run = w.options().start().unwrap();
                let mut go = || catch_unwind(AssertUnwindSafe(|| run.run(&mut channel, &mut sink, |_| fuse.burn())));
                let first = go();
                let panicked = first.is_err();
                let end = if panicked { go().unwrap() } else { first.unwrap() };
                assert_eq!(end.unwrap(), Outcome::Dumped { reads: w.memory_reads() }, "seed {seed}, {w:?}, call {k}");
                assert_eq!(sink.0 .0, w.kept(), "seed {seed}, {w:?}, call {k}");
                assert_eq!((channel.0.device.wrong(), channel.0.device.queued()), (None, 0), "seed {seed}, {w:?}, call {k}");
                caught += u64::from(panicked);
                if !panicked {
                    break;
                }
            }
        }
    }
    assert!(caught > 2000, "{caught}");
}
