//! The driver against channels and sinks that fail.
use crate::saved::Gathering;
use crate::world::{worlds, Kept, Record, World};
use device::{Device, Division, Faults, Memory, Region, Turn, Width, Wire};
use std::io::{self, ErrorKind, Read, Write};
use worgesli::{
    sahara_run, Answer, Backend, Command, Count, Driver, Entry, Error, Mode, Options, Outcome, Phase, Session, Sink, Unkept,
};

const NO_IMAGES: &[Option<Vec<u8>>] = &[];

fn dump(backend: Backend) -> Options {
    Options::new(backend, Mode::MemoryDebug)
}

fn driver(w: &World) -> Driver {
    w.options().start().unwrap()
}

fn wire(w: &World, seed: u64, faults: Faults) -> Wire {
    Wire::new(Device::dump(w.memory.clone()), Division::Random, seed).with(faults)
}

/// Calls `run` until it neither times out nor loses a byte; gives how often it timed out.
fn run_on(driver: &mut Driver, wire: &mut Wire, sink: &mut Record) -> (Outcome, u64) {
    let mut times = 0;
    loop {
        match driver.run(wire, sink, |_| ()) {
            Err(Error::TimedOut(_)) if times < 10_000 => times += 1,
            end => return (end.unwrap(), times),
        }
    }
}

/// Interrupted calls, time-outs and short writes, each with a run called again, cost no byte and no memory read.
#[test]
fn time_outs_lose_nothing() {
    let mut times = 0;
    for (seed, w) in worlds(0..2000) {
        let faults = Faults {
            interrupted: 200,
            timed_out: 100,
            would_block: 100,
            short_writes: seed % 2 == 0,
            buffered: seed % 3 == 0,
            ..Faults::default()
        };
        let mut wire = wire(&w, seed, faults);
        let mut sink = Record::default();
        let (outcome, timed_out) = run_on(&mut driver(&w), &mut wire, &mut sink);
        assert_eq!(outcome, Outcome::Dumped { reads: w.memory_reads() }, "seed {seed}, {w:?}");
        assert_eq!(sink.0, w.kept(), "seed {seed}, {w:?}");
        assert_eq!(wire.device.wrong(), None, "seed {seed}, {w:?}");
        assert_eq!((wire.device.reads(), wire.empty_reads), (w.memory_reads(), w.empty_reads()), "seed {seed}, {w:?}");
        times += timed_out;
    }
    assert!(times > 2000, "{times}");
}

/// The same for images and replies: what the device hears and says is whole.
#[test]
fn time_outs_in_images_and_replies() {
    for seed in 0..500 {
        let (short_writes, buffered) = (seed % 2 == 0, seed % 3 == 0);
        let faults = Faults { interrupted: 150, timed_out: 150, would_block: 150, short_writes, buffered, ..Faults::default() };
        let mut rng = device::Rng::new(seed);
        let mut bytes = vec![0; rng.below(6000) as usize];
        rng.fill(&mut bytes);
        let run = |device, options: Options| {
            let mut wire = Wire::new(device, Division::Random, seed).with(faults);
            let mut driver = options.start().unwrap();
            let (outcome, _) = run_on(&mut driver, &mut wire, &mut Record::default());
            (outcome, wire.device.heard().to_vec(), wire.device.queued())
        };
        let n = bytes.len() as u32;
        let device = Device::load(&[(5, 0, n), (5, n / 2, n - n / 2)], b"loader");
        let (outcome, heard, left) =
            run(device, Options::new(Backend::Usb, Mode::WaitingForImage).images(&[Some(bytes.clone())]));
        assert_eq!((outcome, left), (Outcome::ImagesSent, 6));
        let sent = [&bytes[..], &bytes[n as usize / 2..], &device::packet(5, &[])].concat();
        assert!(heard[48..] == sent, "seed {seed}");
        let device = Device::command(1, &bytes, b"next");
        let (outcome, heard, left) = run(device, Options::new(Backend::Usb, Mode::Command).command(Command::ReadSerialNum));
        assert_eq!((outcome, left), (Outcome::Reply(bytes), 4));
        assert_eq!(heard[48..], [device::packet(0x0d, &[1]), device::packet(0x0f, &[1]), device::packet(0x0c, &[0])].concat());
    }
}

/// The one-shot form bears as many time-outs in a row as it is told, and no more.
#[test]
fn time_outs_in_a_row() {
    struct Silent(Wire, u32);
    impl Read for Silent {
        fn read(&mut self, to: &mut [u8]) -> io::Result<usize> {
            // before each read that is answered, so many that are not
            if self.1 > 0 {
                self.1 -= 1;
                return Err(ErrorKind::WouldBlock.into());
            }
            self.1 = 3;
            self.0.read(to)
        }
    }
    impl Write for Silent {
        fn write(&mut self, bytes: &[u8]) -> io::Result<usize> {
            self.0.write(bytes)
        }
        fn flush(&mut self) -> io::Result<()> {
            self.0.flush()
        }
    }
    for ((borne, good), width) in Width::with_both([(0, false), (2, false), (3, true), (4, true)]) {
        let w = World::new(width, Backend::Usb, &[Region::new("A.BIN", 0, 9000)]);
        let mut channel = Silent(Wire::new(Device::dump(w.memory.clone()), Division::AtMost(1000), 1), 3);
        let mut sink = Count::default();
        let end = sahara_run(&mut channel, &w.options().timeouts(borne), &mut sink, |_| ());
        match end {
            Ok(end) => assert_eq!((end, sink.bytes, good), (Outcome::Dumped { reads: 4 }, 9000, true)),
            Err(e) => assert!(matches!(e, Error::TimedOut(_)) && !good, "{e}"),
        }
    }
}

/// A device that is gone, after any byte: no bytes as often as it is asked, 23 when the session is closed, and what came so far is the
/// beginning of what was due.
#[test]
fn gone_after_each_byte() {
    for (backend, width) in Width::with_both([Backend::Serial, Backend::Usb]) {
        let high = width.end_less(513);
        let w = World::new(
            width,
            backend,
            &[Region::new("A.BIN", 77, 600), Region::new("B.BIN", 9, 0), Region::new("C.BIN", high, 513)],
        );
        let before = w.opening() + w.memory.table_len();
        let total = before + 600 + 513;
        for end in 0..=total {
            let mut wire = wire(&w, end, Faults { ends_after: Some(end), ..Faults::default() });
            let mut sink = Record::default();
            let mut driver = driver(&w);
            let ended = driver.run(&mut wire, &mut sink, |_| ());
            if end == total {
                assert_eq!(ended.unwrap(), Outcome::Dumped { reads: 3 });
                assert_eq!(sink.0, w.kept());
                continue;
            }
            assert!(matches!(ended, Err(Error::NoBytes)));
            assert!(matches!(driver.run(&mut wire, &mut sink, |_| ()), Err(Error::NoBytes)));
            assert_ne!(driver.session().phase(), Phase::Ended);
            assert_eq!(driver.close(&mut sink).unwrap().number(), 23);
            assert_eq!(driver.close(&mut sink).unwrap().number(), 4);
            assert_eq!(driver.run(&mut wire, &mut sink, |_| ()).unwrap_err().number(), Some(4));
            beginning(&sink.0, &w.kept(), end.saturating_sub(before));
        }
    }
}

/// What was gathered is the sink's when a call ends, whatever ended it: nobody must come back for it.
#[test]
fn gathered_bytes_are_handed_over() {
    for width in Width::BOTH {
        let w = World::new(width, Backend::Usb, &[Region::new("A.BIN", 77, 9000)]);
        let before = w.opening() + w.memory.table_len();
        for end in before..before + 9000 {
            let faults = match end % 3 {
                0 => Faults { ends_after: Some(end), ..Faults::default() },
                1 => Faults { fails_after: Some((end, ErrorKind::BrokenPipe)), ..Faults::default() },
                _ => Faults { fails_after: Some((end, ErrorKind::TimedOut)), ..Faults::default() },
            };
            let mut wire = wire(&w, end, faults);
            let mut sink = Gathering(Record::default(), 65_536);
            let mut run = driver(&w);
            assert!(run.run(&mut wire, &mut sink, |_| ()).is_err());
            beginning(&sink.0 .0, &w.kept(), end - before);
        }
    }
    // and a whole fetch is handed over in few calls
    struct Calls(u64, u64);
    impl Sink for Calls {
        fn open(&mut self, _: usize, _: &Entry) -> io::Result<()> {
            Ok(())
        }
        fn bytes(&mut self, bytes: &[u8]) -> io::Result<usize> {
            (self.0, self.1) = (self.0 + 1, self.1 + bytes.len() as u64);
            Ok(bytes.len())
        }
        fn close(&mut self, _: usize) -> Result<(), Unkept> {
            Ok(())
        }
        fn gathers(&self) -> usize {
            65_536
        }
    }
    for width in Width::BOTH {
        let w = World::new(width, Backend::Usb, &[Region::new("A", 0, 1 << 20)]);
        let mut wire = Wire::new(Device::dump(w.memory.clone()), Division::AtMost(512), 1);
        let mut sink = Calls(0, 0);
        sahara_run(&mut wire, &w.options(), &mut sink, |_| ()).unwrap();
        assert_eq!((sink.0, sink.1), (16, 1 << 20));
    }
}

/// Who gives up behind a region's last byte has that region whole, and nothing is sent any more.
#[test]
fn given_up() {
    struct Shy(Record, bool);
    impl Sink for Shy {
        fn open(&mut self, place: usize, entry: &Entry) -> io::Result<()> {
            self.0.open(place, entry)
        }
        fn bytes(&mut self, bytes: &[u8]) -> io::Result<usize> {
            self.0.bytes(bytes)
        }
        fn close(&mut self, place: usize) -> Result<(), Unkept> {
            if std::mem::take(&mut self.1) {
                return Err(Unkept::Again(ErrorKind::StorageFull.into()));
            }
            self.0.close(place)
        }
    }
    for width in Width::BOTH {
        let w = World::new(width, Backend::Usb, &[Region::new("A.BIN", 77, 9000), Region::new("B.BIN", 5, 9)]);
        let mut wire = wire(&w, 1, Faults::default());
        let (mut run, mut sink) = (driver(&w), Shy(Record::default(), true));
        assert!(matches!(run.run(&mut wire, &mut sink, |_| ()), Err(Error::Sink(_))));
        assert_eq!(run.close(&mut sink).unwrap().number(), 23);
        assert_eq!(sink.0 .0, w.kept()[..1]);
        // a packet that is owed is not sent by a run that is closed
        let mut silent = wire_that_takes_nothing(&w);
        let mut run = driver(&w);
        assert!(matches!(run.run(&mut silent, &mut sink, |_| ()), Err(Error::TimedOut(_))));
        assert_eq!(run.close(&mut sink).unwrap().number(), 23);
        silent.faults = Faults::default();
        assert_eq!(run.run(&mut silent, &mut sink, |_| ()).unwrap_err().number(), Some(4));
        assert_eq!(silent.device.heard(), []);
    }
}

/// The device's hello comes, and every write times out.
fn wire_that_takes_nothing(w: &World) -> Wire {
    Wire::new(Device::dump(w.memory.clone()), Division::Whole, 1).with(Faults { no_writes: true, ..Faults::default() })
}

/// Errors say what they are where a `main` returns them, and nothing prints what was fetched.
#[test]
fn what_is_printed() {
    let refused = Error::from(Options::new(Backend::Usb, Mode::Command).names(vec!["a"; 65]).start().unwrap_err());
    assert_eq!(format!("{refused:?}"), refused.to_string());
    assert!(refused.to_string().starts_with("refused (2): the name list is malformed"));
    let options = dump(Backend::Usb).images(&[Some(vec![0xa5; 5000])]).names(["secret"]);
    let regions = [Region::new("A.BIN", 77, 9000)];
    let mut wire = Wire::new(Device::dump(Memory::new(5, 1 << 40, &regions)), Division::AtMost(1000), 1);
    let mut run = options.start().unwrap();
    for _ in 0..5 {
        run.step(&mut wire, &mut Count::default(), |_| ()).unwrap();
    }
    let (run, options) = (format!("{run:?}"), format!("{options:?}"));
    assert!(run.contains("Between") && run.len() < 400, "{run}");
    assert!(options.len() < 300 && !options.contains("165") && !options.contains("115, 101"), "{options}");
}

/// `came` is a beginning of `due` and has so many bytes.
fn beginning(came: &[Kept], due: &[Kept], bytes: u64) {
    assert!(came.len() <= due.len());
    for (c, d) in came.iter().zip(due) {
        assert!(d.bytes.starts_with(&c.bytes) && c.place == d.place && c.filename == d.filename);
        assert!(!c.closed || c.bytes == d.bytes);
    }
    assert_eq!(came.iter().map(|c| c.bytes.len() as u64).sum::<u64>(), bytes);
    assert!(came.iter().rev().skip(1).all(|c| c.closed));
}

/// An error of the channel ends the call and not the session: with the fault gone, the run goes on.
#[test]
fn errors_of_the_channel() {
    for (seed, w) in worlds(0..500) {
        let kind = [ErrorKind::ConnectionReset, ErrorKind::BrokenPipe, ErrorKind::Other][seed as usize % 3];
        let mut wire = wire(&w, seed, Faults { fails_after: Some((seed % 300, kind)), ..Faults::default() });
        let mut sink = Record::default();
        let mut driver = driver(&w);
        match driver.run(&mut wire, &mut sink, |_| ()) {
            Err(Error::Channel(e)) => assert_eq!(e.kind(), kind),
            // fewer bytes than that in all
            end => assert_eq!(end.unwrap(), Outcome::Dumped { reads: w.memory_reads() }),
        }
        if sink.0 != w.kept() || driver.session().phase() != Phase::Ended {
            wire.faults = Faults::default();
            assert_eq!(driver.run(&mut wire, &mut sink, |_| ()).unwrap(), Outcome::Dumped { reads: w.memory_reads() });
        }
        assert_eq!(sink.0, w.kept(), "seed {seed}, {w:?}");
    }
}

/// A sink that takes a part and fails now and then: nothing is lost, nothing comes twice.
#[test]
fn errors_of_the_sink() {
    struct Poor(Record, device::Rng);
    impl Poor {
        fn fault(&mut self) -> io::Result<()> {
            match self.1.below(6) {
                0 => Err(ErrorKind::StorageFull.into()),
                1 => Err(ErrorKind::Interrupted.into()),
                _ => Ok(()),
            }
        }
    }
    impl Sink for Poor {
        fn open(&mut self, place: usize, entry: &Entry) -> io::Result<()> {
            self.fault()?;
            self.0.open(place, entry)
        }
        fn bytes(&mut self, bytes: &[u8]) -> io::Result<usize> {
            self.fault()?;
            let n = self.1.piece(bytes.len());
            self.0.bytes(&bytes[..n])
        }
        fn close(&mut self, place: usize) -> Result<(), Unkept> {
            self.fault()?;
            self.0.close(place)
        }
    }
    let mut failed = 0;
    for (seed, w) in worlds(0..1000) {
        let mut wire = wire(&w, seed, Faults::default());
        let mut sink = Poor(Record::default(), device::Rng::new(seed));
        let mut driver = driver(&w);
        let outcome = loop {
            match driver.run(&mut wire, &mut sink, |_| ()) {
                Err(Error::Sink(e)) => assert_eq!(e.kind(), ErrorKind::StorageFull),
                end => break end.unwrap(),
            }
            failed += 1;
        };
        assert_eq!(outcome, Outcome::Dumped { reads: w.memory_reads() });
        assert_eq!(sink.0 .0, w.kept(), "seed {seed}, {w:?}");
        assert_eq!(wire.device.wrong(), None);
    }
    assert!(failed > 1000, "{failed}");
}

/// Channels and sinks that take nothing, or say that they moved more than they were lent.
#[test]
fn liars() {
    struct Liar {
        read: usize,
        written: usize,
    }
    impl Read for Liar {
        fn read(&mut self, to: &mut [u8]) -> io::Result<usize> {
            let n = to.len().min(48);
            to[..n].copy_from_slice(&device::hello(2)[..n]);
            Ok(if self.read > 0 { self.read } else { n })
        }
    }
    impl Write for Liar {
        fn write(&mut self, _: &[u8]) -> io::Result<usize> {
            Ok(self.written)
        }
        fn flush(&mut self) -> io::Result<()> {
            Ok(())
        }
    }
    struct Greedy(usize);
    impl Sink for Greedy {
        fn open(&mut self, _: usize, _: &Entry) -> io::Result<()> {
            Ok(())
        }
        fn bytes(&mut self, _: &[u8]) -> io::Result<usize> {
            Ok(self.0)
        }
        fn close(&mut self, _: usize) -> Result<(), Unkept> {
            Ok(())
        }
    }
    let kind = |end: Result<Outcome, Error>| match end.unwrap_err() {
        Error::Channel(e) | Error::Sink(e) => e.kind(),
        e => panic!("{e}"),
    };
    let new = || dump(Backend::Serial).start().unwrap();
    for read in [9, 100_000, usize::MAX] {
        let mut channel = Liar { read, written: 48 };
        assert_eq!(kind(new().run(&mut channel, &mut Count::default(), |_| ())), ErrorKind::InvalidData);
    }
    for (written, error) in [(0, ErrorKind::WriteZero), (49, ErrorKind::InvalidData), (usize::MAX, ErrorKind::InvalidData)] {
        // a hello in two reads: 8 bytes, then 40
        struct Two(Liar, usize);
        impl Read for Two {
            fn read(&mut self, to: &mut [u8]) -> io::Result<usize> {
                let n = to.len().min(48 - self.1);
                to[..n].copy_from_slice(&device::hello(2)[self.1..self.1 + n]);
                self.1 += n;
                Ok(n)
            }
        }
        impl Write for Two {
            fn write(&mut self, bytes: &[u8]) -> io::Result<usize> {
                self.0.write(bytes)
            }
            fn flush(&mut self) -> io::Result<()> {
                Ok(())
            }
        }
        let mut channel = Two(Liar { read: 0, written }, 0);
        assert_eq!(kind(new().run(&mut channel, &mut Count::default(), |_| ())), error);
    }
    for (taken, error) in [(0, ErrorKind::WriteZero), (5000, ErrorKind::InvalidData), (usize::MAX, ErrorKind::InvalidData)] {
        let memory = Memory::new(1, 1 << 40, &[Region::new("A", 0, 4999)]);
        let mut wire = Wire::new(Device::dump(memory), Division::Whole, 1);
        assert_eq!(kind(new().run(&mut wire, &mut Greedy(taken), |_| ())), error);
    }
}

/// An empty read is made once, whatever becomes of it: the original looks at no error there either.
#[test]
fn empty_reads_that_fail() {
    struct NoEmptyPackets(Wire, ErrorKind, u32);
    impl Read for NoEmptyPackets {
        fn read(&mut self, to: &mut [u8]) -> io::Result<usize> {
            if to.is_empty() {
                self.2 += 1;
                return Err(self.1.into());
            }
            self.0.read(to)
        }
    }
    impl Write for NoEmptyPackets {
        fn write(&mut self, bytes: &[u8]) -> io::Result<usize> {
            self.0.write(bytes)
        }
        fn flush(&mut self) -> io::Result<()> {
            self.0.flush()
        }
    }
    let kinds = [ErrorKind::TimedOut, ErrorKind::WouldBlock, ErrorKind::BrokenPipe, ErrorKind::InvalidInput, ErrorKind::Other];
    for (kind, width) in Width::with_both(kinds) {
        let w = World::new(width, Backend::Usb, &[Region::new("A", 0, 8192)]);
        let mut channel = NoEmptyPackets(Wire::new(Device::dump(w.memory.clone()), Division::Random, 1), kind, 0);
        let mut sink = Count::default();
        assert_eq!(sahara_run(&mut channel, &w.options(), &mut sink, |_| ()).unwrap(), Outcome::Dumped { reads: 3 });
        assert_eq!((sink.bytes, channel.2), (8192, 2));
    }
}

/// What a device says, and the refusal that a run ends with.
fn refused(said: Vec<u8>, mode: Mode, images: &[Option<Vec<u8>>]) -> u8 {
    let mut numbers = Vec::new();
    for division in [Division::Whole, Division::AtMost(1), Division::Random] {
        let mut wire = Wire::new(Device::new(Memory::empty(), vec![Turn::Say(said.clone())]), division, 9);
        wire.faults.ends_after = Some(said.len() as u64);
        let mut sink = Count::default();
        let end = sahara_run(&mut wire, &Options::new(Backend::Serial, mode).images(images), &mut sink, |_| ());
        assert_eq!(sink, Count::default());
        let e = end.unwrap_err();
        let number = e.number().unwrap();
        assert!(e.to_string().starts_with(&format!("refused ({number}): ")), "{e}");
        numbers.push(number);
    }
    assert!(numbers.iter().all(|n| *n == numbers[0]), "{numbers:?}");
    numbers[0]
}

/// Every refusal that a device can bring about, by its number.
#[test]
fn refusals_of_a_packet() {
    use device::*;
    let image = [Some(vec![1; 10])];
    let two = [Some(vec![1; 10]), None];
    type Images<'a> = &'a [Option<Vec<u8>>];
    let cases: [(u8, Vec<u8>, Images); 40] = [
        (5, packet(1, &[])[..4].iter().copied().chain([7, 0, 0, 0]).collect(), &image),
        (5, packet(1, &[])[..4].iter().copied().chain(4097u32.to_le_bytes()).collect(), &image),
        (6, packet(0x15, &[]), &image),
        (6, packet(0, &[]), &image),
        (7, packet(0x6d78_3f3c, &[]), &image),
        (8, packet(7, &[]), &image),
        (8, packet(0x0c, &[0]), &image),
        (9, packet(1, &[2, 1]), &image),
        (9, packet(9, &[]), &image),
        (9, packet(9, &[0]), &image),
        (9, framed(9, 15, &[0; 7]), &image),
        (9, framed(0x0a, 15, &[0; 7]), &image),
        (9, hello(4), &image),
        (9, packet(1, &[2, 1, 4096, 4, 0, 0, 0, 0, 0, 0, 0]), &image),
        (10, packet(2, &[2, 1, 0, 1, 0, 0, 0, 0, 0, 0]), &image),
        (10, packet(2, &[2, 1, 0, 0, 0, 0, 0, 0, 0, 0]), &image),
        (10, packet(5, &[]), &image),
        (10, packet(0x0f, &[1]), &image),
        (10, packet64(0x11, &[1, 2]), &image),
        (10, packet(0x0a, &[1, 2]), &image),
        (10, framed(0x0a, 17, &[0; 9]), &image),
        (11, packet(1, &[2, 1, 4096, 0, 0, 0, 0, 0, 0, 0, 0]), &image),
        (11, packet(1, &[2, 1, 4096, 1, 0, 0, 0, 0, 0, 0, 0]), &image),
        (11, packet(8, &[0]), &image),
        (11, framed(9, 17, &[0xff; 9]), &image),
        (11, packet64(9, &[0, 0]), &image),
        (12, read_data(0, 0, 1), NO_IMAGES),
        (12, read_data(1, 0, 1), &two),
        (12, read_data(2, 0, 1), &two),
        (12, read_data64(1 << 32, 0, 1), &two),
        (13, read_data(9, 4, 7), &image),
        (13, read_data64(9, u64::MAX, u64::MAX), &image),
        (14, end_of_image(0, 1), &image),
        (15, command_ready(), &image),
        (16, execute_resp(1, 65_537), &image),
        (17, mem_debug64(0, 65_537), &image),
        (17, mem_debug64(0, u64::MAX), &image),
        (17, packet(9, &[0, 65_537]), &image),
        (17, packet(9, &[0, u32::MAX]), &image),
        (23, hello(2)[..47].to_vec(), &image),
    ];
    for (number, said, images) in cases {
        assert_eq!(refused(said.clone(), Mode::WaitingForImage, images), number, "{said:?}");
    }
}

/// The refusals of a region: by its filename and its end.
#[test]
fn refusals_of_a_region() {
    for width in Width::BOTH {
        let (above, most) = if width == Width::Bits32 { (24, u32::MAX.into()) } else { (22, u64::MAX) };
        let cases: [(u8, &[u8], u64, u64); 8] = [
            (19, b"ABCDEFGHIJKLMNOPQRST", 0, 1),
            (20, b"A\xffB", 0, 1),
            (21, b"A\0\xff", 0, 1),
            (21, b"A\0\xff", most, 2),
            (above, b"A", most, 2),
            (above, b"A", 2, most),
            (above, b"A", width.end_less(5000), 5001),
            (above, b"A", most, most),
        ];
        for (number, name, base, len) in cases {
            for seed in 0..20 {
                // one good region before it
                let w = World::new(width, Backend::Usb, &[Region::new("GOOD.BIN", 3, 5000), Region::new(name, base, len)]);
                let mut wire = wire(&w, seed, Faults::default());
                let mut sink = Record::default();
                let end = sahara_run(&mut wire, &w.options(), &mut sink, |_| ());
                assert_eq!(end.unwrap_err().number(), Some(number), "{w:?}");
                assert_eq!((&sink.0[0].bytes, sink.0[0].closed), (&w.memory.bytes(3, 5000), true));
                // of one that was opened nothing came
                assert!(sink.0[1..].iter().all(|r| r.bytes.is_empty() && !r.closed));
                assert_eq!((sink.0.len(), wire.device.reads()), (if number < 21 { 1 } else { 2 }, 3));
            }
        }
    }
}

/// Closing ends a session once: 23, then 4.
#[test]
fn closed_by_hand() {
    let mut s = Session::open(Mode::Command, Some(Command::Nop), Backend::Usb);
    let number = |a| match a {
        Answer::Refused(why) => why.number(),
        a => panic!("{a:?}"),
    };
    assert_eq!(number(s.closed()), 23);
    assert_eq!((s.phase(), s.wanted()), (Phase::Ended, 0));
    assert_eq!(number(s.closed()), 4);
}
