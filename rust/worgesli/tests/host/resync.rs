//! Channels that lose bytes, and runs that are older than their channel.
use crate::files::Temporary;
use crate::world::{worlds, Cut, Record, World};
use device::{Device, Division, Faults, Region, Rng, Width, Wire};
use std::fs;
use worgesli::{Backend, Driver, Error, Folder, NameList, Options, Outcome, Phase, Sink, State};

pub fn two_regions(width: Width, backend: Backend) -> World {
    World::new(width, backend, &[Region::new("A.BIN", 7, 9000), Region::new("B.BIN", 1 << 20, 4608), Region::new("C.BIN", 5, 0)])
}

/// On both backends of both boards.
fn all_of_two_regions() -> impl Iterator<Item = World> {
    Width::with_both([Backend::Serial, Backend::Usb]).map(|(backend, width)| two_regions(width, backend))
}

/// Where the table's and the regions' bytes stand in all that the device says.
pub fn bytes_of(w: &World) -> std::ops::Range<u64> {
    w.opening()..w.opening() + w.memory.table_len() + 9000 + 4608
}

/// Goes on, resyncing where the device is silent; gives how often that was.
fn run_on(run: &mut Driver, wire: &mut Wire, sink: &mut impl Sink) -> (Outcome, u64) {
    let mut times = 0;
    loop {
        match run.run(wire, sink, |_| ()) {
            Err(Error::TimedOut(_)) if times < 20 => run.resync(wire, sink).unwrap(),
            Err(Error::Sink(_)) if times < 20 => {}
            end => return (end.unwrap(), times),
        }
        times += 1;
    }
}

/// Any byte of the table or a region is lost on the way: the run times out, and behind a resync every byte is the memory's.
#[test]
fn a_byte_is_lost() {
    for w in all_of_two_regions() {
        for at in bytes_of(&w).step_by(13) {
            let faults = Faults { loses: Some(at), ..Faults::default() };
            let mut wire = Wire::new(Device::dump(w.memory.clone()), Division::Random, at).with(faults);
            let mut sink = Cut(Record::default(), [0, 2000, 65_536][at as usize % 3]);
            let mut run = w.options().start().unwrap();
            let (end, times) = run_on(&mut run, &mut wire, &mut sink);
            assert_eq!((end, times), (Outcome::Dumped { reads: w.memory_reads() + 1 }, 1), "byte {at}, {w:?}");
            assert!(sink.0 .0 == w.kept(), "byte {at}, {w:?}");
            assert_eq!((wire.device.wrong(), wire.device.queued()), (None, 0));
        }
    }
}

/// A run that was saved at any step, while the one that it was saved of went on: resynced, it gives the memory.
#[test]
fn an_older_run() {
    let mut rng = Rng::new(4);
    for (seed, w) in worlds(0..1500) {
        let mut wire = Wire::new(Device::dump(w.memory.clone()), Division::Random, seed);
        let mut sink = Cut(Record::default(), [0, 3000, 65_536][seed as usize % 3]);
        let mut run = w.options().start().unwrap();
        while run.session().phase() == Phase::Packet {
            run.step(&mut wire, &mut sink, |_| ()).unwrap();
        }
        let mut ended = false;
        let mut steps = |run: &mut Driver, wire: &mut Wire, sink: &mut Cut, most| {
            for _ in 0..rng.below(most) {
                ended = ended || run.step(wire, sink, |_| ()).unwrap().is_some();
            }
        };
        steps(&mut run, &mut wire, &mut sink, 40);
        let saved = run.save();
        steps(&mut run, &mut wire, &mut sink, 25);
        if ended {
            continue;
        }
        let mut run = w.options().restore(&saved).unwrap();
        // what the sink has of the region may be of the later run: it is lost, and comes again
        if let Err(e) = run.resync(&mut wire, &mut sink) {
            assert!(matches!(e, Error::Sink(_)), "{e}");
        }
        let (end, _) = run_on(&mut run, &mut wire, &mut sink);
        assert!(matches!(end, Outcome::Dumped { .. }));
        assert!(sink.0 .0 == w.kept(), "seed {seed}, {w:?}");
        assert_eq!((wire.device.wrong(), wire.device.queued()), (None, 0), "seed {seed}, {w:?}");
    }
}

/// The same with files: whatever the older run finds, what is called whole is the memory's.
#[test]
fn an_older_run_into_files() {
    let saves = [(6, 3), (8, 15), (12, 1), (12, 20), (14, 9), (22, 12), (34, 4)];
    for ((first, then), width) in Width::with_both(saves) {
        let w = two_regions(width, Backend::Usb);
        let options = w.options();
        let t = Temporary::new();
        let mut wire = Wire::new(Device::dump(w.memory.clone()), Division::AtMost(700), 1);
        let (mut run, mut sink) = (options.start().unwrap(), Folder::new(t.0.join("dump")).unwrap());
        for _ in 0..first {
            assert_eq!(run.step(&mut wire, &mut sink, |_| ()).unwrap(), None);
        }
        let saved = run.save();
        for _ in 0..then {
            assert_eq!(run.step(&mut wire, &mut sink, |_| ()).unwrap(), None);
        }
        let mut sink = Folder::resume(sink.manifest_path()).unwrap();
        let mut run = options.restore(&saved).unwrap();
        let _ = run.resync(&mut wire, &mut sink);
        let (end, _) = run_on(&mut run, &mut wire, &mut sink);
        assert!(matches!(end, Outcome::Dumped { .. }), "{first} {then}");
        for (place, r) in w.regions.iter().enumerate() {
            let whole: Vec<_> = sink.regions().iter().filter(|k| k.place == place && k.state == State::Whole).collect();
            assert!(!whole.is_empty(), "{first} {then}: region {place}");
            for kept in whole {
                let bytes = fs::read(t.0.join("dump").join(&kept.file)).unwrap();
                assert!(bytes == w.memory.bytes(r.base, r.len as usize), "{first} {then}: {}", kept.file);
            }
        }
    }
}

/// A byte is lost while a region's file is open: it is cut back, and comes out whole under its own name.
#[test]
fn a_byte_is_lost_into_files() {
    let lost = [0, 1, 700, 4095, 4096, 5000, 8999, 9000, 9512, 13_607];
    for (at, width) in Width::with_both(lost) {
        let w = two_regions(width, Backend::Usb);
        let t = Temporary::new();
        let faults = Faults { loses: Some(w.opening() + w.memory.table_len() + at), ..Faults::default() };
        let mut wire = Wire::new(Device::dump(w.memory.clone()), Division::AtMost(700), at).with(faults);
        let (mut run, mut sink) = (w.options().start().unwrap(), Folder::new(t.0.join("dump")).unwrap());
        assert_eq!(run_on(&mut run, &mut wire, &mut sink).1, 1, "byte {at}");
        for (kept, r) in sink.regions().iter().zip(&w.regions) {
            let name = std::str::from_utf8(&r.filename).unwrap().trim_end_matches('\0');
            assert_eq!((kept.file.as_str(), &kept.state), (name, &State::Whole), "byte {at}");
            assert!(
                fs::read(t.0.join("dump").join(name)).unwrap() == w.memory.bytes(r.base, r.len as usize),
                "byte {at}: {name}"
            );
        }
        assert_eq!(sink.regions().len(), 3);
    }
}

/// The table is there as soon as it came, no longer than it is; names chosen by it hold from then on. Outside a dump a resync does nothing.
#[test]
fn names_chosen_by_the_table() {
    for width in Width::BOTH {
        let w = two_regions(width, Backend::Serial);
        let mut wire = Wire::new(Device::dump(w.memory.clone()), Division::Random, 3);
        let mut sink = Record::default();
        let mut run: Driver = w.options().start().unwrap();
        assert_eq!(run.table(), []);
        run.resync(&mut wire, &mut sink).unwrap();
        while run.session().phase() != Phase::Between {
            assert!(run.table().len() < w.memory.table().len());
            run.step(&mut wire, &mut sink, |_| ()).unwrap();
        }
        assert_eq!(run.table(), w.memory.table());
        assert_eq!(run.entries().map(|e| e.base).collect::<Vec<_>>(), [7, 1 << 20, 5]);
        let names = NameList::new(&["b"]).unwrap();
        run.set_names(names.clone());
        let options = Options::new(Backend::Serial, worgesli::Mode::MemoryDebug).name_list(names);
        let mut run = options.restore(&run.save()).unwrap();
        assert_eq!(run.run(&mut wire, &mut sink, |_| ()).unwrap(), Outcome::Dumped { reads: 3 });
        assert_eq!(sink.0, w.kept()[1..2]);
        assert_eq!(run.table(), w.memory.table());
        let again = options.restore(&run.save()).unwrap();
        assert_eq!((again.table(), again.entries().count()), (run.table(), 3));
    }
}

/// Of a table that did not come whole, what came is there and no more: while it is waited for, when the run is given up, and when it is restored.
#[test]
fn part_of_a_table() {
    for (width, size) in [(Width::Bits32, 52), (Width::Bits64, 64)] {
        let w = two_regions(width, Backend::Serial);
        for came in 0..3 * size {
            let mut wire = Wire::new(Device::dump(w.memory.clone()), Division::Random, came as u64);
            wire.faults.ends_after = Some(w.opening() + came as u64);
            let mut sink = Record::default();
            let options = w.options();
            let mut run = options.start().unwrap();
            assert!(matches!(run.run(&mut wire, &mut sink, |_| ()), Err(Error::NoBytes)));
            let there = |run: &Driver| (run.table().to_vec(), run.entries().count());
            let wanted = (w.memory.table()[..came].to_vec(), came / size);
            assert_eq!(there(&run), wanted);
            assert_eq!(there(&options.restore(&run.save()).unwrap()), wanted);
            assert_eq!(run.close(&mut sink).unwrap().number(), 23);
            assert_eq!(there(&run), wanted);
            assert_eq!(there(&options.restore(&run.save()).unwrap()), wanted);
        }
    }
}

/// Silent at one byte for some reads, and then it goes on.
pub struct Pauses(pub Wire, pub u64, pub u32);

impl std::io::Read for Pauses {
    fn read(&mut self, to: &mut [u8]) -> std::io::Result<usize> {
        if self.0.given < self.1 {
            let room = to.len().min((self.1 - self.0.given) as usize);
            return self.0.read(&mut to[..room]);
        }
        if self.2 > 0 && !to.is_empty() {
            self.2 -= 1;
            return Err(std::io::ErrorKind::TimedOut.into());
        }
        self.0.read(to)
    }
}

impl std::io::Write for Pauses {
    fn write(&mut self, bytes: &[u8]) -> std::io::Result<usize> {
        self.0.write(bytes)
    }
    fn flush(&mut self) -> std::io::Result<()> {
        self.0.flush()
    }
}

/// A device that only pauses, for longer than was waited: its late bytes come behind the memory read that is made again, and are not taken for its answer.
#[test]
fn late_bytes() {
    let hosts = [(Backend::Serial, 0), (Backend::Usb, 0), (Backend::Serial, 2)];
    for ((backend, timeouts), width) in Width::with_both(hosts) {
        let w = two_regions(width, backend);
        for at in bytes_of(&w).step_by(61) {
            // the pause outlasts the run and the hearing out
            let wire = Wire::new(Device::dump(w.memory.clone()), Division::Random, at);
            let mut channel = Pauses(wire, at, 2 * (timeouts + 1));
            let mut sink = Cut(Record::default(), [0, 2000, 65_536][at as usize % 3]);
            let options = w.options().timeouts(timeouts);
            let mut run = options.start().unwrap();
            assert!(matches!(run.run(&mut channel, &mut sink, |_| ()), Err(Error::TimedOut(_))), "byte {at}");
            run.resync(&mut channel, &mut sink).unwrap();
            // saved in doubt, it is restored in doubt
            let mut run = options.restore(&run.save()).unwrap();
            // told, and asked for once more
            let told = run.run(&mut channel, &mut sink, |_| ());
            assert!(matches!(told, Err(Error::Channel(e)) if e.kind() == std::io::ErrorKind::InvalidData), "byte {at}");
            assert!(matches!(run.run(&mut channel, &mut sink, |_| ()), Ok(Outcome::Dumped { .. })), "byte {at}");
            assert!(sink.0 .0 == w.kept(), "byte {at}");
            assert_eq!(channel.0.device.queued(), 0);
        }
    }
}

/// A device that is never silent is not heard for ever.
#[test]
fn a_device_that_babbles() {
    struct Babble(Wire, bool);
    impl std::io::Read for Babble {
        fn read(&mut self, to: &mut [u8]) -> std::io::Result<usize> {
            match self.1 {
                true => Ok(to.len()),
                false => self.0.read(to),
            }
        }
    }
    impl std::io::Write for Babble {
        fn write(&mut self, bytes: &[u8]) -> std::io::Result<usize> {
            self.0.write(bytes)
        }
        fn flush(&mut self) -> std::io::Result<()> {
            self.0.flush()
        }
    }
    for width in Width::BOTH {
        let w = two_regions(width, Backend::Serial);
        let mut channel = Babble(Wire::new(Device::dump(w.memory.clone()), Division::Whole, 3), false);
        let (mut run, mut sink) = (w.options().start().unwrap(), Cut(Record::default(), 0));
        while run.session().phase() != Phase::Region {
            run.step(&mut channel, &mut sink, |_| ()).unwrap();
        }
        channel.1 = true;
        assert!(matches!(run.resync(&mut channel, &mut sink), Err(Error::Channel(_))));
        channel.1 = false;
        run.resync(&mut channel, &mut sink).unwrap();
        run.run(&mut channel, &mut sink, |_| ()).unwrap();
        assert!(sink.0 .0 == w.kept());
    }
}
