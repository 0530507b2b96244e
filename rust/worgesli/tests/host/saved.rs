//! Runs that are written to bytes and read back, and regions that are lost.
use crate::world::{worlds, Kept, Record, World};
use device::{Device, Division, Faults, Memory, Region, Rng, Turn, Width, Wire};
use std::io::{self, ErrorKind};
use worgesli::{Backend, Command, Count, Driver, Entry, Error, ImageSet, Mode, Options, Outcome, RestoreError, Sink, Unkept};

/// A sink with a gathering of its own.
pub struct Gathering<S>(pub S, pub usize);

impl<S: Sink> Sink for Gathering<S> {
    fn open(&mut self, place: usize, entry: &Entry) -> io::Result<()> {
        self.0.open(place, entry)
    }
    fn bytes(&mut self, bytes: &[u8]) -> io::Result<usize> {
        self.0.bytes(bytes)
    }
    fn close(&mut self, place: usize) -> Result<(), Unkept> {
        self.0.close(place)
    }
    fn reopen(&mut self, place: usize, entry: &Entry, taken: u64) -> Result<(), Unkept> {
        self.0.reopen(place, entry, taken)
    }
    fn gathers(&self) -> usize {
        self.1
    }
}

/// A step at a time, each in a driver of its own that knows nothing but the bytes of the one before: in dumps, with time-outs and short writes.
#[test]
fn saved_behind_every_step() {
    for (seed, w) in worlds(0..400) {
        let faults = Faults { timed_out: 100, would_block: 50, short_writes: true, buffered: false, ..Faults::default() };
        let mut wire = Wire::new(Device::dump(w.memory.clone()), Division::Random, seed).with(faults);
        let mut sink = Gathering(Record::default(), [0, 700, 65_536][seed as usize % 3]);
        let mut run = w.options().start().unwrap();
        let end = loop {
            match run.step(&mut wire, &mut sink, |_| ()) {
                Ok(Some(end)) => break end,
                Ok(None) | Err(Error::TimedOut(_)) => {}
                Err(e) => panic!("{e}"),
            }
            run = w.options().restore(&run.save()).unwrap();
        };
        assert_eq!(end, Outcome::Dumped { reads: w.memory_reads() });
        assert_eq!(sink.0 .0, w.kept(), "seed {seed}, {w:?}");
        assert_eq!((wire.device.wrong(), wire.device.queued()), (None, 0));
    }
}

/// The same where images are loaded and where a command is answered.
#[test]
fn saved_images_and_replies() {
    let mut bytes = vec![0; 6000];
    Rng::new(3).fill(&mut bytes);
    let load = Options::new(Backend::Usb, Mode::WaitingForImage).images(&[Some(bytes.clone())]);
    let ask = Options::new(Backend::Usb, Mode::Command).command(Command::ReadSerialNum).reply(7000);
    let devices = [Device::load(&[(1, 0, 6000), (1, 50, 100)], b"loader"), Device::command(1, &bytes, b"next")];
    let ends = [Outcome::ImagesSent, Outcome::Reply(bytes.clone())];
    for ((options, device), due) in [load, ask].into_iter().zip(devices).zip(ends) {
        let faults = Faults { timed_out: 300, short_writes: true, ..Faults::default() };
        let mut wire = Wire::new(device, Division::Random, 1).with(faults);
        let mut run = options.start().unwrap();
        let end = loop {
            match run.step(&mut wire, &mut Count::default(), |_| ()) {
                Ok(Some(end)) => break end,
                Ok(None) | Err(Error::TimedOut(_)) => run = options.restore(&run.save()).unwrap(),
                Err(e) => panic!("{e}"),
            }
        };
        assert_eq!(end, due);
        assert!(wire.device.heard().len() > 48);
    }
}

fn midway(width: Width) -> (Options, Driver) {
    let w = World::new(width, Backend::Usb, &[Region::new("A.BIN", 7, 9000)]);
    let mut wire = Wire::new(Device::dump(w.memory), Division::AtMost(1000), 1);
    let options = Options::new(Backend::Usb, Mode::MemoryDebug).names(["a"]);
    let mut run = options.start().unwrap();
    let mut sink = Gathering(Record::default(), 2500);
    for _ in 0..12 {
        run.step(&mut wire, &mut sink, |_| ()).unwrap();
    }
    (options, run)
}

/// Bytes that are not all of a saved run are not taken for one, and a run goes on only with what it was started with.
#[test]
fn damaged_and_foreign_bytes() {
    for width in Width::BOTH {
        let (options, run) = midway(width);
        let saved = run.save();
        assert_eq!(options.restore(&saved).unwrap().save(), saved);
        for i in 0..saved.len() {
            let mut other = saved.clone();
            other[i] ^= 1 << (i % 8);
            assert_eq!(options.restore(&other).unwrap_err(), RestoreError::Damaged, "byte {i}");
            assert_eq!(options.restore(&saved[..i]).unwrap_err(), RestoreError::Damaged, "{i} bytes");
        }
        assert_eq!(options.restore(&[saved.clone(), vec![0]].concat()).unwrap_err(), RestoreError::Damaged);
        for (backend, mode) in [(Backend::Serial, Mode::MemoryDebug), (Backend::Usb, Mode::ImageTransferComplete)] {
            let other = Options::new(backend, mode).names(["a"]);
            assert_eq!(other.restore(&saved).unwrap_err(), RestoreError::OtherOpening);
        }
        assert_eq!(options.clone().names(["b"]).restore(&saved).unwrap_err(), RestoreError::OtherBundles);
        assert_eq!(options.clone().images(&[None]).restore(&saved).unwrap_err(), RestoreError::OtherBundles);
        let too_many = vec![None; 65];
        assert!(matches!(options.images(&too_many).restore(&saved), Err(RestoreError::Refused(why)) if why.number() == 1));
    }
}

fn bytes_of(hex: &str) -> Vec<u8> {
    let digits: String = hex.split_whitespace().collect();
    (0..digits.len()).step_by(2).map(|i| u8::from_str_radix(&digits[i..i + 2], 16).unwrap()).collect()
}

/// Runs that version 0.4.0 saved, with an empty image and no empty name, and the other way round: they go on, with these alone, and are saved in the form of today.
#[test]
fn saved_by_0_4_0_with_an_empty_slot() {
    let images = vec![Some(vec![7; 70_000]), Some(vec![]), None, Some(vec![1; 256])];
    let cases = [(images, vec![]), (vec![Some(b"ab".to_vec())], vec!["a", "", "b"])];
    for (hex, (images, names)) in include_str!("form-2.hex").split("\n\n").zip(cases) {
        let (saved, options) = (bytes_of(hex), Options::new(Backend::Usb, Mode::WaitingForImage).images(&images).names(&names));
        let again = options.restore(&saved).unwrap().save();
        // but for the digest of the bundles, and that of it all
        let same = |part: std::ops::Range<usize>| again[part.clone()] == saved[part];
        assert!(again.len() == saved.len() && same(0..16) && !same(16..48) && same(48..saved.len() - 32));
        assert_eq!(options.restore(&again).unwrap().save(), again);
        for other in [options.clone().names(["other"]), options.clone().images(&[Some(vec![])])] {
            assert_eq!(other.restore(&saved).unwrap_err(), RestoreError::OtherBundles);
        }
    }
}

/// A run over a tidy form goes on with these bytes, wherever they come from, and with no others: not those of the set, nor of a form without the absent slot at its
/// end. And what version 0.4.0 began was no tidy form.
#[test]
fn saved_over_a_tidy_form() {
    let options = Options::new(Backend::Usb, Mode::WaitingForImage);
    let (first, empty) = (Some(b"-boot-".to_vec()), Some(vec![]));
    let written = ImageSet::new(&[first.clone(), empty.clone(), None]).unwrap();
    // the empty image starts elsewhere
    let mut set = written.bytes().to_vec();
    set[12] = 0;
    let (set, form) = (ImageSet::from_bytes(set.clone()).unwrap(), ImageSet::from_bytes(set).unwrap().tidied().unwrap());
    let saved = options.clone().image_set(form.clone()).start().unwrap().save();
    for same in [form.clone(), ImageSet::from_bytes(form.bytes().to_vec()).unwrap(), written] {
        assert_eq!(options.clone().image_set(same).restore(&saved).unwrap().save(), saved);
    }
    for other in [set.clone(), ImageSet::new(&[first, empty]).unwrap().tidied().unwrap()] {
        assert_eq!(options.clone().image_set(other).restore(&saved).unwrap_err(), RestoreError::OtherBundles);
    }
    let before = options.clone().image_set(set).start().unwrap().save();
    assert_eq!(options.image_set(form).restore(&before).unwrap_err(), RestoreError::OtherBundles);
}

/// A run of the crate before, which knew devices of 64 bits alone, saved when 200 bytes of a region had come and 150 were the sink's: it goes on to
/// its end, and is saved in the form of today.
#[test]
fn saved_in_the_form_before() {
    let saved = bytes_of(include_str!("form-1.hex"));
    let base = 1 << 32;
    let regions = vec![Region::new("A.BIN", 7, 5000), Region::new("B.BIN", base, 5000)];
    let table = regions.iter().flat_map(|r| r.bytes(Width::Bits64)).collect();
    let w = World { memory: Memory::mixed(2, 1 << 40, table), regions, names: vec!["b".into()], backend: Backend::Usb };
    let mut run = w.options().restore(&saved).unwrap();
    assert_eq!((run.session().width(), run.session().raw().done), (worgesli::Width::Bits64, 200));
    // the form's number, and the width behind twelve other numbers of the session
    let (mut now, again) = (saved.clone(), run.save());
    now[8] = 2;
    let at = 8 + 8 + 32 + 12 * 8;
    now.splice(at..at, 64u64.to_le_bytes());
    let end = now.len() - 32;
    assert_eq!((again.len(), &again[..end]), (now.len(), &now[..end]));
    assert_eq!(w.options().restore(&again).unwrap().save(), again);
    let kept = Kept { place: 1, filename: w.regions[1].filename, bytes: w.memory.bytes(base, 150), closed: false };
    let mut sink = Record(vec![kept]);
    let rest = w.memory.bytes(base + 200, 4096 - 200);
    let mut wire = Wire::new(Device::new(w.memory.clone(), vec![Turn::Say(rest)]), Division::Random, 1);
    assert_eq!(run.run(&mut wire, &mut sink, |_| ()).unwrap(), Outcome::Dumped { reads: 3 });
    assert_eq!(sink.0, w.kept());
    assert_eq!((wire.device.wrong(), wire.device.reads(), wire.device.queued()), (None, 1, 0));
}

/// A sink that cannot go on with a region of another process says so each time; nothing is lost by it.
#[test]
fn a_sink_without_reopen() {
    let (options, run) = midway(Width::Bits32);
    let mut run = options.restore(&run.save()).unwrap();
    let mut nothing = Wire::new(Device::new(Memory::empty(), vec![]), Division::Whole, 1);
    for _ in 0..3 {
        let end = run.run(&mut nothing, &mut Count::default(), |_| ());
        assert!(matches!(end, Err(Error::Sink(e)) if e.kind() == ErrorKind::Unsupported));
        assert!(matches!(run.close(&mut Count::default()), Err(Error::Sink(_))));
    }
}

/// Loses regions when they are closed or reopened, as often as it is told.
struct Loses(Record, u32, u32);

impl Sink for Loses {
    fn open(&mut self, place: usize, entry: &Entry) -> io::Result<()> {
        // a region that was lost begins anew
        if self.0 .0.last().is_some_and(|r| !r.closed) {
            assert_eq!(self.0 .0.pop().unwrap().place, place);
        }
        self.0.open(place, entry)
    }
    fn bytes(&mut self, bytes: &[u8]) -> io::Result<usize> {
        self.0.bytes(bytes)
    }
    fn close(&mut self, place: usize) -> Result<(), Unkept> {
        if self.1 > 0 {
            self.1 -= 1;
            return Err(Unkept::Lost(ErrorKind::Other.into()));
        }
        self.0.close(place)
    }
    fn reopen(&mut self, _: usize, _: &Entry, _: u64) -> Result<(), Unkept> {
        self.2 -= 1;
        Err(Unkept::Lost(ErrorKind::Other.into()))
    }
    fn gathers(&self) -> usize {
        5000
    }
}

/// A region whose sync failed is told, never passed over, and fetched again by the next call; its reads are counted.
#[test]
fn lost_at_the_close() {
    for (seed, w) in worlds(0..300) {
        let mut wire = Wire::new(Device::dump(w.memory.clone()), Division::Random, seed);
        let mut sink = Loses(Record::default(), 3, 0);
        let mut run = w.options().start().unwrap();
        let mut told = 0;
        let end = loop {
            match run.run(&mut wire, &mut sink, |_| ()) {
                Err(Error::Sink(_)) => told += 1,
                end => break end.unwrap(),
            }
            if seed % 2 == 0 {
                run = w.options().restore(&run.save()).unwrap();
            }
        };
        let kept = w.kept();
        let again = kept.first().map_or(0, |r| 3 * (r.bytes.len() as u64).div_ceil(4096));
        assert_eq!((end, told), (Outcome::Dumped { reads: w.memory_reads() + again }, if kept.is_empty() { 0 } else { 3 }));
        assert_eq!(sink.0 .0, kept, "seed {seed}, {w:?}");
        assert_eq!((wire.device.wrong(), wire.device.reads()), (None, w.memory_reads() + again));
    }
}

/// A region that another process began and that is not there any more is fetched again behind its end: the rest of a chunk is still the device's.
#[test]
fn lost_at_the_reopening() {
    for width in Width::BOTH {
        let w = World::new(width, Backend::Usb, &[Region::new("A.BIN", 7, 9000), Region::new("B.BIN", 1 << 20, 100)]);
        for stop in 6..60 {
            let mut wire = Wire::new(Device::dump(w.memory.clone()), Division::AtMost(1000), 1);
            let mut sink = Loses(Record::default(), 0, 1);
            let mut run = w.options().start().unwrap();
            let ended = (0..stop).any(|_| run.step(&mut wire, &mut sink, |_| ()).unwrap().is_some());
            if ended {
                break;
            }
            let mut run = w.options().restore(&run.save()).unwrap();
            let end = match run.run(&mut wire, &mut sink, |_| ()) {
                Err(Error::Sink(_)) => run.run(&mut wire, &mut sink, |_| ()),
                end => end,
            };
            assert!(matches!(end, Ok(Outcome::Dumped { .. })), "{end:?}");
            assert_eq!(sink.0 .0, w.kept(), "behind {stop} steps, {w:?}");
            assert_eq!((wire.device.wrong(), wire.device.queued()), (None, 0));
        }
    }
}
