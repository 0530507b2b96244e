//! The table as a sink is told it: when it is whole, before any region, once a call; and again where the first time failed or was another process's.
use crate::resync::{bytes_of, two_regions, Pauses};
use crate::world::{host_width, worlds, Cut, Record, World};
use device::{Device, Division, Faults, Memory, Region, Width, Wire};
use std::io::{self, ErrorKind};
use std::panic::{catch_unwind, resume_unwind, AssertUnwindSafe};
use worgesli::{Backend, Command, Count, Driver, Entry, Error, Mode, Options, Outcome, Phase, Sink, Unkept};

#[derive(Clone, Debug, PartialEq, Eq)]
enum Heard {
    Table(Vec<u8>, worgesli::Width),
    Open(usize),
    Reopen(usize),
    Close(usize),
}

/// How a call goes wrong.
#[derive(Clone, Copy, Debug, PartialEq)]
pub enum Wrong {
    Full,
    Interrupted,
    Reset,
    Panic,
}

impl Wrong {
    pub fn come(self) -> io::Error {
        match self {
            Wrong::Full => ErrorKind::StorageFull.into(),
            Wrong::Interrupted => ErrorKind::Interrupted.into(),
            Wrong::Reset => ErrorKind::ConnectionReset.into(),
            // no message: it is expected
            Wrong::Panic => resume_unwind(Box::new("panic")),
        }
    }
}

/// Hands on what it is told, and writes it down. Calls of `table` go wrong first, the last of these first; those of `open` and `close` as long as they are said to.
struct Ear<S> {
    to: S,
    heard: Vec<Heard>,
    table: Vec<Wrong>,
    no_open: bool,
    no_close: bool,
    gathers: usize,
}

impl<S> Ear<S> {
    fn new(to: S) -> Ear<S> {
        Ear { to, heard: Vec::new(), table: Vec::new(), no_open: false, no_close: false, gathers: 0 }
    }

    /// The same keeper in another process.
    fn in_another(self) -> Ear<S> {
        Ear { gathers: self.gathers, ..Ear::new(self.to) }
    }

    fn tables(&self) -> usize {
        self.heard.iter().filter(|h| matches!(h, Heard::Table(..))).count()
    }

    /// All that was heard began with the table, and each time it was the right one.
    fn table_first(&self, w: &World) {
        assert_eq!(self.heard.first(), Some(&table(w)), "{w:?}");
        assert!(self.heard.iter().all(|h| !matches!(h, Heard::Table(..)) || *h == table(w)), "{w:?}: {:?}", self.heard);
    }

    /// The same, and it was told once.
    fn table_first_and_once(&self, w: &World) {
        self.table_first(w);
        assert_eq!(self.tables(), 1, "{w:?}: {:?}", self.heard);
    }
}

/// The whole table.
fn table(w: &World) -> Heard {
    Heard::Table(w.memory.table().to_vec(), host_width(w.width()))
}

impl<S: Sink> Sink for Ear<S> {
    fn table(&mut self, table: &[u8], width: worgesli::Width) -> io::Result<()> {
        self.heard.push(Heard::Table(table.to_vec(), width));
        self.table.pop().map_or(Ok(()), |wrong| Err(wrong.come()))
    }
    fn open(&mut self, place: usize, entry: &Entry) -> io::Result<()> {
        self.heard.push(Heard::Open(place));
        if self.no_open {
            return Err(ErrorKind::StorageFull.into());
        }
        self.to.open(place, entry)
    }
    fn bytes(&mut self, bytes: &[u8]) -> io::Result<usize> {
        self.to.bytes(bytes)
    }
    fn close(&mut self, place: usize) -> Result<(), Unkept> {
        self.heard.push(Heard::Close(place));
        if self.no_close {
            return Err(Unkept::Again(ErrorKind::StorageFull.into()));
        }
        self.to.close(place)
    }
    fn reopen(&mut self, place: usize, entry: &Entry, taken: u64) -> Result<(), Unkept> {
        self.heard.push(Heard::Reopen(place));
        self.to.reopen(place, entry, taken)
    }
    fn gathers(&self) -> usize {
        self.gathers
    }
}

fn wire(w: &World, division: Division, seed: u64) -> Wire {
    Wire::new(Device::dump(w.memory.clone()), division, seed)
}

/// The table is whole, and the end is not yet there.
fn in_regions(run: &Driver) -> bool {
    matches!(run.session().phase(), Phase::Between | Phase::Region)
}

fn is_full(e: &Error) -> bool {
    matches!(e, Error::Sink(e) if e.kind() == ErrorKind::StorageFull)
}

/// Whatever the division, and where no region is chosen too. A sink behind a reference is told as well.
#[test]
fn told_once() {
    let mut none_chosen = 0;
    for (seed, w) in worlds(0..1500) {
        let division = [Division::Whole, Division::AtMost(1), Division::AtMost(51), Division::Random][seed as usize % 4];
        let (mut wire, mut sink) = (wire(&w, division, seed), Ear::new(Record::default()));
        let mut run = w.options().start().unwrap();
        let end = match seed % 3 {
            0 => run.run(&mut wire, &mut &mut sink, |_| ()),
            _ => run.run(&mut wire, &mut sink, |_| ()),
        };
        assert_eq!(end.unwrap(), Outcome::Dumped { reads: w.memory_reads() });
        sink.table_first_and_once(&w);
        assert_eq!(table(&w), Heard::Table(run.table().to_vec(), run.session().width()));
        assert_eq!(sink.to.0, w.kept(), "seed {seed}, {w:?}");
        none_chosen += u64::from(w.selected().is_empty());
    }
    assert!(none_chosen > 300, "{none_chosen}");
}

/// A step at a time: not before it is whole, by the step that makes it so, and by each that begins between two regions.
#[test]
fn told_step_by_step() {
    for (seed, w) in worlds(0..300) {
        let (mut wire, mut sink) = (wire(&w, Division::Random, seed), Ear::new(Record::default()));
        let mut run = w.options().start().unwrap();
        let (mut due, mut ended) = (0, false);
        while !ended {
            let (between, before) = (run.session().phase() == Phase::Between, in_regions(&run));
            ended = run.step(&mut wire, &mut sink, |_| ()).unwrap().is_some();
            let whole = in_regions(&run);
            due += usize::from(between || (whole && !before));
            assert_eq!(sink.tables(), due, "seed {seed}, {w:?}");
            assert!(ended || (run.table() == w.memory.table()) == (whole || w.memory.table().is_empty()));
        }
        sink.table_first(&w);
    }
}

/// Who looks at the table with one sink and fetches with another, or goes on with another between two regions: each is told first.
#[test]
fn another_sink() {
    for (steps, width) in Width::with_both([0, 1]) {
        let w = two_regions(width, Backend::Usb);
        let (mut wire, mut run) = (wire(&w, Division::Random, 1), w.options().start().unwrap());
        while run.session().phase() != Phase::Between {
            run.step(&mut wire, &mut Count::default(), |_| ()).unwrap();
        }
        let mut sink = Ear::new(Record::default());
        for _ in 0..steps {
            (sink.no_open, sink.heard) = (true, Vec::new());
            assert!(is_full(&run.run(&mut wire, &mut sink, |_| ()).unwrap_err()));
            sink.table_first_and_once(&w);
            sink = sink.in_another();
        }
        run.run(&mut wire, &mut sink, |_| ()).unwrap();
        sink.table_first_and_once(&w);
        assert!(sink.to.0 == w.kept());
    }
}

/// A process for each step, each with a sink of its own: one that has anything to do with the regions is told first, and once.
#[test]
fn told_by_each_process() {
    let (mut told, mut reopened) = (0, 0);
    for (seed, w) in worlds(0..150) {
        let (mut wire, mut sink) = (wire(&w, Division::Random, seed), Ear::new(Record::default()));
        sink.gathers = [0, 700, 65_536][seed as usize % 3];
        let mut run = w.options().start().unwrap();
        loop {
            let before = in_regions(&run);
            let ended = run.step(&mut wire, &mut sink, |_| ()).unwrap().is_some();
            match before || in_regions(&run) {
                true => sink.table_first_and_once(&w),
                false => assert_eq!(sink.heard, [], "seed {seed}, {w:?}"),
            }
            told += sink.tables();
            reopened += sink.heard.iter().filter(|h| matches!(h, Heard::Reopen(_))).count();
            if ended {
                break;
            }
            (run, sink) = (w.options().restore(&run.save()).unwrap(), sink.in_another());
        }
        assert_eq!(sink.to.0, w.kept(), "seed {seed}, {w:?}");
    }
    assert!(told > 3000 && reopened > 1000, "{told} {reopened}");
}

/// A region of an earlier process, with which a sink could not go on, or which it lost: another sink that goes on is told first, by each kind of call.
#[test]
fn another_sink_in_a_region() {
    struct Loses(bool);
    impl Sink for Loses {
        fn open(&mut self, _: usize, _: &Entry) -> io::Result<()> {
            unreachable!("it has lost the region, and is not asked again")
        }
        fn bytes(&mut self, _: &[u8]) -> io::Result<usize> {
            unreachable!("it has no region")
        }
        fn close(&mut self, _: usize) -> Result<(), Unkept> {
            unreachable!("it has no region")
        }
        fn reopen(&mut self, _: usize, _: &Entry, _: u64) -> Result<(), Unkept> {
            let e = ErrorKind::StorageFull.into();
            Err(if self.0 { Unkept::Lost(e) } else { Unkept::Again(e) })
        }
    }
    for ((first, then, lost), width) in
        Width::with_both((0..4).flat_map(|first| (0..4).flat_map(move |then| [(first, then, false), (first, then, true)])))
    {
        let w = two_regions(width, Backend::Serial);
        let (mut wire, mut sink) = (wire(&w, Division::AtMost(1000), 1), Ear::new(Cut::default()));
        let mut run = w.options().start().unwrap();
        while run.session().raw().done < 5000 {
            run.step(&mut wire, &mut sink, |_| ()).unwrap();
        }
        let (mut run, mut sink) = (w.options().restore(&run.save()).unwrap(), sink.in_another());
        fn call(way: u64, run: &mut Driver, wire: &mut Wire, sink: &mut impl Sink) -> Result<(), Error> {
            match way {
                0 => run.run(wire, sink, |_| ()).map(drop),
                1 => run.step(wire, sink, |_| ()).map(drop),
                2 => run.resync(wire, sink),
                _ => run.close(sink).map(drop),
            }
        }
        assert!(is_full(&call(first, &mut run, &mut wire, &mut Ear::new(Loses(lost))).unwrap_err()));
        call(then, &mut run, &mut wire, &mut sink).unwrap();
        sink.table_first(&w);
        if then < 3 {
            if run.session().phase() != Phase::Ended {
                run_on(&mut run, &mut wire, &mut sink);
            }
            assert!(sink.to.0 .0 == w.kept(), "{first} {then} {lost}");
        }
    }
}

/// A process that left an open or a close owed: the next one is told before it makes it.
#[test]
fn told_before_what_is_owed() {
    for width in Width::BOTH {
        let w = two_regions(width, Backend::Usb);
        for (no_open, due) in [(true, vec![Heard::Open(0)]), (false, vec![Heard::Reopen(0), Heard::Close(0)])] {
            let (mut wire, mut sink) = (wire(&w, Division::Random, 1), Ear::new(Record::default()));
            (sink.no_open, sink.no_close) = (no_open, !no_open);
            let mut run = w.options().start().unwrap();
            assert!(is_full(&run.run(&mut wire, &mut sink, |_| ()).unwrap_err()));
            let (mut run, mut sink) = (w.options().restore(&run.save()).unwrap(), sink.in_another());
            run.run(&mut wire, &mut sink, |_| ()).unwrap();
            sink.table_first_and_once(&w);
            assert_eq!(sink.heard[1..1 + due.len()], due);
            assert!(sink.to.0 == w.kept());
        }
    }
}

/// A sink that cannot take it: each call says so and makes no step, and tells it anew. One that is interrupted is told in the same call.
#[test]
fn a_sink_that_fails() {
    for ((wrong, steps), width) in Width::with_both([(Wrong::Full, false), (Wrong::Full, true), (Wrong::Interrupted, false)]) {
        let w = two_regions(width, Backend::Usb);
        let (mut wire, mut sink) = (wire(&w, Division::Random, 1), Ear::new(Record::default()));
        let mut run = w.options().start().unwrap();
        sink.table = vec![wrong; 3];
        let mut failed = 0;
        loop {
            let end = match steps {
                true => run.step(&mut wire, &mut sink, |_| ()),
                false => run.run(&mut wire, &mut sink, |_| ()).map(Some),
            };
            match end {
                Ok(Some(end)) => break assert_eq!(end, Outcome::Dumped { reads: w.memory_reads() }),
                Ok(None) => {}
                Err(e) => {
                    failed += 1;
                    assert!(is_full(&e));
                    assert_eq!((run.session().phase(), wire.device.reads()), (Phase::Between, 1));
                    assert_eq!(sink.heard, vec![table(&w); failed]);
                }
            }
        }
        assert_eq!(failed, if matches!(wrong, Wrong::Full) { 3 } else { 0 });
        assert_eq!(sink.heard[..5], [vec![table(&w); 4], vec![Heard::Open(0)]].concat());
        assert!(sink.tables() == 4 || (steps && sink.tables() > 4));
        sink.table_first(&w);
        assert_eq!(sink.to.0, w.kept());
    }
}

/// A sink that panics when it is told, in a process that began the run and in one that goes on with it: it is told anew.
#[test]
fn a_sink_that_panics() {
    for (back, width) in Width::with_both([0, 1]) {
        let w = two_regions(width, Backend::Usb);
        let (mut wire, mut sink) = (wire(&w, Division::AtMost(1000), 1), Ear::new(Record::default()));
        let mut run = w.options().start().unwrap();
        if back == 1 {
            while run.session().raw().done == 0 {
                run.step(&mut wire, &mut sink, |_| ()).unwrap();
            }
            (run, sink) = (w.options().restore(&run.save()).unwrap(), sink.in_another());
        }
        sink.table = vec![Wrong::Panic, Wrong::Full, Wrong::Panic];
        for panics in [true, false, true] {
            let end = catch_unwind(AssertUnwindSafe(|| run.run(&mut wire, &mut sink, |_| ())));
            assert_eq!(end.is_err(), panics);
        }
        assert_eq!(sink.heard, vec![table(&w); 3]);
        assert!(matches!(run.run(&mut wire, &mut sink, |_| ()), Ok(Outcome::Dumped { .. })));
        assert_eq!((sink.tables(), sink.heard[3] == table(&w)), (4, true));
        assert!(sink.to.0 == w.kept() && wire.device.wrong().is_none());
    }
}

/// Who gives up when the table is there has it, and who gives up before has not: behind any step, in the process that made it and in another. A sink that cannot
/// take it keeps the run from being closed, and gets all the bytes.
#[test]
fn given_up() {
    for ((restored, fails), width) in Width::with_both([(false, 0), (false, 3), (true, 0), (true, 2)]) {
        let w = two_regions(width, Backend::Usb);
        let mut seen = [0; 7];
        for steps in 0..60 {
            let (mut wire, mut sink) = (wire(&w, Division::AtMost(300), 1), Ear::new(Record::default()));
            let mut run = w.options().start().unwrap();
            sink.gathers = 65_536;
            if !restored {
                sink.table = vec![Wrong::Full; fails];
            }
            for _ in 0..steps {
                // a table that is not taken is not passed by
                run.step(&mut wire, &mut sink, |_| ()).map_or_else(|e| assert!(is_full(&e)), |end| assert!(end.is_none()));
                if sink.tables() > 0 && fails > 0 && !restored {
                    break;
                }
            }
            if restored {
                (run, sink) = (w.options().restore(&run.save()).unwrap(), sink.in_another());
                sink.table = vec![Wrong::Full; fails];
            }
            let whole = in_regions(&run);
            seen[run.session().phase() as usize] += 1;
            let bytes = |sink: &Ear<Record>| sink.to.0.iter().map(|r| r.bytes.len() as u64).sum::<u64>();
            let due = wire.given.saturating_sub(w.opening() + w.memory.table_len());
            for _ in 0..if whole { sink.table.len() } else { 0 } {
                assert!(is_full(&run.close(&mut sink).unwrap_err()));
                assert_eq!(bytes(&sink), due, "{steps} steps");
            }
            for number in [23, 4, 4] {
                assert_eq!(run.close(&mut sink).unwrap().number(), number);
            }
            match whole {
                true if restored || fails > 0 => assert_eq!((sink.tables(), &sink.heard[0]), (1 + fails, &table(&w))),
                true => sink.table_first(&w),
                false => assert_eq!(sink.heard, []),
            }
            assert_eq!(run.table() == w.memory.table(), whole);
            assert_eq!(bytes(&sink), due, "{steps} steps");
        }
        assert!(seen[Phase::Table as usize] > 0 && seen[Phase::Between as usize] > 0, "{seen:?}");
        assert!(seen[Phase::Region as usize] > 30 || fails == 3, "{seen:?}");
    }
}

/// Of a table that is cut short nothing is told, however the run ends.
#[test]
fn part_of_a_table() {
    for width in Width::BOTH {
        let w = two_regions(width, Backend::Serial);
        for came in 0..w.memory.table_len() {
            let mut wire = wire(&w, Division::Random, came);
            wire.faults.ends_after = Some(w.opening() + came);
            let (mut run, mut sink) = (w.options().start().unwrap(), Ear::new(Record::default()));
            assert!(matches!(run.run(&mut wire, &mut sink, |_| ()), Err(Error::NoBytes)));
            let mut again = w.options().restore(&run.save()).unwrap();
            assert!(matches!(again.run(&mut wire, &mut sink, |_| ()), Err(Error::NoBytes)));
            assert_eq!([run.close(&mut sink), again.close(&mut sink)].map(|e| e.unwrap().number()), [23; 2]);
            assert_eq!(sink.heard, [], "{came} bytes");
        }
    }
}

/// No table, nothing told: images and replies.
#[test]
fn no_table() {
    let load = Options::new(Backend::Usb, Mode::WaitingForImage).images(&[Some(vec![7; 600])]);
    let ask = Options::new(Backend::Usb, Mode::Command).command(Command::ReadSerialNum);
    let devices = [Device::load(&[(1, 0, 600), (1, 50, 100)], b"loader"), Device::command(1, &[9; 700], b"next")];
    for (options, device) in [load, ask].into_iter().zip(devices) {
        let (mut wire, mut sink) = (Wire::new(device, Division::Random, 1), Ear::new(Record::default()));
        options.start().unwrap().run(&mut wire, &mut sink, |_| ()).unwrap();
        assert_eq!(sink.heard, []);
    }
}

/// A table of which a chosen entry is refused is told before: people see which it is.
#[test]
fn refused_regions() {
    for width in Width::BOTH {
        let past = if width == Width::Bits32 { 24 } else { 22 };
        let behind_zero = Region { filename: *b"A\0\xff\0\0\0\0\0\0\0\0\0\0\0\0\0\0\0\0\0", ..Region::new("", 1, 1) };
        for (region, number) in [
            (Region::new(b"ABCDEFGHIJKLMNOPQRST", 1, 1), 19),
            (Region::new(b"A\xff", 1, 1), 20),
            (behind_zero, 21),
            (Region::new("A", width.end_less(1), 2), past),
        ] {
            let w = World::new(width, Backend::Serial, &[region, Region::new("B.BIN", 1, 1)]);
            let (mut wire, mut sink) = (wire(&w, Division::Random, 1), Ear::new(Record::default()));
            assert_eq!(w.options().start().unwrap().run(&mut wire, &mut sink, |_| ()).unwrap_err().number(), Some(number));
            sink.table_first_and_once(&w);
        }
    }
}

/// Goes on behind each error and panic, resyncing where the device is silent.
fn run_on(run: &mut Driver, channel: &mut (impl io::Read + io::Write), sink: &mut impl Sink) {
    for _ in 0..20 {
        match catch_unwind(AssertUnwindSafe(|| run.run(channel, sink, |_| ()))) {
            Ok(Ok(end)) => return assert!(matches!(end, Outcome::Dumped { .. })),
            Ok(Err(Error::TimedOut(_))) => drop(run.resync(channel, sink)),
            Ok(Err(_)) | Err(_) => {}
        }
    }
    panic!("it does not end");
}

/// A byte of the table is lost on the way, or of a region: what is told is the table that came at last, and nothing before.
#[test]
fn a_byte_is_lost() {
    for (backend, width) in Width::with_both([Backend::Serial, Backend::Usb]) {
        let w = two_regions(width, backend);
        for at in bytes_of(&w).step_by(5) {
            let faults = Faults { loses: Some(at), ..Faults::default() };
            let mut wire = wire(&w, Division::Random, at).with(faults);
            let (mut run, mut sink) = (w.options().start().unwrap(), Ear::new(Cut::default()));
            run_on(&mut run, &mut wire, &mut sink);
            sink.table_first(&w);
            assert!(sink.to.0 .0 == w.kept(), "byte {at}, {w:?}");
        }
    }
}

/// Fails once, where it is to, behind a read that gave bytes.
struct Breaks(Pauses, Option<Wrong>, bool);

impl io::Read for Breaks {
    fn read(&mut self, to: &mut [u8]) -> io::Result<usize> {
        if let Some(wrong) = self.1.take_if(|_| self.2) {
            return Err(wrong.come());
        }
        let read = self.0.read(to);
        self.2 = read.as_ref().is_ok_and(|n| *n > 0);
        read
    }
}

impl io::Write for Breaks {
    fn write(&mut self, bytes: &[u8]) -> io::Result<usize> {
        self.0.write(bytes)
    }
    fn flush(&mut self) -> io::Result<()> {
        self.0.flush()
    }
}

/// A device that pauses: what is asked for again comes behind late bytes, and the mixture of both is not told, nor kept; not by a run that is restored or given up
/// in doubt, and not by one that has heard the bytes that would have shown it: in a resync more, or before the channel failed or panicked, in a resync too.
#[test]
fn late_bytes() {
    for (way, width) in Width::with_both([0, 1, 2, 3, 4, 5, 6, 7]) {
        let w = two_regions(width, Backend::Serial);
        let mut mixed = 0;
        for at in bytes_of(&w).step_by(if way == 0 { 7 } else { 3 }) {
            let mut channel = Breaks(Pauses(wire(&w, Division::Whole, at), at, 2), None, false);
            let (mut run, mut sink) = (w.options().start().unwrap(), Ear::new(Cut::default()));
            assert!(matches!(run.run(&mut channel, &mut sink, |_| ()), Err(Error::TimedOut(_))), "byte {at}");
            run.resync(&mut channel, &mut sink).unwrap();
            // the answer is there, and not yet trusted
            let reads = run.session().reads();
            while still_comes(&run, reads) {
                run.step(&mut channel, &mut sink, |_| ()).unwrap();
            }
            mixed += u64::from(run.table() != w.memory.table());
            match way {
                0 => {}
                1 => (run, sink) = (w.options().restore(&run.save()).unwrap(), sink.in_another()),
                2 => {
                    // a sink of its own: that of the region is still needed
                    let mut other = Ear::new(Cut::default());
                    let mut given_up = w.options().restore(&run.save()).unwrap();
                    let _ = given_up.close(&mut other);
                    assert!(other.heard.iter().all(|h| !matches!(h, Heard::Table(..)) || *h == table(&w)));
                }
                3 => {
                    (run, sink) = (w.options().restore(&run.save()).unwrap(), sink.in_another());
                    run.resync(&mut channel, &mut sink).unwrap();
                }
                _ => (channel.1, channel.2) = (Some([Wrong::Reset, Wrong::Panic][way % 2]), false),
            }
            if way > 5 {
                let again = catch_unwind(AssertUnwindSafe(|| run.resync(&mut channel, &mut sink)));
                assert!(matches!((again, way), (Ok(Err(Error::Channel(_))), 6) | (Err(_), 7)), "byte {at}");
            }
            run_on(&mut run, &mut channel, &mut sink);
            sink.table_first(&w);
            assert!(sink.to.0 .0 == w.kept(), "byte {at}, {w:?}");
            assert_eq!((run.table() == w.memory.table(), channel.0 .0.device.queued()), (true, 0));
        }
        assert!(mixed > 20, "{mixed}");
    }
}

/// Whether what a resync asked for again, behind so many memory reads, still comes.
fn still_comes(run: &Driver, reads: u64) -> bool {
    let s = run.session();
    match s.phase() {
        Phase::Table => true,
        Phase::Region => s.reads() == reads || s.raw().outstanding > 0,
        _ => false,
    }
}

/// A run that is older than its channel: what it tells, before its first region, is the table.
#[test]
fn an_older_run() {
    let mut rng = device::Rng::new(6);
    let mut told = 0;
    for (seed, w) in worlds(0..500) {
        let (mut wire, mut sink) = (wire(&w, Division::Random, seed), Ear::new(Cut::default()));
        let mut run = w.options().start().unwrap();
        while run.session().phase() == Phase::Packet {
            run.step(&mut wire, &mut sink, |_| ()).unwrap();
        }
        let mut ended = false;
        let mut saved = run.save();
        for most in [40, 25] {
            for _ in 0..rng.below(most) {
                ended = ended || run.step(&mut wire, &mut sink, |_| ()).unwrap().is_some();
            }
            if most == 40 {
                saved = run.save();
            }
        }
        if ended {
            continue;
        }
        let (mut run, mut sink) = (w.options().restore(&saved).unwrap(), sink.in_another());
        let _ = run.resync(&mut wire, &mut sink);
        run_on(&mut run, &mut wire, &mut sink);
        sink.table_first(&w);
        assert!(sink.to.0 .0 == w.kept(), "seed {seed}, {w:?}");
        told += sink.tables();
    }
    assert!(told > 300, "{told}");
}

/// An empty table is a table.
#[test]
fn empty_tables() {
    for (len, width) in Width::with_both([0, 1, 51]) {
        let memory = Memory::with_table(1, width.half(), vec![5; len]).wide(width);
        let w = World { memory, ..World::new(width, Backend::Usb, &[]) };
        let (mut wire, mut sink) = (wire(&w, Division::Random, 1), Ear::new(Record::default()));
        w.options().start().unwrap().run(&mut wire, &mut sink, |_| ()).unwrap();
        assert_eq!(sink.heard, [table(&w)]);
    }
}
