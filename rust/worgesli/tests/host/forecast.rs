//! How large a fetch is: the function beside numbers written out and a count of this file, the driver's forecast beside what its fetch came to, and what a sink
//! is told of it and may refuse.
use crate::guard::{Guarded, Side};
use crate::resync::{bytes_of, two_regions, Pauses};
use crate::told::Wrong;
use crate::world::{host_width, world, worlds, Cut, Record, World};
use device::{Device, Division, Memory, Region, Rng, Wire};
use std::collections::BTreeSet;
use std::io::{self, ErrorKind};
use std::panic::{catch_unwind, AssertUnwindSafe};
use worgesli::{
    forecast, raw, sahara_run, Backend, Command, Count, Driver, Entry, Error, Forecast, Mode, NameList, Options, Outcome, Phase,
    Refusal, Sink, Unkept, Width,
};

fn names(names: &[&str]) -> NameList {
    NameList::new(names).unwrap()
}

fn of(regions: u64, bytes: u64, reads: u64) -> Forecast {
    Forecast { regions, bytes, reads }
}

fn table(regions: &[Region], of: device::Width) -> Vec<u8> {
    regions.iter().flat_map(|r| r.bytes(of)).collect()
}

// ---- the function

#[test]
fn counted_by_hand() {
    let regions = [
        Region::new("A.BIN", 0, 4096),
        Region::new("OCIMEM.BIN", 7, 4097).unpreferred(),
        Region { save_pref: 1 << 31, ..Region::new("empty", 9, 0) },
        Region::new("a.bin", 9, 1).unpreferred(),
        Region::new("B.BIN", 0xffff_ffff, 0xffff_ffff),
    ];
    for width in device::Width::BOTH {
        let (bytes, size) = (table(&regions, width), width.entry_len());
        let count = |entries: usize, list: &[&str]| forecast(&bytes[..entries * size], host_width(width), &names(list)).unwrap();
        assert_eq!(count(5, &[]), of(3, 4096 + 0xffff_ffff, 1 + 1 + 0x10_0000));
        assert_eq!(count(4, &[]), of(2, 4096, 2));
        assert_eq!(count(4, &["ocimem"]), of(1, 4097, 3));
        assert_eq!(count(4, &["A", "x", "a"]), of(2, 4097, 3));
        assert_eq!(count(4, &["A", "OCIMEM", "empty\0\0\0\0\0\0\0\0\0\0\0\0\0\0\0"]), of(4, 8194, 5));
        // "empty" has no dot: its stem has the zeros too
        assert_eq!(count(4, &["empty"]), of(0, 0, 1));
        assert_eq!(count(2, &["b"]), of(0, 0, 1));
        for list in [&[][..], &["a"]] {
            assert_eq!(count(0, list), of(0, 0, 1));
            for remainder in 0..size {
                let some =
                    |entries: usize| forecast(&bytes[..entries * size + remainder], host_width(width), &names(list)).unwrap();
                assert_eq!((some(0), some(1)), (of(0, 0, 1), of(1, 4096, 2)), "{remainder} bytes more");
            }
        }
    }
}

/// What would end a session counts: names that are not sound, and regions that end above all addresses.
#[test]
fn nothing_is_judged() {
    for width in device::Width::BOTH {
        let regions = [
            Region { filename: *b"ABCDEFGHIJKLMNOPQRST", ..Region::new("", 1, 10) },
            Region::new(b"A\xff", 1, 20),
            Region { filename: *b"A\0\xff\0\0\0\0\0\0\0\0\0\0\0\0\0\0\0\0\0", ..Region::new("", 1, 40) },
            Region::new("TOP", width.end_less(1), 80),
        ];
        let table = table(&regions, width);
        assert_eq!(forecast(&table, host_width(width), &names(&[])), Ok(of(4, 150, 5)));
        // the stem of what is not UTF-8 is empty
        assert_eq!(forecast(&table, host_width(width), &names(&[""])), Ok(of(2, 60, 3)));
    }
}

/// Sums around 2^64, which only lengths of 64 bits have; and a length near it, which rounded up by adding would wrap.
#[test]
fn sums() {
    const MOST: u64 = u64::MAX;
    const HALF: u64 = 1 << 63;
    const CHUNKS: u64 = 1 << 52;
    let rows: [(&[u64], Option<Forecast>); 13] = [
        (&[MOST], Some(of(1, MOST, 1 + CHUNKS))),
        (&[MOST, 0], Some(of(2, MOST, 1 + CHUNKS))),
        (&[MOST - 4094], Some(of(1, MOST - 4094, 1 + CHUNKS))),
        (&[MOST - 4095], Some(of(1, MOST - 4095, CHUNKS))),
        (&[MOST - 4095, 4095], Some(of(2, MOST, 1 + CHUNKS))),
        (&[HALF, HALF - 1], Some(of(2, MOST, 1 + CHUNKS))),
        (&[HALF - 1, 1, HALF - 1], Some(of(3, MOST, 2 + CHUNKS))),
        (&[HALF, HALF], None),
        (&[HALF, HALF, 5], None),
        (&[5, HALF, HALF], None),
        (&[MOST, 1], None),
        (&[1, MOST, 0], None),
        (&[MOST; 1024], None),
    ];
    for (lens, due) in rows {
        let regions: Vec<Region> = lens.iter().map(|len| Region::new("A.BIN", 0, *len)).collect();
        let mut bytes = table(&regions, device::Width::Bits64);
        bytes.extend(Region::new("OTHER.BIN", 0, MOST).unpreferred().bytes(device::Width::Bits64));
        for list in [&[][..], &["a"]] {
            let said = forecast(&bytes, Width::Bits64, &names(list));
            assert_eq!(said.map_err(|why| why.number()), due.ok_or(27), "{lens:?}");
        }
        // the names are looked at first
        let refused = raw::forecast_table(&bytes, 64, &[0; 7]);
        assert_eq!(refused, raw::Forecast { regions: 0, bytes: 0, reads: 0, refused: 26 });
    }
}

/// A count from the bytes alone, in numbers that do not wrap: of the entries of a width, and of a bundle of names.
fn counted(table: &[u8], width: u64, bundle: &[u8]) -> raw::Forecast {
    let refused = |refused| raw::Forecast { regions: 0, bytes: 0, reads: 0, refused };
    let number = |bytes: &[u8]| bytes.iter().rev().fold(0u64, |n, b| n << 8 | u64::from(*b));
    let Some(names) = names_of(bundle) else { return refused(26) };
    let n = match width {
        32 => 4,
        64 => 8,
        _ => return raw::Forecast { reads: 1, ..refused(0) },
    };
    let selected = |e: &&[u8]| {
        let filename = &e[3 * n + 20..];
        let stem = match std::str::from_utf8(filename) {
            Ok(_) => filename.split(|b| *b == b'.').next().unwrap(),
            Err(_) => &[],
        };
        match names.is_empty() {
            true => number(&e[..n]) != 0,
            false => names.iter().any(|name| name.eq_ignore_ascii_case(stem)),
        }
    };
    let lens: Vec<u64> = table.chunks_exact(3 * n + 40).filter(selected).map(|e| number(&e[2 * n..3 * n])).collect();
    let bytes: u128 = lens.iter().map(|len| u128::from(*len)).sum();
    let reads: u128 = 1 + lens.iter().map(|len| u128::from(*len).div_ceil(4096)).sum::<u128>();
    match (u64::try_from(bytes), u64::try_from(reads)) {
        (Ok(bytes), Ok(reads)) => raw::Forecast { regions: lens.len() as u64, bytes, reads, refused: 0 },
        _ => refused(27),
    }
}

/// The names of a bundle; none where it is malformed.
fn names_of(bundle: &[u8]) -> Option<Vec<&[u8]>> {
    let word = |i: usize| Some(u32::from_le_bytes(bundle.get(4 * i..4 * i + 4)?.try_into().unwrap()) as usize);
    let (n, len) = (word(0)?, word(1)?);
    if n > 64 || bundle.len() != 8 + 8 * n + len {
        return None;
    }
    let data = &bundle[8 + 8 * n..];
    (0..n).map(|i| data.get(word(2 + i)?..word(2 + i)?.checked_add(word(2 + n + i)?)?)).collect()
}

const STEMS: [&str; 5] = ["A", "DDR", "", "ocimem", "\u{e9}\0"];

/// Entries whose names are often asked for and whose lengths are at their edges, and part of an entry behind them.
fn random_table(rng: &mut Rng, width: Width) -> Vec<u8> {
    let size = width.entry_len();
    let n = (size - 40) / 3;
    let mut table = vec![0; rng.below(7) as usize * size + rng.below(2) as usize * rng.below(size as u64) as usize];
    rng.fill(&mut table);
    for e in table.chunks_exact_mut(size) {
        if rng.chance(400) {
            e[..n].fill(0);
        }
        let top = if n == 4 { u64::from(u32::MAX) } else { u64::MAX };
        let len = match rng.below(6) {
            0 => rng.below(3) * 4096,
            1 => rng.below(20_000),
            2 => top - rng.below(3) * 2048,
            3 => top / 2 + rng.below(3),
            4 => 1 << rng.below(8 * n as u64),
            _ => rng.number(),
        };
        e[2 * n..3 * n].copy_from_slice(&len.to_le_bytes()[..n]);
        if rng.chance(900) {
            let mut name = STEMS[rng.below(5) as usize].as_bytes().to_vec();
            if rng.chance(300) {
                name.make_ascii_lowercase();
            }
            if rng.chance(800) {
                name.extend(b".BIN");
            }
            e[3 * n + 20..].copy_from_slice(&device::padded(&name));
        }
    }
    table
}

/// Names, few or many, or a bundle that is spoilt.
fn random_names(rng: &mut Rng) -> Vec<u8> {
    let n = [0, 1, rng.below(4), rng.below(65)][rng.below(4) as usize];
    let list: Vec<&str> = (0..n).map(|_| STEMS[rng.below(5) as usize]).collect();
    let mut bundle = names(&list).bytes().to_vec();
    match rng.below(16) {
        0 => bundle.truncate(rng.below(bundle.len() as u64) as usize),
        1 => bundle.push(0),
        2 => {
            let at = rng.below(bundle.len() as u64) as usize;
            bundle[at] ^= 1 << rng.below(8);
        }
        3 => bundle = [&65u32.to_le_bytes()[..], &[0; 4 + 65 * 8]].concat(),
        4 if n > 0 => {
            let absent = 8 + 4 * rng.below(n) as usize;
            bundle[absent..absent + 4].fill(0xff);
        }
        _ => {}
    }
    bundle
}

#[test]
fn tables_at_random() {
    let mut rng = Rng::new(51);
    let mut seen = [0; 28];
    for round in 0..40_000 {
        let width = Width::BOTH[round % 2];
        let number = match rng.below(20) {
            0 => [0, 31, 33, 52, 65, 96, 1 << 32 | 32, u64::MAX][rng.below(8) as usize],
            _ => width as u64,
        };
        let (table, bundle) = (random_table(&mut rng, width), random_names(&mut rng));
        let side = if round % 4 < 2 { Side::Behind } else { Side::Before };
        let said = raw::forecast_table(&Guarded::new(&table, side), number, &Guarded::new(&bundle, side));
        assert_eq!(said, counted(&table, number, &bundle), "width {number}, {table:?}, {bundle:?}");
        seen[said.refused as usize] += 1;
        if let (Ok(list), true) = (NameList::from_bytes(bundle), number == width as u64) {
            let due = if said.refused == 0 { Ok(of(said.regions, said.bytes, said.reads)) } else { Err(said.refused as u8) };
            assert_eq!(forecast(&table, width, &list).map_err(|why| why.number()), due);
        }
    }
    assert!(seen[0] > 20_000 && seen[26] > 5000 && seen[27] > 2000, "{seen:?}");
}

/// As long as a table can be, and longer, with as many names as there can be.
#[test]
fn long_tables() {
    for (width, len) in [(Width::Bits32, 65_536), (Width::Bits64, 65_536), (Width::Bits32, 1 << 20), (Width::Bits64, 1 << 20)] {
        let mut rng = Rng::new(len as u64);
        let mut table = Vec::new();
        while table.len() < len {
            table.extend(random_table(&mut rng, width));
            table.truncate(table.len() / width.entry_len() * width.entry_len());
        }
        table.truncate(len);
        let n = (width.entry_len() - 40) / 3;
        // lengths that have a sum
        table.chunks_exact_mut(width.entry_len()).for_each(|e| e[2 * n + 3..3 * n].fill(0));
        let list: Vec<String> = (0..64).map(|i| if i == 40 { "ddr".into() } else { format!("name{i}") }).collect();
        for bundle in [NameList::new(&list).unwrap(), names(&[])] {
            let said = raw::forecast_table(&table, width as u64, bundle.bytes());
            assert_eq!(said, counted(&table, width as u64, bundle.bytes()));
            assert!(said.refused == 0 && said.regions > 100, "{said:?}");
        }
    }
}

// ---- what a fetch comes to

fn wire(w: &World, division: Division, seed: u64) -> Wire {
    Wire::new(Device::dump(w.memory.clone()), division, seed)
}

const DIVISIONS: [Division; 4] = [Division::Whole, Division::AtMost(1), Division::AtMost(51), Division::Random];

/// Steps until the table is whole; it is not forecast from before.
fn to_the_table(run: &mut Driver, wire: &mut Wire, sink: &mut impl Sink) {
    while run.session().phase() != Phase::Between {
        assert_eq!(run.forecast(), Ok(None));
        assert_eq!(run.step(wire, sink, |_| ()).unwrap(), None);
    }
}

/// Both widths, both backends, with names and without, divided at random; with a process of its own for some steps.
#[test]
fn what_a_fetch_comes_to() {
    let (mut rng, mut none_chosen) = (Rng::new(52), 0);
    for (seed, w) in worlds(0..800) {
        let (mut wire, mut sink) = (wire(&w, DIVISIONS[seed as usize % 4], seed), Record::default());
        let mut run = w.options().start().unwrap();
        to_the_table(&mut run, &mut wire, &mut sink);
        let said = run.forecast().unwrap().unwrap();
        assert_eq!(said, w.forecast(), "seed {seed}, {w:?}");
        let end = loop {
            let end = match seed % 3 {
                0 => Some(run.run(&mut wire, &mut sink, |_| ()).unwrap()),
                _ => run.step(&mut wire, &mut sink, |_| ()).unwrap(),
            };
            assert_eq!(run.forecast(), Ok(Some(said)));
            if seed % 3 == 2 && rng.chance(100) {
                run = w.options().restore(&run.save()).unwrap();
                assert_eq!(run.forecast(), Ok(Some(said)));
            }
            if let Some(end) = end {
                break end;
            }
        };
        assert_eq!(end, Outcome::Dumped { reads: said.reads }, "seed {seed}, {w:?}");
        let bytes: usize = sink.0.iter().map(|r| r.bytes.len()).sum();
        assert_eq!((sink.0.len() as u64, bytes as u64), (said.regions, said.bytes), "seed {seed}, {w:?}");
        assert_eq!(wire.device.reads(), said.reads);
        none_chosen += u64::from(said.regions == 0);
    }
    assert!(none_chosen > 100, "{none_chosen}");
}

/// A device that makes up its table, and says what it likes for memory: where the session finishes, it came to the forecast; else it was refused (19 to 24).
#[test]
fn devices_that_make_up_a_table() {
    let (mut finished, mut refused) = (0, [0; 25]);
    for (seed, width) in device::Width::with_both(0..1500) {
        let mut rng = Rng::new(seed);
        let (host, n) = (host_width(width), width.number_len());
        let mut table = random_table(&mut rng, host);
        for e in table.chunks_exact_mut(width.entry_len()) {
            e[2 * n..3 * n].copy_from_slice(&rng.below(9000).to_le_bytes()[..n]);
            let base = if rng.chance(30) { width.end_less(1 + rng.below(9000)) } else { rng.number() % width.half() };
            e[n..2 * n].copy_from_slice(&base.to_le_bytes()[..n]);
        }
        let list: Vec<&str> = (0..rng.below(4)).map(|_| STEMS[rng.below(5) as usize]).collect();
        let memory = Memory::mixed(seed, rng.number() % width.half(), table.clone()).wide(width);
        let backend = if rng.chance(512) { Backend::Usb } else { Backend::Serial };
        let mut run = Options::new(backend, Mode::MemoryDebug).names(&list).start().unwrap();
        let (mut wire, mut sink) = (Wire::new(Device::dump(memory), DIVISIONS[seed as usize % 4], seed), Count::default());
        to_the_table(&mut run, &mut wire, &mut sink);
        let said = run.forecast().unwrap().unwrap();
        let due = counted(&table, host as u64, names(&list).bytes());
        assert_eq!((said, due.refused), (of(due.regions, due.bytes, due.reads), 0));
        match run.run(&mut wire, &mut sink, |_| ()) {
            Ok(end) => {
                assert_eq!(end, Outcome::Dumped { reads: said.reads });
                assert_eq!((sink.opened, sink.bytes), (said.regions, said.bytes), "seed {seed}, {width:?}");
                finished += 1;
            }
            Err(e) => refused[e.number().unwrap() as usize] += 1,
        }
        assert_eq!(run.forecast(), Ok(Some(said)));
    }
    assert!(
        finished > 1000 && refused[19] + refused[20] + refused[21] > 50 && refused[22] + refused[24] > 5,
        "{finished} {refused:?}"
    );
}

/// Of part of a table, and where no table is, nothing is forecast: not while it comes, nor when the run is closed or restored.
#[test]
fn no_table() {
    for width in device::Width::BOTH {
        let w = two_regions(width, Backend::Serial);
        let all = w.opening() + w.memory.table_len();
        for came in 0..=all {
            let mut wire = wire(&w, Division::Random, came);
            wire.faults.ends_after = Some(came);
            let (mut run, mut sink) = (w.options().start().unwrap(), Record::default());
            assert!(matches!(run.run(&mut wire, &mut sink, |_| ()), Err(Error::NoBytes)));
            let due = (came == all).then_some(w.forecast());
            assert_eq!(run.forecast(), Ok(due), "{came} bytes");
            let mut again = w.options().restore(&run.save()).unwrap();
            assert_eq!(again.forecast(), Ok(due), "{came} bytes");
            for closed in [&mut run, &mut again] {
                assert_eq!(closed.close(&mut sink).unwrap().number(), 23);
                assert_eq!(closed.forecast(), Ok(due), "{came} bytes");
                assert_eq!(w.options().restore(&closed.save()).unwrap().forecast(), Ok(due), "{came} bytes");
            }
        }
    }
    let load = Options::new(Backend::Usb, Mode::WaitingForImage).images(&[Some(vec![7; 600])]);
    let ask = Options::new(Backend::Usb, Mode::Command).command(Command::ReadSerialNum);
    let devices = [Device::load(&[(1, 0, 600)], b"loader"), Device::command(1, &[9; 700], b"next")];
    for (options, device) in [load, ask].into_iter().zip(devices) {
        let mut run = options.start().unwrap();
        run.run(&mut Wire::new(device, Division::Random, 1), &mut Count::default(), |_| ()).unwrap();
        assert_eq!(run.forecast(), Ok(None));
    }
}

/// A table that a resync asked for again is not forecast from until it is trusted, and not at all by a run that is closed in doubt. In a region nothing is in
/// doubt but its bytes.
#[test]
fn in_doubt() {
    for width in device::Width::BOTH {
        let w = two_regions(width, Backend::Serial);
        let (mut doubted, table) = (0, w.opening()..w.opening() + w.memory.table_len());
        for at in bytes_of(&w).step_by(7) {
            let mut channel = Pauses(wire(&w, Division::Whole, at), at, 2);
            let (mut run, mut sink) = (w.options().start().unwrap(), Cut::default());
            assert!(matches!(run.run(&mut channel, &mut sink, |_| ()), Err(Error::TimedOut(_))), "byte {at}");
            run.resync(&mut channel, &mut sink).unwrap();
            let known = !table.contains(&at);
            assert_eq!(run.forecast(), Ok(known.then_some(w.forecast())), "byte {at}");
            while run.session().phase() == Phase::Table {
                run.step(&mut channel, &mut sink, |_| ()).unwrap();
                assert_eq!(run.forecast(), Ok(None), "byte {at}");
                doubted += u64::from(run.session().phase() == Phase::Between);
            }
            let mut closed = w.options().restore(&run.save()).unwrap();
            assert_eq!(closed.forecast(), Ok(known.then_some(w.forecast())), "byte {at}");
            if !known {
                assert_eq!(closed.close(&mut Count::default()).unwrap().number(), 23);
                assert_eq!(closed.forecast(), Ok(None), "byte {at}");
            }
            assert!(matches!(run.run(&mut channel, &mut sink, |_| ()), Err(Error::Channel(_))), "byte {at}");
            assert!(matches!(run.run(&mut channel, &mut sink, |_| ()), Ok(Outcome::Dumped { .. })), "byte {at}");
            assert_eq!(run.forecast(), Ok(Some(w.forecast())));
        }
        assert!(doubted > 10, "{doubted}");
    }
}

// ---- what a sink is told

#[derive(Clone, Copy, Debug, PartialEq, Eq)]
enum Heard {
    Table,
    Forecast(Result<Forecast, Refusal>),
    Open(usize),
    Reopen(usize),
    Close(usize),
}

/// Writes down what it is told. Calls of `forecast` go wrong first, the last of these first, and where there are more bytes than it has room for.
struct Ear<S> {
    to: S,
    heard: Vec<Heard>,
    wrong: Vec<Wrong>,
    room: u64,
    /// bytes are taken
    takes: bool,
    gathers: usize,
    /// regions that were opened, and not lost again
    have: BTreeSet<usize>,
    /// one close or reopen in so many loses its region; one open in so many fails
    loses: Option<(Rng, u64)>,
    /// this call fails, once
    fails: Option<Heard>,
}

impl<S> Ear<S> {
    fn new(to: S) -> Ear<S> {
        let (heard, wrong, have) = (Vec::new(), Vec::new(), BTreeSet::new());
        Ear { to, heard, wrong, room: u64::MAX, takes: true, gathers: 0, have, loses: None, fails: None }
    }

    fn loses(&mut self) -> bool {
        if self.fails.is_some() && self.heard.last() == self.fails.as_ref() {
            self.fails = None;
            return true;
        }
        self.loses.as_mut().is_some_and(|(rng, n)| rng.below(*n) == 0)
    }

    fn forecasts(&self) -> Vec<&Result<Forecast, Refusal>> {
        self.heard.iter().filter_map(|h| if let Heard::Forecast(f) = h { Some(f) } else { None }).collect()
    }
}

impl<S: Sink> Sink for Ear<S> {
    fn table(&mut self, table: &[u8], width: Width) -> io::Result<()> {
        self.heard.push(Heard::Table);
        self.to.table(table, width)
    }
    fn forecast(&mut self, forecast: Result<Forecast, Refusal>) -> io::Result<()> {
        assert!(matches!(self.heard.last(), Some(Heard::Table | Heard::Forecast(_))), "{:?}", self.heard);
        self.heard.push(Heard::Forecast(forecast));
        if let Some(wrong) = self.wrong.pop() {
            return Err(wrong.come());
        }
        match forecast {
            Ok(f) if f.bytes > self.room => Err(ErrorKind::StorageFull.into()),
            _ => Ok(()),
        }
    }
    fn open(&mut self, place: usize, entry: &Entry) -> io::Result<()> {
        assert!(!matches!(self.heard.last(), None | Some(Heard::Table)), "{:?}", self.heard);
        self.heard.push(Heard::Open(place));
        if self.loses() {
            return Err(ErrorKind::StorageFull.into());
        }
        self.have.insert(place);
        self.to.open(place, entry)
    }
    fn bytes(&mut self, bytes: &[u8]) -> io::Result<usize> {
        match self.takes {
            true => self.to.bytes(bytes),
            false => Err(ErrorKind::StorageFull.into()),
        }
    }
    fn close(&mut self, place: usize) -> Result<(), Unkept> {
        self.heard.push(Heard::Close(place));
        if self.loses() {
            self.have.remove(&place);
            return Err(Unkept::Lost(ErrorKind::Other.into()));
        }
        self.to.close(place)
    }
    fn reopen(&mut self, place: usize, entry: &Entry, taken: u64) -> Result<(), Unkept> {
        self.heard.push(Heard::Reopen(place));
        if self.loses() {
            self.have.remove(&place);
            return Err(Unkept::Lost(ErrorKind::Other.into()));
        }
        self.to.reopen(place, entry, taken)
    }
    fn gathers(&self) -> usize {
        self.gathers
    }
}

fn is_full(e: &Error) -> bool {
    matches!(e, Error::Sink(e) if e.kind() == ErrorKind::StorageFull)
}

/// Right behind the table, once, before the first region, and the whole of the fetch. A sink behind a reference is told as well.
#[test]
fn told_behind_the_table() {
    for (seed, w) in worlds(0..300) {
        let (mut wire, mut sink) = (wire(&w, DIVISIONS[seed as usize % 4], seed), Ear::new(Count::default()));
        let mut run = w.options().start().unwrap();
        match seed % 2 {
            0 => run.run(&mut wire, &mut sink, |_| ()),
            _ => run.run(&mut wire, &mut &mut sink, |_| ()),
        }
        .unwrap();
        let regions = w.selected().into_iter().flat_map(|p| [Heard::Open(p), Heard::Close(p)]);
        let due: Vec<Heard> = [Heard::Table, Heard::Forecast(Ok(w.forecast()))].into_iter().chain(regions).collect();
        assert_eq!((sink.to.opened, sink.to.bytes), (w.forecast().regions, w.forecast().bytes));
        // and nothing behind the end, also with other names
        run.set_names(names(&["a"]));
        assert_eq!(run.run(&mut wire, &mut sink, |_| ()).unwrap_err().number(), Some(4));
        assert_eq!(run.close(&mut sink).unwrap().number(), 4);
        assert_eq!(sink.heard, due, "seed {seed}, {w:?}");
    }
}

/// By each call that begins between two regions, by another process in a region too, and behind other calls that failed: what is told is what is still to be
/// opened, a region that was lost among it.
#[test]
fn told_what_is_to_come() {
    let (mut told, mut lost, mut all_told) = (0, 0, BTreeSet::new());
    for (seed, w) in worlds(0..400) {
        let mut rng = Rng::new(seed);
        let (mut wire, mut sink) = (wire(&w, Division::Random, seed), Ear::new(Cut::default()));
        sink.loses = (seed % 2 == 0).then_some((Rng::new(seed), 4));
        let mut run = w.options().start().unwrap();
        loop {
            let before = sink.heard.len();
            // what is lost in this call was still counted as there when it was told
            let have = sink.have.clone();
            let end = match rng.below(3) {
                0 => run.run(&mut wire, &mut sink, |_| ()).map(Some),
                _ => run.step(&mut wire, &mut sink, |_| ()),
            };
            for h in &sink.heard[before..] {
                if let Heard::Forecast(said) = h {
                    let to_come = w.selected().into_iter().filter(|place| !have.contains(place));
                    let lens: Vec<u64> = to_come.map(|p| w.regions[p].len).collect();
                    let reads = 1 + lens.iter().map(|len| len.div_ceil(4096)).sum::<u64>();
                    assert_eq!(
                        *said,
                        Ok(of(lens.len() as u64, lens.iter().sum(), reads)),
                        "seed {seed}, {w:?}: {:?}",
                        sink.heard
                    );
                    told += 1;
                    all_told.insert(lens.len());
                }
            }
            lost += have.difference(&sink.have).count();
            match end {
                Ok(Some(_)) => break,
                Ok(None) | Err(Error::Sink(_)) => {}
                Err(e) => panic!("{e}"),
            }
            if rng.chance(400) {
                run = w.options().restore(&run.save()).unwrap();
            }
        }
        assert_eq!(sink.have.iter().copied().collect::<Vec<_>>(), w.selected());
        assert_eq!(sink.to.0 .0, w.kept(), "seed {seed}, {w:?}");
    }
    assert!(told > 1000 && lost > 70 && all_told.len() > 5, "{told} {lost} {all_told:?}");
}

/// A sink that does not take it: each call says so before anything of a region is asked for, and tells both anew; then the run goes on. One that is interrupted
/// is told in the same call.
#[test]
fn a_sink_that_refuses() {
    for ((wrong, steps), width) in device::Width::with_both([
        (Wrong::Full, false),
        (Wrong::Full, true),
        (Wrong::Panic, false),
        (Wrong::Panic, true),
        (Wrong::Interrupted, false),
    ]) {
        let w = two_regions(width, Backend::Usb);
        let (mut wire, mut sink) = (wire(&w, Division::Random, 1), Ear::new(Record::default()));
        let mut run = w.options().start().unwrap();
        sink.wrong = vec![wrong; 3];
        let mut failed = 0;
        loop {
            let end = catch_unwind(AssertUnwindSafe(|| match steps {
                true => run.step(&mut wire, &mut sink, |_| ()),
                false => run.run(&mut wire, &mut sink, |_| ()).map(Some),
            }));
            match end {
                Ok(Ok(Some(end))) => break assert_eq!(end, Outcome::Dumped { reads: w.memory_reads() }),
                Ok(Ok(None)) => continue,
                Ok(Err(e)) => assert!(is_full(&e) && wrong == Wrong::Full),
                Err(_) => assert_eq!(wrong, Wrong::Panic),
            }
            failed += 1;
            assert_eq!((run.session().phase(), wire.device.reads(), run.forecast()), (Phase::Between, 1, Ok(Some(w.forecast()))));
            assert_eq!(sink.heard, [Heard::Table, Heard::Forecast(Ok(w.forecast()))].repeat(failed));
        }
        let (told, calls) = (Heard::Forecast(Ok(w.forecast())), if wrong == Wrong::Interrupted { 0 } else { 3 });
        let once = [Heard::Table, told].repeat(calls + 1);
        let again = if wrong == Wrong::Interrupted { vec![told; 3] } else { vec![] };
        assert_eq!(failed, calls);
        assert_eq!(sink.heard[..once.len() + again.len() + 1], [once, again, vec![Heard::Open(0)]].concat());
        assert_eq!(sink.to.0, w.kept());
    }
}

/// The same in another process, in the middle of a region: it is told before the region is gone on with, and nothing more is asked for.
#[test]
fn refused_in_a_region() {
    for width in device::Width::BOTH {
        let w = two_regions(width, Backend::Usb);
        for done in [1, 4096, 5000, 8999] {
            let (mut wire, mut sink) = (wire(&w, Division::AtMost(1000), 1), Ear::new(Record::default()));
            let mut run = w.options().start().unwrap();
            while run.session().raw().done < done {
                run.step(&mut wire, &mut sink, |_| ()).unwrap();
            }
            let reads = wire.device.reads();
            (run, sink.heard) = (w.options().restore(&run.save()).unwrap(), vec![]);
            sink.room = w.forecast_from(1).bytes - 1;
            for turn in 0..3 {
                let end =
                    if turn == 1 { run.resync(&mut wire, &mut sink) } else { run.run(&mut wire, &mut sink, |_| ()).map(drop) };
                assert!(is_full(&end.unwrap_err()));
            }
            // a resync hears the device out, and asks again when the run goes on
            assert_eq!(wire.device.reads(), reads);
            assert_eq!(sink.heard, [Heard::Table, Heard::Forecast(Ok(w.forecast_from(1)))].repeat(3));
            sink.room += 1;
            let mut sink = Ear { to: Cut(sink.to, 0), ..Ear::new(Cut::default()) };
            assert!(matches!(run.run(&mut wire, &mut sink, |_| ()), Ok(Outcome::Dumped { .. })));
            assert_eq!(sink.heard[..3], [Heard::Table, Heard::Forecast(Ok(w.forecast_from(1))), Heard::Reopen(0)]);
            assert!(sink.to.0 .0 == w.kept() && wire.device.wrong().is_none());
        }
    }
}

/// The same in the process that opened the region, behind other names: each call tells it anew, until it is taken.
#[test]
fn refused_in_an_open_region() {
    for (wrong, width) in device::Width::with_both([Wrong::Full, Wrong::Panic]) {
        let w = two_regions(width, Backend::Usb);
        let (mut wire, mut sink) = (wire(&w, Division::AtMost(1000), 1), Ear::new(Record::default()));
        let mut run = w.options().start().unwrap();
        while run.session().raw().done < 5000 {
            run.step(&mut wire, &mut sink, |_| ()).unwrap();
        }
        run.set_names(names(&["a", "b"]));
        (sink.heard, sink.wrong) = (vec![], vec![wrong; 3]);
        let asked = (wire.device.reads(), run.session().raw().done);
        for _ in 0..3 {
            let end = catch_unwind(AssertUnwindSafe(|| run.run(&mut wire, &mut sink, |_| ())));
            assert!(end.map_or(wrong == Wrong::Panic, |end| is_full(&end.unwrap_err())));
            assert_eq!((wire.device.reads(), run.session().raw().done), asked);
        }
        assert_eq!(run.run(&mut wire, &mut sink, |_| ()).unwrap(), Outcome::Dumped { reads: 6 });
        let told = [Heard::Table, Heard::Forecast(Ok(of(1, 4608, 3)))].repeat(4);
        assert_eq!(sink.heard, [told, vec![Heard::Close(0), Heard::Open(1), Heard::Close(1)]].concat());
        assert!(sink.to.0 == w.kept()[..2]);
    }
}

/// Other names move the forecast: both are told before the next step, between regions and in one, and what they choose from there on is what is opened.
#[test]
fn other_names() {
    let mut in_region = 0;
    for (seed, w) in worlds(0..400) {
        let names = world(seed + 1000, w.width()).names;
        let other = World { names, regions: w.regions.clone(), memory: w.memory.clone(), backend: w.backend };
        let (mut wire, mut sink) = (wire(&w, Division::Random, seed), Ear::new(Record::default()));
        let mut run = w.options().start().unwrap();
        to_the_table(&mut run, &mut wire, &mut sink);
        if (0..seed % 40).any(|_| run.step(&mut wire, &mut sink, |_| ()).unwrap().is_some()) {
            continue;
        }
        let (open, at) = (run.session().phase() == Phase::Region, run.session().raw().at);
        let next = if open { at + 1 } else { at };
        run.set_names(NameList::new(&other.names).unwrap());
        assert_eq!(run.forecast(), Ok(Some(other.forecast())), "seed {seed}, {w:?}");
        let had = std::mem::take(&mut sink.heard);
        let mut ended = run.step(&mut wire, &mut sink, |_| ()).unwrap().is_some();
        assert_eq!(sink.heard[..2], [Heard::Table, Heard::Forecast(Ok(other.forecast_from(next)))], "seed {seed}, {w:?}");
        assert_eq!(sink.forecasts().len(), 1);
        while !ended {
            let (region, told) = (run.session().phase() == Phase::Region, sink.forecasts().len());
            ended = run.step(&mut wire, &mut sink, |_| ()).unwrap().is_some();
            assert_eq!(sink.forecasts().len(), told + usize::from(!region), "seed {seed}, {w:?}");
        }
        let opened =
            |heard: &[Heard]| heard.iter().filter_map(|h| if let Heard::Open(p) = h { Some(*p) } else { None }).collect();
        let (before, behind): (Vec<usize>, Vec<usize>) = (opened(&had), opened(&sink.heard));
        assert_eq!(before, w.selected().into_iter().filter(|p| *p < next).collect::<Vec<_>>(), "seed {seed}, {w:?}");
        assert_eq!(behind, other.selected().into_iter().filter(|p| *p >= next).collect::<Vec<_>>(), "seed {seed}, {w:?}");
        in_region += u64::from(open);
    }
    assert!(in_region > 50, "{in_region}");
}

/// A region that the sink has not opened yet, or that it lost, is chosen by the names as they stand: what it is told is what it gets.
#[test]
fn other_names_behind_a_failed_open_or_a_loss() {
    for width in device::Width::BOTH {
        for lost in [false, true] {
            // the names before choose A first; those behind choose it or not
            for (list, places) in
                [(&["b"][..], &[1][..]), (&["b", "c"], &[1, 2]), (&["A", "c"], &[0, 2]), (&["x"], &[]), (&[], &[0, 1, 2])]
            {
                let w = two_regions(width, Backend::Serial);
                let (mut wire, mut sink) = (wire(&w, Division::Random, 1), Ear::new(Record::default()));
                let mut run = w.options().start().unwrap();
                sink.fails = Some(if lost { Heard::Close(0) } else { Heard::Open(0) });
                run.run(&mut wire, &mut sink, |_| ()).unwrap_err();
                assert_eq!(sink.fails, None);
                (sink.heard, sink.to) = (vec![], Record::default());
                run.set_names(names(list));
                run.run(&mut wire, &mut sink, |_| ()).unwrap();
                let came = sink.to.0;
                let bytes = came.iter().map(|k| k.bytes.len() as u64).sum::<u64>();
                let reads = 1 + came.iter().map(|k| k.bytes.len().div_ceil(4096) as u64).sum::<u64>();
                assert_eq!(
                    came,
                    places.iter().map(|&p: &usize| w.kept()[p].clone()).collect::<Vec<_>>(),
                    "{list:?}, lost: {lost}"
                );
                let told = Heard::Forecast(Ok(of(places.len() as u64, bytes, reads)));
                assert_eq!(sink.heard[..2], [Heard::Table, told], "{list:?}, lost: {lost}");
            }
        }
    }
}

/// A sink that has room for some: nothing is fetched until the names ask for no more than that; another sink is told too.
#[test]
fn fewer_names() {
    for width in device::Width::BOTH {
        let w = two_regions(width, Backend::Serial);
        let (mut wire, mut sink) = (wire(&w, Division::Random, 1), Ear::new(Record::default()));
        let mut run = w.options().start().unwrap();
        for (room, list) in [(9000 + 4607, &[][..]), (8999, &["a", "c"]), (4607, &["b"])] {
            (sink.room, sink.heard) = (room, vec![]);
            run.set_names(names(list));
            for _ in 0..2 {
                assert!(is_full(&run.run(&mut wire, &mut sink, |_| ()).unwrap_err()));
            }
            assert_eq!((sink.heard.len(), sink.forecasts().len(), wire.device.reads()), (4, 2, 1), "{list:?}");
        }
        sink.room = 4608;
        assert_eq!(run.run(&mut wire, &mut sink, |_| ()).unwrap(), Outcome::Dumped { reads: 3 });
        assert_eq!((sink.to.0, run.forecast()), (w.kept()[1..2].to_vec(), Ok(Some(of(1, 4608, 3)))));
    }
}

/// A sink without room keeps nobody from giving up, behind any step; what was gathered comes. The table is told then, and no forecast.
#[test]
fn given_up() {
    for width in device::Width::BOTH {
        let w = two_regions(width, Backend::Usb);
        for steps in 0..60 {
            let (mut wire, mut sink) = (wire(&w, Division::AtMost(300), 1), Ear::new(Record::default()));
            let mut run = w.options().start().unwrap();
            for _ in 0..steps {
                assert_eq!(run.step(&mut wire, &mut sink, |_| ()).unwrap(), None);
            }
            let (known, mut sink) = (run.forecast().unwrap(), Ear { to: sink.to, ..Ear::new(Record::default()) });
            (sink.room, run) = (0, w.options().restore(&run.save()).unwrap());
            assert_eq!([23, 4, 4].map(|n| run.close(&mut sink).unwrap().number() == n), [true; 3]);
            assert_eq!(sink.forecasts(), Vec::<&Result<Forecast, Refusal>>::new(), "{steps} steps");
            let tables = sink.heard.iter().filter(|h| **h == Heard::Table).count();
            assert_eq!(
                (sink.heard.first(), tables),
                (known.map(|_| &Heard::Table), usize::from(known.is_some())),
                "{steps} steps"
            );
            assert_eq!(run.forecast(), Ok(known));
            let came = wire.given.saturating_sub(w.opening() + w.memory.table_len());
            assert_eq!(sink.to.0.iter().map(|r| r.bytes.len() as u64).sum::<u64>(), came, "{steps} steps");
        }
        // who is kept from it by something else, and goes on, is told the forecast then
        let (mut wire, mut sink) =
            (self::wire(&w, Division::AtMost(300), 1), Ear { gathers: 65_536, ..Ear::new(Record::default()) });
        let mut run = w.options().start().unwrap();
        while run.session().raw().done < 5000 {
            run.step(&mut wire, &mut sink, |_| ()).unwrap();
        }
        run.set_names(names(&[]));
        (sink.takes, sink.heard) = (false, vec![]);
        assert!(is_full(&run.close(&mut sink).unwrap_err()));
        sink.takes = true;
        run.step(&mut wire, &mut sink, |_| ()).unwrap();
        assert_eq!(sink.heard, [Heard::Table, Heard::Table, Heard::Forecast(Ok(w.forecast_from(1)))]);
        // and where it refused before
        let (mut wire, mut sink) = (self::wire(&w, Division::Random, 1), Ear::new(Record::default()));
        let mut run = w.options().start().unwrap();
        sink.room = 100;
        assert!(is_full(&run.run(&mut wire, &mut sink, |_| ()).unwrap_err()));
        assert_eq!(run.close(&mut sink).unwrap().number(), 23);
        assert_eq!(sink.heard, [Heard::Table, Heard::Forecast(Ok(w.forecast())), Heard::Table]);
        let mut wire = Wire::new(Device::dump(w.memory.clone()), Division::Random, 1);
        assert!(is_full(&sahara_run(&mut wire, &w.options(), &mut sink, |_| ()).unwrap_err()));
        assert_eq!(wire.device.reads(), 1);
    }
}

/// A table whose lengths are no number together: refused (27), by the driver and as a sink is told it. A sink that does not mind gets the regions before.
#[test]
fn absurd_lengths() {
    let regions = [Region::new("A.BIN", 7, 9000), Region::new("B.BIN", 0, 1 << 63), Region::new("C.BIN", 0, 1 << 63)];
    let w = World::new(device::Width::Bits64, Backend::Serial, &regions);
    let mut wire = wire(&w, Division::Random, 1);
    wire.faults.ends_after = Some(w.opening() + w.memory.table_len() + 20_000);
    let (mut run, mut sink) = (w.options().start().unwrap(), Ear::new(Count::default()));
    assert!(matches!(run.run(&mut wire, &mut sink, |_| ()), Err(Error::NoBytes)));
    assert_eq!(run.forecast().unwrap_err().number(), 27);
    assert!(matches!(sink.heard[1], Heard::Forecast(Err(why)) if why.number() == 27));
    assert_eq!(sink.heard[2..], [Heard::Open(0), Heard::Close(0), Heard::Open(1)]);
    assert_eq!((sink.to.closed, sink.to.bytes), (1, 20_000));
    // of the last one alone it is none
    let mut run = w.options().restore(&run.save()).unwrap();
    assert!(matches!(run.run(&mut wire, &mut sink, |_| ()), Err(Error::Sink(_))));
    assert_eq!(sink.heard[5..], [Heard::Table, Heard::Forecast(Ok(of(1, 1 << 63, 1 + (1 << 51)))), Heard::Reopen(1)]);
}
