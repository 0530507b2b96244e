//! What is particular to boards of 32 bits, beside those of 64: tables, and regions at the end of all addresses.
use crate::files::Temporary;
use crate::world::{host_width, Record, World};
use device::{Device, Division, Faults, Memory, Region, Turn, Width, Wire};
use std::fs;
use worgesli::{sahara_run, Backend, Count, Error, Folder, Mode, Options, Outcome, Phase, State};

/// Each division with each backend.
fn divisions() -> impl Iterator<Item = (Division, Backend)> {
    let divisions = [Division::Whole, Division::AtMost(1), Division::AtMost(511), Division::Random];
    divisions.into_iter().flat_map(|d| [(d, Backend::Serial), (d, Backend::Usb)])
}

/// Whole fetches from a device with this memory.
fn fetched(width: Width, memory: impl Fn() -> Memory, regions: &[Region], names: &[&str]) {
    for (division, backend) in divisions() {
        let names = names.iter().map(|n| n.to_string()).collect();
        let w = World { memory: memory(), regions: regions.to_vec(), names, backend };
        assert_eq!(w.width(), width);
        let (mut wire, mut sink) = (Wire::new(Device::dump(w.memory.clone()), division, 7), Record::default());
        let end = sahara_run(&mut wire, &w.options(), &mut sink, |_| ());
        assert_eq!(end.unwrap(), Outcome::Dumped { reads: w.memory_reads() }, "{w:?} {division:?}");
        assert!(sink.0 == w.kept(), "{w:?} {division:?}");
        assert_eq!((wire.device.wrong(), wire.device.queued(), wire.empty_reads), (None, 0, w.empty_reads()));
    }
}

/// A fetch in steps, each by a run that was restored from the one before.
fn restored(memory: Memory, names: &[&str]) {
    let options = Options::new(Backend::Usb, Mode::MemoryDebug).names(names);
    let (mut wire, mut sink) = (Wire::new(Device::dump(memory), Division::Whole, 7), Record::default());
    let mut run = options.start().unwrap();
    while run.step(&mut wire, &mut sink, |_| ()).unwrap().is_none() {
        run = options.restore(&run.save()).unwrap();
    }
    assert_eq!((sink.0.len(), wire.device.wrong(), wire.device.queued()), (1, None, 0));
}

/// The longest table: 1,260 entries of 52 bytes and 16 bytes more, or 1,024 of 64. The last one is fetched, by preference and by name.
#[test]
fn last_entry_of_the_longest_table() {
    for (width, entries) in [(Width::Bits32, 1260), (Width::Bits64, 1024)] {
        let mut regions = vec![Region::new("OTHER.BIN", 1, 1).unpreferred(); entries - 1];
        for (last, names) in
            [(Region::new("LAST.BIN", 9, 5000), &[][..]), (Region::new("LAST.BIN", 9, 5000).unpreferred(), &["last"])]
        {
            regions.push(last);
            let mut table: Vec<u8> = regions.iter().flat_map(|r| r.bytes(width)).collect();
            table.resize(65_536, 0xff);
            let memory = || Memory::with_table(1, width.half(), table.clone()).wide(width);
            fetched(width, memory, &regions, names);
            restored(memory(), names);
            regions.pop();
        }
    }
}

/// As many regions as whole entries, whatever remains: of 52 to 63 bytes one of 32 bits and none of 64.
#[test]
fn tables_of_each_length() {
    for (width, size, of_52_to_63) in [(Width::Bits32, 52, 1), (Width::Bits64, 64, 0)] {
        let regions: Vec<Region> = (0..3).map(|i| Region::new(format!("R{i}.BIN"), 100 * i, 10 + i)).collect();
        let bytes: Vec<u8> = regions.iter().flat_map(|r| r.bytes(width)).collect();
        for len in 0..=bytes.len() {
            let whole = &regions[..len / size];
            assert!(!(52..64).contains(&len) || whole.len() == of_52_to_63);
            fetched(width, || Memory::with_table(1, width.half(), bytes[..len].to_vec()).wide(width), whole, &[]);
        }
    }
}

/// Regions that end with the last address: their sum is 2^32, or 2^64, and they are whole. An empty one at the last address too.
#[test]
fn up_to_the_last_address() {
    assert_eq!(Width::Bits32.end_less(1), 0xffff_ffff);
    for width in Width::BOTH {
        let lens = [1, 511, 512, 4095, 4096, 4097, 3 * 4096, 3 * 4096 + 512, 3 * 4096 + 1];
        let mut regions: Vec<Region> = lens.map(|len| Region::new("TOP.BIN", width.end_less(len), len)).into();
        regions.push(Region::new("EMPTY.BIN", width.end_less(1), 0));
        fetched(width, || Memory::of(width, 2, 0, &regions), &regions, &[]);
    }
}

/// A table beyond the last address is not refused: the memory read has its address and length as they were given. No more is a region that nobody asks for.
#[test]
fn beyond_the_last_address() {
    for width in Width::BOTH {
        let most = width.end_less(1);
        let regions = [Region::new("BEYOND.BIN", most, most).unpreferred(), Region::new("A.BIN", 5, 5000)];
        for before in [1, 51, 52, 103, 104] {
            fetched(width, || Memory::of(width, 3, width.end_less(before), &regions), &regions, &[]);
        }
    }
    // which reads are sent
    for (width, read) in
        [(Width::Bits32, device::packet(0x0a, &[u32::MAX, 65_536])), (Width::Bits64, device::packet64(0x11, &[u64::MAX, 65_536]))]
    {
        let turns =
            vec![Turn::Say(width.mem_debug(width.end_less(1), 65_536)), Turn::Hear(read.len()), Turn::Say(vec![0; 65_536])];
        let mut wire = Wire::new(Device::new(Memory::empty(), turns), Division::Random, 1);
        let mut run = Options::new(Backend::Usb, Mode::MemoryDebug).start().unwrap();
        assert_eq!(run.session().width(), worgesli::Width::Bits64);
        assert_eq!(run.run(&mut wire, &mut Count::default(), |_| ()).unwrap(), Outcome::Dumped { reads: 1 });
        assert_eq!((wire.device.heard(), run.entries().count()), (&read[..], 65_536 / width.entry_len()));
    }
}

/// One byte more than there are addresses: refused behind the open, and what was fetched before is kept, as files too.
#[test]
fn one_byte_too_many() {
    for (width, number) in [(Width::Bits32, 24), (Width::Bits64, 22)] {
        let regions =
            [Region::new("A.BIN", 7, 9000), Region::new("TOP.BIN", width.end_less(4097), 4098), Region::new("C.BIN", 5, 5)];
        for (division, backend) in divisions() {
            let w = World::new(width, backend, &regions);
            let (mut wire, mut run) = (Wire::new(Device::dump(w.memory.clone()), division, 7), w.options().start().unwrap());
            let t = Temporary::new();
            let mut sink = Folder::new(t.0.join("dump")).unwrap();
            match run.run(&mut wire, &mut sink, |_| ()) {
                Err(Error::Refused(why)) => assert_eq!(why.number(), number, "{why}"),
                end => panic!("{end:?}"),
            }
            assert_eq!(run.session().phase(), Phase::Ended);
            let kept: Vec<_> = sink.regions().iter().map(|k| (k.file.as_str(), k.bytes, &k.state)).collect();
            assert_eq!(kept, [("A.BIN", 9000, &State::Whole), ("TOP.BIN.part", 0, &State::Part)]);
            assert!(fs::read(t.0.join("dump/A.BIN")).unwrap() == w.memory.bytes(7, 9000));
            // the table and three chunks: of the region that is refused nothing was asked for
            assert_eq!((wire.device.wrong(), wire.device.reads()), (None, 4));
        }
    }
}

/// The first memory debug ends the packets: another behind it is the table's bytes.
#[test]
fn one_memory_debug_behind_another() {
    for (first, second) in [(Width::Bits32, Width::Bits64), (Width::Bits64, Width::Bits32)] {
        let table = second.mem_debug(0, 0);
        let memory = Memory::with_table(1, 64, table.clone()).wide(first);
        let mut wire = Wire::new(Device::dump(memory), Division::Random, 1);
        let mut run = Options::new(Backend::Usb, Mode::MemoryDebug).start().unwrap();
        assert_eq!(run.run(&mut wire, &mut Count::default(), |_| ()).unwrap(), Outcome::Dumped { reads: 1 });
        assert_eq!((run.table(), run.session().width() as u32), (&table[..], first.bits()));
    }
}

/// A run that stops within the memory debug or the table is saved, and goes on: what it held of either is not lost.
#[test]
fn in_the_middle_of_a_memory_debug() {
    for width in Width::BOTH {
        let w = World::new(width, Backend::Usb, &[Region::new("A.BIN", 7, 9000)]);
        for came in 48..w.opening() + w.memory.table_len() {
            let faults = Faults { ends_after: Some(came), ..Faults::default() };
            let mut wire = Wire::new(Device::dump(w.memory.clone()), Division::Whole, 1).with(faults);
            let (options, mut sink) = (w.options(), Record::default());
            let mut run = options.start().unwrap();
            assert!(matches!(run.run(&mut wire, &mut sink, |_| ()), Err(Error::NoBytes)));
            let offered = came >= w.opening();
            let known = if offered { host_width(w.width()) } else { worgesli::Width::Bits64 };
            assert_eq!((run.session().width(), run.session().reads()), (known, u64::from(offered)));
            let mut run = options.restore(&run.save()).unwrap();
            wire.faults = Faults::default();
            assert_eq!(run.run(&mut wire, &mut sink, |_| ()).unwrap(), Outcome::Dumped { reads: 4 });
            assert!(sink.0 == w.kept() && run.session().width() == host_width(w.width()));
        }
    }
}
