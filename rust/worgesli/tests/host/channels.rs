//! The channels of a box: a tty, and USB bulk packets.
use crate::world::{worlds, Record, World};
use device::{Bulk, Device, Division, Memory, Pty, Region, Width, Wire};
use std::io::{self, ErrorKind, Read, Write};
use std::time::{Duration, Instant};
use worgesli::{sahara_run, Backend, Count, Error, Mode, Options, Outcome, Packets, Phase, Serial};

/// Whole packets in, any division out: with and without empty packets, tables that are multiples of 512 too.
#[test]
fn packets() {
    let mut empties = 0;
    for (seed, mut w) in worlds(0..1500) {
        w.backend = if seed % 5 == 0 { Backend::Serial } else { Backend::Usb };
        let size = [64, 512, 1024][seed as usize % 3];
        let bulk = Bulk::new(Device::dump(w.memory.clone()), size, seed % 4 != 0, seed);
        let mut channel = Packets::new(bulk, size).unwrap();
        let mut sink = Record::default();
        let end = sahara_run(&mut channel, &w.options(), &mut sink, |_| ());
        assert_eq!(end.unwrap(), Outcome::Dumped { reads: w.memory_reads() }, "seed {seed}, {w:?}");
        assert_eq!(sink.0, w.kept(), "seed {seed}, {w:?}");
        let (bulk, unread) = channel.into_parts();
        assert_eq!((bulk.device.wrong(), bulk.overflows, unread.len()), (None, 0, 0), "seed {seed}, {w:?}");
        empties += bulk.empties;
    }
    assert!(empties > 1000, "{empties}");
}

/// The empty packet behind a table of 512 bytes is passed over, and those behind chunks are taken by the empty reads.
#[test]
fn empty_packet_behind_a_table() {
    for width in Width::BOTH {
        let regions: Vec<Region> = (0..8).map(|i| Region::new(format!("R{i}.BIN"), i << 20, 512 * i)).collect();
        let mut w = World::new(width, Backend::Usb, &regions);
        let mut table = w.memory.table().to_vec();
        table.resize(512, 0);
        w.memory = Memory::with_table(3, width.half(), table).wide(width);
        let mut channel = Packets::new(Bulk::new(Device::dump(w.memory.clone()), 512, true, 0), 512).unwrap();
        let mut sink = Record::default();
        sahara_run(&mut channel, &w.options(), &mut sink, |_| ()).unwrap();
        assert_eq!(sink.0, w.kept());
        assert_eq!(channel.into_parts().0.empties, 1 + w.empty_reads());
    }
}

/// An endpoint that gives nothing but empty packets is not asked for ever; sizes that no endpoint has are refused.
#[test]
fn only_empty_packets() {
    #[derive(Debug)]
    struct Empty;
    impl Read for Empty {
        fn read(&mut self, _: &mut [u8]) -> io::Result<usize> {
            Ok(0)
        }
    }
    impl Write for Empty {
        fn write(&mut self, bytes: &[u8]) -> io::Result<usize> {
            Ok(bytes.len())
        }
        fn flush(&mut self) -> io::Result<()> {
            Ok(())
        }
    }
    let mut channel = Packets::new(Empty, 512).unwrap();
    let options = Options::new(Backend::Usb, Mode::MemoryDebug).timeouts(2);
    assert_eq!(sahara_run(&mut channel, &options, &mut Count::default(), |_| ()).unwrap_err().number(), Some(23));
    for size in [0, 3, 2048, usize::MAX] {
        assert_eq!(Packets::new(Empty, size).unwrap_err().kind(), ErrorKind::InvalidInput);
    }
    assert!(Packets::with_unread(Empty, 512, &[0; 65_537]).is_err());
    let mut channel = Packets::with_unread(Empty, 512, &device::hello(2)).unwrap();
    assert_eq!(channel.unread(), device::hello(2));
    let mut to = [0; 8];
    assert_eq!((channel.read(&mut []).unwrap(), channel.read(&mut to).unwrap(), to[0]), (0, 8, 1));
    assert_eq!(channel.unread().len(), 40);
}

fn pty_world(width: Width, len: u64) -> World {
    World::new(width, Backend::Serial, &[Region::new("A.BIN", 5, len), Region::new("B.BIN", width.end_less(9000), 9000)])
}

/// A tty as a system leaves it, cooked and echoing, is set raw: every byte goes through as it is, both ways.
#[test]
fn serial() {
    for (seed, width) in Width::with_both(0..6) {
        let w = pty_world(width, 50_000 + seed);
        let (pty, near) = Pty::open().unwrap();
        assert!(!pty.raw());
        let mut channel = Serial::open(pty.path(), 115_200, Duration::from_secs(20)).unwrap();
        assert!(pty.raw());
        drop(near);
        let device = Device::dump(w.memory.clone());
        let far = std::thread::spawn(move || device::serve(device, pty, seed).unwrap());
        let mut sink = Record::default();
        let end = sahara_run(&mut channel, &w.options(), &mut sink, |_| ());
        assert_eq!(end.unwrap(), Outcome::Dumped { reads: w.memory_reads() });
        assert_eq!(channel.read(&mut []).unwrap(), 0);
        drop(channel);
        let (device, _) = far.join().unwrap();
        assert_eq!((sink.0 == w.kept(), device.wrong(), device.queued()), (true, None, 0), "seed {seed}, {w:?}");
    }
}

/// A silent line times out and a line that is hung up does not wait; what is no tty, and a speed that is none, is refused.
#[test]
fn serial_faults() {
    let (pty, near) = Pty::open().unwrap();
    let mut channel = Serial::open(pty.path(), 921_600, Duration::from_millis(30)).unwrap();
    let start = Instant::now();
    assert_eq!(channel.read(&mut [0; 8]).unwrap_err().kind(), ErrorKind::TimedOut);
    assert!(start.elapsed() >= Duration::from_millis(30));
    // a line whose far end reads nothing fills up, and then times out
    channel.set_timeout(Duration::from_millis(5));
    let full = (0..1000).find_map(|_| channel.write(&[7; 4096]).err()).unwrap();
    assert_eq!(full.kind(), ErrorKind::TimedOut);
    assert_eq!(Serial::open(pty.path(), 12_345, Duration::ZERO).unwrap_err().kind(), ErrorKind::InvalidInput);
    channel.set_timeout(Duration::from_secs(60));
    drop((pty, near));
    let start = Instant::now();
    match channel.read(&mut [0; 8]) {
        Ok(n) => assert_eq!(n, 0),
        Err(e) => assert_ne!(e.kind(), ErrorKind::TimedOut),
    }
    assert!(start.elapsed() < Duration::from_secs(30));
    assert!(Serial::open("/dev/null", 115_200, Duration::ZERO).is_err());
}

/// A tty with VMIN 0 gives 0 bytes on every time-out: they are borne, and none of them ends the session.
#[test]
fn reads_of_no_bytes() {
    struct Vtime(Wire, u32, u32);
    impl Read for Vtime {
        fn read(&mut self, to: &mut [u8]) -> io::Result<usize> {
            if self.1 > 0 {
                self.1 -= 1;
                return Ok(0);
            }
            self.1 = self.2;
            self.0.read(to)
        }
    }
    impl Write for Vtime {
        fn write(&mut self, bytes: &[u8]) -> io::Result<usize> {
            self.0.write(bytes)
        }
        fn flush(&mut self) -> io::Result<()> {
            self.0.flush()
        }
    }
    for width in Width::BOTH {
        let new = |silent| {
            let memory = Memory::of(width, 1, width.half(), &[Region::new("A.BIN", 0, 9000)]);
            Vtime(Wire::new(Device::dump(memory), Division::AtMost(4096), 1), silent, silent)
        };
        let options = Options::new(Backend::Serial, Mode::MemoryDebug).timeouts(3);
        for silent in 0..=3 {
            let mut sink = Count::default();
            assert_eq!(sahara_run(&mut new(silent), &options, &mut sink, |_| ()).unwrap(), Outcome::Dumped { reads: 4 });
            assert_eq!(sink.bytes, 9000);
        }
        // one more than is borne: the short form closes the session; a run stays as it is, and goes on
        assert_eq!(sahara_run(&mut new(4), &options, &mut Count::default(), |_| ()).unwrap_err().number(), Some(23));
        let (mut channel, mut run, mut sink) = (new(4), options.start().unwrap(), Count::default());
        let mut stops = 0;
        let end = loop {
            match run.run(&mut channel, &mut sink, |_| ()) {
                Err(Error::NoBytes) => stops += 1,
                end => break end.unwrap(),
            }
            assert_ne!(run.session().phase(), Phase::Ended);
        };
        assert_eq!((end, sink.bytes), (Outcome::Dumped { reads: 4 }, 9000));
        assert!(stops > 3);
    }
}
