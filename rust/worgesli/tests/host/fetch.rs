//! The driver against the device, over divisions at random.
use crate::world::{host_width, worlds, Record, World};
use device::{Device, Division, Memory, Region, Rng, Width, Wire};
use worgesli::{sahara_run, Backend, Command, Count, Mode, Options, Outcome, Progress};

fn fetch(w: &World, wire: &mut Wire) -> Record {
    let mut sink = Record::default();
    let dumped = sahara_run(wire, &w.options(), &mut sink, |_| ()).unwrap();
    assert_eq!(dumped, Outcome::Dumped { reads: w.memory_reads() });
    sink
}

/// Each region as the memory holds it, in the table's order, whatever the division.
#[test]
fn every_division_gives_the_memory() {
    for (seed, w) in worlds(0..4000) {
        let division = match seed % 8 {
            0 => Division::Whole,
            1 => Division::AtMost(1),
            2 => Division::AtMost(511),
            _ => Division::Random,
        };
        let mut wire = Wire::new(Device::dump(w.memory.clone()), division, seed);
        let sink = fetch(&w, &mut wire);
        assert_eq!(sink.0, w.kept(), "seed {seed}, {w:?}");
        assert_eq!(wire.device.wrong(), None, "seed {seed}, {w:?}");
        assert_eq!(wire.device.reads(), w.memory_reads(), "seed {seed}, {w:?}");
        assert_eq!(wire.empty_reads, w.empty_reads(), "seed {seed}, {w:?}");
        assert_eq!((wire.device.queued(), wire.unflushed), (0, 0), "seed {seed}, {w:?}");
    }
}

/// A board that says hello with mode 1, as some do after a warm restart, is fetched from like any other; by a session of mode 1 too.
#[test]
fn warm_restart() {
    for (seed, w) in worlds(0..400) {
        for mode in [Mode::MemoryDebug, Mode::ImageTransferComplete] {
            let mut wire = Wire::new(Device::dump_after(device::hello(1), w.memory.clone()), Division::Random, seed);
            let mut sink = Record::default();
            let end = sahara_run(&mut wire, &Options::new(w.backend, mode).names(&w.names), &mut sink, |_| ());
            assert_eq!(end.unwrap(), Outcome::Dumped { reads: w.memory_reads() }, "seed {seed}, {w:?}");
            assert_eq!((sink.0, wire.device.heard()[20]), (w.kept(), mode as u8), "seed {seed}, {w:?}");
        }
    }
}

const MODES: [Mode; 4] = [Mode::WaitingForImage, Mode::ImageTransferComplete, Mode::MemoryDebug, Mode::Command];

/// HelloResp has the session's mode, whatever the device offers.
#[test]
fn hello_response() {
    for (mode, offered) in MODES.into_iter().flat_map(|m| (0..4).map(move |o| (m, o))) {
        let turns =
            vec![device::Turn::Say(device::hello(offered)), device::Turn::Hear(48), device::Turn::Say(device::reset_resp())];
        let mut wire = Wire::new(Device::new(Memory::empty(), turns), Division::Random, 3);
        let end = sahara_run(&mut wire, &Options::new(Backend::Usb, mode), &mut Count::default(), |_| ());
        assert_eq!(end.unwrap(), Outcome::Reset);
        assert_eq!(wire.device.heard(), device::packet(2, &[2, 1, 0, mode as u32, 0, 0, 0, 0, 0, 0]));
    }
}

/// Images go out as asked, and what the loader says after Sahara stays in the channel.
#[test]
fn images_and_the_loader_after_them() {
    let loader = b"<?xml version=\"1.0\"?><data><log value=\"hello\"/></data>";
    for seed in 0..1000 {
        let mut rng = Rng::new(seed);
        let images: Vec<Option<Vec<u8>>> = (0..1 + rng.below(5))
            .map(|_| {
                let mut image = vec![0; rng.below(9000) as usize];
                rng.fill(&mut image);
                Some(image)
            })
            .collect();
        let mut asked = Vec::new();
        let mut sent = Vec::new();
        for _ in 0..rng.below(6) {
            let id = rng.below(images.len() as u64) as usize;
            let image = images[id].as_deref().unwrap();
            let offset = rng.below(image.len() as u64 + 1) as usize;
            let len = rng.below((image.len() - offset) as u64 + 1) as usize;
            // with one image any ID means it
            asked.push((if images.len() == 1 { 13 } else { id as u32 }, offset as u32, len as u32));
            sent.extend_from_slice(&image[offset..offset + len]);
        }
        let mut wire = Wire::new(Device::load(&asked, loader), Division::Random, seed);
        wire.faults.short_writes = true;
        let mut sink = Count::default();
        let end = sahara_run(&mut wire, &Options::new(Backend::Serial, Mode::WaitingForImage).images(&images), &mut sink, |_| ());
        assert_eq!(end.unwrap(), Outcome::ImagesSent, "seed {seed}");
        let heard = wire.device.heard();
        assert_eq!(&heard[48..heard.len() - 8], sent, "seed {seed}");
        assert_eq!(heard[heard.len() - 8..], device::packet(5, &[]));
        let mut rest = vec![0; 100];
        let n = wire.device.say(&mut rest);
        assert_eq!(&rest[..n], loader, "seed {seed}");
        assert_eq!(sink, Count::default());
    }
}

/// A command's reply, of any length up to the reply buffer; what comes after SwitchMode stays in the channel.
#[test]
fn replies() {
    let lens = [0, 1, 4, 7, 8, 32, 511, 512, 4096, 5000, 65_536];
    for (mode, (seed, len)) in MODES.into_iter().flat_map(|m| lens.into_iter().enumerate().map(move |l| (m, l))) {
        let mut reply = vec![0; len];
        Rng::new(seed as u64).fill(&mut reply);
        let next = device::hello(0);
        let mut wire = Wire::new(Device::command(3, &reply, &next), Division::Random, seed as u64);
        let options = Options::new(Backend::Usb, mode).command(Command::ReadOemKeyHash);
        let end = sahara_run(&mut wire, &options, &mut Count::default(), |_| ());
        assert_eq!(end.unwrap(), Outcome::Reply(reply));
        let (hello, said) = wire.device.heard().split_at(48);
        assert_eq!(hello[20], mode as u8);
        let (execute, data, switch) = (device::packet(0x0d, &[3]), device::packet(0x0f, &[3]), device::packet(0x0c, &[0]));
        assert_eq!(said, [execute, data, switch].concat());
        assert_eq!((wire.device.queued(), wire.empty_reads), (next.len() as u64, 0));
    }
}

/// Progress grows to each region's length.
#[test]
fn progress() {
    for width in Width::BOTH {
        let high = width.end_less(4096);
        let regions = [Region::new("A", 0, 10_000), Region::new("B", high, 4096), Region::new("C", 5, 0)];
        let w = World::new(width, Backend::Usb, &regions);
        let mut wire = Wire::new(Device::dump(w.memory.clone()), Division::Random, 1);
        let mut seen: Vec<Progress> = Vec::new();
        let mut driver = w.options().start().unwrap();
        driver.run(&mut wire, &mut Count::default(), |p| seen.push(p)).unwrap();
        for (place, len) in [(0, 10_000), (1, 4096)] {
            let of: Vec<u64> = seen.iter().filter(|p| p.place == place && p.len == len).map(|p| p.done).collect();
            assert!(of.windows(2).all(|w| w[0] < w[1]) && of.last() == Some(&len), "{of:?}");
        }
        assert!(seen.iter().all(|p| p.place < 2));
        // what the device is stays known behind the end
        assert_eq!((driver.session().width(), driver.table()), (host_width(w.width()), w.memory.table()));
        assert_eq!(driver.entries().map(|e| (e.base, e.len)).collect::<Vec<_>>(), [(0, 10_000), (high, 4096), (5, 0)]);
    }
}

/// Over a real socket, with the device in a thread of its own.
#[test]
fn over_a_socket() {
    for (seed, w) in worlds(100_000..100_040) {
        let (mut host, far) = device::Socket::pair().unwrap();
        let device = Device::dump(w.memory.clone());
        let thread = std::thread::spawn(move || device::serve(device, far, seed).unwrap());
        let mut sink = Record::default();
        let end = sahara_run(&mut host, &w.options(), &mut sink, |_| ());
        assert_eq!(end.unwrap(), Outcome::Dumped { reads: w.memory_reads() });
        assert_eq!(host.empty_reads, w.empty_reads());
        drop(host);
        let (device, _) = thread.join().unwrap();
        assert_eq!(sink.0, w.kept(), "seed {seed}, {w:?}");
        assert_eq!((device.wrong(), device.queued()), (None, 0));
    }
}
