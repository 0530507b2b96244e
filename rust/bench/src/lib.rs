//! What a host costs against a device in memory, less the device's own cost.
//!
//! A host is anything that fetches from a [`Wire`]. [`Bare`] makes the same reads and writes and thinks nothing: its time is that of
//! the device and the sink, and is taken off. Hosts take turns in one run, so that what else the machine does falls on all of them.
use device::{Device, Division, Memory, Region, Width, Wire};
use std::fs::{File, OpenOptions};
use std::hint::black_box;
use std::io::{self, Read, Write};
use std::path::PathBuf;
use std::time::{Duration, Instant};
use worgesli::{sahara_run, Backend, Entry, Folder, Mode, Options, Outcome, Sink, Unkept};

/// What is fetched.
#[derive(Clone, Debug)]
pub struct Setting {
    pub width: Width,
    pub backend: Backend,
    /// the lengths of the preferred regions, one behind the other from address 0
    pub regions: Vec<u64>,
    /// entries before them that are not preferred
    pub others: usize,
    /// names, of which the last is the regions'
    pub names: usize,
    /// slots of the image set
    pub slots: usize,
    pub division: Division,
}

impl Setting {
    /// One region of a device of 64 bits.
    pub fn new(backend: Backend, len: u64) -> Setting {
        Setting { width: Width::Bits64, backend, regions: vec![len], others: 0, names: 0, slots: 0, division: Division::Whole }
    }

    pub fn chunks(&self) -> u64 {
        self.regions.iter().map(|len| len.div_ceil(4096)).sum()
    }

    pub fn names(&self) -> Vec<String> {
        (1..=self.names).map(|i| if i == self.names { "DDR".into() } else { format!("name{i:014}") }).collect()
    }

    pub fn images(&self) -> Vec<Option<Vec<u8>>> {
        (0..self.slots).map(|i| Some(vec![i as u8; 16])).collect()
    }

    /// A channel to a fresh device.
    pub fn wire(&self) -> Wire {
        let mut table = vec![Region::new("OTHER.BIN", 0, 4096).unpreferred(); self.others];
        let mut base = 0;
        for len in &self.regions {
            table.push(Region::new("DDR.BIN", base, *len));
            base += len;
        }
        Wire::new(Device::dump(Memory::of(self.width, 1, self.width.half(), &table)), self.division, 1)
    }
}

/// Fetches the regions of a setting, and gives how many bytes it kept.
pub trait Host {
    fn name(&self) -> &str;
    fn fetch(&mut self, setting: &Setting, channel: &mut Wire) -> u64;
}

/// Where the bytes go: counted only, or written to /dev/null as a host writes a file.
pub enum Keep {
    Count,
    Null(File),
}

impl Keep {
    pub fn null() -> io::Result<Keep> {
        Ok(Keep::Null(OpenOptions::new().write(true).open("/dev/null")?))
    }
}

struct Kept<'a>(&'a mut Keep, u64);

impl Sink for Kept<'_> {
    fn open(&mut self, _: usize, _: &Entry) -> io::Result<()> {
        Ok(())
    }
    #[inline]
    fn bytes(&mut self, bytes: &[u8]) -> io::Result<usize> {
        self.1 += bytes.len() as u64;
        match self.0 {
            Keep::Count => Ok(black_box(bytes).len()),
            Keep::Null(file) => file.write(bytes),
        }
    }
    fn close(&mut self, _: usize) -> Result<(), Unkept> {
        Ok(())
    }
}

/// This host.
pub struct Worgesli(pub Keep);

impl Host for Worgesli {
    fn name(&self) -> &str {
        "worgesli"
    }

    fn fetch(&mut self, setting: &Setting, channel: &mut Wire) -> u64 {
        let mut sink = Kept(&mut self.0, 0);
        let options = Options::new(setting.backend, Mode::MemoryDebug).images(&setting.images()).names(setting.names());
        let end = sahara_run(channel, &options, &mut sink, |_| ());
        assert_eq!(end.unwrap(), Outcome::Dumped { reads: 1 + setting.chunks() });
        sink.1
    }
}

/// This host, into files of a folder below this one. Each fetch has its own, which is removed behind it.
pub struct Files {
    pub folder: PathBuf,
    pub digests: bool,
}

impl Host for Files {
    fn name(&self) -> &str {
        "worgesli, into files"
    }

    fn fetch(&mut self, setting: &Setting, channel: &mut Wire) -> u64 {
        let folder = self.folder.join(format!("worgesli-bench-{}", std::process::id()));
        let mut sink = Folder::new(&folder).expect("a new folder").digests(self.digests);
        let options = Options::new(setting.backend, Mode::MemoryDebug);
        sahara_run(channel, &options, &mut sink, |_| ()).expect("a whole fetch");
        let kept = sink.regions().iter().map(|r| r.bytes).sum();
        std::fs::remove_dir_all(&folder).expect("it is ours");
        kept
    }
}

/// The reads and writes alone.
pub struct Bare(pub Keep);

fn ask(width: Width, channel: &mut Wire, at: u64, len: u64) {
    let mut request = [0; 24];
    let (middle, end) = (8 + width.number_len(), width.packet_len());
    request[..8].copy_from_slice(&width.mem_read_head());
    request[8..middle].copy_from_slice(&at.to_le_bytes()[..middle - 8]);
    request[middle..end].copy_from_slice(&len.to_le_bytes()[..end - middle]);
    channel.write_all(&request[..end]).unwrap();
    channel.flush().unwrap();
}

impl Host for Bare {
    fn name(&self) -> &str {
        "device and sink alone"
    }

    fn fetch(&mut self, setting: &Setting, channel: &mut Wire) -> u64 {
        let mut sink = Kept(&mut self.0, 0);
        let (mut buf, width) = (vec![0; 65_536], setting.width);
        channel.read_exact(&mut buf[..48]).unwrap();
        channel.write_all(&[0; 48]).unwrap();
        channel.read_exact(&mut buf[..width.packet_len()]).unwrap();
        let table = (setting.others + setting.regions.len()) * width.entry_len();
        ask(width, channel, width.half(), table as u64);
        channel.read_exact(&mut buf[..table]).unwrap();
        let mut at = 0;
        for len in &setting.regions {
            let end = at + len;
            while at < end {
                let n = (end - at).min(4096);
                ask(width, channel, at, n);
                let n = channel.read(&mut buf[..n as usize]).unwrap();
                if setting.backend == Backend::Usb && n.is_multiple_of(512) {
                    let _ = channel.read(&mut []);
                }
                sink.bytes(&buf[..n]).unwrap();
                at += n as u64;
            }
        }
        sink.1
    }
}

/// Times of a fetch.
#[derive(Clone, Copy, Debug)]
pub struct Cost {
    pub least: Duration,
    pub median: Duration,
    pub chunks: u64,
}

impl Cost {
    /// Nanoseconds for each chunk of 4,096 bytes: the least, the median.
    pub fn per_chunk(&self) -> (f64, f64) {
        let ns = |d: Duration| d.as_nanos() as f64 / self.chunks as f64;
        (ns(self.least), ns(self.median))
    }
}

/// Lets the hosts fetch in turn, so many rounds.
pub fn fetches(hosts: &mut [&mut dyn Host], setting: &Setting, rounds: usize) -> Vec<Cost> {
    let bytes: u64 = setting.regions.iter().sum();
    let mut times = vec![Vec::new(); hosts.len()];
    for _ in 0..rounds {
        for (host, times) in hosts.iter_mut().zip(&mut times) {
            let mut wire = setting.wire();
            let start = Instant::now();
            let kept = host.fetch(setting, &mut wire);
            times.push(start.elapsed());
            assert_eq!((kept, wire.device.reads()), (bytes, 1 + setting.chunks()), "{}", host.name());
        }
    }
    let cost = |mut times: Vec<Duration>| {
        times.sort();
        Cost { least: times[0], median: times[times.len() / 2], chunks: setting.chunks() }
    };
    times.into_iter().map(cost).collect()
}

/// Prints each host's nanoseconds a chunk, less those of the first.
pub fn table(title: &str, hosts: &mut [&mut dyn Host], setting: &Setting, rounds: usize) {
    let costs = fetches(hosts, setting, rounds);
    let (least, median) = costs[0].per_chunk();
    println!("{title}");
    println!("    {:<24} least {least:8.1}  median {median:8.1}", hosts[0].name());
    for (host, cost) in hosts.iter().zip(&costs).skip(1) {
        let (l, m) = cost.per_chunk();
        println!("    {:<24} least {l:8.1}  median {m:8.1}   its own: {:8.1} {:8.1}", host.name(), l - least, m - median);
    }
}
