//! Devices of both widths with memory at random, what a fetch from them must give, and a sink that keeps it.
use device::{Memory, Region, Rng, Width};
use std::ops::Range;
use std::{fmt, io};
use worgesli::{Backend, Entry, Forecast, Mode, Options, Sink, Unkept};

/// A region as it came out: its place, its entry's filename, its bytes, and whether it was closed.
#[derive(Clone, Debug, PartialEq, Eq)]
pub struct Kept {
    pub place: usize,
    pub filename: [u8; 20],
    pub bytes: Vec<u8>,
    pub closed: bool,
}

#[derive(Default)]
pub struct Record(pub Vec<Kept>);

impl Sink for Record {
    fn open(&mut self, place: usize, entry: &Entry) -> io::Result<()> {
        assert!(self.0.last().is_none_or(|r| r.closed), "a region is opened before the last one is closed");
        self.0.push(Kept { place, filename: entry.filename, bytes: Vec::new(), closed: false });
        Ok(())
    }
    fn bytes(&mut self, bytes: &[u8]) -> io::Result<usize> {
        let last = self.0.last_mut().unwrap();
        assert!(last.bytes.len() < 1 << 20, "more than any region here has");
        last.bytes.extend_from_slice(bytes);
        Ok(bytes.len())
    }
    fn close(&mut self, place: usize) -> Result<(), Unkept> {
        let last = self.0.last_mut().unwrap();
        assert_eq!((last.place, last.closed), (place, false));
        last.closed = true;
        Ok(())
    }
    fn reopen(&mut self, place: usize, entry: &Entry, taken: u64) -> Result<(), Unkept> {
        let last = self.0.last().unwrap();
        assert_eq!((last.place, last.closed, last.filename, last.bytes.len() as u64), (place, false, entry.filename, taken));
        Ok(())
    }
}

/// As [`Record`], of a sink on a disk: a region is cut back when it is reopened, and lost where it is closed or not there; one that is opened anew, with all behind
/// it in the table, begins anew.
#[derive(Default)]
pub struct Cut(pub Record, pub usize);

impl Sink for Cut {
    fn open(&mut self, place: usize, entry: &Entry) -> io::Result<()> {
        self.0 .0.retain(|r| r.place < place);
        self.0.open(place, entry)
    }
    fn bytes(&mut self, bytes: &[u8]) -> io::Result<usize> {
        self.0.bytes(bytes)
    }
    fn close(&mut self, place: usize) -> Result<(), Unkept> {
        self.0.close(place)
    }
    fn reopen(&mut self, place: usize, _: &Entry, taken: u64) -> Result<(), Unkept> {
        self.0 .0.retain(|r| r.place <= place);
        match self.0 .0.last_mut() {
            Some(r) if r.place == place && !r.closed && r.bytes.len() as u64 >= taken => {
                r.bytes.truncate(taken as usize);
                Ok(())
            }
            _ => Err(Unkept::Lost(io::ErrorKind::NotFound.into())),
        }
    }
    fn gathers(&self) -> usize {
        self.1
    }
}

/// A table, and the names that a host asks for.
pub struct World {
    pub memory: Memory,
    pub regions: Vec<Region>,
    pub names: Vec<String>,
    pub backend: Backend,
}

const STEMS: [&str; 6] = ["DDRCS0_0", "OCIMEM", "CODERAM", "load", "PMIC_PON", "RST_STAT"];

/// The worlds of these seeds, with a board of each width.
pub fn worlds(seeds: Range<u64>) -> impl Iterator<Item = (u64, World)> {
    Width::with_both(seeds).map(|(seed, width)| (seed, world(seed, width)))
}

/// A device's width as the host names it.
pub fn host_width(width: Width) -> worgesli::Width {
    match width {
        Width::Bits32 => worgesli::Width::Bits32,
        Width::Bits64 => worgesli::Width::Bits64,
    }
}

/// Up to 6 regions, some of the same filename, some not preferred; lengths around chunks and blocks; with or without names.
pub fn world(seed: u64, width: Width) -> World {
    let mut rng = Rng::new(seed);
    let mut regions = Vec::new();
    for _ in 0..rng.below(7) {
        let stem = STEMS[rng.below(6) as usize];
        let len = match rng.below(5) {
            0 => rng.below(3) * 512,
            1 => rng.below(4) * 4096,
            2 => rng.below(3) * 4096 + rng.below(3),
            _ => rng.below(12_000),
        };
        let base = match rng.below(4) {
            0 => width.end_less(len.max(1)), // up to the last address
            1 => rng.below(1 << 20),
            _ => rng.number() % width.half(),
        };
        let region = Region::new(format!("{stem}.BIN"), base, len);
        regions.push(if rng.chance(300) { region.unpreferred() } else { region });
    }
    let names = match rng.below(3) {
        0 => (0..rng.below(4)).map(|_| STEMS[rng.below(6) as usize].to_lowercase()).collect(),
        _ => Vec::new(),
    };
    // a table may end in part of an entry
    let mut table: Vec<u8> = regions.iter().flat_map(|r| r.bytes(width)).collect();
    table.resize(table.len() + rng.below(2) as usize * rng.below(width.entry_len() as u64) as usize, 0xa5);
    // and beyond the last address
    let table_at = if rng.chance(200) { width.end_less(1 + rng.below(100)) } else { rng.number() % width.half() };
    let memory = Memory::with_table(seed, table_at, table).wide(width);
    let backend = if rng.chance(512) { Backend::Usb } else { Backend::Serial };
    World { memory, regions, names, backend }
}

impl fmt::Debug for World {
    fn fmt(&self, f: &mut fmt::Formatter<'_>) -> fmt::Result {
        write!(f, "{:?}, {:?}, {} regions, names {:?}", self.width(), self.backend, self.regions.len(), self.names)
    }
}

impl World {
    /// A device with these regions, of which it prefers all.
    pub fn new(width: Width, backend: Backend, regions: &[Region]) -> World {
        World { memory: Memory::of(width, 5, width.half(), regions), regions: regions.to_vec(), names: vec![], backend }
    }

    pub fn width(&self) -> Width {
        self.memory.width()
    }

    /// The bytes before the table: a hello and the memory debug.
    pub fn opening(&self) -> u64 {
        48 + self.width().packet_len() as u64
    }

    /// A dump of the regions that are asked for.
    pub fn options(&self) -> Options {
        Options::new(self.backend, Mode::MemoryDebug).names(&self.names)
    }

    /// Places of the regions to be dumped, in the table's order.
    pub fn selected(&self) -> Vec<usize> {
        let named = |r: &Region| {
            let name = std::str::from_utf8(&r.filename).unwrap();
            self.names.iter().any(|n| name.split('.').next().unwrap().eq_ignore_ascii_case(n))
        };
        let wanted = |r: &Region| if self.names.is_empty() { r.save_pref != 0 } else { named(r) };
        (0..self.regions.len()).filter(|i| wanted(&self.regions[*i])).collect()
    }

    /// What a sink keeps of a whole fetch.
    pub fn kept(&self) -> Vec<Kept> {
        let kept = |place: usize| {
            let r = &self.regions[place];
            Kept { place, filename: r.filename, bytes: self.memory.bytes(r.base, r.len as usize), closed: true }
        };
        self.selected().into_iter().map(kept).collect()
    }

    /// Lengths of the chunks of the selected regions, in order.
    pub fn chunks(&self) -> Vec<u64> {
        let of = |place: usize| {
            let len = self.regions[place].len;
            (0..len.div_ceil(4096)).map(move |i| (len - i * 4096).min(4096))
        };
        self.selected().into_iter().flat_map(of).collect()
    }

    pub fn memory_reads(&self) -> u64 {
        1 + self.chunks().len() as u64
    }

    /// How large a whole fetch is.
    pub fn forecast(&self) -> Forecast {
        self.forecast_from(0)
    }

    /// The same of the regions from a place on.
    pub fn forecast_from(&self, place: usize) -> Forecast {
        let lens = self.selected().into_iter().filter(|p| *p >= place).map(|p| self.regions[p].len);
        let of = |f: Forecast, len: u64| Forecast {
            regions: f.regions + 1,
            bytes: f.bytes + len,
            reads: f.reads + len.div_ceil(4096),
        };
        lens.fold(Forecast { regions: 0, bytes: 0, reads: 1 }, of)
    }

    pub fn empty_reads(&self) -> u64 {
        match self.backend {
            Backend::Serial => 0,
            Backend::Usb => self.chunks().iter().filter(|n| *n % 512 == 0).count() as u64,
        }
    }
}
