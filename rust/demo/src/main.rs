//! Fetches the memory of a simulated device over a socket pair that divides its bytes at random, into files, goes on with a saved run in the middle of it, and
//! compares the files with the device's memory, the region sheet with its list of regions, and what came with the forecast: once of a device of 64 bits, once
//! of an older one of 32, without being told which it is. Then two image sets with the same images, laid out otherwise, and their tidy form.
//! `demo FOLDER [SEED]`; the files go into a new folder in FOLDER.
use device::{Device, Memory, Region, Rng, Socket, Width};
use std::error::Error;
use std::path::{Path, PathBuf};
use std::time::{Instant, SystemTime};
use std::{fs, io};
use worgesli::{
    read_manifest, Backend, Count, Entry, Folder, Forecast, ImageSet, Mode, Options, Outcome, Refusal, Sink, State, Unkept,
};

/// The first of run-1, run-2, … that is not there yet.
fn fresh(folder: &Path) -> std::io::Result<PathBuf> {
    fs::create_dir_all(folder)?;
    let mut n = 1;
    loop {
        let path = folder.join(format!("run-{n}"));
        match fs::create_dir(&path) {
            Err(e) if e.kind() == std::io::ErrorKind::AlreadyExists => n += 1,
            made => return made.map(|()| path),
        }
    }
}

/// A recorder's memory: audio buffers, two of one filename, an empty region, one that is not preferred, one up to the last address.
fn regions(width: Width, rng: &mut Rng) -> Vec<Region> {
    let mut len = |most| rng.below(most);
    let quarter = width.half() / 2;
    vec![
        Region::new("DDRCS0_0.BIN", 0x8000_0000, 3 << 20),
        Region::new("OCIMEM.BIN", 0x1468_0000, 256 << 10),
        Region::new("TAKE.BIN", quarter, 100_000 + len(1 << 20)),
        Region::new("SCRATCH.BIN", 2 * quarter + (1 << 24), 1 << 20).unpreferred(),
        Region::new("TAKE.BIN", 3 * quarter, 512 * (1 + len(2000))),
        Region::new("EMPTY.BIN", 0x10, 0),
        Region::new("TOP.BIN", width.end_less(70_001), 70_001),
    ]
}

/// The region sheet that the device's list must give.
fn lines(regions: &[Region]) -> String {
    let name = |r: &Region| String::from_utf8_lossy(&r.filename).trim_end_matches('\0').to_owned();
    let mark = |r: &Region| if r.save_pref == 0 { ' ' } else { '*' };
    regions.iter().map(|r| format!("{:<20} {:016X} {:016X} {}\n", name(r), r.base, r.len, mark(r))).collect()
}

/// Prints the region sheet; an error unless it is that of these regions.
fn show_sheet(sink: &Folder, regions: &[Region]) -> Result<(), Box<dyn Error>> {
    let path = sink.sheet_path().ok_or("there is no region sheet")?;
    let sheet = fs::read_to_string(path)?;
    println!("{} says:", path.display());
    sheet.lines().for_each(|line| println!("    {line}"));
    match sheet == lines(regions) {
        true => Ok(()),
        false => Err("the region sheet is not the device's list of regions".into()),
    }
}

/// A folder, and a count of what comes into it: it is handed on all that a sink is told.
struct Counted<'a>(&'a mut Folder, &'a mut Count);

impl Sink for Counted<'_> {
    fn table(&mut self, table: &[u8], width: worgesli::Width) -> io::Result<()> {
        self.0.table(table, width)
    }
    fn forecast(&mut self, forecast: Result<Forecast, Refusal>) -> io::Result<()> {
        self.0.forecast(forecast)
    }
    fn open(&mut self, place: usize, entry: &Entry) -> io::Result<()> {
        self.0.open(place, entry)?;
        self.1.opened += 1;
        Ok(())
    }
    fn bytes(&mut self, bytes: &[u8]) -> io::Result<usize> {
        let n = self.0.bytes(bytes)?;
        self.1.bytes += n as u64;
        Ok(n)
    }
    fn close(&mut self, place: usize) -> Result<(), Unkept> {
        self.0.close(place)?;
        self.1.closed += 1;
        Ok(())
    }
    fn reopen(&mut self, place: usize, entry: &Entry, taken: u64) -> Result<(), Unkept> {
        self.0.reopen(place, entry, taken)
    }
    fn gathers(&self) -> usize {
        self.0.gathers()
    }
}

/// Fetches up to the middle of the first region, then saves the run, as before the box is switched off; gives its bytes, and the manifest's path. When the
/// table is there it prints the forecast.
fn begin(
    options: &Options,
    host: &mut Socket,
    folder: &Path,
    came: &mut Count,
) -> Result<(Vec<u8>, PathBuf, Forecast), Box<dyn Error>> {
    let (mut run, mut sink) = (options.start()?, Folder::new(folder)?);
    let forecast = loop {
        run.step(host, &mut Counted(&mut sink, came), |_| ())?;
        if let Some(forecast) = run.forecast()? {
            break forecast;
        }
    };
    let Forecast { regions, bytes, reads } = forecast;
    println!("the table is there, and no region yet: {regions} regions, {bytes} bytes, {reads} memory reads are forecast");
    let mut half = false;
    while !half {
        run.step(host, &mut Counted(&mut sink, came), |p| half = p.done >= p.len / 2)?;
    }
    sink.checkpoint()?;
    Ok((run.save(), sink.manifest_path().into(), forecast))
}

/// Prints the forecast and what came, side by side; an error where they differ.
fn show_forecast(forecast: Forecast, came: Forecast) -> Result<(), Box<dyn Error>> {
    println!("    {:<16} {:>10} {:>10}", "", "forecast", "came");
    for (what, forecast, came) in [
        ("regions", forecast.regions, came.regions),
        ("bytes", forecast.bytes, came.bytes),
        ("memory reads", forecast.reads, came.reads),
    ] {
        println!("    {what:<16} {forecast:>10} {came:>10}");
    }
    match forecast == came {
        true => Ok(()),
        false => Err("what came is not what was forecast".into()),
    }
}

fn main() -> Result<(), Box<dyn Error>> {
    let mut args = std::env::args().skip(1);
    let folder = args.next().ok_or("usage: demo FOLDER [SEED]")?;
    let seed = match args.next() {
        Some(seed) => seed.parse()?,
        None => SystemTime::now().duration_since(SystemTime::UNIX_EPOCH)?.as_nanos() as u64 % 1_000_000,
    };
    let folder = fresh(folder.as_ref())?;
    for width in [Width::Bits64, Width::Bits32] {
        fetch(width, seed, &folder.join(format!("{}-bit", width.bits())))?;
    }
    tidy_sets(&folder)
}

/// An image set as somebody assembled it: where each slot's image starts in the data, and its length.
fn assembled(slots: &[(u32, u32)], data: &[u8]) -> Result<ImageSet, Refusal> {
    let numbers = [slots.len() as u32, data.len() as u32].into_iter();
    let numbers = numbers.chain(slots.iter().map(|s| s.0)).chain(slots.iter().map(|s| s.1));
    ImageSet::from_bytes(numbers.flat_map(u32::to_le_bytes).chain(data.iter().copied()).collect())
}

/// Two image sets with the same images, with gaps and shared bytes, and their tidy forms: four files in the folder.
fn tidy_sets(folder: &Path) -> Result<(), Box<dyn Error>> {
    let none = (u32::MAX, 0);
    let sets = [
        assembled(&[(8, 6), none, (0, 7), (9, 0), (0, 4), none, none], b"sbl1mbn-loader")?,
        assembled(&[(4, 6), none, (12, 7), (0, 0), (0, 4), none, none], b"sbl1loader--sbl1mbn")?,
    ];
    let tidied = [sets[0].tidied()?, sets[1].tidied()?];
    println!("two image sets with the same images, laid out otherwise, and what they are tidied to:");
    for ((name, set), tidied) in ["first", "second"].into_iter().zip(&sets).zip(&tidied) {
        let (from, to) = (format!("{name}.set"), format!("{name}.tidy"));
        fs::write(folder.join(&from), set.bytes())?;
        fs::write(folder.join(&to), tidied.bytes())?;
        println!("    {from:<12} {:>4} bytes    {to:<12} {:>4} bytes", set.bytes().len(), tidied.bytes().len());
    }
    show_tidy(&sets, &tidied)
}

/// Says that the sets differ, and that tidied they do not; an error where that is not so.
fn show_tidy(sets: &[ImageSet; 2], tidied: &[ImageSet; 2]) -> Result<(), Box<dyn Error>> {
    if sets[0] == sets[1] || tidied[0] != tidied[1] {
        return Err("the sets do not differ, or tidied they do".into());
    }
    println!("the sets differ, byte for byte; tidied they are the same");
    Ok(())
}

/// A fetch from a device of this width.
fn fetch(width: Width, seed: u64, folder: &Path) -> Result<(), Box<dyn Error>> {
    let regions = regions(width, &mut Rng::new(seed));
    let memory = Memory::of(width, seed, 0x2000_0000, &regions);
    println!("seed {seed}; a device of {} bits with {} regions; USB rules; over a socket pair", width.bits(), regions.len());

    let (mut host, far) = Socket::pair()?;
    let far_device = Device::dump(memory.clone());
    let far = std::thread::spawn(move || device::serve(far_device, far, seed));
    let start = Instant::now();
    let options = Options::new(Backend::Usb, Mode::MemoryDebug);
    let mut count = Count::default();
    let (saved, manifest, forecast) = begin(&options, &mut host, folder, &mut count)?;
    println!(
        "in the middle of a region the run was saved, {} bytes, and dropped with its files; another goes on with it",
        saved.len()
    );
    let (mut run, mut sink) = (options.restore(&saved)?, Folder::resume(manifest)?);
    let outcome = run.run(&mut host, &mut Counted(&mut sink, &mut count), |_| ())?;
    let time = start.elapsed();
    let (reads, short, empty) = (host.reads, host.short, host.empty_reads);
    drop(host);
    let (device, pieces) = far.join().map_err(|_| "the device failed")??;
    let Outcome::Dumped { reads: requests } = outcome else { return Err("the device offered no memory".into()) };
    let (told, heard) = (run.session().width() as u32, device.reads());
    println!(
        "{requests} memory reads sent, of {told} bits, {heard} heard; the device sent its bytes in {pieces} pieces at random"
    );
    println!(
        "{reads} reads of the socket, {short} gave fewer bytes than asked for; {empty} empty reads; {} ms",
        time.as_millis()
    );
    show_forecast(forecast, Forecast { regions: count.opened, bytes: count.bytes, reads: requests })?;
    show_sheet(&sink, &regions)?;
    println!("{} says:", sink.manifest_path().display());

    let mut wrong = 0;
    for kept in read_manifest(sink.manifest_path())? {
        let r = &regions[kept.place];
        let bytes = memory.bytes(r.base, r.len as usize);
        let same = kept.state == State::Whole && fs::read(folder.join(&kept.file))? == bytes;
        wrong += u32::from(!same);
        let said = if same { "as in the device's memory" } else { "NOT as in the device's memory" };
        println!("    {:<16} {:>9} bytes from {:#018x}: {said}", kept.file, r.len, r.base);
    }
    let preferred: Vec<u64> = regions.iter().filter(|r| r.save_pref != 0).map(|r| r.len).collect();
    let (preferred, bytes, came) = (preferred.len(), preferred.iter().sum::<u64>(), sink.regions().len());
    let all = (came, count.bytes) == (preferred, bytes) && requests == heard && told == width.bits() && device.wrong().is_none();
    if wrong > 0 || !all {
        return Err(format!("{wrong} files differ; {came} of {preferred} regions came").into());
    }
    println!("{preferred} regions fetched, all as in the device's memory");
    Ok(())
}

#[cfg(test)]
mod tests {
    use super::*;

    #[test]
    fn each_number_is_compared() {
        let f = Forecast { regions: 1, bytes: 2, reads: 3 };
        assert!(show_forecast(f, f).is_ok());
        for other in [Forecast { regions: 0, ..f }, Forecast { bytes: 3, ..f }, Forecast { reads: 2, ..f }] {
            assert!(show_forecast(f, other).is_err());
        }
    }

    #[test]
    fn sets_and_tidy_forms_are_compared() {
        let [a, b] = ["a", "b"].map(|image| ImageSet::new(&[Some(image.into())]).unwrap());
        let (a, b) = (|| a.clone(), || b.clone());
        assert!(show_tidy(&[a(), b()], &[a(), a()]).is_ok());
        assert!(show_tidy(&[a(), a()], &[a(), a()]).is_err());
        assert!(show_tidy(&[a(), b()], &[a(), b()]).is_err());
    }
}
