//! examples/fetch.c, compiled as README.md says, fetches from the simulated device; and again under the sanitizers, with system
//! calls that fail as they may (tests/c/faults.c). So does examples/tidy.c with image sets. The header's bundles beside the crate's.
use device::{
    done_resp, execute_resp, hello, not_run, padded, read_data, reset_resp, serve_until, Device, Memory, Pty, Region, Rng, Turn,
    Width,
};
use std::collections::BTreeMap;
use std::fs::{self, File};
use std::io::{Read, Write};
use std::os::fd::OwnedFd;
use std::os::unix::fs::PermissionsExt;
use std::os::unix::net::UnixStream;
use std::path::{Path, PathBuf};
use std::process::{Child, Command, Output, Stdio};
use std::sync::atomic::{AtomicU32, Ordering};
use std::sync::OnceLock;
use std::thread;
use std::time::{Duration, Instant};
use worgesli::ImageSet;

// ---- the programs

fn root() -> PathBuf {
    Path::new(env!("CARGO_MANIFEST_DIR")).join("../../..").canonicalize().unwrap()
}

/// A shell's command, in the repository.
fn shell(line: &str) -> Output {
    let line = match std::env::var("WORGESLI_ARCHIVE_DIR") {
        Ok(folder) => line.replace("target/staticlib", &folder),
        Err(_) => line.into(),
    };
    Command::new("sh").args(["-c", &line]).current_dir(root()).output().unwrap()
}

fn compiled(line: &str) {
    let made = shell(line);
    assert!(made.status.success(), "{line}\n{}", String::from_utf8_lossy(&made.stderr));
    assert!(made.stderr.is_empty(), "{}", String::from_utf8_lossy(&made.stderr));
}

/// The line of README.md that compiles an example, and where it puts it.
fn line_of_the_readme(name: &str) -> (String, PathBuf) {
    let (readme, source) = (fs::read_to_string(root().join("README.md")).unwrap(), format!("examples/{name}.c"));
    let lines: Vec<&str> = readme.lines().map(str::trim).filter(|l| l.starts_with("cc ") && l.contains(&source)).collect();
    assert_eq!(lines.len(), 1, "README.md has one line that compiles {source}");
    let to = lines[0].rsplit_once(" -o ").unwrap().1;
    (lines[0].into(), root().join(to))
}

#[derive(Clone, Copy, Debug, PartialEq)]
enum Build {
    /// by README's own line
    Plain,
    /// with the sanitizers and the faults
    Checked,
}

const SANITIZED: &str = "-g -fsanitize=address,undefined -fno-sanitize-recover=all";

/// What tests/c/faults.c has.
const WRAPPED: [&str; 14] = [
    "read",
    "write",
    "poll",
    "fsync",
    "open",
    "openat",
    "linkat",
    "unlinkat",
    "renameat",
    "fstatat",
    "fstatvfs",
    "malloc",
    "realloc",
    "worgesli_forecast_table",
];

/// A program of examples/, each build made once; none where it cannot be compiled for want of a tool.
struct Example {
    name: &'static str,
    plain: OnceLock<Option<PathBuf>>,
    checked: OnceLock<Option<PathBuf>>,
}

static FETCH: Example = Example::new("fetch");
static TIDY: Example = Example::new("tidy");

impl Example {
    const fn new(name: &'static str) -> Example {
        Example { name, plain: OnceLock::new(), checked: OnceLock::new() }
    }

    fn built(&self, build: Build) -> Option<&Path> {
        match build {
            Build::Plain => self.plain.get_or_init(|| self.plain()).as_deref(),
            Build::Checked => self.checked.get_or_init(|| self.checked()).as_deref(),
        }
    }

    fn plain(&self) -> Option<PathBuf> {
        if !shell("command -v cc").status.success() {
            not_run("no C compiler is on this machine", &format!("examples/{}.c", self.name));
            return None;
        }
        let (line, to) = line_of_the_readme(self.name);
        fs::create_dir_all(to.parent().unwrap()).unwrap();
        compiled(&line);
        Some(to)
    }

    fn checked(&self) -> Option<PathBuf> {
        let plain = self.built(Build::Plain)?.display();
        let tried = format!("echo 'int main(void) {{ return 0; }}' | cc {SANITIZED} -x c - -o {plain}.tried && {plain}.tried");
        if !shell(&tried).status.success() {
            not_run("the C compiler has no sanitizers", &format!("examples/{}.c with them and with faults", self.name));
            return None;
        }
        let wrapped = WRAPPED.map(|c| format!(" -Wl,--wrap={c}")).concat();
        let (line, to) = line_of_the_readme(self.name);
        let (checked, source) = (to.with_file_name(format!("{}-checked", self.name)), format!("examples/{}.c", self.name));
        let line = line.replace(&source, &format!("-U_FORTIFY_SOURCE {SANITIZED} {source} tests/c/faults.c"));
        let line = line.rsplit_once(" -o ").unwrap().0;
        compiled(&format!("{line}{wrapped} -o {}", checked.display()));
        Some(checked)
    }
}

fn example(build: Build) -> Option<&'static Path> {
    FETCH.built(build)
}

fn builds() -> Vec<Build> {
    [Build::Plain, Build::Checked].into_iter().filter(|b| example(*b).is_some()).collect()
}

/// Each of them with a board of each width, which nobody tells it.
fn boards() -> Vec<(Build, Width)> {
    Width::with_both(builds()).collect()
}

// ---- a run

struct Temporary(PathBuf);

impl Temporary {
    fn new() -> Temporary {
        static COUNT: AtomicU32 = AtomicU32::new(0);
        let n = COUNT.fetch_add(1, Ordering::Relaxed);
        let path = std::env::temp_dir().join(format!("worgesli-c-{}-{n}", std::process::id()));
        fs::create_dir(&path).unwrap();
        Temporary(path)
    }

    /// Where a fetch goes; it is not there yet.
    fn dump(&self) -> PathBuf {
        self.0.join("dump")
    }

    fn files(&self) -> BTreeMap<String, Vec<u8>> {
        files_of(&self.dump())
    }
}

fn files_of(folder: &Path) -> BTreeMap<String, Vec<u8>> {
    let Ok(list) = fs::read_dir(folder) else { return BTreeMap::new() };
    list.map(|e| e.unwrap()).map(|e| (e.file_name().into_string().unwrap(), fs::read(e.path()).unwrap())).collect()
}

impl Drop for Temporary {
    fn drop(&mut self) {
        let _ = fs::remove_dir_all(&self.0);
    }
}

/// How the example is called.
#[derive(Clone, Debug)]
struct Call {
    build: Build,
    usb: bool,
    names: Vec<String>,
    /// -m
    allows: Option<u64>,
    /// of tests/c/faults.c: FAULTS, FAIL, FREE, FORECAST
    faults: Option<u64>,
    fail: Option<String>,
    free: Option<u64>,
    forecast: Option<u32>,
    /// blocks of 512 bytes that a file may have
    most: Option<u32>,
}

impl Call {
    fn new(build: Build) -> Call {
        let (names, allows, faults, fail, free, forecast, most) = (Vec::new(), None, None, None, None, None, None);
        Call { build, usb: false, names, allows, faults, fail, free, forecast, most }
    }

    fn spawn(&self, port: &str, stdin: Stdio, folder: &Path) -> Child {
        let program = example(self.build).unwrap();
        let mut call = match self.most {
            None => Command::new(program),
            Some(n) => {
                let mut shell = Command::new("sh");
                shell.args(["-c", &format!("ulimit -f {n} && exec \"$0\" \"$@\"")]).arg(program);
                shell
            }
        };
        // so long that a slow machine is no silent device
        call.args(["-t", "20000"]).args(self.usb.then_some("-u")).args(self.allows.map(|n| format!("-m{n}")));
        call.arg(port).arg(folder).args(&self.names);
        call.envs(self.faults.map(|seed| ("FAULTS", seed.to_string()))).envs(self.fail.clone().map(|f| ("FAIL", f)));
        call.envs(self.free.map(|n| ("FREE", n.to_string()))).envs(self.forecast.map(|n| ("FORECAST", n.to_string())));
        started(call.stdin(stdin))
    }

    /// Fetches over a socket from a device that is gone after so many bytes.
    fn run(&self, device: Device, seed: u64, left: u64, folder: &Path) -> (Said, Option<Device>) {
        let (near, far) = UnixStream::pair().unwrap();
        let device = thread::spawn(move || serve_until(device, far, seed, left).ok().map(|(device, _)| device));
        let child = self.spawn("0", OwnedFd::from(near).into(), folder);
        (Said::of(child), device.join().unwrap())
    }
}

fn started(call: &mut Command) -> Child {
    call.stdout(Stdio::piped()).stderr(Stdio::piped()).spawn().unwrap()
}

/// What it said. Nothing that a device made up is in there raw.
#[derive(Debug)]
struct Said {
    status: Option<i32>,
    out: String,
    error: String,
}

impl Said {
    fn by(call: &mut Command) -> Said {
        Said::of(started(call))
    }

    fn of(child: Child) -> Said {
        let said = child.wait_with_output().unwrap();
        for text in [&said.stdout, &said.stderr] {
            let shown = |b: &u8| *b == b'\n' || (b' '..=b'~').contains(b);
            assert!(text.iter().all(shown), "{:?}", String::from_utf8_lossy(text));
        }
        let text = |t: Vec<u8>| String::from_utf8(t).unwrap();
        Said { status: said.status.code(), out: text(said.stdout), error: text(said.stderr) }
    }

    /// It ended with an error that says this, and called nothing a success.
    fn failed(&self, why: &str) {
        assert_eq!(self.status, Some(1), "{self:?}");
        assert!(self.error.contains(why), "{why}: {self:?}");
        assert!(!self.out.contains("every"), "{self:?}");
    }
}

// ---- what is fetched

/// Filenames of a device and what becomes of them.
const NAMES: &[(&str, &str)] = &[
    ("TAKE.BIN", "TAKE.BIN"),
    ("OCIMEM.BIN", "OCIMEM.BIN"),
    ("A/B.BIN", "A%2FB.BIN"),
    ("/etc/passwd", "%2Fetc%2Fpasswd"),
    ("..", "%2E."),
    (".", "%2E"),
    ("../x", "%2E.%2Fx"),
    (".profile", "%2Eprofile"),
    ("", "%"),
    ("%", "%25"),
    ("-rf", "%2Drf"),
    ("a-b_c", "a-b_c"),
    ("\u{1b}[2J\u{7}", "%1B%5B2J%07"),
    ("two\nlines", "two%0Alines"),
    (" a b ", "%20a b%20"),
    (" ", "%20"),
    ("TAKE.BIN~2", "TAKE.BIN%7E2"),
    ("X.PART", "X%2EPART"),
    (".part", "%2Epart"),
    ("a.part.Part", "a.part%2EPart"),
    ("apart", "apart"),
    ("a\\b:c*d?\"e", "a%5Cb%3Ac%2Ad%3F%22e"),
    ("\u{e9}\u{1f600}", "%C3%A9%F0%9F%98%80"),
    (
        "\u{1}\u{2}\u{3}\u{4}\u{5}\u{6}\u{7}\u{8}\u{9}\u{a}\u{b}\u{c}\u{d}\u{e}\u{f}\u{10}\u{11}\u{12}\u{13}",
        "%01%02%03%04%05%06%07%08%09%0A%0B%0C%0D%0E%0F%10%11%12%13",
    ),
    ("ABCDEFGHIJKLMNOPQRS", "ABCDEFGHIJKLMNOPQRS"),
];

/// Regions with names from the list, some more than once, and the name of each one's file. The last one ends with the last address.
fn regions(width: Width, rng: &mut Rng) -> (Vec<Region>, Vec<String>) {
    let mut used = BTreeMap::new();
    let count = 2 + rng.below(12);
    let one = |i: u64| {
        let (filename, plain) = NAMES[rng.below(NAMES.len() as u64) as usize];
        let len = match rng.below(4) {
            0 => [0, 1, 4095, 4096, 4097, 8192][rng.below(6) as usize],
            1 => 512 * rng.below(40),
            _ => rng.below(30_000),
        };
        let base = if i == count { width.end_less(len.max(1)) } else { i << (width.bits() - 8) | rng.below(100) };
        let copies = used.entry(plain).and_modify(|n| *n += 1).or_insert(1);
        let file = if *copies == 1 { plain.into() } else { format!("{plain}~{copies}") };
        (Region::new(filename, base, len), file)
    };
    (1..=count).map(one).unzip()
}

fn memory(width: Width, seed: u64, regions: &[Region]) -> Memory {
    Memory::of(width, seed, width.half(), regions)
}

/// What it prints of a table.
fn sheet(regions: &[Region]) -> String {
    regions.iter().map(Region::line).collect()
}

/// How large the fetch of these regions is, as it says it: the regions, their bytes, and the memory reads with the table's.
fn size(regions: &[Region]) -> [u64; 3] {
    [regions.len() as u64, regions.iter().map(|r| r.len).sum(), 1 + regions.iter().map(|r| r.len.div_ceil(4096)).sum::<u64>()]
}

/// What it prints before it fetches these.
fn forecast(regions: &[Region]) -> String {
    let [n, bytes, reads] = size(regions);
    format!("forecast: regions {n}, bytes {bytes}, memory reads {reads}\n")
}

/// And when it has fetched them.
fn end(regions: &[Region]) -> String {
    let [n, bytes, reads] = size(regions);
    format!("every selected region is whole: regions {n}, bytes {bytes}, memory reads {reads}\n")
}

fn content(memory: &Memory, region: &Region) -> Vec<u8> {
    memory.bytes(region.base, region.len as usize)
}

/// The files are these regions, whole, and of the one after them perhaps a part.
fn held(files: &BTreeMap<String, Vec<u8>>, memory: &Memory, regions: &[Region], names: &[String]) -> usize {
    let whole = regions.iter().zip(names).take_while(|(_, name)| files.contains_key(*name)).count();
    for (region, name) in regions.iter().zip(names).take(whole) {
        assert!(files[name] == content(memory, region), "{name}");
    }
    let part = names.get(whole).map(|name| format!("{name}.part"));
    for (name, bytes) in files.iter().filter(|(name, _)| !names[..whole].contains(name)) {
        assert_eq!(Some(name), part.as_ref(), "{:?}", files.keys());
        assert!(content(memory, &regions[whole]).starts_with(bytes), "{name}");
    }
    whole
}

#[test]
fn fetches() {
    for (build, width) in boards() {
        for seed in 0..40 {
            let mut rng = Rng::new(seed);
            let (regions, names) = regions(width, &mut rng);
            let memory = memory(width, seed, &regions);
            let temporary = Temporary::new();
            let faults = (build == Build::Checked && seed >= 5).then_some(seed);
            let call = Call { usb: seed % 2 == 0, faults, ..Call::new(build) };
            // of every mode that a device may offer
            let device = Device::dump_after(hello(seed as u32 % 4), memory.clone());
            let (said, device) = call.run(device, seed, u64::MAX, &temporary.dump());
            assert_eq!(said.status, Some(0), "{call:?} {said:?}");
            let files = temporary.files();
            assert_eq!(held(&files, &memory, &regions, &names), regions.len(), "{:?}", files.keys());
            assert_eq!(files.len(), regions.len());
            let device = device.unwrap();
            assert_eq!((device.wrong(), device.reads()), (None, size(&regions)[2]));
            // the sheet, the forecast, a line for each region, and the end
            let whole: String = names.iter().zip(&regions).map(|(name, r)| format!("{name}: {} bytes\n", r.len)).collect();
            assert_eq!(said.out, sheet(&regions) + &forecast(&regions) + &whole + &end(&regions));
            let mode = |p: &Path| fs::metadata(p).unwrap().permissions().mode() & 0o777;
            assert_eq!(mode(&temporary.dump()), 0o700);
            assert!(names.iter().all(|n| mode(&temporary.dump().join(n)) == 0o600));
        }
    }
}

#[test]
fn every_filename() {
    let regions: Vec<Region> = NAMES.iter().zip(0..).map(|((name, _), i)| Region::new(name, i << 20, 100 + i)).collect();
    let names: Vec<String> = NAMES.iter().map(|(_, plain)| plain.to_string()).collect();
    for (build, width) in boards() {
        let memory = memory(width, 1, &regions);
        let temporary = Temporary::new();
        let (said, _) = Call::new(build).run(Device::dump(memory.clone()), 1, u64::MAX, &temporary.dump());
        assert_eq!(said.status, Some(0), "{said:?}");
        assert_eq!(held(&temporary.files(), &memory, &regions, &names), regions.len());
    }
}

#[test]
fn selected_by_name() {
    let regions =
        [Region::new("TAKE.BIN", 0, 10), Region::new("OCIMEM.BIN", 100, 20).unpreferred(), Region::new("OTHER.BIN", 200, 30)];
    for (build, width) in boards() {
        let memory = memory(width, 2, &regions);
        for (names, files, chosen) in [
            (vec!["ocimem", "Take"], vec!["OCIMEM.BIN", "TAKE.BIN"], [regions[0], regions[1]]),
            (vec![], vec!["OTHER.BIN", "TAKE.BIN"], [regions[0], regions[2]]),
        ] {
            let temporary = Temporary::new();
            let call = Call { names: names.iter().map(|n| n.to_string()).collect(), ..Call::new(build) };
            let (said, _) = call.run(Device::dump(memory.clone()), 1, u64::MAX, &temporary.dump());
            assert_eq!(
                (said.status, temporary.files().into_keys().collect::<Vec<_>>()),
                (Some(0), files.iter().map(|f| f.to_string()).collect())
            );
            // selected or not; and how much is
            assert!(
                said.out.starts_with(&(sheet(&regions) + &forecast(&chosen))) && said.out.ends_with(&end(&chosen)),
                "{said:?}"
            );
        }
        // none of this name: no success
        let temporary = Temporary::new();
        let call = Call { names: vec!["-".into(), "TAKE.BIN".into(), String::new()], ..Call::new(build) };
        let (said, _) = call.run(Device::dump(memory.clone()), 1, u64::MAX, &temporary.dump());
        said.failed("the device has no region that is asked for");
        assert_eq!((said.out, temporary.files().len()), (sheet(&regions) + &forecast(&[]), 0));
    }
}

/// Whatever a device writes into a filename, and whether it is fetched or not: a line of the sheet is 57 bytes that do nothing to a terminal.
#[test]
fn names_that_would_move_a_cursor() {
    let names: [&[u8]; 9] = [
        b"\x1b[2J\x1b[1;1H",
        b"\x9b2J",
        b"a\rb\x08c",
        b"\n\n\n",
        b"\x0e\x7f\xff",
        b"\xe2\x80\xae",
        &[0x1b; 20],
        &[0xff; 20],
        b"\t\0\x1b[2J",
    ];
    let mut regions: Vec<Region> =
        names.iter().map(|n| Region { filename: padded(n), ..Region::new("", 7, 9) }.unpreferred()).collect();
    regions.push(Region::new("A.BIN", 1, 2));
    let shown = ["?[2J?[1;1H", "?2J", "a?b?c", "???", "???", "???", "????????????????????", "????????????????????", "?"];
    let due: String = shown.iter().map(|name| format!("{name:<20} 0000000000000007 0000000000000009  \n")).collect();
    for (build, width) in boards() {
        let temporary = Temporary::new();
        let memory = memory(width, 1, &regions);
        // Said::of looks at every byte
        let (said, _) = Call::new(build).run(Device::dump(memory), 1, u64::MAX, &temporary.dump());
        let end = "A.BIN                0000000000000001 0000000000000002 *\n\
                   forecast: regions 1, bytes 2, memory reads 2\nA.BIN: 2 bytes\n\
                   every selected region is whole: regions 1, bytes 2, memory reads 2\n";
        assert_eq!((said.status, said.out), (Some(0), format!("{due}{end}")));
    }
}

/// Sheet and forecast are there when the table is, and are not waited for until the end.
#[test]
fn said_before_the_regions() {
    for (build, width) in boards() {
        let regions = [Region::new("A.BIN", 1, 2), Region::new("B.BIN", 3, 4).unpreferred()];
        let temporary = Temporary::new();
        let (near, mut far) = UnixStream::pair().unwrap();
        let mut child = Call::new(build).spawn("0", OwnedFd::from(near).into(), &temporary.dump());
        let memory = memory(width, 1, &regions);
        // it is answered, and then it waits for a region's bytes
        let mut packet = vec![0; 48 + width.packet_len()];
        far.write_all(&[hello(2), width.mem_debug(memory.table_at(), memory.table_len())].concat()).unwrap();
        far.read_exact(&mut packet).unwrap();
        far.write_all(memory.table()).unwrap();
        let due = sheet(&regions) + &forecast(&regions[..1]);
        let mut said = vec![0; due.len()];
        child.stdout.as_mut().unwrap().read_exact(&mut said).unwrap();
        assert_eq!((String::from_utf8(said).unwrap(), child.try_wait().unwrap()), (due, None));
        drop(far);
        assert_eq!(Said::of(child).out, "");
    }
}

// ---- how much it is

/// More bytes than the caller allows: nothing of a region is asked for. Just as many: all is fetched. What no name selects does not count.
#[test]
fn more_than_is_allowed() {
    let regions =
        [Region::new("A.BIN", 0, 5000), Region::new("B.BIN", 1 << 20, 1 << 30).unpreferred(), Region::new("C.BIN", 9, 3)];
    let (chosen, names) = ([regions[0], regions[2]], ["A.BIN", "C.BIN"].map(String::from));
    for (build, width) in boards() {
        let memory = memory(width, 3, &regions);
        for allows in [0, 5002, 5003, u64::MAX - 1, u64::MAX] {
            let temporary = Temporary::new();
            let call = Call { allows: Some(allows), ..Call::new(build) };
            let (said, device) = call.run(Device::dump(memory.clone()), 1, u64::MAX, &temporary.dump());
            if allows < 5003 {
                said.failed("nothing was fetched: there is more than -m allows");
                assert_eq!(said.out, sheet(&regions) + &forecast(&chosen));
                assert_eq!((device.unwrap().reads(), temporary.files().len()), (1, 0));
            } else {
                assert_eq!(said.status, Some(0), "{said:?}");
                assert_eq!(held(&temporary.files(), &memory, &chosen, &names), 2);
            }
        }
        // without a byte it fits, whatever is allowed
        let empty = [Region::new("E.BIN", 9, 0)];
        let (temporary, call) = (Temporary::new(), Call { allows: Some(0), ..Call::new(build) });
        let (said, _) = call.run(Device::dump(self::memory(width, 3, &empty)), 1, u64::MAX, &temporary.dump());
        assert_eq!((said.status, temporary.files().len()), (Some(0), 1), "{said:?}");
    }
}

/// Lengths that are no number together are more than any that is allowed. Where none is said, the regions before come first.
#[test]
fn lengths_without_a_sum() {
    let regions = [Region::new("A.BIN", 7, 5000), Region::new("B.BIN", 0, 1 << 63), Region::new("C.BIN", 0, 1 << 63)];
    let memory = memory(Width::Bits64, 3, &regions);
    let opening = 48 + 24 + memory.table_len();
    let fetch = |build: Build, allows: Option<u64>| {
        let temporary = Temporary::new();
        let call = Call { allows, ..Call::new(build) };
        let (said, device) = call.run(Device::dump(memory.clone()), 1, opening + 6000, &temporary.dump());
        let why = "fetch: no forecast: the bytes or the memory reads of a forecast are above 2^64 - 1\n";
        assert!(said.error.starts_with(why), "{said:?}");
        if allows == Some(u64::MAX - 1) {
            said.failed("nothing was fetched: there is more than -m allows");
            assert_eq!((device.unwrap().reads(), temporary.files().len()), (1, 0));
        } else {
            said.failed("NOT whole: B.BIN.part has 1000 of 9223372036854775808 bytes");
            assert!(temporary.files()["A.BIN"] == memory.bytes(7, 5000));
        }
        assert!(said.out.starts_with(&sheet(&regions)) && !said.out.contains("forecast"), "{said:?}");
    };
    // they wait together until the channel counts as closed
    thread::scope(|scope| {
        for (build, allows) in builds().into_iter().flat_map(|b| [None, Some(u64::MAX), Some(u64::MAX - 1)].map(|a| (b, a))) {
            let fetch = &fetch;
            scope.spawn(move || fetch(build, allows));
        }
    });
}

/// Less free space than that is warned of, and the fetch is made: by blocks, of which the last may be filled in part. Where it cannot be told there is no
/// warning.
#[test]
fn free_space() {
    let Some(_) = example(Build::Checked) else { return };
    let regions = [Region::new("A.BIN", 0, 1000), Region::new("B.BIN", 1 << 20, 25)];
    for (free, fail, warned) in
        [(3, None, false), (2, None, true), (0, None, true), (1 << 62, None, false), (0, Some("fstatvfs:1:38"), false)]
    {
        for width in Width::BOTH {
            let temporary = Temporary::new();
            let call = Call { free: Some(free), fail: fail.map(String::from), ..Call::new(Build::Checked) };
            let (said, _) = call.run(Device::dump(memory(width, 3, &regions)), 1, u64::MAX, &temporary.dump());
            let due = if warned { format!("fetch: warning: only {free} blocks of 512 bytes are free\n") } else { String::new() };
            assert_eq!((said.status, said.error), (Some(0), due), "{free}");
            assert_eq!(temporary.files().len(), 2);
        }
    }
    // an empty fetch needs none
    let (temporary, call) = (Temporary::new(), Call { free: Some(0), ..Call::new(Build::Checked) });
    let (said, _) = call.run(Device::dump(memory(Width::Bits32, 3, &[Region::new("E", 0, 0)])), 1, u64::MAX, &temporary.dump());
    assert_eq!((said.status, said.error.as_str()), (Some(0), ""));
}

/// Where it is not as forecast, that is no success.
#[test]
fn another_forecast() {
    let Some(_) = example(Build::Checked) else { return };
    let regions = [Region::new("A.BIN", 0, 5000), Region::new("B.BIN", 1 << 20, 25)];
    for (place, width) in Width::with_both(0..3) {
        let temporary = Temporary::new();
        let call = Call { forecast: Some(place), ..Call::new(Build::Checked) };
        let (said, _) = call.run(Device::dump(memory(width, 3, &regions)), 1, u64::MAX, &temporary.dump());
        said.failed("what was fetched is not what was forecast");
        assert!(said.error.contains("whole regions: 2\n") && temporary.files().len() == 2, "{said:?}");
    }
}

/// Names that are taken, by whole regions, parts and whatever else: nothing that was there changes.
#[test]
fn nothing_is_overwritten() {
    for (build, width) in boards() {
        let regions = [Region::new("TAKE.BIN", 0, 5000), Region::new("TAKE.BIN", 9000, 6000), Region::new("X", 20_000, 1)];
        let memory = memory(width, 3, &regions);
        let temporary = Temporary::new();
        fs::create_dir(temporary.dump()).unwrap();
        let there = [("TAKE.BIN", "before"), ("TAKE.BIN~2.part", "a part"), ("X.part", "")];
        for (name, text) in there {
            fs::write(temporary.dump().join(name), text).unwrap();
        }
        std::os::unix::fs::symlink("nowhere", temporary.dump().join("TAKE.BIN~4")).unwrap();
        let (said, _) = Call::new(build).run(Device::dump(memory.clone()), 1, u64::MAX, &temporary.dump());
        assert_eq!(said.status, Some(0), "{said:?}");
        fs::remove_file(temporary.dump().join("TAKE.BIN~4")).unwrap();
        let mut files = temporary.files();
        for (name, text) in there {
            assert_eq!(files.remove(name).unwrap(), text.as_bytes());
        }
        let names = ["TAKE.BIN~3", "TAKE.BIN~5", "X~2"].map(String::from);
        assert_eq!(held(&files, &memory, &regions, &names), 3);
    }
}

/// Two at a time into one folder.
#[test]
fn side_by_side() {
    if builds().is_empty() {
        return;
    }
    let regions = [Region::new("TAKE.BIN", 0, 3000), Region::new("TAKE.BIN", 9000, 100), Region::new("X", 20_000, 1)];
    let memories = Width::BOTH.map(|width| memory(width, 4, &regions));
    let temporary = Temporary::new();
    thread::scope(|scope| {
        for seed in 0..8 {
            let (memory, folder) = (memories[seed as usize % 2].clone(), temporary.dump());
            scope.spawn(move || {
                let (said, _) = Call::new(Build::Plain).run(Device::dump(memory), seed, u64::MAX, &folder);
                assert_eq!(said.status, Some(0), "{said:?}");
            });
        }
    });
    let files = temporary.files();
    let with = |region: &Region| files.values().filter(|bytes| **bytes == content(&memories[0], region)).count();
    assert_eq!((files.len(), regions.each_ref().map(with)), (24, [8; 3]), "{:?}", files.keys());
}

// ---- what goes wrong

/// A device that dies: what is whole is whole, and of the open region its beginning is there, as a part.
#[test]
fn the_device_dies() {
    thread::scope(|scope| {
        for (build, width) in boards() {
            match build {
                // half a second each, until the channel counts as closed: they wait together
                Build::Plain => (0..6).for_each(|seed| drop(scope.spawn(move || dies(build, width, seed)))),
                Build::Checked => (0..60).for_each(|seed| dies(build, width, seed)),
            }
        }
    });
}

fn dies(build: Build, width: Width, seed: u64) {
    let mut rng = Rng::new(seed);
    let (regions, names) = regions(width, &mut rng);
    let memory = memory(width, seed, &regions);
    let before = 48 + width.packet_len() as u64 + memory.table_len();
    let left = rng.below(before + regions.iter().map(|r| r.len).sum::<u64>());
    let temporary = Temporary::new();
    let call = Call { usb: seed.is_multiple_of(2), faults: (build == Build::Checked).then_some(seed), ..Call::new(build) };
    let (said, _) = call.run(Device::dump(memory.clone()), seed, left, &temporary.dump());
    // it may be gone before it was asked
    let reason =
        ["the channel was closed", "writing to the port", "reading from the port"].iter().find(|r| said.error.contains(**r));
    said.failed(reason.unwrap_or_else(|| panic!("{said:?}")));
    let files = temporary.files();
    let whole = held(&files, &memory, &regions, &names);
    assert!(said.error.contains(&format!("whole regions: {whole}\n")), "{said:?}");
    // no sheet of a part of a table
    assert!(if left < before { said.out.is_empty() } else { said.out.starts_with(&sheet(&regions)) }, "{said:?}");
    let parts = files.keys().find(|f| f.ends_with(".part"));
    // every byte that came is kept
    let kept: usize = files.values().map(Vec::len).sum();
    assert_eq!(kept as u64, left.saturating_sub(before), "{said:?}");
    if let Some(part) = parts {
        let len = regions[whole].len;
        assert!(said.error.contains(&format!("NOT whole: {part} has {} of {len} bytes\n", files[part].len())), "{said:?}");
    }
}

/// A disk that is full: a limit on the length of files.
#[test]
fn a_full_disk() {
    if builds().is_empty() {
        return;
    }
    let regions = [Region::new("SMALL", 0, 2048), Region::new("LARGE", 1 << 20, 20_000), Region::new("LAST", 1 << 21, 10)];
    for width in Width::BOTH {
        let memory = memory(width, 5, &regions);
        let temporary = Temporary::new();
        let call = Call { most: Some(8), ..Call::new(Build::Plain) };
        let (said, _) = call.run(Device::dump(memory.clone()), 1, u64::MAX, &temporary.dump());
        said.failed("File too large");
        said.failed("NOT whole: LARGE.part has 4096 of 20000 bytes\n");
        assert_eq!(held(&temporary.files(), &memory, &regions, &["SMALL", "LARGE", "LAST"].map(String::from)), 1);
        assert_eq!(temporary.files()["LARGE.part"].len(), 4096);
    }
}

/// Each call that can fail fails, and each after it.
#[test]
fn calls_that_fail() {
    let Some(_) = example(Build::Checked) else { return };
    let regions = [Region::new("A", 0, 5000), Region::new("B", 1 << 20, 5000), Region::new("C", 1 << 21, 0)];
    let names = ["A", "B", "C"].map(String::from);
    let memory = memory(Width::Bits32, 6, &regions);
    // how many such calls a fetch makes: for the new folder, then for each region's file and its name; writes as the bytes come
    for (name, error, says, calls) in [
        ("write", 28, "No space left on device", None),
        ("write", 5, "Input/output error", None),
        ("fsync", 5, "Input/output error", Some(1 + 2 * 3)),
        ("openat", 13, "Permission denied", Some(1 + 3)),
        ("fstatat", 5, "Input/output error", Some(2 * 3)),
        ("renameat", 13, "Permission denied", Some(3)),
    ] {
        let mut failed = 0;
        loop {
            let n = failed + 1;
            let temporary = Temporary::new();
            let call = Call { fail: Some(format!("{name}:{n}:{error}")), ..Call::new(Build::Checked) };
            let (said, _) = call.run(Device::dump(memory.clone()), n, u64::MAX, &temporary.dump());
            let files = temporary.files();
            let whole = held(&files, &memory, &regions, &names);
            if said.status == Some(0) {
                assert_eq!(whole, 3);
                break;
            }
            said.failed(says);
            failed += 1;
            // it has its name, and is called whole, when its bytes and its name are on the disk
            let called = if name == "fsync" { (n - 1).saturating_sub(1) / 2 } else { whole as u64 };
            assert_eq!(whole as u64, called, "{call:?} {said:?}");
            assert!(said.error.contains(&format!("whole regions: {called}\n")), "{call:?} {said:?}");
        }
        assert!(calls.map_or(failed > 3, |calls| failed == calls), "{name}: {failed}");
    }
}

/// A device that is gone when it is answered.
#[test]
fn gone_when_it_is_answered() {
    for build in builds() {
        let temporary = Temporary::new();
        let (near, mut far) = UnixStream::pair().unwrap();
        far.write_all(&hello(2)).unwrap();
        drop(far);
        let said = Said::of(Call::new(build).spawn("0", OwnedFd::from(near).into(), &temporary.dump()));
        said.failed("writing to the port: Broken pipe");
    }
}

/// Devices that offer no memory, and those that are refused.
#[test]
fn other_devices() {
    let say = |packets: Vec<Vec<u8>>| {
        Device::new(
            Memory::empty(),
            [vec![Turn::Say(hello(2)), Turn::Hear(48)], packets.into_iter().map(Turn::Say).collect()].concat(),
        )
    };
    let full = Region { filename: *b"12345678901234567890", ..Region::new("", 0, 1) };
    for (build, width) in boards() {
        let table = |regions: &[Region]| Device::dump(memory(width, 1, regions));
        let above =
            if width == Width::Bits32 { "a region of a 32-bit device ends above 2^32" } else { "a region ends above 2^64" };
        let unsound = [full, Region::new([0xff], 0, 1), Region::new("X", width.end_less(1), 2)];
        let cases = [
            (say(vec![done_resp(1)]), "it is done"),
            (say(vec![reset_resp()]), "it resets"),
            (say(vec![execute_resp(1, 0)]), "it answered a command that was not given"),
            (say(vec![execute_resp(1, 1)]), "the device announced a response longer than the reply buffer"),
            (say(vec![read_data(0, 0, 0)]), "the device asked for an image that is not in the set"),
            (say(vec![b"<?xml version".to_vec()]), "length is not from 8 to 4096"),
            (say(vec![width.mem_read(0, 0)]), "the device sent a packet that only a host sends"),
            (say(vec![width.mem_debug(0, 65_537)]), "the device announced a memory table longer than 65,536 bytes"),
            (table(&[]), "the device has no region that is asked for"),
            (table(&unsound[..1]), "a region's filename has no zero byte"),
            (table(&unsound[1..2]), "a region's filename is not UTF-8"),
            (table(&unsound[2..]), above),
        ];
        let first = cases.len() - unsound.len();
        for (i, (device, why)) in cases.into_iter().enumerate() {
            let temporary = Temporary::new();
            let (said, _) = Call::new(build).run(device, 1, u64::MAX, &temporary.dump());
            said.failed(why);
            // where there is a table people see what it is refused for
            let shown = |i: usize| unsound[i].line() + &forecast(&unsound[i..=i]);
            let empty = if i + 1 == first { forecast(&[]) } else { String::new() };
            assert_eq!(said.out, i.checked_sub(first).map_or(empty, shown));
            // at most a part, of a region that was opened and then refused
            assert!(temporary.files().iter().all(|(name, bytes)| name == "X.part" && bytes.is_empty()));
        }
    }
}

/// A device that says nothing is waited for, and not for ever.
#[test]
fn silence() {
    for build in builds() {
        let temporary = Temporary::new();
        let (near, _far) = UnixStream::pair().unwrap();
        let start = Instant::now();
        let said = Said::by(
            Command::new(example(build).unwrap()).args(["-t", "40", "0"]).arg(temporary.dump()).stdin(OwnedFd::from(near)),
        );
        said.failed("the channel was closed before the end");
        assert!((200..5000).contains(&start.elapsed().as_millis()), "{:?}", start.elapsed());
    }
}

#[test]
fn wrong_calls() {
    for build in builds() {
        let temporary = Temporary::new();
        let names = vec!["n"; 65];
        let usage = [
            &["0"][..],
            &[],
            &["-x", "0", "dump"],
            &["-t", "0", "0", "dump"],
            &["-t", "5x", "0", "dump"],
            &["-t", "999999999", "0", "dump"],
            &["-t"],
            &["-m", "5x", "0", "dump"],
            &["-m", "", "0", "dump"],
            &["-m", "-1", "0", "dump"],
            &["-m", "18446744073709551616", "0", "dump"],
            &["-m"],
            &[&["0", "dump"], &names[..]].concat(),
        ];
        for args in usage {
            let call = Command::new(example(build).unwrap()).args(args).current_dir(&temporary.0).output().unwrap();
            assert_eq!(call.status.code(), Some(2), "{args:?}");
            assert!(String::from_utf8(call.stderr).unwrap().contains("usage:"));
        }
        File::create(temporary.0.join("file")).unwrap();
        for (port, folder, why) in
            [("no-port", "dump", "No such file"), ("99", "dump", "Bad file descriptor"), ("0", "file", "Not a directory")]
        {
            let mut call = Command::new(example(build).unwrap());
            Said::by(call.args([port, folder]).current_dir(&temporary.0).stdin(Stdio::null())).failed(why);
        }
        assert!(temporary.files().is_empty());
    }
}

// ---- a terminal

#[test]
fn over_a_terminal() {
    for (build, width) in boards() {
        for seed in 0..6 {
            let (regions, names) = regions(width, &mut Rng::new(seed));
            let memory = memory(width, seed, &regions);
            let temporary = Temporary::new();
            let Ok((far, near)) = Pty::open() else {
                return not_run("there are no pseudo-terminals here", "examples/fetch.c over one");
            };
            let path = far.path().to_str().unwrap().to_owned();
            assert!(!far.raw());
            let child = Call { faults: (build == Build::Checked).then_some(seed), ..Call::new(build) }.spawn(
                &path,
                Stdio::null(),
                &temporary.dump(),
            );
            let since = Instant::now();
            while !far.raw() {
                assert!(since.elapsed() < Duration::from_secs(20), "the terminal is not made raw");
                thread::sleep(Duration::from_millis(1));
            }
            let device = Device::dump(memory.clone());
            let device = thread::spawn(move || serve_until(device, far, seed, u64::MAX).unwrap().0);
            let said = Said::of(child);
            drop(near);
            assert_eq!(said.status, Some(0), "{said:?}");
            assert_eq!(device.join().unwrap().wrong(), None);
            assert_eq!(held(&temporary.files(), &memory, &regions, &names), regions.len());
        }
    }
}

/// A descriptor of another number than 0.
#[test]
fn an_inherited_descriptor() {
    if builds().is_empty() {
        return;
    }
    let regions = [Region::new("TAKE.BIN", 0, 5000)];
    let memory = memory(Width::Bits32, 7, &regions);
    let temporary = Temporary::new();
    let (near, far) = UnixStream::pair().unwrap();
    let device = Device::dump(memory.clone());
    let device = thread::spawn(move || device::serve(device, far, 1).unwrap());
    let line = "exec \"$0\" 7 \"$1\" 7<&0 </dev/null";
    let program = example(Build::Plain).unwrap();
    let said = Said::by(Command::new("sh").args(["-c", line]).arg(program).arg(temporary.dump()).stdin(OwnedFd::from(near)));
    assert_eq!(said.status, Some(0), "{said:?}");
    device.join().unwrap();
    assert_eq!(held(&temporary.files(), &memory, &regions, &["TAKE.BIN".into()]), 1);
}

// ---- bundles

/// The header's bundles are those of this crate, byte for byte; and so is what each is tidied to, absent slots at its end too.
#[test]
fn bundles() {
    let Some(plain) = example(Build::Plain) else { return };
    let program = plain.with_file_name("bundles");
    let sanitized = if example(Build::Checked).is_some() { SANITIZED } else { "" };
    compiled(&format!(
        "cc -std=c11 -O1 -Wall -Wextra -Werror {sanitized} -Iinclude tests/c/bundles.c target/staticlib/libworgesli.a -o {}",
        program.display()
    ));
    let mut rng = Rng::new(8);
    let (mut input, mut expected) = (Vec::new(), Vec::new());
    for n in (0..=64).chain([1, 1, 1, 2, 2, 2, 3, 3, 3, 64, 64, 64]) {
        let slots: Vec<Option<Vec<u8>>> = (0..n)
            .map(|_| {
                let len = [0, 1, rng.below(20), rng.below(50_000)][rng.below(4) as usize];
                let mut bytes = vec![0; len as usize];
                rng.fill(&mut bytes);
                (rng.below(4) > 0).then_some(bytes)
            })
            .collect();
        input.extend((n as u32).to_le_bytes());
        for slot in &slots {
            input.extend(slot.as_ref().map_or(u32::MAX, |s| s.len() as u32).to_le_bytes());
            input.extend(slot.iter().flatten());
        }
        let set = ImageSet::new(&slots).unwrap();
        for _ in ["the bundle", "its tidy form"] {
            expected.extend((set.bytes().len() as u32).to_le_bytes());
            expected.extend(set.bytes());
        }
    }
    let mut child = Command::new(program).stdin(Stdio::piped()).stdout(Stdio::piped()).spawn().unwrap();
    let mut stdin = child.stdin.take().unwrap();
    let writer = thread::spawn(move || stdin.write_all(&input));
    let said = child.wait_with_output().unwrap();
    writer.join().unwrap().unwrap();
    assert!(said.status.success() && said.stdout == expected);
}

/// With standard input, output and error closed, no descriptor of the program's own gets one of their numbers: what it says to people reaches neither a file nor the
/// device.
#[test]
fn without_standard_descriptors() {
    if builds().is_empty() {
        return;
    }
    let regions = [Region::new("TAKE.BIN", 0, 50_000)];
    let memory = memory(Width::Bits64, 7, &regions);
    for (left, code) in [(u64::MAX, 0), (48 + 24 + 64 + 30_000, 1)] {
        let temporary = Temporary::new();
        let (near, far) = UnixStream::pair().unwrap();
        let device = Device::dump(memory.clone());
        let device = thread::spawn(move || serve_until(device, far, 1, left).unwrap().0);
        let line = "exec \"$0\" -t 20000 7 \"$1\" 7<&0 <&- >&- 2>&-";
        let mut call = Command::new("sh");
        call.args(["-c", line]).arg(example(Build::Plain).unwrap()).arg(temporary.dump()).stdin(OwnedFd::from(near));
        assert_eq!(call.status().unwrap().code(), Some(code));
        // its end of the socket too
        drop(call);
        assert_eq!(device.join().unwrap().wrong(), None);
        let (file, len) = if code == 0 { ("TAKE.BIN", 50_000) } else { ("TAKE.BIN.part", 30_000) };
        assert!(fs::read(temporary.dump().join(file)).unwrap() == memory.bytes(0, len), "{file}");
    }
}

// ---- tidy sets

const SET_WORDS: &str = "the image set that is to be tidied is malformed";
const ROOM_WORDS: &str = "the tidy form is longer than its buffer, or has more than 2^32 - 2 data bytes";

/// An image set of slots, each a start and a length.
fn set_of(slots: &[(u32, u32)], data: &[u8]) -> Vec<u8> {
    let head = [slots.len() as u32, data.len() as u32];
    let numbers = head.into_iter().chain(slots.iter().map(|s| s.0)).chain(slots.iter().map(|s| s.1));
    numbers.flat_map(u32::to_le_bytes).chain(data.iter().copied()).collect()
}

/// "ef", none, "abc", an empty image, "bcd", none, none.
fn untidy() -> Vec<u8> {
    let none = (u32::MAX, 0);
    set_of(&[(5, 2), none, (0, 3), (3, 0), (1, 3), none, none], b"abcd-ef")
}

fn tidied() -> Vec<u8> {
    let none = (u32::MAX, 0);
    set_of(&[(0, 2), none, (2, 3), (5, 0), (5, 3), none, none], b"efabcbcd")
}

/// A set at random, and its tidy form as this crate writes it.
fn random_set(rng: &mut Rng) -> (Vec<u8>, Vec<u8>) {
    let most = [1, 10, 1000, 300_000][rng.below(4) as usize];
    let mut data = vec![0; rng.below(most) as usize];
    rng.fill(&mut data);
    let mut range = || {
        let start = rng.below(data.len() as u64 + 1);
        let len = if rng.chance(200) { 0 } else { rng.below(data.len() as u64 - start + 1) };
        (!rng.chance(250)).then_some((start as u32, len as u32))
    };
    let slots: Vec<_> = (0..data.len() % 65).map(|_| range()).collect();
    let images: Vec<_> = slots.iter().map(|s| s.map(|(start, len)| data[start as usize..][..len as usize].to_vec())).collect();
    let slots: Vec<_> = slots.into_iter().map(|s| s.unwrap_or((u32::MAX, 0))).collect();
    (set_of(&slots, &data), ImageSet::new(&images).unwrap().bytes().to_vec())
}

/// Each build of the program.
fn tidies() -> Vec<(Build, &'static Path)> {
    [Build::Plain, Build::Checked].into_iter().filter_map(|b| Some((b, TIDY.built(b)?))).collect()
}

/// A folder with the file `set`.
fn folder_with(set: &[u8]) -> Temporary {
    let temporary = Temporary::new();
    fs::write(temporary.0.join("set"), set).unwrap();
    temporary
}

/// A call in the folder.
fn tidy(program: &Path, folder: &Temporary, from: &str, to: &str) -> Command {
    let mut call = Command::new(program);
    call.args([from, to]).current_dir(&folder.0).stdin(Stdio::null());
    call
}

/// From `set` to `tidy`, with a shell's words around it.
fn tidy_under(program: &Path, folder: &Temporary, before: &str, behind: &str) -> Command {
    let mut call = Command::new("sh");
    call.args(["-c", &format!("{before} exec \"$0\" set tidy {behind}")])
        .arg(program)
        .current_dir(&folder.0)
        .stdin(Stdio::null());
    call
}

/// It ended with an error that says this, and no file came, went or changed.
fn not_tidied(call: &mut Command, folder: &Temporary, why: &str) {
    let before = files_of(&folder.0);
    let said = Said::by(call);
    assert_eq!((said.status, said.out.as_str()), (Some(1), ""), "{why}: {said:?}");
    assert!(said.error.contains(why) && said.error.contains("\ntidy: not written: "), "{why}: {said:?}");
    assert!(files_of(&folder.0) == before, "{why}: {:?}", files_of(&folder.0).keys());
}

/// It made the file, of these bytes, and no other.
fn made(call: &mut Command, folder: &Temporary, form: &[u8]) {
    let mut due = files_of(&folder.0);
    let said = Said::by(call);
    let line = format!("tidy: {} bytes\n", form.len());
    assert_eq!((said.status, said.out.as_str(), said.error.as_str()), (Some(0), line.as_str(), ""));
    due.insert("tidy".into(), form.to_vec());
    assert!(files_of(&folder.0) == due, "{:?}", files_of(&folder.0).keys());
}

#[test]
fn sets_are_tidied() {
    for (build, program) in tidies() {
        let folder = folder_with(&untidy());
        made(&mut tidy(program, &folder, "set", "tidy"), &folder, &tidied());
        // what is there is not made again, and from what is tidy comes the same
        not_tidied(&mut tidy(program, &folder, "set", "tidy"), &folder, "tidy: tidy: File exists\n");
        fs::rename(folder.0.join("tidy"), folder.0.join("set")).unwrap();
        made(&mut tidy(program, &folder, "set", "tidy"), &folder, &tidied());
        // one image and an absent second slot: the form has two slots
        let folder = folder_with(b"\x02\0\0\0\x06\0\0\0\x01\0\0\0\xff\xff\xff\xff\x04\0\0\0\0\0\0\0-boot-");
        let form = b"\x02\0\0\0\x04\0\0\0\0\0\0\0\xff\xff\xff\xff\x04\0\0\0\0\0\0\0boot";
        made(&mut tidy(program, &folder, "set", "tidy"), &folder, form);
        // absent slots alone: as many marks
        let marks = b"\xff\xff\xff\xff\xff\xff\xff\xff\0\0\0\0\0\0\0\0";
        let folder = folder_with(&[b"\x02\0\0\0\x03\0\0\0", &marks[..], b"gap"].concat());
        made(&mut tidy(program, &folder, "set", "tidy"), &folder, &[b"\x02\0\0\0\0\0\0\0", &marks[..]].concat());
        let mut rng = Rng::new(21);
        for seed in 0..40u32 {
            let (set, form) = random_set(&mut rng);
            let folder = folder_with(&set);
            let mut call = tidy(program, &folder, "set", "tidy");
            made(call.envs((build == Build::Checked && seed >= 5).then(|| ("FAULTS", seed.to_string()))), &folder, &form);
        }
    }
}

/// In another folder, by a whole path, and as many may read it as the caller's mask says.
#[test]
fn tidied_elsewhere() {
    for (_, program) in tidies() {
        let folder = folder_with(&untidy());
        fs::create_dir(folder.dump()).unwrap();
        let whole = folder.0.join("whole");
        for to in ["dump/tidy", "./dump//again", whole.to_str().unwrap()] {
            let said = Said::by(&mut tidy(program, &folder, "set", to));
            assert_eq!((said.status, said.out), (Some(0), format!("{to}: {} bytes\n", tidied().len())), "{}", said.error);
            assert!(fs::read(folder.0.join(to)).unwrap() == tidied());
        }
        assert_eq!(folder.files().into_keys().collect::<Vec<_>>(), ["again", "tidy"]);
        for (mask, mode) in [("022", 0o644), ("077", 0o600), ("000", 0o666)] {
            assert_eq!(Said::by(&mut tidy_under(program, &folder, &format!("umask {mask};"), "")).status, Some(0));
            assert_eq!(fs::metadata(folder.0.join("tidy")).unwrap().permissions().mode() & 0o777, mode);
            fs::remove_file(folder.0.join("tidy")).unwrap();
        }
        for (to, why) in
            [("nowhere/tidy", "No such file"), ("set/tidy", "Not a directory"), ("dump/", "No such file"), ("", "No such file")]
        {
            let said = Said::by(&mut tidy(program, &folder, "set", to));
            assert!(said.status == Some(1) && said.out.is_empty() && said.error.contains(why), "{to}: {said:?}");
        }
        assert_eq!(folder.files().len(), 2);
    }
}

/// From a pipe, in pieces; one that goes on behind the set is not heard out.
#[test]
fn tidied_from_a_pipe() {
    for (_, program) in tidies() {
        let mut data = vec![0; 250_000];
        Rng::new(22).fill(&mut data);
        let (set, form) = (set_of(&[(7, 199_999)], &data), set_of(&[(0, 199_999)], &data[7..200_006]));
        for goes_on in [false, true] {
            let folder = folder_with(&[]);
            let mut call = tidy(program, &folder, "/dev/stdin", "tidy");
            let mut child = started(call.stdin(Stdio::piped()));
            let (mut stdin, bytes) = (child.stdin.take().unwrap(), set.clone());
            let writer = thread::spawn(move || {
                bytes.chunks(10_007).try_for_each(|piece| stdin.write_all(piece))?;
                if goes_on {
                    std::iter::repeat([0; 4096]).try_for_each(|more| stdin.write_all(&more))?;
                }
                std::io::Result::Ok(())
            });
            let said = Said::of(child);
            assert_eq!((writer.join().unwrap().is_ok(), said.status), (!goes_on, Some(i32::from(goes_on))), "{said:?}");
            let files = files_of(&folder.0);
            assert_eq!(files.get("tidy"), (!goes_on).then_some(&form));
            assert!(goes_on == said.error.contains(SET_WORDS) && files.len() == 2 - usize::from(goes_on), "{said:?}");
        }
    }
}

/// What is no image set, and what is none that can be tidied.
#[test]
fn sets_that_are_refused() {
    for (_, program) in tidies() {
        let (set, promise) = (untidy(), [&[1, 0, 0, 0, 255, 255, 255, 255][..], &[0; 300]].concat());
        let longer = [&set[..], &[0]].concat();
        for bytes in
            [&[][..], &[0; 7], &[0; 9], &set[..set.len() - 1], &longer, &[65, 0, 0, 0, 0, 0, 0, 0], &promise, &[255; 100_000]]
        {
            let folder = folder_with(bytes);
            not_tidied(&mut tidy(program, &folder, "set", "tidy"), &folder, &format!("tidy: set: {SET_WORDS}\n"));
        }
        // 64 slots that share 2^26 bytes; with one byte in two of them less, it would be long, and whole
        let folder = folder_with(&set_of(&[(0, 1 << 26); 64], &[]));
        let file = File::options().write(true).open(folder.0.join("set")).unwrap();
        file.set_len(8 + 8 * 64 + (1 << 26)).unwrap();
        std::os::unix::fs::FileExt::write_all_at(&file, &(1u32 << 26).to_le_bytes(), 4).unwrap();
        let said = Said::by(&mut tidy(program, &folder, "set", "tidy"));
        assert_eq!((said.status, said.out.as_str()), (Some(1), ""));
        assert_eq!(said.error, format!("tidy: set: {ROOM_WORDS}\ntidy: not written: tidy\n"));
        assert_eq!(fs::read_dir(&folder.0).unwrap().count(), 1);
        let folder = folder_with(&set);
        for (from, why) in
            [(".", "Is a directory"), ("no-set", "No such file"), ("/dev/zero", SET_WORDS), ("/dev/null", SET_WORDS)]
        {
            not_tidied(&mut tidy(program, &folder, from, "tidy"), &folder, why);
        }
    }
}

/// Nothing that is there is touched: the file itself, a folder, a link that leads nowhere, the set, and a part, whosesoever it is.
#[test]
fn nothing_is_tidied_over() {
    for (_, program) in tidies() {
        let folder = folder_with(&untidy());
        fs::create_dir(folder.dump()).unwrap();
        std::os::unix::fs::symlink("nowhere", folder.0.join("link")).unwrap();
        fs::write(folder.0.join("there"), "before").unwrap();
        fs::write(folder.0.join("begun.part"), "a part").unwrap();
        let names = || {
            let entries = fs::read_dir(&folder.0).unwrap().map(|e| e.unwrap());
            entries.map(|e| (e.file_name().into_string().unwrap(), e.file_type().unwrap())).collect::<BTreeMap<_, _>>()
        };
        let before = names();
        for (to, why) in [
            ("there", "tidy: there: File exists"),
            ("dump", "tidy: dump: File exists"),
            ("link", "tidy: link: File exists"),
            ("set", "tidy: set: File exists"),
            (".", "tidy: .: File exists"),
            ("begun", "tidy: begun.part: File exists: another call is writing it, or was killed"),
        ] {
            let said = Said::by(&mut tidy(program, &folder, "set", to));
            assert!(said.status == Some(1) && said.out.is_empty() && said.error.starts_with(why), "{to}: {said:?}");
            assert_eq!(names(), before);
        }
        assert!(fs::read(folder.0.join("set")).unwrap() == untidy() && folder.files().is_empty());
        assert_eq!(["there", "begun.part"].map(|f| fs::read_to_string(folder.0.join(f)).unwrap()), ["before", "a part"]);
    }
}

/// Many at a time: one makes the file, and what another has begun is not taken from it.
#[test]
fn tidied_side_by_side() {
    let Some(program) = TIDY.built(Build::Plain) else { return };
    let set = set_of(&[(0, 200_000); 20], &vec![7; 200_000]);
    let folder = folder_with(&set);
    let said: Vec<Said> = thread::scope(|scope| {
        let calls: Vec<_> = (0..8).map(|_| scope.spawn(|| Said::by(&mut tidy(program, &folder, "set", "tidy")))).collect();
        calls.into_iter().map(|c| c.join().unwrap()).collect()
    });
    assert_eq!(said.iter().filter(|s| s.status == Some(0)).count(), 1, "{said:?}");
    assert!(said.iter().all(|s| s.status == Some(0) || s.error.contains(": File exists")), "{said:?}");
    let files = files_of(&folder.0);
    assert!(files.len() == 2 && files["tidy"] == ImageSet::new(&vec![Some(vec![7; 200_000]); 20]).unwrap().bytes());
}

/// Each call that can fail fails, and each after it: nothing is left behind, but where that cannot be removed, which is told.
#[test]
fn tidy_calls_that_fail() {
    let Some(program) = TIDY.built(Build::Checked) else { return };
    let set = set_of(&[(0, 100_000), (50_000, 1)], &vec![3; 100_000]);
    let form = ImageSet::new(&[Some(vec![3; 100_000]), Some(vec![3])]).unwrap();
    for (name, error, says, calls) in [
        // a null device, the folder, the set
        ("open", 13, "Permission denied", 3),
        // the first numbers, what there is room for, and the rest up to the end
        ("read", 5, "Input/output error", 4),
        // the path, the set, the form
        ("malloc", 12, "Cannot allocate memory", 3),
        ("realloc", 12, "Cannot allocate memory", 1),
        ("openat", 28, "No space left on device", 1),
        ("write", 28, "No space left on device", 1),
        ("write", 5, "Input/output error", 1),
        // the file, the folder
        ("fsync", 5, "Input/output error", 2),
        ("linkat", 1, "Operation not permitted", 1),
    ] {
        for n in 1..=calls {
            let folder = folder_with(&set);
            let mut call = tidy(program, &folder, "set", "tidy");
            not_tidied(call.env("FAIL", format!("{name}:{n}:{error}")), &folder, says);
        }
        let folder = folder_with(&set);
        let mut call = tidy(program, &folder, "set", "tidy");
        made(call.env("FAIL", format!("{name}:{}:{error}", calls + 1)), &folder, form.bytes());
    }
    // to look whether TIDY is there is the first; the others, whether a name is still that of the file
    for fail in ["unlinkat:1:5", "fstatat:2:5"] {
        let folder = folder_with(&set);
        let said = Said::by(tidy(program, &folder, "set", "tidy").env("FAIL", fail));
        assert_eq!((said.status, said.out.as_str()), (Some(1), ""));
        for name in ["tidy", "tidy.part"] {
            assert!(said.error.contains(&format!("tidy: it could NOT be removed: {name}: Input/output error\n")), "{said:?}");
            assert!(files_of(&folder.0)[name] == form.bytes());
        }
    }
}

/// TIDY.part is removed while it is written, and another call begins its own: that one gets no name from this, and is not taken away.
#[test]
fn tidied_while_another_begins() {
    let Some(program) = TIDY.built(Build::Checked) else { return };
    for more in ["", "linkat:1:5"] {
        let folder = folder_with(&untidy());
        let said = Said::by(tidy(program, &folder, "set", "tidy").env("REPLACED", "tidy.part").env("FAIL", more));
        assert_eq!((said.status, said.out.as_str()), (Some(1), ""), "{said:?}");
        let files = files_of(&folder.0);
        assert!(files.len() == 2 && files["set"] == untidy() && files["tidy.part"] == b"x", "{files:?}");
    }
}

/// Nobody hears that it is made: it is, and where it could be told that nobody heard, that is.
#[test]
fn tidied_with_nobody_listening() {
    for (_, program) in tidies() {
        let (near, far) = UnixStream::pair().unwrap();
        drop(far);
        for to in [OwnedFd::from(near), File::create("/dev/full").unwrap().into()] {
            let folder = folder_with(&untidy());
            let call = tidy(program, &folder, "set", "tidy").stdout(to).output().unwrap();
            let said = String::from_utf8(call.stderr).unwrap();
            assert!(
                call.status.code() == Some(0) && said.starts_with("tidy: it is written, and that could not be said: "),
                "{said}"
            );
            assert!(files_of(&folder.0)["tidy"] == tidied());
        }
    }
}

/// A disk that is full: a limit on the length of files.
#[test]
fn tidied_to_a_full_disk() {
    let Some(program) = TIDY.built(Build::Plain) else { return };
    let folder = folder_with(&set_of(&[(0, 3000); 2], &[7; 3000]));
    not_tidied(&mut tidy_under(program, &folder, "ulimit -f 8;", ""), &folder, "tidy: tidy.part: File too large\n");
}

/// More than there is memory for, in KiB: a set, and the form of a smaller one. What a file only says it has takes none.
#[test]
fn sets_above_the_memory() {
    let Some(program) = TIDY.built(Build::Plain) else { return };
    let limit = "ulimit -v 100000;";
    let folder = folder_with(&set_of(&[(0, 4); 64], b"abcd"));
    assert_eq!(Said::by(&mut tidy_under(program, &folder, limit, "")).status, Some(0));
    for (head, len, why) in [
        (set_of(&[(0, 1 << 21); 64], &[]), 1 << 21, "tidy: tidy: Cannot allocate memory\n"),
        (set_of(&[(0, 1)], &[]), 1 << 30, "tidy: set: Cannot allocate memory\n"),
    ] {
        let folder = folder_with(&head);
        let file = File::options().write(true).open(folder.0.join("set")).unwrap();
        file.set_len(head.len() as u64 + len).unwrap();
        std::os::unix::fs::FileExt::write_all_at(&file, &(len as u32).to_le_bytes(), 4).unwrap();
        let said = Said::by(&mut tidy_under(program, &folder, limit, ""));
        assert!((said.status, said.out.as_str()) == (Some(1), "") && said.error.starts_with(why), "{said:?}");
        assert_eq!(fs::read_dir(&folder.0).unwrap().count(), 1);
    }
    let folder = folder_with(&[&[1, 0, 0, 0, 255, 255, 255, 255][..], &[0; 100_000]].concat());
    not_tidied(&mut tidy_under(program, &folder, limit, ""), &folder, SET_WORDS);
    // of what has too many slots no more is asked for
    let folder = folder_with(&[]);
    fs::remove_file(folder.0.join("set")).unwrap();
    std::os::unix::fs::symlink("/dev/stdin", folder.0.join("set")).unwrap();
    let endless = format!("{limit} tr '\\000' '\\377' </dev/zero |");
    let said = Said::by(&mut tidy_under(program, &folder, &endless, ""));
    assert!(said.status == Some(1) && said.error.contains(SET_WORDS), "{said:?}");
    assert_eq!(fs::read_dir(&folder.0).unwrap().count(), 1);
}

#[test]
fn wrong_calls_of_tidy() {
    for (_, program) in tidies() {
        let folder = folder_with(&untidy());
        for args in [&[][..], &["set"], &["set", "tidy", "more"], &["-x", "set", "tidy"], &["-h"]] {
            let call = Command::new(program).args(args).current_dir(&folder.0).output().unwrap();
            assert_eq!((call.status.code(), call.stdout.len()), (Some(2), 0), "{args:?}");
            assert!(String::from_utf8(call.stderr).unwrap().contains("usage: tidy SET TIDY\n"));
        }
        assert_eq!(files_of(&folder.0).len(), 1);
    }
}

/// With standard output and error closed, what is said to people reaches no file, not even one that cannot be removed again.
#[test]
fn tidied_without_standard_descriptors() {
    for (build, program) in tidies() {
        for closed in [">&- 2>&-", "<&- >&- 2>&-"] {
            let folder = folder_with(&untidy());
            let mut call = tidy_under(program, &folder, "", closed);
            let fails = build == Build::Checked;
            let status = call.envs(fails.then_some(("FAIL", "unlinkat:1:5"))).status().unwrap();
            assert_eq!(status.code(), Some(i32::from(fails)));
            let files = files_of(&folder.0);
            assert!(files.len() == 2 + usize::from(fails) && files["tidy"] == tidied(), "{files:?}");
        }
    }
}
