//! A device behind a socket, the processes that fetch from it, and what they must leave.
use device::{Device, Memory, Region, Width};
use std::fs;
use std::os::fd::OwnedFd;
use std::os::unix::net::UnixStream;
use std::path::{Path, PathBuf};
use std::process::{Command, Stdio};
use std::sync::atomic::{AtomicU32, Ordering};
use std::thread::JoinHandle;

/// Names a child's folder; its presence makes the test `child` one.
pub const CHILD: &str = "WORGESLI_TEST_CHILD";
/// The steps that a child makes before it is killed.
pub const STEPS: &str = "WORGESLI_TEST_STEPS";

/// A folder of its own, in memory where that can be had (some thousand files are synced), gone afterwards.
pub struct Temporary(pub PathBuf);

impl Temporary {
    pub fn new() -> Temporary {
        static NEXT: AtomicU32 = AtomicU32::new(0);
        let n = NEXT.fetch_add(1, Ordering::Relaxed);
        let name = format!("worgesli-process-{}-{n}", std::process::id());
        let made = |folder: &Path| fs::create_dir(folder.join(&name)).map(|()| folder.join(&name));
        Temporary(made("/dev/shm".as_ref()).or_else(|_| made(&std::env::temp_dir())).unwrap())
    }
}

impl Drop for Temporary {
    fn drop(&mut self) {
        let _ = fs::remove_dir_all(&self.0);
    }
}

pub fn regions() -> Vec<Region> {
    vec![
        Region::new("TAKE.BIN", 7, 9000),
        Region::new("EMPTY.BIN", 9, 0),
        Region::new("a/b", 1 << 20, 1024),
        Region::new("TAKE.BIN", 1 << 30, 5000),
    ]
}

/// A device that outlives the processes that fetch from it.
pub struct Far {
    near: OwnedFd,
    thread: JoinHandle<(Device, u64)>,
    memory: Memory,
}

impl Far {
    pub fn new(width: Width, seed: u64) -> Far {
        let memory = Memory::of(width, seed, width.half(), &regions());
        let (near, far) = UnixStream::pair().unwrap();
        let device = Device::dump(memory.clone());
        let thread = std::thread::spawn(move || device::serve(device, far, seed).unwrap());
        Far { near: near.into(), thread, memory }
    }

    /// Runs a process that goes on with the fetch into `folder`; gives its exit code, None where it was killed.
    pub fn process(&self, folder: &Path, settings: &[(&str, String)]) -> Option<i32> {
        let mut child = Command::new(std::env::current_exe().unwrap());
        child.args(["--exact", "child::child", "--nocapture", "--test-threads=1"]);
        child.env(CHILD, folder).envs(settings.iter().map(|(k, v)| (k, v)));
        child.stdin(Stdio::from(self.near.try_clone().unwrap())).stdout(Stdio::null()).stderr(Stdio::piped());
        let done = child.output().unwrap();
        let said = String::from_utf8_lossy(&done.stderr);
        assert!(!said.contains("panicked"), "{said}");
        done.status.code()
    }

    /// The device's end: it did nothing that it should not have been asked for.
    pub fn end(self) {
        drop(self.near);
        let (device, _) = self.thread.join().unwrap();
        assert_eq!((device.wrong(), device.queued()), (None, 0));
    }

    /// Each region is whole under its name, and its line in the manifest says so; the sheet is there.
    pub fn assert_whole(&self, folder: &Path) {
        assert!(true_sheets(folder) > 0);
        let lines = whole_lines(folder);
        for (place, r) in regions().iter().enumerate() {
            let (_, file) = lines.iter().find(|(p, _)| *p == place).unwrap_or_else(|| panic!("no whole region {place}"));
            assert!(fs::read(file).unwrap() == self.memory.bytes(r.base, r.len as usize), "region {place}");
        }
    }

    /// What the manifest calls whole is whole, and what has a final name is whole.
    pub fn assert_honest(&self, folder: &Path) {
        true_sheets(folder);
        let bytes = |place: usize| self.memory.bytes(regions()[place].base, regions()[place].len as usize);
        for (place, file) in whole_lines(folder) {
            assert!(fs::read(file).unwrap() == bytes(place), "region {place}");
        }
        let Ok(found) = fs::read_dir(folder.join("dump")) else { return };
        for path in found.map(|e| e.unwrap().path()) {
            let name = path.file_name().unwrap().to_str().unwrap();
            let ours = name.starts_with("manifest~") || name.starts_with("regions~") || name.ends_with(".part");
            let whole = || (0..regions().len()).any(|place| fs::read(&path).unwrap() == bytes(place));
            assert!(ours || whole(), "{name}");
        }
    }
}

/// What is called a region sheet is one, whole; gives how many there are.
fn true_sheets(folder: &Path) -> usize {
    let Ok(found) = fs::read_dir(folder.join("dump")) else { return 0 };
    let paths = found.map(|e| e.unwrap().path());
    let sheets: Vec<_> = paths.filter(|p| p.file_name().unwrap().to_str().unwrap().starts_with("regions~")).collect();
    let due: String = regions().iter().map(Region::line).collect();
    assert!(sheets.iter().all(|s| fs::read_to_string(s).unwrap() == due), "{sheets:?}");
    sheets.len()
}

/// The places and files of the regions that a manifest calls whole. A folder that failed on its way may have left one beside that of the next.
fn whole_lines(folder: &Path) -> Vec<(usize, PathBuf)> {
    let dump = folder.join("dump");
    let Ok(found) = fs::read_dir(&dump) else { return Vec::new() };
    let mut whole = Vec::new();
    for path in found.map(|e| e.unwrap().path()).filter(|p| p.extension().is_some_and(|e| e == "tsv")) {
        for line in fs::read_to_string(path).unwrap().lines().filter(|l| !l.starts_with('#')) {
            let cells: Vec<&str> = line.split('\t').collect();
            if cells[6] == "whole" {
                whole.push((cells[0].parse().unwrap(), dump.join(cells[2])));
            }
        }
    }
    whole
}
