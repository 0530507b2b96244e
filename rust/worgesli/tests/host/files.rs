//! The sink that writes files.
use device::{not_run, Device, Division, Faults, Memory, Region, Width, Wire};
use std::fs::{self, File};
use std::io::ErrorKind;
use std::os::unix::fs::{symlink, PermissionsExt};
use std::path::{Path, PathBuf};
use std::process::Command;
use std::sync::atomic::{AtomicU32, Ordering};
use worgesli::{
    escape, read_manifest, unescape, Backend, Driver, Entry, Error, Folder, Kept, Mode, Options, Outcome, Sink, State, Unkept,
};

/// A folder of its own for each test, gone afterwards.
pub struct Temporary(pub PathBuf);

impl Temporary {
    pub fn new() -> Temporary {
        Temporary::within(&std::env::temp_dir()).unwrap()
    }

    /// In memory, where that can be had: for tests that sync some thousand files.
    pub fn in_memory() -> Temporary {
        Temporary::within("/dev/shm".as_ref()).unwrap_or_else(|_| Temporary::new())
    }

    fn within(folder: &Path) -> std::io::Result<Temporary> {
        static NEXT: AtomicU32 = AtomicU32::new(0);
        let n = NEXT.fetch_add(1, Ordering::Relaxed);
        let path = folder.join(format!("worgesli-test-{}-{n}", std::process::id()));
        fs::create_dir(&path).map(|()| Temporary(path))
    }

    pub fn dump(&self) -> PathBuf {
        self.0.join("dump")
    }

    /// What is in the dump, in order.
    pub fn names(&self) -> Vec<String> {
        let mut names: Vec<String> =
            fs::read_dir(self.dump()).unwrap().map(|e| e.unwrap().file_name().into_string().unwrap()).collect();
        names.sort();
        names
    }

    pub fn read(&self, name: &str) -> Vec<u8> {
        fs::read(self.dump().join(name)).unwrap_or_else(|e| panic!("{name}: {e}"))
    }
}

impl Drop for Temporary {
    fn drop(&mut self) {
        let _ = fs::remove_dir_all(&self.0);
    }
}

pub fn start(width: Width, regions: &[Region], faults: Faults) -> (Memory, Wire, Driver) {
    let memory = Memory::of(width, 8, width.half(), regions);
    let wire = Wire::new(Device::dump(memory.clone()), Division::Random, 8).with(faults);
    (memory, wire, Options::new(Backend::Usb, Mode::MemoryDebug).start().unwrap())
}

pub fn fetch(width: Width, regions: &[Region], sink: &mut Folder) -> (Memory, Result<Outcome, Error>) {
    let (memory, mut wire, mut driver) = start(width, regions, Faults::default());
    (memory, driver.run(&mut wire, sink, |_| ()))
}

fn files(sink: &Folder) -> Vec<&str> {
    sink.regions().iter().map(|k| k.file.as_str()).collect()
}

fn entry(name: &[u8], base: u64, len: u64) -> Entry {
    let r = Region::new(name, base, len);
    Entry { save_pref: 1, base, len, description: r.description, filename: r.filename }
}

fn lost(done: Result<(), Unkept>) -> String {
    match done {
        Err(Unkept::Lost(e)) => e.to_string(),
        done => panic!("{done:?}"),
    }
}

/// All of it, as a driver hands it over.
fn keep(sink: &mut Folder, mut bytes: &[u8]) {
    while !bytes.is_empty() {
        let n = sink.bytes(&bytes[..bytes.len().min(1000)]).unwrap();
        bytes = &bytes[n..];
    }
}

/// Each region in a file of its own, two of one name too, also where the names differ in case alone.
#[test]
fn a_file_for_each_region() {
    for width in Width::BOTH {
        let t = Temporary::new();
        let regions = [
            Region::new("DDR.BIN", 0, 5000),
            Region::new("OCIMEM.BIN", 1 << 20, 4096),
            Region::new("EMPTY.BIN", 3, 0),
            Region::new("DDR.BIN", 1 << 30, 700),
            Region::new("DDR.BIN~2", 5, 10),
            Region::new("ddr.bin", 6, 20),
        ];
        let mut sink = Folder::new(t.dump()).unwrap();
        let (memory, end) = fetch(width, &regions, &mut sink);
        assert_eq!(end.unwrap(), Outcome::Dumped { reads: 1 + 2 + 1 + 1 + 1 + 1 });
        let names = ["DDR.BIN", "OCIMEM.BIN", "EMPTY.BIN", "DDR.BIN~2", "DDR.BIN%7E2", "ddr.bin~3"];
        assert_eq!(files(&sink), names);
        for (kept, r) in sink.regions().iter().zip(&regions) {
            assert!(t.read(&kept.file) == memory.bytes(r.base, r.len as usize), "{}", kept.file);
            assert_eq!((kept.base, kept.len, kept.bytes, &kept.state), (r.base, r.len, r.len, &State::Whole));
        }
        assert_eq!(t.names().len(), 6 + 2);
    }
}

pub const HOSTILE: [&[u8]; 26] = [
    b"",
    b".",
    b"..",
    b"../x",
    b"/etc/x",
    b"A/B.BIN",
    b"a/",
    b"\\x",
    b"..\\x",
    b"/",
    b"-rf",
    b" a ",
    b"%",
    b"%41",
    b"~",
    b"a~2",
    b"a.part",
    b"\x1b[2J",
    b"nul\n",
    b"tab\there",
    "\u{202e}NIB.EKAT".as_bytes(),
    &[b'/'; 19],
    b"manifest~1.tsv",
    b"manifest~1.tsv.new",
    b"regions~1.txt",
    b"regions.txt",
];

/// No name stops a fetch: each is escaped, in the folder and in the manifest, and can be had back.
#[test]
fn hostile_filenames() {
    for width in Width::BOTH {
        let mut regions: Vec<Region> = HOSTILE.iter().zip(1..).map(|(name, n)| Region::new(name, n, 100 + n)).collect();
        regions.push(Region::new("BEHIND.BIN", 1 << 20, 3000));
        let t = Temporary::new();
        let mut sink = Folder::new(t.dump()).unwrap();
        let (memory, end) = fetch(width, &regions, &mut sink);
        assert_eq!(end.unwrap(), Outcome::Dumped { reads: 28 });
        for ((kept, r), name) in sink.regions().iter().zip(&regions).zip(HOSTILE) {
            assert_eq!((kept.name.as_slice(), &kept.file), (name, &escape(name)));
            assert_eq!(unescape(&kept.file).unwrap(), name);
            assert!(t.read(&kept.file) == memory.bytes(r.base, r.len as usize));
        }
        assert_eq!(sink.regions().len(), regions.len());
        assert_eq!(t.names().len(), regions.len() + 2);
        assert!(t.names().iter().all(|n| n.bytes().all(|b| matches!(b, b' '..=b'~')) && !n.starts_with(['-', '.', ' '])));
        let text = fs::read_to_string(sink.manifest_path()).unwrap();
        assert!(text.bytes().all(|b| matches!(b, b' '..=b'~' | b'\t' | b'\n')));
        assert_eq!(text.lines().count(), regions.len() + 1);
        // nothing beside the dump
        assert_eq!(fs::read_dir(&t.0).unwrap().count(), 1);
    }
}

/// The sink judges by itself, without the session before it: names that are not UTF-8, or fill all 20 bytes.
#[test]
fn names_that_a_session_refuses() {
    let t = Temporary::new();
    let mut sink = Folder::new(t.dump()).unwrap();
    assert!(sink.bytes(&[1]).is_err());
    for (place, name) in [&[b'A'; 20][..], b"A\xffB", &[0x80; 20]].into_iter().enumerate() {
        sink.open(place, &entry(name, 0, 1)).unwrap();
        keep(&mut sink, &[7]);
        sink.close(place).unwrap();
        assert_eq!(sink.regions()[place].name, name);
        assert_eq!(unescape(&sink.regions()[place].file).unwrap(), name);
    }
    assert_eq!(&files(&sink)[..2], ["AAAAAAAAAAAAAAAAAAAA", "A%FFB"]);
    // behind the first zero nothing is the name's
    sink.open(3, &entry(b"B\0/../x", 0, 1)).unwrap();
    assert_eq!(files(&sink)[3], "B.part");
}

/// What is not whole has no final name: a device that goes leaves a `.part`, and the manifest says what is what.
#[test]
fn parts_have_other_names() {
    for width in Width::BOTH {
        let regions = [Region::new("A.BIN", 0, 5000), Region::new("B.BIN", 1 << 20, 9000), Region::new("C.BIN", 9, 9)];
        let t = Temporary::new();
        let opening = (48 + width.packet_len() + 3 * width.entry_len()) as u64;
        let (memory, mut wire, mut driver) =
            start(width, &regions, Faults { ends_after: Some(opening + 5000 + 6000), ..Faults::default() });
        let mut sink = Folder::new(t.dump()).unwrap();
        assert!(matches!(driver.run(&mut wire, &mut sink, |_| ()), Err(Error::NoBytes)));
        assert_eq!(t.names(), ["A.BIN", "B.BIN.part", "manifest~1.tsv", "regions~1.txt"]);
        let manifest = sink.manifest_path().to_owned();
        sink.finish().unwrap();
        let told = read_manifest(manifest).unwrap();
        let kept: Vec<_> = told.iter().map(|k| (k.file.as_str(), k.bytes, &k.state)).collect();
        assert_eq!(kept, [("A.BIN", 5000, &State::Whole), ("B.BIN.part", 6000, &State::Part)]);
        assert!(memory.bytes(1 << 20, 6000) == t.read("B.BIN.part"));

        // a second fetch into the same folder: nothing of the first is touched
        let before = fs::read(t.dump().join("manifest~1.tsv")).unwrap();
        let mut sink = Folder::new(t.dump()).unwrap();
        assert_eq!(fetch(width, &regions, &mut sink).1.unwrap(), Outcome::Dumped { reads: 7 });
        assert_eq!(files(&sink), ["A.BIN~2", "B.BIN~2", "C.BIN"]);
        let all = ["A.BIN", "A.BIN~2", "B.BIN.part", "B.BIN~2", "C.BIN", "manifest~1.tsv", "manifest~2.tsv"];
        assert_eq!(t.names(), [&all[..], &["regions~1.txt", "regions~2.txt"]].concat());
        assert_eq!(fs::read(t.dump().join("manifest~1.tsv")).unwrap(), before);
        assert!(t.read("B.BIN~2") == memory.bytes(1 << 20, 9000));

        // a third one with the same sink, over a region that was left open
        let (_, mut wire, mut driver) = start(width, &regions, Faults { ends_after: Some(opening + 100), ..Faults::default() });
        driver.run(&mut wire, &mut sink, |_| ()).unwrap_err();
        assert!(fetch(width, &regions, &mut sink).1.is_ok());
        let state = |file: &str| sink.regions().iter().find(|k| k.file == file).unwrap().state.clone();
        assert!(matches!(state("A.BIN~3.part"), State::Lost(_)) && state("A.BIN~4") == State::Whole);
    }
}

/// No file that is there is written or written over: no file, no folder, no link, wherever it leads; a `.part` neither.
#[test]
fn no_file_is_overwritten() {
    for width in Width::BOTH {
        let manifest = ["manifest~1.tsv", "manifest~1.tsv.new", "manifest~1.tsv.claim"];
        for name in ["DDR.BIN", "DDR.BIN.part", "regions~1.txt"].into_iter().chain(manifest) {
            for way in 0..4 {
                let t = Temporary::new();
                let (path, other) = (t.dump().join(name), t.0.join("other"));
                fs::create_dir(t.dump()).unwrap();
                match way {
                    0 => fs::write(&path, b"before").unwrap(),
                    1 => fs::create_dir(&path).unwrap(),
                    2 => symlink(&other, &path).unwrap(),
                    _ => {
                        fs::write(&other, b"before").unwrap();
                        symlink(&other, &path).unwrap();
                    }
                }
                let mut sink = Folder::new(t.dump()).unwrap();
                let (memory, end) = fetch(width, &[Region::new("DDR.BIN", 0, 900), Region::new("E.BIN", 0, 5)], &mut sink);
                end.unwrap();
                let expected = if name.starts_with("DDR") { "DDR.BIN~2" } else { "DDR.BIN" };
                assert_eq!(files(&sink), [expected, "E.BIN"], "{name} {way}");
                assert!(t.read(expected) == memory.bytes(0, 900));
                let is = fs::symlink_metadata(&path).unwrap();
                assert_eq!((is.is_dir(), is.is_symlink()), (way == 1, way > 1));
                match way {
                    0 | 3 => assert_eq!(fs::read(&path).unwrap(), b"before"),
                    _ => assert!(!other.exists()),
                }
            }
        }
    }
}

/// Several sinks on one folder at a time: each region in a file of its own.
#[test]
fn several_at_a_time() {
    let t = Temporary::new();
    let all: Vec<(usize, Vec<Kept>)> = std::thread::scope(|scope| {
        let run = |i: usize, dump: PathBuf| {
            let mut sink = Folder::new(dump).unwrap();
            for place in 0..12 {
                sink.open(place, &entry(b"SAME.BIN", 0, 3000)).unwrap();
                keep(&mut sink, &[i as u8; 3000]);
                sink.close(place).unwrap();
            }
            (i, sink.regions().to_vec())
        };
        let threads: Vec<_> = (0..4).map(|i| (i, t.dump())).map(|(i, dump)| scope.spawn(move || run(i, dump))).collect();
        threads.into_iter().map(|thread| thread.join().unwrap()).collect()
    });
    for (i, regions) in all {
        assert_eq!(regions.len(), 12);
        for kept in regions {
            assert!(kept.state == State::Whole && t.read(&kept.file) == [i as u8; 3000], "{}", kept.file);
        }
    }
    assert_eq!(t.names().iter().filter(|n| n.starts_with("SAME.BIN")).count(), 48);
    assert_eq!(t.names().len(), 48 + 4);
}

/// Files and folders are for the owner alone. A folder that is there keeps its mode.
#[test]
fn for_the_owner_alone() {
    for width in Width::BOTH {
        let mode = |path: &Path| fs::metadata(path).unwrap().permissions().mode() & 0o777;
        let t = Temporary::new();
        let deep = t.dump().join("a/b");
        let mut sink = Folder::new(&deep).unwrap();
        fetch(width, &[Region::new("A", 0, 9)], &mut sink).1.unwrap();
        sink.open(1, &entry(b"B", 0, 9)).unwrap();
        for path in [t.dump(), t.dump().join("a"), deep.clone()] {
            assert_eq!(mode(&path), 0o700, "{}", path.display());
        }
        for name in ["A", "B.part", "manifest~1.tsv", "regions~1.txt"] {
            assert_eq!(mode(&deep.join(name)), 0o600, "{name}");
        }
        fs::set_permissions(t.dump(), PermissionsExt::from_mode(0o755)).unwrap();
        Folder::new(t.dump()).unwrap();
        assert_eq!(mode(&t.dump()), 0o755);
        // what is no folder is none
        fs::write(t.0.join("file"), b"").unwrap();
        assert!(Folder::new(t.0.join("file")).is_err() && Folder::new(t.0.join("file/x")).is_err() && Folder::new("").is_err());
    }
}

/// A sink of its own that a limit is told region by region: each would bring the sum above it, or not. With more allowed it goes on. (What a limit does to a
/// run stands in forecast_files.rs.)
#[test]
fn limit() {
    for width in Width::BOTH {
        let t = Temporary::new();
        let regions = [Region::new("A", 0, 5000), Region::new("B", 0, 5001)];
        let mut sink = Folder::new(t.dump()).unwrap();
        let (memory, _) = fetch(width, &regions[..1], &mut sink);
        sink.set_limit(10_000);
        let why = sink.open(1, &entry(b"B", 0, 5001)).unwrap_err();
        assert_eq!(why.kind(), ErrorKind::QuotaExceeded);
        let why = why.to_string();
        assert!(why.contains("10001") && why.contains("10000"), "{why}");
        assert_eq!(t.names(), ["A", "manifest~1.tsv", "regions~1.txt"]);
        sink.set_limit(10_001);
        sink.open(1, &entry(b"B", 0, 5001)).unwrap();
        keep(&mut sink, &memory.bytes(0, 5001));
        sink.close(1).unwrap();
        assert_eq!(sink.open(2, &entry(b"C", 0, width.half())).unwrap_err().kind(), ErrorKind::QuotaExceeded);
        assert_eq!(t.names(), ["A", "B", "manifest~1.tsv", "regions~1.txt"]);
        // lengths that are no number together
        sink.open(3, &entry(b"D", 0, u64::MAX)).unwrap_err();
        // without a limit any length is begun, and no more than it is taken
        sink.set_limit(u64::MAX);
        sink.open(4, &entry(b"E", 0, 2)).unwrap();
        assert_eq!(sink.bytes(&[1, 2, 3]).unwrap_err().kind(), ErrorKind::InvalidInput);
        keep(&mut sink, &[1, 2]);
        assert!(sink.bytes(&[3]).is_err());
        sink.close(4).unwrap();
        // a region that was lost counts with what was written of it
        sink.set_limit(10_003 + 600);
        sink.open(5, &entry(b"F", 0, 600)).unwrap();
        keep(&mut sink, &[0; 50]);
        assert!(lost(sink.close(5)).contains("50 of its 600"));
        assert_eq!(sink.open(5, &entry(b"F", 0, 600)).unwrap_err().kind(), ErrorKind::QuotaExceeded);
        sink.set_limit(10_003 + 650);
        sink.open(5, &entry(b"F", 0, 600)).unwrap();
    }
}

/// The manifest is a plain table, and its sums are those of `sha256sum`, where there is one.
#[test]
fn manifest() {
    for width in Width::BOTH {
        let t = Temporary::new();
        let regions = [Region::new("A.BIN", 0x1468_0000, 70_001), Region::new("B/.BIN", 1, 0), Region::new("A.BIN", 7, 9)];
        let mut sink = Folder::new(t.dump()).unwrap();
        fetch(width, &regions, &mut sink).1.unwrap();
        let path = sink.manifest_path().to_owned();
        assert_eq!(read_manifest(&path).unwrap(), sink.regions());
        let text = fs::read_to_string(&path).unwrap();
        let columns = |i: usize| -> Vec<&str> { text.lines().map(|l| l.split('\t').nth(i).unwrap()).collect() };
        assert_eq!(columns(0), ["#worgesli-manifest-1", "0", "1", "2"]);
        assert_eq!(columns(1), ["name", "A.BIN", "B%2F.BIN", "A.BIN"]);
        assert_eq!(columns(2), ["file", "A.BIN", "B%2F.BIN", "A.BIN~2"]);
        assert_eq!(columns(3), ["base", "0x0000000014680000", "0x0000000000000001", "0x0000000000000007"]);
        assert_eq!(columns(4), ["length", "70001", "0", "9"]);
        assert_eq!(columns(5), ["bytes", "70001", "0", "9"]);
        assert_eq!(columns(6), ["state", "whole", "whole", "whole"]);
        assert_eq!(columns(8), ["why", "-", "-", "-"]);
        for (file, sum) in columns(2).iter().zip(columns(7)).skip(1) {
            match Command::new("sha256sum").arg("--").arg(file).current_dir(t.dump()).output() {
                Ok(said) => assert_eq!(String::from_utf8(said.stdout).unwrap(), format!("{sum}  {file}\n")),
                Err(_) => not_run("sha256sum is not on this machine", "our SHA-256 beside it"),
            }
        }
        // without sums
        let mut sink = Folder::new(t.dump()).unwrap().digests(false);
        fetch(width, &regions, &mut sink).1.unwrap();
        assert!(sink.regions().iter().all(|k| k.sha256.is_none() && k.state == State::Whole));
    }
}

/// A sink can be sent to another thread, and prints no byte of a region.
#[test]
fn printed() {
    fn sent<T: Send + Sync>(sink: &T) -> &T {
        sink
    }
    let t = Temporary::new();
    let mut sink = Folder::new(t.dump()).unwrap().limit(1234);
    sink.open(0, &entry(b"A", 0, 90)).unwrap();
    keep(&mut sink, &[171; 50]);
    let said = format!("{:?}", sent(&sink));
    assert!(said.contains("A.part") && said.contains("1234") && !said.contains("171, 171"), "{said}");
}

/// A region that another process began goes on from where the driver was, whatever more was written.
#[test]
fn another_process_goes_on() {
    let (e, bytes) = (entry(b"TAKE/1", 77, 9000), Memory::new(1, 1 << 40, &[]).bytes(77, 9000));
    for (ends, digests) in [(0, true), (1, true), (2, true), (0, false), (1, false)] {
        for taken in [0, 1, 3999, 4000] {
            let t = Temporary::new();
            let mut sink = Folder::new(t.dump()).unwrap().digests(digests);
            sink.open(5, &e).unwrap();
            keep(&mut sink, &bytes[..4000]);
            let manifest = sink.manifest_path().to_owned();
            match ends {
                0 => drop(sink),
                1 => std::mem::forget(sink), // killed
                _ => sink.finish().unwrap(),
            }
            let mut sink = Folder::resume(&manifest).unwrap();
            sink.reopen(5, &e, taken).unwrap();
            assert_eq!(t.read("TAKE%2F1.part").len() as u64, taken);
            keep(&mut sink, &bytes[taken as usize..]);
            sink.close(5).unwrap();
            assert!(t.read("TAKE%2F1") == bytes);
            assert_eq!(t.names(), ["TAKE%2F1", "manifest~1.tsv"]);
            let kept = &read_manifest(&manifest).unwrap()[0];
            assert_eq!((kept.bytes, &kept.state, kept.sha256.is_some()), (9000, &State::Whole, true));
        }
    }
}

type Spoil = fn(&Path);

/// What may happen to a file between two processes, and what is said of it.
const SPOILT: [(&str, Spoil); 7] = [
    ("is not there", |part| fs::remove_file(part).unwrap()),
    ("has 3999 bytes, and 4000 were taken", |part| File::options().write(true).open(part).unwrap().set_len(3999).unwrap()),
    ("is no plain file", |part| {
        fs::rename(part, part.with_file_name("elsewhere")).unwrap();
        symlink("elsewhere", part).unwrap();
    }),
    ("is no plain file", |part| {
        fs::remove_file(part).unwrap();
        fs::create_dir(part).unwrap();
    }),
    ("are not those that were written", |part| {
        let mut bytes = fs::read(part).unwrap();
        bytes[1234] ^= 1;
        fs::write(part, bytes).unwrap();
    }),
    // the final name alone, of a region whose close was not begun
    ("is not there", |part| fs::rename(part, part.with_extension("")).unwrap()),
    ("is not there", |part| {
        fs::remove_file(part).unwrap();
        fs::write(part.with_extension(""), [0; 9000]).unwrap();
    }),
];

/// What cannot be gone on with is told: the region is lost, and comes again into another file.
#[test]
fn cannot_go_on() {
    let (e, bytes) = (entry(b"A", 0, 9000), Memory::new(1, 1 << 40, &[]).bytes(77, 9000));
    for (why, spoil) in SPOILT {
        let t = Temporary::new();
        let mut sink = Folder::new(t.dump()).unwrap();
        sink.open(5, &e).unwrap();
        keep(&mut sink, &bytes[..4000]);
        let manifest = sink.manifest_path().to_owned();
        drop(sink);
        spoil(&t.dump().join("A.part"));
        let mut sink = Folder::resume(&manifest).unwrap();
        let said = lost(sink.reopen(5, &e, 4000));
        assert!(said.contains(why), "{said}");
        assert!(matches!(&read_manifest(&manifest).unwrap()[0].state, State::Lost(told) if *told == said));
        assert!(lost(sink.reopen(5, &e, 4000)).contains(why));
        sink.open(5, &e).unwrap();
        keep(&mut sink, &bytes);
        sink.close(5).unwrap();
        assert!(t.read("A~2") == bytes);
    }
}

/// What a driver may have wrong: regions that the manifest does not have, has otherwise, or has whole.
#[test]
fn wrong_regions() {
    let (e, bytes) = (entry(b"A", 0, 90), [7; 90]);
    let t = Temporary::new();
    let mut sink = Folder::new(t.dump()).unwrap();
    assert!(lost(sink.reopen(5, &e, 0)).contains("no region at place 5"));
    assert!(matches!(sink.close(5), Err(Unkept::Again(_))));
    sink.open(5, &e).unwrap();
    keep(&mut sink, &bytes[..50]);
    let manifest = sink.manifest_path().to_owned();
    drop(sink);
    let mut sink = Folder::resume(&manifest).unwrap();
    for (other, taken) in [(entry(b"B", 0, 90), 50), (entry(b"A", 1, 90), 50), (entry(b"A", 0, 91), 50), (e, 91)] {
        assert!(matches!(sink.reopen(5, &other, taken), Err(Unkept::Again(e)) if e.kind() == ErrorKind::InvalidInput));
    }
    assert_eq!(sink.regions()[0].state, State::Part);
    sink.reopen(5, &e, 50).unwrap();
    assert!(matches!(sink.close(6), Err(Unkept::Again(_))));
    keep(&mut sink, &bytes[50..]);
    sink.close(5).unwrap();
    // closed twice, also by a process that did not hear of it
    sink.close(5).unwrap();
    drop(sink);
    let mut sink = Folder::resume(&manifest).unwrap();
    sink.reopen(5, &e, 90).unwrap();
    sink.close(5).unwrap();
    // whole, where a driver was saved before it was: it comes again, and the whole one stays
    assert!(lost(sink.reopen(5, &e, 60)).contains("is whole"));
    sink.open(5, &e).unwrap();
    keep(&mut sink, &bytes);
    sink.close(5).unwrap();
    let states: Vec<_> = sink.regions().iter().map(|k| (k.file.as_str(), &k.state)).collect();
    assert_eq!(states, [("A", &State::Whole), ("A~2", &State::Whole)]);
    // whole, and gone meanwhile
    fs::remove_file(t.dump().join("A~2")).unwrap();
    assert!(lost(sink.reopen(5, &e, 90)).contains("not there any more"));
    lost(sink.close(5));
}

/// Manifests that are none.
#[test]
fn wrong_manifests() {
    let t = Temporary::new();
    let sink = Folder::new(t.dump()).unwrap();
    let good = fs::read_to_string(sink.manifest_path()).unwrap();
    let path = t.dump().join("manifest~9.tsv");
    assert_eq!(Folder::resume(&path).unwrap_err().kind(), ErrorKind::NotFound);
    for bad in [
        "",
        "\n",
        "x",
        &good.replace("manifest-1", "manifest-2"),
        good.trim_end(),
        &format!("{good}0\tA\n"),
        &format!("{good}\n"),
    ] {
        fs::write(&path, bad).unwrap();
        assert_eq!(Folder::resume(&path).unwrap_err().kind(), ErrorKind::InvalidData, "{bad}");
        assert_eq!(fs::read_to_string(&path).unwrap(), bad);
    }
    fs::remove_file(&path).unwrap();
    symlink(sink.manifest_path(), &path).unwrap();
    assert_eq!(Folder::resume(&path).unwrap_err().kind(), ErrorKind::InvalidInput);
    fs::remove_file(&path).unwrap();
    // a file outside the folder
    fs::write(t.0.join("x.part"), b"outside").unwrap();
    fs::write(&path, format!("{good}0\t%2E.%2Fx\t../x.part\t0x0000000000000000\t7\t0\tpart\t-\t-\n")).unwrap();
    assert_eq!(Folder::resume(&path).unwrap_err().kind(), ErrorKind::InvalidData);
}

/// A disk that is really full: the run stops, nothing is called whole that is not, and with room it goes on to its end.
/// It is mounted for a child of this test, which is this test again.
#[test]
fn full_disk() {
    const ON: &str = "WORGESLI_TEST_FULL_DISK";
    if let Ok(folder) = std::env::var(ON) {
        return Width::BOTH.into_iter().for_each(|width| on_a_full_disk(width, folder.as_ref()));
    }
    let t = Temporary::new();
    let script = "mount -t tmpfs -o size=400k,mode=700 none \"$0\" || exit 99; exec \"$1\" --exact files::full_disk --nocapture";
    let ran = Command::new("unshare")
        .args(["-rm", "sh", "-c", script])
        .args([t.0.as_os_str(), std::env::current_exe().unwrap().as_os_str()])
        .env(ON, &t.0)
        .output();
    match ran {
        Ok(out) if out.status.success() => {
            assert_eq!(String::from_utf8_lossy(&out.stdout).matches("the disk was full").count(), 2, "{out:?}")
        }
        Ok(out) if out.status.code() == Some(101) => panic!("{}", String::from_utf8_lossy(&out.stdout)),
        _ => not_run("no small disk can be mounted here", "a fetch onto a disk that is really full"),
    }
}

fn on_a_full_disk(width: Width, folder: &Path) {
    let ballast = folder.join("ballast");
    fs::write(&ballast, vec![0; 200_000]).unwrap();
    let regions = [Region::new("A.BIN", 0, 100_000), Region::new("B.BIN", 1 << 20, 150_000), Region::new("C.BIN", 5, 5)];
    let (memory, mut wire, mut driver) = start(width, &regions, Faults::default());
    let mut sink = Folder::new(folder.join("dump")).unwrap();
    for _ in 0..3 {
        match driver.run(&mut wire, &mut sink, |_| ()) {
            Err(Error::Sink(e)) => assert_eq!(e.kind(), ErrorKind::StorageFull),
            end => panic!("{end:?}"),
        }
    }
    assert!(folder.join("dump/B.BIN.part").exists() && !folder.join("dump/B.BIN").exists());
    let whole = |k: &Kept| k.state == State::Whole;
    let told = read_manifest(sink.manifest_path()).unwrap();
    assert!(told.iter().map(whole).eq([true, false]));
    println!("the disk was full");
    fs::remove_file(ballast).unwrap();
    assert_eq!(driver.run(&mut wire, &mut sink, |_| ()).unwrap(), Outcome::Dumped { reads: 1 + 25 + 37 + 1 });
    for (kept, r) in read_manifest(sink.manifest_path()).unwrap().iter().zip(&regions) {
        assert!(whole(kept) && fs::read(sink.path().join(&kept.file)).unwrap() == memory.bytes(r.base, r.len as usize));
    }
    assert_eq!(sink.regions().len(), 3);
    fs::remove_dir_all(folder.join("dump")).unwrap();
}
