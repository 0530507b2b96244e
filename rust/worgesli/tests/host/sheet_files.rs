//! The region sheet as a file beside the regions.
use crate::files::{fetch, start, Temporary, HOSTILE};
use device::{Device, Division, Faults, Memory, Region, Width, Wire};
use std::ffi::OsStr;
use std::fs;
use std::os::unix::ffi::OsStrExt;
use std::os::unix::fs::{symlink, MetadataExt};
use std::path::Path;
use worgesli::{unescape, Backend, Error, Folder, Mode, Options, Outcome, Phase};

fn lines(regions: &[Region]) -> String {
    regions.iter().map(Region::line).collect()
}

/// Fetched or not, sound names or not.
fn regions(width: Width) -> Vec<Region> {
    let mut regions = vec![Region::new("DDR.BIN", 0, 5000), Region::new("TOP.BIN", width.end_less(9), 9)];
    regions.extend(HOSTILE.iter().zip(7..).map(|(name, n)| Region::new(name, n, n).unpreferred()));
    // what would end the session, were it chosen
    regions.push(Region { filename: [0x9b; 20], ..Region::new("", 1, 2).unpreferred() });
    regions
}

/// What the sheet says is the table, and where it is, of a fetch with each division.
#[test]
fn beside_the_regions() {
    for width in Width::BOTH {
        let due = lines(&regions(width));
        for division in [Division::Whole, Division::AtMost(1), Division::AtMost(51), Division::Random] {
            let t = Temporary::new();
            let memory = Memory::of(width, 8, width.half(), &regions(width));
            let mut wire = Wire::new(Device::dump(memory), division, 8);
            let mut sink = Folder::new(t.dump()).unwrap();
            assert_eq!((sink.sheet_path(), t.names()), (None, vec!["manifest~1.tsv".to_owned()]));
            let mut run = Options::new(Backend::Usb, Mode::MemoryDebug).start().unwrap();
            // it is there before the first region is
            while run.session().phase() != Phase::Between {
                assert_eq!(sink.sheet_path(), None);
                run.step(&mut wire, &mut sink, |_| ()).unwrap();
            }
            assert_eq!(t.names(), ["manifest~1.tsv", "regions~1.txt"]);
            assert_eq!(run.run(&mut wire, &mut sink, |_| ()).unwrap(), Outcome::Dumped { reads: 4 });
            assert_eq!(sink.sheet_path(), Some(&*t.dump().join("regions~1.txt")));
            assert_eq!(String::from_utf8(t.read("regions~1.txt")).unwrap(), due);
            assert_eq!(t.names(), ["DDR.BIN", "TOP.BIN", "manifest~1.tsv", "regions~1.txt"]);
            assert!(format!("{sink:?}").contains("regions~1.txt"));
        }
    }
}

/// Not where it is not wanted, and not where no table came.
#[test]
fn none() {
    for width in Width::BOTH {
        let t = Temporary::new();
        let mut sink = Folder::new(t.dump()).unwrap().sheet(false);
        fetch(width, &[Region::new("A", 0, 9)], &mut sink).1.unwrap();
        assert_eq!((sink.sheet_path(), t.names()), (None, ["A", "manifest~1.tsv"].map(String::from).to_vec()));
        // wanted after all
        let mut sink = sink.sheet(true);
        fetch(width, &[Region::new("A", 0, 9)], &mut sink).1.unwrap();
        assert_eq!(t.read("regions~1.txt"), lines(&[Region::new("A", 0, 9)]).as_bytes());

        let t = Temporary::new();
        let table = (width.packet_len() + 48 + width.entry_len() - 1) as u64;
        let (_, mut wire, mut run) =
            start(width, &[Region::new("A", 0, 9)], Faults { ends_after: Some(table), ..Faults::default() });
        let mut sink = Folder::new(t.dump()).unwrap();
        assert!(matches!(run.run(&mut wire, &mut sink, |_| ()), Err(Error::NoBytes)));
        assert_eq!(run.close(&mut sink).unwrap().number(), 23);
        assert_eq!((sink.sheet_path(), t.names()), (None, vec!["manifest~1.tsv".to_owned()]));
    }
}

/// A table without an entry has an empty sheet: that there is none says that no table came.
#[test]
fn empty() {
    for (len, width) in Width::with_both([0, 51]) {
        let t = Temporary::new();
        let memory = Memory::with_table(1, width.half(), vec![5; len]).wide(width);
        let mut sink = Folder::new(t.dump()).unwrap();
        let mut run = Options::new(Backend::Usb, Mode::MemoryDebug).start().unwrap();
        run.run(&mut Wire::new(Device::dump(memory), Division::Random, 1), &mut sink, |_| ()).unwrap();
        assert_eq!(t.read("regions~1.txt"), b"");
        assert_eq!(sink.sheet_path(), Some(&*t.dump().join("regions~1.txt")));
    }
}

/// What a name may be taken by: a file, a folder, a link to nothing, and links to a file, which has the sheet's own text too.
#[derive(Clone, Copy, Debug, PartialEq)]
enum Taken {
    File,
    Folder,
    Nowhere,
    Link,
    SameText,
}

impl Taken {
    fn text(self, sheet: &str) -> &[u8] {
        if self == Taken::SameText {
            sheet.as_bytes()
        } else {
            b"before"
        }
    }

    fn make(self, path: &Path, other: &Path, sheet: &str) {
        match self {
            Taken::File => fs::write(path, self.text(sheet)).unwrap(),
            Taken::Folder => fs::create_dir(path).unwrap(),
            Taken::Nowhere => symlink(other, path).unwrap(),
            _ => {
                fs::write(other, self.text(sheet)).unwrap();
                symlink(other, path).unwrap();
            }
        }
    }

    fn still(self, path: &Path, other: &Path, sheet: &str) {
        let is = fs::symlink_metadata(path).unwrap();
        assert_eq!((is.is_file(), is.is_dir()), (self == Taken::File, self == Taken::Folder));
        match self {
            Taken::Folder | Taken::Nowhere => assert!(!other.exists()),
            _ => assert_eq!(fs::read(path).unwrap(), self.text(sheet)),
        }
    }
}

/// No file, folder or link that has its name is touched: before the folder was opened, and when it was.
#[test]
fn names_that_are_taken() {
    let regions = [Region::new("DDR.BIN", 0, 900), Region::new("E.BIN", 0, 5).unpreferred()];
    let sheet = lines(&regions);
    for (by, width) in Width::with_both([Taken::File, Taken::Folder, Taken::Nowhere, Taken::Link, Taken::SameText]) {
        for (before, names, due) in [
            (true, &["regions~1.txt"][..], "regions~2.txt"),
            (false, &["regions~1.txt"], "regions~1~2.txt"),
            (false, &["regions~1.txt", "regions~1~2.txt", "regions~1~4.txt"], "regions~1~3.txt"),
            (false, &["regions~1.txt.new", "regions~2.txt"], "regions~1.txt"),
        ] {
            let t = Temporary::new();
            let other = |name: &str| t.0.join(format!("other-{name}"));
            let take_all = || names.iter().for_each(|name| by.make(&t.dump().join(name), &other(name), &sheet));
            fs::create_dir(t.dump()).unwrap();
            if before {
                take_all();
            }
            let mut sink = Folder::new(t.dump()).unwrap();
            if !before {
                take_all();
            }
            fetch(width, &regions, &mut sink).1.unwrap();
            assert_eq!(sink.sheet_path(), Some(&*t.dump().join(due)), "{names:?} {by:?}");
            assert_eq!(t.read(due), sheet.as_bytes());
            names.iter().for_each(|name| by.still(&t.dump().join(name), &other(name), &sheet));
            assert_eq!(t.names().len(), names.len() + 3, "{:?}", t.names());
        }
    }
}

/// The same table again, by the same sink: its file stays as it is. Another table has another file. One that was taken away, or changed, is written anew.
#[test]
fn told_again() {
    for width in Width::BOTH {
        let t = Temporary::new();
        let (one, other) = ([Region::new("A", 0, 9)], [Region::new("B", 0, 9), Region::new("C", 0, 8)]);
        let mut sink = Folder::new(t.dump()).unwrap();
        let mut inodes = Vec::new();
        let path = |name: &str| t.dump().join(name);
        for (regions, due, spoil) in [
            (&one[..], "regions~1.txt", ""),
            (&one, "regions~1.txt", ""),
            (&other, "regions~1~2.txt", ""),
            (&one, "regions~1.txt", ""),
            (&one, "regions~1.txt", "gone"),
            (&one, "regions~1~3.txt", "changed"),
            (&other, "regions~1~2.txt", ""),
        ] {
            match spoil {
                "gone" => fs::remove_file(path("regions~1.txt")).unwrap(),
                "changed" => fs::write(path("regions~1.txt"), lines(&one).to_lowercase()).unwrap(),
                _ => {}
            }
            fetch(width, regions, &mut sink).1.unwrap();
            assert_eq!(sink.sheet_path(), Some(&*path(due)));
            assert_eq!(t.read(due), lines(regions).as_bytes());
            inodes.push(fs::metadata(path(due)).unwrap().ino());
        }
        assert_eq!(inodes[0], inodes[1]);
        assert_eq!(t.read("regions~1.txt"), lines(&one).to_lowercase().as_bytes());
        assert_eq!(t.names().iter().filter(|n| n.starts_with("regions~")).count(), 3, "{:?}", t.names());
    }
}

/// A run that goes on into another folder, where the first would not take it, has the sheet there too.
#[test]
fn another_folder() {
    for width in Width::BOTH {
        let (t, other) = (Temporary::new(), Temporary::new());
        let regions = [Region::new("A", 0, 9000)];
        let (_, mut wire, mut run) = start(width, &regions, Faults::default());
        let mut sink = Folder::new(t.dump()).unwrap().limit(100);
        assert!(matches!(run.run(&mut wire, &mut sink, |_| ()), Err(Error::Sink(_))));
        assert_eq!(t.names(), ["manifest~1.tsv", "regions~1.txt"]);
        run.run(&mut wire, &mut Folder::new(other.dump()).unwrap(), |_| ()).unwrap();
        assert_eq!(other.names(), ["A", "manifest~1.tsv", "regions~1.txt"]);
        assert_eq!(other.read("regions~1.txt"), lines(&regions).as_bytes());
    }
}

/// A process that goes on has the sheet of the one before; the manifest may have got another name meanwhile.
#[test]
fn another_process() {
    let regions = [Region::new("A.BIN", 7, 9000), Region::new("B.BIN", 9, 9).unpreferred()];
    let long = [b'm'; 251];
    let cut = [&b"regions~"[..], &long[..200], b".txt"].concat();
    let names: [(&[u8], &[u8]); 8] = [
        (&long, &cut),
        (b"manifest~1.tsv", b"regions~1.txt"),
        (b"manifest~27.tsv", b"regions~27.txt"),
        (b"job 7.tsv", b"regions~job 7.tsv.txt"),
        (b"manifest~x.tsv", b"regions~manifest~x.tsv.txt"),
        (b"2.part", b"regions~2.part.txt"),
        (b"7", b"regions~7.txt"),
        (b"\xff\xfe", b"regions~\xff\xfe.txt"),
    ];
    for ((manifest, due), width) in Width::with_both(names) {
        let t = Temporary::new();
        let options = Options::new(Backend::Usb, Mode::MemoryDebug);
        let (_, mut wire, mut run) = start(width, &regions, Faults::default());
        let mut sink = Folder::new(t.dump()).unwrap();
        while run.session().raw().done == 0 {
            run.step(&mut wire, &mut sink, |_| ()).unwrap();
        }
        sink.checkpoint().unwrap();
        drop(sink);
        let manifest = t.dump().join(OsStr::from_bytes(manifest));
        fs::rename(t.dump().join("manifest~1.tsv"), &manifest).unwrap();
        let mut sink = Folder::resume(manifest).unwrap();
        assert_eq!(sink.sheet_path(), None);
        let mut run = options.restore(&run.save()).unwrap();
        assert_eq!(run.run(&mut wire, &mut sink, |_| ()).unwrap(), Outcome::Dumped { reads: 4 });
        let sheet = t.dump().join(OsStr::from_bytes(due));
        assert_eq!(sink.sheet_path(), Some(&*sheet));
        assert_eq!(fs::read_to_string(&sheet).unwrap(), lines(&regions));
        // one sheet, or that of the first process too; and no region can have its name
        let count = fs::read_dir(t.dump()).unwrap().count();
        assert_eq!(count, if due == b"regions~1.txt" { 3 } else { 4 });
        assert_eq!(sheet.to_str().map(|s| s.rsplit('/').next().unwrap()).and_then(unescape), None);
    }
}
