//! A disk whose calls fail as they are told, and that knows what of a folder would be there after the power went.
//!
//! The files are real, syncs are not made. As with Linux, what a failed sync was to write counts as written: the next sync does not write
//! it again.
use crate::disk::{Disk, System};
use device::Rng;
use std::collections::{BTreeMap, BTreeSet, HashMap};
use std::fs::{self, File, Metadata};
use std::io::{self, Seek};
use std::ops::Range;
use std::os::unix::fs::MetadataExt;
use std::path::{Path, PathBuf};
use std::sync::{Arc, Mutex, MutexGuard};

/// So many calls fail, from one on, with an error's number; with effect, they did their work all the same.
#[derive(Clone, Copy, Debug)]
pub struct Fault {
    pub from: u64,
    pub times: u64,
    pub error: i32,
    pub effect: bool,
}

/// What is there after the power went, of what was not synced.
#[derive(Clone, Copy, Debug, PartialEq, Eq)]
pub enum Survives {
    Synced,
    All,
    Names,
    Bytes,
    /// each name and each stretch of bytes, or not
    Some,
}

#[derive(Clone, Debug, Default)]
struct Content {
    now: Vec<u8>,
    synced: Vec<u8>,
    dirty: Vec<Range<usize>>,
}

impl Content {
    fn write(&mut self, at: usize, bytes: &[u8]) {
        let end = at + bytes.len();
        self.now.resize(self.now.len().max(end), 0);
        self.now[at..end].copy_from_slice(bytes);
        self.dirty.push(at..end);
    }

    /// The synced bytes with these stretches written too.
    fn with(&self, dirty: &[Range<usize>]) -> Vec<u8> {
        let mut bytes = self.synced.clone();
        bytes.resize(self.now.len(), 0);
        for r in dirty.iter().filter(|r| r.end <= self.now.len()) {
            bytes[r.clone()].copy_from_slice(&self.now[r.clone()]);
        }
        bytes
    }
}

type Names = BTreeMap<PathBuf, usize>;

#[derive(Clone, Debug, Default)]
struct Model {
    folder: PathBuf,
    calls: u64,
    fault: Option<Fault>,
    /// the next call of a kind fails
    next: Option<(&'static str, i32)>,
    dies: Option<u64>,
    failed: Vec<&'static str>,
    /// inode to file
    inodes: HashMap<u64, usize>,
    files: Vec<Content>,
    names: Names,
    synced: Names,
    /// names that changed since the folder was synced
    changed: BTreeSet<PathBuf>,
    /// inodes of folders that were synced
    folders: BTreeSet<u64>,
}

#[derive(Debug)]
pub struct Shaky(Mutex<Model>);

fn name(path: &Path) -> PathBuf {
    path.file_name().unwrap().into()
}

impl Model {
    fn content(&mut self, file: &File) -> &mut Content {
        let inode = file.metadata().unwrap().ino();
        &mut self.files[self.inodes[&inode]]
    }

    fn add(&mut self, path: &Path, inode: u64, content: Content) {
        self.inodes.insert(inode, self.files.len());
        self.names.insert(name(path), self.files.len());
        self.changed.insert(name(path));
        self.files.push(content);
    }

    fn sync(&mut self, file: &File, well: bool) {
        let m = file.metadata().unwrap();
        if m.is_dir() {
            if well {
                self.folders.insert(m.ino());
            }
            // those above the folder have no names here
            if fs::metadata(&self.folder).is_ok_and(|f| f.ino() == m.ino()) {
                for n in std::mem::take(&mut self.changed).into_iter().filter(|_| well) {
                    match self.names.get(&n) {
                        Some(id) => self.synced.insert(n, *id),
                        None => self.synced.remove(&n),
                    };
                }
            }
            return;
        }
        let content = self.content(file);
        if well {
            content.synced = content.with(&content.dirty);
        }
        content.dirty.clear();
    }
}

impl Shaky {
    /// Over a folder; what is in it is on the disk.
    pub fn new(folder: &Path, fault: Option<Fault>) -> Arc<Shaky> {
        let mut model = Model { folder: folder.into(), fault, ..Model::default() };
        for file in fs::read_dir(folder).into_iter().flatten() {
            let file = file.unwrap();
            let bytes = fs::read(file.path()).unwrap();
            let content = Content { now: bytes.clone(), synced: bytes, dirty: Vec::new() };
            model.add(&file.path(), file.metadata().unwrap().ino(), content);
        }
        model.synced = model.names.clone();
        model.changed.clear();
        Arc::new(Shaky(Mutex::new(model)))
    }

    /// The same disk over another, empty folder, which gets the files.
    pub fn copy(&self, to: &Path) -> Arc<Shaky> {
        let mut model = self.model().clone();
        model.inodes.clear();
        for (name, id) in &model.names {
            fs::copy(model.folder.join(name), to.join(name)).unwrap();
            model.inodes.insert(fs::metadata(to.join(name)).unwrap().ino(), *id);
        }
        model.folder = to.into();
        Arc::new(Shaky(Mutex::new(model)))
    }

    fn model(&self) -> MutexGuard<'_, Model> {
        self.0.lock().unwrap()
    }

    /// After so many calls none does anything any more.
    pub fn die_after(&self, calls: u64) {
        self.model().dies = Some(calls);
    }

    /// Calls do their work again, but for those of a fault, counted from now on.
    pub fn live(&self, fault: Option<Fault>) {
        let mut model = self.model();
        (model.calls, model.dies, model.fault) = (0, None, fault);
    }

    /// The next call of a kind fails, without effect.
    pub fn fail_next(&self, kind: &'static str, error: i32) {
        self.model().next = Some((kind, error));
    }

    pub fn synced_folder(&self, path: &Path) -> bool {
        self.model().folders.contains(&fs::metadata(path).unwrap().ino())
    }

    /// Calls so far.
    pub fn calls(&self) -> u64 {
        self.model().calls
    }

    /// The calls that failed.
    pub fn failed(&self) -> Vec<&'static str> {
        self.model().failed.clone()
    }

    fn alive(&self) -> bool {
        let model = self.model();
        model.dies.is_none_or(|end| model.calls <= end)
    }

    fn call<T>(&self, kind: &'static str, work: impl FnOnce(&mut Model) -> io::Result<T>) -> io::Result<T> {
        let mut model = self.model();
        let n = model.calls;
        model.calls += 1;
        if model.dies.is_some_and(|end| n >= end) {
            return Err(io::Error::other("the process died"));
        }
        if let Some((_, error)) = model.next.take_if(|next| next.0 == kind) {
            model.failed.push(kind);
            return Err(io::Error::from_raw_os_error(error));
        }
        match model.fault {
            Some(f) if (f.from..f.from + f.times).contains(&n) => {
                model.failed.push(kind);
                if f.effect {
                    let _ = work(&mut model);
                }
                Err(io::Error::from_raw_os_error(f.error))
            }
            _ => work(&mut model),
        }
    }

    /// Writes to another folder what is there after the power went.
    pub fn image(&self, to: &Path, survives: Survives, rng: &mut Rng) {
        let model = self.model();
        let mut names =
            if matches!(survives, Survives::All | Survives::Names) { model.names.clone() } else { model.synced.clone() };
        if survives == Survives::Some {
            for n in model.changed.iter().filter(|_| rng.chance(512)) {
                match model.names.get(n) {
                    Some(id) => names.insert(n.clone(), *id),
                    None => names.remove(n),
                };
            }
        }
        for (n, id) in names {
            let content = &model.files[id];
            let bytes = match survives {
                Survives::All | Survives::Bytes => content.now.clone(),
                Survives::Some => {
                    let dirty: Vec<_> = content.dirty.iter().filter(|_| rng.chance(512)).cloned().collect();
                    content.with(&dirty)
                }
                _ => content.synced.clone(),
            };
            fs::write(to.join(n), bytes).unwrap();
        }
    }
}

impl Disk for Shaky {
    fn make_folder(&self, path: &Path) -> io::Result<()> {
        self.call("make_folder", |_| System.make_folder(path))
    }
    fn remove_folder(&self, path: &Path) -> io::Result<()> {
        self.call("remove_folder", |_| System.remove_folder(path))
    }
    fn open_folder(&self, path: &Path) -> io::Result<File> {
        self.call("open_folder", |_| System.open_folder(path))
    }
    fn create(&self, path: &Path) -> io::Result<File> {
        self.call("create", |model| {
            let file = System.create(path)?;
            model.add(path, file.metadata()?.ino(), Content::default());
            Ok(file)
        })
    }
    fn open(&self, path: &Path) -> io::Result<File> {
        self.call("open", |_| System.open(path))
    }
    fn open_to_read(&self, path: &Path) -> io::Result<File> {
        self.call("open_to_read", |_| System.open_to_read(path))
    }
    fn look(&self, path: &Path) -> io::Result<Option<Metadata>> {
        self.call("look", |_| System.look(path))
    }
    fn read(&self, file: &File, to: &mut [u8]) -> io::Result<usize> {
        self.call("read", |_| System.read(file, to))
    }
    fn write(&self, mut file: &File, bytes: &[u8]) -> io::Result<usize> {
        self.call("write", |model| {
            let at = file.stream_position()? as usize;
            // a part only, where there is more than a little
            let n = System.write(file, &bytes[..bytes.len().min(600)])?;
            model.content(file).write(at, &bytes[..n]);
            Ok(n)
        })
    }
    fn seek(&self, file: &File, at: u64) -> io::Result<()> {
        self.call("seek", |_| System.seek(file, at))
    }
    fn cut(&self, file: &File, len: u64) -> io::Result<()> {
        self.call("cut", |model| {
            model.content(file).now.truncate(len as usize);
            System.cut(file, len)
        })
    }
    fn sync(&self, file: &File) -> io::Result<()> {
        let mut well = false;
        let synced = self.call("sync", |model| {
            model.sync(file, true);
            well = true;
            Ok(())
        });
        if synced.is_err() && !well && self.alive() {
            self.model().sync(file, false);
        }
        synced
    }
    fn rename(&self, from: &Path, to: &Path) -> io::Result<()> {
        self.call("rename", |model| {
            System.rename(from, to)?;
            let id = model.names.remove(&name(from)).unwrap();
            model.names.insert(name(to), id);
            model.changed.extend([name(from), name(to)]);
            Ok(())
        })
    }
    fn remove(&self, path: &Path) -> io::Result<()> {
        self.call("remove", |model| {
            System.remove(path)?;
            model.names.remove(&name(path));
            model.changed.insert(name(path));
            Ok(())
        })
    }
}
