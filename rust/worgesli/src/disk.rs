//! What the sink of files asks of the system, in one place, so that tests can make any of these calls fail.
use std::fmt::Debug;
use std::fs::{self, DirBuilder, File, Metadata, OpenOptions};
use std::io::{self, ErrorKind, Read, Seek, SeekFrom, Write};
use std::os::unix::fs::{DirBuilderExt, OpenOptionsExt};
use std::path::Path;

pub(crate) trait Disk: Debug + Send + Sync {
    /// A new folder, for its owner alone.
    fn make_folder(&self, path: &Path) -> io::Result<()> {
        DirBuilder::new().mode(0o700).create(path)
    }

    fn remove_folder(&self, path: &Path) -> io::Result<()> {
        fs::remove_dir(path)
    }

    /// A folder, to be synced.
    fn open_folder(&self, path: &Path) -> io::Result<File> {
        File::open(path)
    }

    /// A new file, for its owner alone; never one that is there, and never through a link.
    fn create(&self, path: &Path) -> io::Result<File> {
        OpenOptions::new().write(true).create_new(true).mode(0o600).open(path)
    }

    /// A file that is there, for reading and writing.
    fn open(&self, path: &Path) -> io::Result<File> {
        OpenOptions::new().read(true).write(true).open(path)
    }

    /// A file that is there, for reading alone.
    fn open_to_read(&self, path: &Path) -> io::Result<File> {
        File::open(path)
    }

    /// What is at a path, if anything; a link is a link, wherever it leads.
    fn look(&self, path: &Path) -> io::Result<Option<Metadata>> {
        match fs::symlink_metadata(path) {
            Err(e) if e.kind() == ErrorKind::NotFound => Ok(None),
            found => found.map(Some),
        }
    }

    fn read(&self, mut file: &File, to: &mut [u8]) -> io::Result<usize> {
        file.read(to)
    }

    fn write(&self, mut file: &File, bytes: &[u8]) -> io::Result<usize> {
        file.write(bytes)
    }

    fn seek(&self, mut file: &File, at: u64) -> io::Result<()> {
        file.seek(SeekFrom::Start(at)).map(|_| ())
    }

    fn cut(&self, file: &File, len: u64) -> io::Result<()> {
        file.set_len(len)
    }

    /// Of a file, or of a folder.
    fn sync(&self, file: &File) -> io::Result<()> {
        file.sync_all()
    }

    fn rename(&self, from: &Path, to: &Path) -> io::Result<()> {
        fs::rename(from, to)
    }

    fn remove(&self, path: &Path) -> io::Result<()> {
        fs::remove_file(path)
    }
}

/// The system's own.
#[derive(Debug)]
pub(crate) struct System;

impl Disk for System {}

/// Writes all of the bytes. After an error, an interruption too, it is not known how many were written.
pub(crate) fn write_all(disk: &dyn Disk, file: &File, mut bytes: &[u8]) -> io::Result<()> {
    while !bytes.is_empty() {
        match disk.write(file, bytes) {
            Ok(0) => return Err(ErrorKind::WriteZero.into()),
            Ok(n) => bytes = bytes.get(n..).unwrap_or_default(),
            Err(e) => return Err(e),
        }
    }
    Ok(())
}

/// Reads until the buffer is full or the file ends.
pub(crate) fn read_full(disk: &dyn Disk, file: &File, to: &mut [u8]) -> io::Result<usize> {
    let mut n = 0;
    while n < to.len() {
        match disk.read(file, &mut to[n..]) {
            Ok(0) => break,
            Ok(more) => n += more,
            Err(e) => return Err(e),
        }
    }
    Ok(n)
}

/// A folder, made where it is not there, with all that is above it. The name of each that is made is synced.
pub(crate) fn make_folders(disk: &dyn Disk, path: &Path) -> io::Result<()> {
    let above = match path.parent() {
        Some(above) if above.as_os_str().is_empty() => Path::new("."),
        Some(above) => above,
        // the root, or no path at all
        None => return path.is_dir().then_some(()).ok_or(ErrorKind::NotFound.into()),
    };
    match disk.make_folder(path) {
        Err(e) if e.kind() == ErrorKind::AlreadyExists && path.is_dir() => return Ok(()),
        Err(e) if e.kind() == ErrorKind::NotFound && !above.exists() => {
            make_folders(disk, above)?;
            disk.make_folder(path)?;
        }
        made => made?,
    }
    disk.open_folder(above).and_then(|f| disk.sync(&f)).inspect_err(|_| {
        // else it would be taken for one that was there before
        let _ = disk.remove_folder(path);
    })
}
