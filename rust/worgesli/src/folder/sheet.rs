//! The region sheet beside the regions: the table that came, for people.
//!
//! It is written as the manifest is. What has its name already stays, and it gets another; but where that is a file of just this text, as a process before left
//! it, a new one takes its place, so that the name is there at every moment: whether the one before reached the disk is not known, and only a sync behind a new
//! rename tells.
use super::{saying, Folder};
use crate::disk::read_full;
use std::ffi::{OsStr, OsString};
use std::io::{self, ErrorKind};
use std::os::unix::ffi::OsStrExt;
use std::path::{Path, PathBuf};

impl Folder {
    pub(super) fn keep_sheet(&mut self, text: &str) -> io::Result<()> {
        let kept = match self.sheet.take() {
            // told again: this process has synced it
            Some(path) if self.has_text(&path, text)? => path,
            _ => self.write_new(text, || self.free_sheet(text)).map_err(saying("the region sheet could not be written"))?,
        };
        self.sheet = Some(kept);
        Ok(())
    }

    /// The first of the sheet's names that nothing has, or a file of this text.
    fn free_sheet(&self, text: &str) -> io::Result<PathBuf> {
        for n in 1u64.. {
            let path = self.sheet_name(n);
            if self.disk.look(&path)?.is_none() || self.has_text(&path, text)? {
                return Ok(path);
            }
        }
        Err(ErrorKind::AlreadyExists.into())
    }

    /// By the manifest's number, or its name where that has none, cut where the sheet's would be too long: with a `~` and more than a number behind it, which no
    /// region's file has.
    fn sheet_name(&self, n: u64) -> PathBuf {
        let manifest = self.manifest.file_name().unwrap_or_default();
        let number = manifest.to_str().and_then(|m| m.strip_prefix("manifest~")?.strip_suffix(".tsv"));
        let number = number.filter(|n| n.bytes().all(|b| b.is_ascii_digit()));
        let mut name = OsString::from("regions~");
        name.push(number.map_or(OsStr::from_bytes(&manifest.as_bytes()[..manifest.len().min(200)]), OsStr::new));
        if n > 1 {
            name.push(format!("~{n}"));
        }
        name.push(".txt");
        self.path.join(name)
    }

    /// Whether a plain file with just this text is there. One that cannot be read is another.
    fn has_text(&self, path: &Path, text: &str) -> io::Result<bool> {
        if !self.disk.look(path)?.is_some_and(|m| m.is_file() && m.len() == text.len() as u64) {
            return Ok(false);
        }
        let mut bytes = vec![0; text.len()];
        match self.disk.open_to_read(path).and_then(|file| read_full(&*self.disk, &file, &mut bytes)) {
            Err(e) if e.kind() == ErrorKind::Interrupted => Err(e),
            read => Ok(read.is_ok_and(|n| bytes[..n] == *text.as_bytes())),
        }
    }
}
