//! How another process goes on.
use super::close::{unkept, Stage};
use super::{Current, Folder};
use crate::disk::{read_full, write_all, Disk, System};
use crate::escape::PART;
use crate::manifest::{read_manifest, Kept, State};
use crate::sha256::Sha256;
use crate::{Entry, Unkept};
use std::fs::File;
use std::io::{self, ErrorKind};
use std::path::Path;
use std::sync::Arc;

impl Folder {
    /// Goes on with the regions of a [manifest](Folder::manifest_path), where another process left them. A limit, and that digests or a sheet
    /// are not wanted, is to be said anew. No other process may be at it any more.
    pub fn resume(manifest: impl AsRef<Path>) -> io::Result<Folder> {
        Folder::resume_on(Arc::new(System), manifest.as_ref())
    }

    pub(super) fn resume_on(disk: Arc<dyn Disk>, manifest: &Path) -> io::Result<Folder> {
        if !disk.look(manifest)?.ok_or(ErrorKind::NotFound)?.is_file() {
            return Err(io::Error::new(ErrorKind::InvalidInput, "the manifest is no plain file"));
        }
        let folder = match manifest.parent() {
            Some(folder) if !folder.as_os_str().is_empty() => folder,
            _ => Path::new("."),
        };
        let mut folder = Folder::with(disk, folder, manifest.into(), read_manifest(manifest)?)?;
        // what it says may not have reached the disk
        folder.save()?;
        folder.close_named()?;
        Ok(folder)
    }

    /// Closes what has its final name already: the process died before the manifest said `whole`.
    fn close_named(&mut self) -> io::Result<()> {
        for line in 0..self.regions.len() {
            let kept = &self.regions[line];
            let (place, len) = (kept.place, kept.len);
            if kept.state != State::Part || !self.is_named(kept)? {
                continue;
            }
            match self.reopen_part(line, len).and_then(|()| self.make_whole(place)) {
                Err(Unkept::Again(e)) => return Err(e),
                // then the manifest says so
                Ok(()) | Err(Unkept::Lost(_)) => {}
            }
        }
        Ok(())
    }

    /// Whether a region that was begun has its final name: its close was begun, and its file is all there. An empty `.part` may stand
    /// beside it, where the process died in `give_back_part`.
    fn is_named(&self, kept: &Kept) -> io::Result<bool> {
        let part = self.disk.look(&self.at(&format!("{}{PART}", kept.whole_name())))?;
        let whole = self.disk.look(&self.at(kept.whole_name()))?;
        let claim = part.is_none_or(|m| m.is_file() && m.len() == 0);
        Ok(claim && kept.bytes == kept.len && whole.is_some_and(|m| m.is_file() && m.len() == kept.len))
    }

    pub(super) fn go_on(&mut self, place: usize, entry: &Entry, taken: u64) -> Result<(), Unkept> {
        let Some(line) = self.regions.iter().rposition(|k| k.place == place) else {
            return Err(unkept(ErrorKind::NotFound, format!("the manifest has no region at place {place}")));
        };
        let kept = &self.regions[line];
        if !kept.is_of(place, entry) || taken > kept.len {
            let why = format!("the manifest has another region at place {place}, or a shorter one");
            return Err(io::Error::new(ErrorKind::InvalidInput, why).into());
        }
        match &kept.state {
            State::Lost(why) => Err(unkept(ErrorKind::NotFound, format!("{} was lost: {why}", kept.file))),
            State::Whole if taken == kept.len => self.still_whole(line),
            State::Whole => {
                Err(unkept(ErrorKind::NotFound, format!("{} is whole; the region comes again into another file", kept.file)))
            }
            State::Part => self.reopen_part(line, taken),
        }
    }

    /// A region was closed, and who closed it did not live to hear of it.
    fn still_whole(&mut self, line: usize) -> Result<(), Unkept> {
        let kept = &self.regions[line];
        let found = self.disk.look(&self.at(&kept.file))?;
        if found.is_some_and(|m| m.is_file() && m.len() == kept.len) {
            return Ok(());
        }
        Err(self.lost_line(line, format!("{} is not there any more with its {} bytes", kept.file, kept.len)))
    }

    fn reopen_part(&mut self, line: usize, taken: u64) -> Result<(), Unkept> {
        self.part_name()?;
        if self.current.as_ref().is_some_and(|c| c.line != line) {
            self.let_go("given up before it was whole");
        }
        self.current = None;
        if self.is_named(&self.regions[line])? {
            self.give_back_part(line)?;
        }
        let file = self.open_part(line, taken)?;
        let hash = self.read_again(line, &file, taken)?;
        let hash = self.digests.then_some(hash);
        self.current = Some(Current { line, file, written: taken, hash, adrift: true, stage: Stage::Taking });
        // the manifest before the cut: it never speaks of bytes that are not there
        let done = self.save().and_then(|()| self.cut(taken));
        if done.is_err() {
            self.current = None;
        }
        Ok(done?)
    }

    fn cut(&self, taken: u64) -> io::Result<()> {
        self.current.as_ref().map_or(Ok(()), |c| self.disk.cut(&c.file, taken))
    }

    /// The file of a region that was begun: a plain file that has what was taken.
    fn open_part(&mut self, line: usize, taken: u64) -> Result<File, Unkept> {
        let kept = &self.regions[line];
        let name = format!("{}{PART}", kept.whole_name());
        let least = taken.max(kept.bytes);
        let why = match self.disk.look(&self.at(&name))? {
            None => format!("{name} is not there"),
            Some(m) if !m.is_file() => format!("{name} is no plain file"),
            Some(m) if m.len() < least => format!("{name} has {} bytes, and {least} were taken", m.len()),
            Some(_) => {
                let file = self.disk.open(&self.at(&name))?;
                self.regions[line].file = name;
                return Ok(file);
            }
        };
        Err(self.lost_line(line, why))
    }

    /// Reads the bytes that were taken, and holds those to the manifest's digest of which it has one. They are written again where they
    /// are: so the next sync speaks for all of them, also where one before it failed and the process died of it.
    fn read_again(&mut self, line: usize, file: &File, taken: u64) -> Result<Sha256, Unkept> {
        let Kept { bytes, sha256, .. } = self.regions[line];
        let mut hash = Sha256::new();
        let mut at = 0;
        let mut of_taken = hash.clone();
        for mark in [taken.min(bytes), taken.max(bytes)] {
            if !self.rewrite(file, at, mark, &mut hash)? {
                return Err(self.lost_line(line, "its bytes cannot be read again".into()));
            }
            at = mark;
            if mark == bytes && sha256.is_some_and(|d| d != hash.clone().finish()) {
                return Err(self.lost_line(line, "its bytes are not those that were written".into()));
            }
            if mark == taken {
                of_taken = hash.clone();
            }
        }
        Ok(of_taken)
    }

    /// Reads a stretch and writes it again; gives whether it could be read. What is interrupted begins anew.
    fn rewrite(&self, file: &File, mut at: u64, to: u64, hash: &mut Sha256) -> io::Result<bool> {
        let mut buffer = vec![0; 65_536];
        while at < to {
            let n = (to - at).min(buffer.len() as u64) as usize;
            let part = &mut buffer[..n];
            self.disk.seek(file, at)?;
            match read_full(&*self.disk, file, part) {
                Err(e) if e.kind() == ErrorKind::Interrupted => return Err(e),
                Ok(read) if read == n => hash.update(part),
                _ => return Ok(false),
            }
            self.disk.seek(file, at)?;
            write_all(&*self.disk, file, part)?;
            at += n as u64;
        }
        Ok(true)
    }

    fn lost_line(&mut self, line: usize, why: String) -> Unkept {
        self.lose(line, &why);
        let _ = self.save();
        unkept(ErrorKind::InvalidData, why)
    }
}
