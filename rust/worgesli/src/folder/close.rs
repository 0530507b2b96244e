//! How a region becomes whole.
//!
//! 1. The manifest gets the count and the digest of all bytes, so that another process that goes on from here knows what the file must be.
//! 2. The file is synced. Where that fails the region is lost: the system may count the bytes as written that it could not write.
//! 3. The file gets its final name.
//! 4. The folder is synced. Where that fails the file gets its `.part` back, and 3 is made anew: only a sync behind a new rename tells
//!    that the name is on the disk.
//! 5. The manifest says `whole`.
//!
//! What fails in 1, 3, 4 and 5 loses nothing, and is made again.
use super::{saying, Current, Folder};
use crate::escape::{escape, PART};
use crate::manifest::{Kept, State};
use crate::Unkept;
use std::fs::Metadata;
use std::io::{self, ErrorKind};
use std::os::unix::fs::MetadataExt;
use std::path::Path;

/// How far a region is.
#[derive(Clone, Copy, Debug, PartialEq, Eq)]
pub(super) enum Stage {
    Taking,
    /// 2 is done
    Synced,
    /// 3 is done
    Named,
    /// 4 is done
    Placed,
}

impl Folder {
    pub(super) fn make_whole(&mut self, place: usize) -> Result<(), Unkept> {
        while let Some(stage) = self.current.as_ref().filter(|c| self.regions[c.line].place == place).map(|c| c.stage) {
            match stage {
                Stage::Taking => self.sync_all_bytes()?,
                Stage::Synced => self.name()?,
                Stage::Named => self.place()?,
                Stage::Placed => self.settle(),
            }
        }
        self.closed(place)
    }

    /// What a region came to that is not open any more.
    fn closed(&mut self, place: usize) -> Result<(), Unkept> {
        match self.regions.iter().rfind(|k| k.place == place).map(|k| &k.state) {
            Some(State::Whole) if self.unsaved => Ok(self.save()?),
            Some(State::Whole) => Ok(()),
            Some(State::Lost(why)) => Err(unkept(ErrorKind::Other, why.clone())),
            _ => Err(Unkept::Again(io::Error::new(ErrorKind::InvalidInput, format!("no region at place {place} is open")))),
        }
    }

    fn sync_all_bytes(&mut self) -> Result<(), Unkept> {
        let unfit = self.open_region().and_then(|(c, kept)| match &kept.state {
            State::Lost(why) => Some(why.clone()),
            _ if c.written < kept.len => Some(format!("closed with {} of its {} bytes", c.written, kept.len)),
            _ => None,
        });
        if let Some(why) = unfit {
            return Err(self.lost(why));
        }
        self.save()?;
        if let Err(e) = self.sync_bytes() {
            self.let_go("the sync failed");
            let _ = self.save();
            return Err(e);
        }
        self.reach(Stage::Synced);
        Ok(())
    }

    /// Syncs what was written. A sync that failed is not made again: the next would say that all is well.
    pub(super) fn sync_bytes(&mut self) -> Result<(), Unkept> {
        let Some((c, kept)) = self.open_region() else { return Ok(()) };
        let (line, file) = (c.line, kept.file.clone());
        if let State::Lost(why) = &kept.state {
            return Err(unkept(ErrorKind::Other, why.clone()));
        }
        self.disk.sync(&c.file).map_err(|e| {
            let why = format!("the sync of {file} failed: {e}");
            self.lose(line, &why);
            unkept(e.kind(), why)
        })
    }

    /// Gives the file its final name.
    fn name(&mut self) -> Result<(), Unkept> {
        self.part_name()?;
        let Some((c, kept)) = self.open_region() else { return Ok(()) };
        let (line, whole_name) = (c.line, kept.whole_name().to_owned());
        let (part, whole) = (self.at(&kept.file), self.at(&whole_name));
        let fits = |m: &Metadata| m.is_file() && m.len() == kept.len;
        let ours = |m: &Metadata| c.file.metadata().is_ok_and(|f| (f.dev(), f.ino()) == (m.dev(), m.ino()));
        let (is, name) = (self.disk.look(&part)?, self.disk.look(&whole)?);
        match (is.as_ref().is_some_and(fits), name) {
            (true, None) => {
                self.disk.rename(&part, &whole).map_err(saying(&format!("{whole_name} could not get its final name")))?;
                self.called(line, whole_name);
                self.reach(Stage::Named);
                Ok(())
            }
            (true, Some(_)) => self.take_other_name(&part),
            // a rename that was made, though it said that it failed
            (false, Some(m)) if is.is_none() && fits(&m) && ours(&m) => {
                self.called(line, whole_name);
                self.name()
            }
            _ => Err(self.lost(format!("{} is not there any more with its {} bytes", kept.file, kept.len))),
        }
    }

    /// The final name was taken, by a program that does not keep to `.part`. The manifest first: so the other's file is never taken for ours.
    fn take_other_name(&mut self, part: &Path) -> Result<(), Unkept> {
        let Some((c, kept)) = self.open_region() else { return Ok(()) };
        let line = c.line;
        let (_, free) = self.claim(&escape(&kept.name))?;
        let before = std::mem::replace(&mut self.regions[line].file, free);
        if let Err(e) = self.save() {
            self.regions[line].file = before;
            return Err(e.into());
        }
        self.disk.rename(part, &self.at(&self.regions[line].file))?;
        self.name()
    }

    /// Syncs the final name.
    fn place(&mut self) -> Result<(), Unkept> {
        if let Err(e) = self.disk.sync(&self.held) {
            self.reach(Stage::Synced);
            // made again by the next call, where this fails
            let _ = self.part_name();
            return Err(saying("the sync of the folder failed")(e).into());
        }
        self.reach(Stage::Placed);
        Ok(())
    }

    /// The region is whole, and the manifest is to say so.
    fn settle(&mut self) {
        self.snapshot();
        if let Some(c) = self.current.take() {
            self.regions[c.line].state = State::Whole;
            self.unsaved = true;
        }
    }

    /// Gives the open region's file its `.part` back, if it has its final name.
    pub(super) fn part_name(&mut self) -> io::Result<()> {
        match self.open_region().filter(|(_, kept)| !kept.file.ends_with(PART)).map(|(c, _)| c.line) {
            Some(line) => self.give_back_part(line),
            None => Ok(()),
        }
    }

    /// The `.part` is made first, as a new file: so no other sink has it.
    pub(super) fn give_back_part(&mut self, line: usize) -> io::Result<()> {
        let name = self.regions[line].whole_name();
        let part_name = format!("{name}{PART}");
        let (whole, part) = (self.at(name), self.at(&part_name));
        // else a rename was made, though it said that it failed
        if self.disk.look(&whole)?.is_some() {
            match self.disk.create(&part) {
                Err(e) if e.kind() == ErrorKind::AlreadyExists => {
                    self.remove_claim(&part)?;
                    self.disk.create(&part)?
                }
                file => file?,
            };
            self.disk.rename(&whole, &part)?;
        }
        self.called(line, part_name);
        Ok(())
    }

    /// An empty `.part` beside a final name was left by a process that died in `give_back_part`, or another sink gives it up anyway.
    fn remove_claim(&self, part: &Path) -> io::Result<()> {
        match self.disk.look(part)? {
            Some(m) if m.is_file() && m.len() == 0 => self.disk.remove(part),
            _ => Err(io::Error::new(ErrorKind::AlreadyExists, format!("{} is there too", part.display()))),
        }
    }

    fn called(&mut self, line: usize, name: String) {
        self.regions[line].file = name;
        self.unsaved = true;
    }

    fn reach(&mut self, stage: Stage) {
        if let Some(c) = &mut self.current {
            c.stage = stage;
        }
    }

    fn open_region(&self) -> Option<(&Current, &Kept)> {
        self.current.as_ref().map(|c| (c, &self.regions[c.line]))
    }

    /// The open region is lost. The manifest is told now if that can be done, else with what it is told next: till then it says `part`.
    fn lost(&mut self, why: String) -> Unkept {
        self.let_go(&why);
        let _ = self.save();
        unkept(ErrorKind::InvalidData, why)
    }
}

/// The bytes of a region cannot be relied on.
pub(super) fn unkept(kind: ErrorKind, why: String) -> Unkept {
    Unkept::Lost(io::Error::new(kind, why))
}
