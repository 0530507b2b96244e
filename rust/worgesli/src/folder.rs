//! The sink that keeps regions as files in a folder, with a manifest and a region sheet beside them.
//!
//! A region's file has `.part` behind its name until all of it is synced. Whoever made `NAME.part` owns `NAME`: it is made as a new file,
//! and given up again where `NAME` is there already. So a region never gets the name of a file that is there, with several of these sinks
//! on one folder too.
mod close;
mod reopen;
mod sheet;
#[cfg(test)]
mod tests;

use crate::disk::{make_folders, write_all, Disk, System};
use crate::escape::{escape, PART};
use crate::manifest::{self, table_name, Kept, State};
use crate::sha256::Sha256;
use crate::{region_sheet, Entry, Forecast, Refusal, Sink, Unkept, Width};
use close::Stage;
use std::collections::HashSet;
use std::fmt;
use std::fs::File;
use std::io::{self, ErrorKind};
use std::path::{Path, PathBuf};
use std::sync::Arc;

/// Writes each region to a file of its own in a folder, for the owner alone. No file that is there is ever written or written over, but its own.
///
/// A file's name is the region's filename, [escaped](crate::escape); `~2`, `~3`, … is added where it is taken. It ends in `.part` until
/// the region is whole: all bytes synced, the final name synced too. The [manifest](Folder::manifest_path) says how each region stands;
/// it is replaced as a whole, so that it is never torn, and says `whole` last of all. The [sheet](Folder::sheet_path) lists the regions of the device's
/// table, fetched or not, for people.
///
/// A sync that fails loses the region ([`Unkept::Lost`]): the system may have dropped its bytes, and a second sync would not tell. Its
/// file stays as it is, and the region comes again into another.
pub struct Folder {
    disk: Arc<dyn Disk>,
    path: PathBuf,
    /// held from the beginning, so that an error of writing the folder back is told to us
    held: File,
    manifest: PathBuf,
    /// the region sheet, once it is on the disk
    sheet: Option<PathBuf>,
    limit: u64,
    digests: bool,
    sheets: bool,
    regions: Vec<Kept>,
    current: Option<Current>,
    /// the manifest on the disk is not what it should be
    unsaved: bool,
}

/// The region that is being fetched.
struct Current {
    /// its place among the regions
    line: usize,
    file: File,
    written: u64,
    hash: Option<Sha256>,
    /// a write failed: where the file stands is not known
    adrift: bool,
    stage: Stage,
}

impl Folder {
    /// The folder is made if it is not there, and those above it too. A new manifest is made, which shows at once whether the folder can
    /// be written and synced. What an earlier fetch left there stays as it is.
    pub fn new(folder: impl AsRef<Path>) -> io::Result<Folder> {
        let folder = folder.as_ref();
        Folder::on(Arc::new(System), folder).map_err(|e| io::Error::new(e.kind(), format!("{}: {e}", folder.display())))
    }

    fn on(disk: Arc<dyn Disk>, path: &Path) -> io::Result<Folder> {
        make_folders(&*disk, path)?;
        let mut folder = Folder::with(disk, path, PathBuf::new(), Vec::new())?;
        let claim = folder.claim_manifest()?;
        let saved = folder.save();
        // given up where that failed: nothing is to be written there any more
        folder.unsaved = false;
        let _ = folder.disk.remove(&claim);
        saved.map(|()| folder)
    }

    fn with(disk: Arc<dyn Disk>, path: &Path, manifest: PathBuf, regions: Vec<Kept>) -> io::Result<Folder> {
        let held = disk.open_folder(path)?;
        Ok(Folder {
            disk,
            path: path.into(),
            held,
            manifest,
            sheet: None,
            limit: u64::MAX,
            digests: true,
            sheets: true,
            regions,
            current: None,
            unsaved: false,
        })
    }

    /// A bound on what a device's table can make this write: a region is refused ([`ErrorKind::QuotaExceeded`]) that would bring the sum
    /// of the lengths above it. Of a region that was lost the bytes count that were written. Manifest and region sheet are not counted; a run's sheet has at
    /// most 71,820 bytes.
    ///
    /// A fetch that does not fit is refused as soon as the table is there, before anything of a region is asked for: where what is written and the
    /// [forecast](Sink::forecast) of the regions still to be opened are more, or that is refused (27). The run goes on under a higher bound, or with fewer
    /// [names](crate::Driver::set_names). A fetch of which every region would be taken one by one is not refused. An entry that would end the
    /// session (19 to 24) counts too. Of a region that an earlier process began only what is written counts, so such a run may be refused at its next region.
    /// `u64::MAX`, which it is unless this says otherwise, is no bound: a table with one absurd length still gives the regions before it.
    pub fn limit(mut self, bytes: u64) -> Folder {
        self.set_limit(bytes);
        self
    }

    /// As [`limit`](Folder::limit), between two runs: after a refusal a run goes on under a higher bound. It is looked at when the sink is told the table, or
    /// opens a region.
    pub fn set_limit(&mut self, bytes: u64) {
        self.limit = bytes;
    }

    /// Whether the manifest gets the SHA-256 of each region. It does unless this says no, for channels that are faster than the sum is.
    pub fn digests(mut self, wanted: bool) -> Folder {
        self.digests = wanted;
        self
    }

    /// Whether the region sheet is written. It is unless this says no.
    pub fn sheet(mut self, wanted: bool) -> Folder {
        self.set_sheet(wanted);
        self
    }

    /// As [`sheet`](Folder::sheet), between two runs: a run that the sheet stopped goes on without it.
    pub fn set_sheet(&mut self, wanted: bool) {
        self.sheets = wanted;
    }

    /// The folder.
    pub fn path(&self) -> &Path {
        &self.path
    }

    /// The manifest: a file of its own for each [`new`](Folder::new). No region can have its name.
    pub fn manifest_path(&self) -> &Path {
        &self.manifest
    }

    /// The [region sheet](region_sheet) of the table that was told last, once it is on the disk: `regions~1.txt` beside `manifest~1.tsv`, written whole or
    /// not at all, and `regions~1~2.txt`, … where that name is taken. A file of just this text, as an earlier process left it, is replaced. No region can have
    /// its name.
    pub fn sheet_path(&self) -> Option<&Path> {
        self.sheet.as_deref()
    }

    /// The regions in the order in which they were opened, those that were lost too.
    pub fn regions(&self) -> &[Kept] {
        &self.regions
    }

    /// Syncs what was taken so far and has the manifest say how much that is. To be called before a driver is saved: what a saved driver
    /// counts as taken is then still there after the power went. A region that this loses takes its bytes all the same, and is found lost
    /// when it is closed or reopened.
    pub fn checkpoint(&mut self) -> Result<(), Unkept> {
        let synced = match self.current.as_ref().is_some_and(|c| c.stage == Stage::Taking) {
            true => self.sync_bytes(),
            false => Ok(()),
        };
        let saved = self.save();
        synced.and(Ok(saved?))
    }

    /// The last [`checkpoint`](Folder::checkpoint). A folder that is only dropped writes its manifest too, but cannot say that it failed.
    pub fn finish(mut self) -> Result<(), Unkept> {
        self.checkpoint()
    }

    fn at(&self, name: &str) -> PathBuf {
        self.path.join(name)
    }

    /// A new file `NAME.part`, where neither it nor `NAME` was there. Names that differ in case alone count as the same.
    fn claim(&self, stem: &str) -> io::Result<(File, String)> {
        let ours: HashSet<String> = self.regions.iter().map(|k| k.whole_name().to_ascii_lowercase()).collect();
        for n in 1u64.. {
            let name = if n == 1 { stem.to_owned() } else { format!("{stem}~{n}") };
            if ours.contains(&name.to_ascii_lowercase()) {
                continue;
            }
            let part = format!("{name}{PART}");
            if let Some(file) = self.claimed(&part, &[&name])? {
                return Ok((file, part));
            }
        }
        Err(ErrorKind::AlreadyExists.into())
    }

    /// Takes a name for the manifest, which is the sheet's too, and gives the file that holds it until there is a manifest. The names have a `~` with more
    /// than a number behind it, which no region's has.
    fn claim_manifest(&mut self) -> io::Result<PathBuf> {
        for n in 1u64.. {
            let name = format!("manifest~{n}.tsv");
            let claim = format!("{name}.claim");
            if self.claimed(&claim, &[&name, &format!("{name}.new"), &format!("regions~{n}.txt")])?.is_some() {
                self.manifest = self.at(&name);
                return Ok(self.at(&claim));
            }
        }
        Err(ErrorKind::AlreadyExists.into())
    }

    /// Makes a new file, and gives it up again where one of the others is there.
    fn claimed(&self, name: &str, others: &[&str]) -> io::Result<Option<File>> {
        let file = match self.disk.create(&self.at(name)) {
            Err(e) if e.kind() == ErrorKind::AlreadyExists => return Ok(None),
            file => file?,
        };
        let free = others.iter().try_fold(true, |free, other| Ok(free && self.disk.look(&self.at(other))?.is_none()));
        if matches!(free, Ok(true)) {
            return Ok(Some(file));
        }
        let removed = match self.disk.remove(&self.at(name)) {
            Err(e) if e.kind() == ErrorKind::NotFound => Ok(()),
            removed => removed,
        };
        free.and(removed).map(|()| None)
    }

    /// Replaces the manifest.
    fn save(&mut self) -> io::Result<()> {
        self.unsaved = true;
        self.snapshot();
        let text = manifest::text(&self.regions);
        self.write_new(&text, || Ok(self.manifest.clone())).map_err(saying("the manifest could not be written"))?;
        self.unsaved = false;
        Ok(())
    }

    /// A new file, synced, gets its name, and the folder is synced. What fails on the way is made anew from the beginning the next time. The name is asked
    /// for last.
    fn write_new(&self, text: &str, name: impl FnOnce() -> io::Result<PathBuf>) -> io::Result<PathBuf> {
        let new = self.new_file();
        let file = match self.disk.create(&new) {
            // left by a process that died
            Err(e) if e.kind() == ErrorKind::AlreadyExists => {
                self.disk.remove(&new)?;
                self.disk.create(&new)?
            }
            file => file?,
        };
        let named = write_all(&*self.disk, &file, text.as_bytes())
            .and_then(|()| self.disk.sync(&file))
            .and_then(|()| name())
            .and_then(|name| self.disk.rename(&new, &name).map(|()| name));
        if named.is_err() {
            let _ = self.disk.remove(&new);
        }
        named.and_then(|name| self.disk.sync(&self.held).map(|()| name))
    }

    /// What is written before it has its name, one file at a time.
    fn new_file(&self) -> PathBuf {
        let mut name = self.manifest.clone().into_os_string();
        name.push(".new");
        name.into()
    }

    /// Brings the line of the open region up to date.
    fn snapshot(&mut self) {
        if let Some(c) = &self.current {
            let kept = &mut self.regions[c.line];
            kept.bytes = c.written;
            kept.sha256 = c.hash.clone().map(Sha256::finish);
        }
    }

    /// The open region is not open any more, and not whole.
    fn let_go(&mut self, why: &str) {
        self.snapshot();
        if let Some(c) = self.current.take() {
            self.lose(c.line, why);
        }
    }

    /// A region will not be whole. The first reason stays.
    fn lose(&mut self, line: usize, why: &str) {
        if !matches!(self.regions[line].state, State::Lost(_)) {
            self.regions[line].state = State::Lost(why.into());
            self.unsaved = true;
        }
    }

    /// Another region is begun, or this one again: those of which that is the end are lost.
    fn abandon(&mut self, place: usize) -> io::Result<()> {
        self.part_name()?;
        self.let_go("given up before it was whole");
        for line in 0..self.regions.len() {
            if self.regions[line].place == place && self.regions[line].state == State::Part {
                self.lose(line, "begun again");
            }
        }
        Ok(())
    }

    /// Bytes that were written so far, those of regions that were lost among them.
    fn written(&self) -> u64 {
        let of = |(line, k): (usize, &Kept)| match &self.current {
            Some(c) if c.line == line => c.written,
            _ => k.bytes,
        };
        self.regions.iter().enumerate().map(of).fold(0, u64::saturating_add)
    }

    /// Bytes that the regions so far have or will have.
    fn bound(&self) -> u64 {
        let of = |k: &Kept| if matches!(k.state, State::Lost(_)) { k.bytes } else { k.len };
        self.regions.iter().map(of).fold(0, u64::saturating_add)
    }
}

/// Says what it was that failed. The kind stays.
fn saying<'a>(what: &'a str) -> impl Fn(io::Error) -> io::Error + 'a {
    move |e| io::Error::new(e.kind(), format!("{what}: {e}"))
}

impl Sink for Folder {
    /// A table without an entry has an empty sheet: where there is none, no table came.
    fn table(&mut self, table: &[u8], width: Width) -> io::Result<()> {
        match self.sheets {
            true => self.keep_sheet(&region_sheet(table, width))?,
            false => self.sheet = None,
        }
        Ok(())
    }

    /// Refused where one of these regions would be, under the [limit](Folder::limit). Of a region that is begun only what is written counts: whether it is gone
    /// on with is not known here.
    fn forecast(&mut self, forecast: Result<Forecast, Refusal>) -> io::Result<()> {
        if self.limit == u64::MAX {
            return Ok(());
        }
        let (limit, sum) = (self.limit, |f: &Forecast| self.written().saturating_add(f.bytes));
        let what = match forecast {
            Ok(f) if f.regions == 0 || sum(&f) <= limit => return Ok(()),
            Ok(f) => format!("(regions: {}, bytes: {}) would bring the sum of lengths to {}", f.regions, f.bytes, sum(&f)),
            Err(why) => format!("is {why}"),
        };
        let why = format!("what is still to be fetched {what}, above the limit of {limit}");
        Err(io::Error::new(ErrorKind::QuotaExceeded, why))
    }

    /// Made anew after an error of the manifest, it goes on with the file that it made.
    fn open(&mut self, place: usize, entry: &Entry) -> io::Result<()> {
        let begun = |c: &Current| c.written == 0 && c.stage == Stage::Taking && self.regions[c.line].is_of(place, entry);
        if self.current.as_ref().is_some_and(begun) {
            return if self.unsaved { self.save() } else { Ok(()) };
        }
        self.abandon(place)?;
        let sum = self.bound().saturating_add(entry.len);
        if sum > self.limit {
            let why =
                format!("the region at place {place} would bring the sum of lengths to {sum}, above the limit of {}", self.limit);
            return Err(io::Error::new(ErrorKind::QuotaExceeded, why));
        }
        let name = escape(table_name(entry));
        let (file, name) = self.claim(&name).map_err(saying(&format!("no file could be made for {name}")))?;
        let line = self.regions.len();
        self.regions.push(Kept::new(place, entry, name));
        let hash = self.digests.then(Sha256::new);
        self.current = Some(Current { line, file, written: 0, hash, adrift: false, stage: Stage::Taking });
        self.unsaved = true;
        self.save()
    }

    /// One write.
    fn bytes(&mut self, bytes: &[u8]) -> io::Result<usize> {
        let Some(c) = self.current.as_mut().filter(|c| c.stage == Stage::Taking) else {
            return Err(io::Error::other("no region is open"));
        };
        let len = self.regions[c.line].len;
        if bytes.len() as u64 > len - c.written {
            return Err(io::Error::new(ErrorKind::InvalidInput, format!("more bytes than the {len} of the region")));
        }
        if c.adrift {
            self.disk.seek(&c.file, c.written)?;
        }
        c.adrift = true;
        let n = self.disk.write(&c.file, bytes)?;
        c.adrift = false;
        c.written += n as u64;
        if let Some(hash) = &mut c.hash {
            hash.update(&bytes[..n]);
        }
        Ok(n)
    }

    fn close(&mut self, place: usize) -> Result<(), Unkept> {
        self.make_whole(place)
    }

    fn reopen(&mut self, place: usize, entry: &Entry, taken: u64) -> Result<(), Unkept> {
        self.go_on(place, entry, taken)
    }

    fn gathers(&self) -> usize {
        65_536
    }
}

/// No bytes of regions are printed.
impl fmt::Debug for Folder {
    fn fmt(&self, f: &mut fmt::Formatter<'_>) -> fmt::Result {
        let open = self.current.as_ref().map(|c| (c.line, c.written, c.stage));
        f.debug_struct("Folder")
            .field("path", &self.path)
            .field("manifest", &self.manifest)
            .field("sheet", &self.sheet)
            .field("limit", &self.limit)
            .field("digests", &self.digests)
            .field("regions", &self.regions)
            .field("open", &open)
            .finish_non_exhaustive()
    }
}

/// The manifest is brought up to date.
impl Drop for Folder {
    fn drop(&mut self) {
        let behind = |c: &Current| self.regions[c.line].bytes != c.written;
        if self.unsaved || self.current.as_ref().is_some_and(behind) {
            let _ = self.save();
        }
    }
}
