//! A run written to bytes, and read back in another process.
//!
//! Everything that a [`Driver`] holds between two calls but its images and names, of which a digest is kept: a run goes on with those it began with.
//! Numbers are little-endian. The last 32 bytes are the SHA-256 of all before them, so that a file that was cut short or changed is not taken for a run.
use crate::driver::{Owed, Region, INPUT};
use crate::session::{OUT, TABLE};
use crate::sha256::Sha256;
use crate::{parse_packet, raw, Body, Driver, ImageSet, NameList, Options, Phase, Refusal, Session, Width};
use std::fmt;

const MAGIC: &[u8; 8] = b"worgesli";
/// The form of the bytes: another where a session or what is kept beside it is another.
const VERSION: u64 = 2;
/// The form before, which is read too. Its sessions have no width: it is 64 bits.
const WITHOUT_WIDTH: u64 = 1;
const DIGEST: usize = 32;

/// Why bytes are no run to go on with. `Debug` says what `Display` says.
#[derive(Clone, Copy, PartialEq, Eq)]
#[non_exhaustive]
pub enum RestoreError {
    /// cut short, changed, or never a saved run
    Damaged,
    /// saved by another version of this crate
    Version(u64),
    /// saved of a run with another mode, command or backend
    OtherOpening,
    /// saved of a run with other images or names
    OtherBundles,
    /// the options' images or names are refused
    Refused(Refusal),
}

impl fmt::Display for RestoreError {
    fn fmt(&self, f: &mut fmt::Formatter<'_>) -> fmt::Result {
        match self {
            RestoreError::Damaged => write!(f, "these bytes are no saved run, or not all of one"),
            RestoreError::Version(v) => write!(f, "the run was saved in form {v}, and forms up to {VERSION} are known"),
            RestoreError::OtherOpening => write!(f, "the run was opened with another mode, command or backend"),
            RestoreError::OtherBundles => write!(f, "the run was opened with other images or names"),
            RestoreError::Refused(why) => why.fmt(f),
        }
    }
}

impl fmt::Debug for RestoreError {
    fn fmt(&self, f: &mut fmt::Formatter<'_>) -> fmt::Result {
        fmt::Display::fmt(self, f)
    }
}

impl std::error::Error for RestoreError {}

fn digest(parts: &[&[u8]]) -> [u8; DIGEST] {
    let mut sha = Sha256::new();
    parts.iter().for_each(|part| sha.update(part));
    sha.finish()
}

/// Of the image set and the names; where one ends is in its own bytes.
fn bundles(set: &ImageSet, names: &NameList) -> [u8; DIGEST] {
    digest(&[set.bytes(), names.bytes()])
}

/// The same of a run that was saved by version 0.4.0 or before, in which empty images and names started at 0. None where that is the same digest.
fn bundles_before(set: &ImageSet, names: &NameList) -> Option<[u8; DIGEST]> {
    let (images, list) = (set.before(), names.before());
    let same = set.bytes().starts_with(&images.0) && names.bytes().starts_with(&list.0);
    (!same).then(|| digest(&[&images.0, images.1, &list.0, list.1]))
}

/// Whether a run was saved with the bytes of this image set and these names, or with those that version 0.4.0 wrote for them.
fn saved_with(sum: &[u8], set: &ImageSet, names: &NameList) -> bool {
    sum == bundles(set, names) || bundles_before(set, names).is_some_and(|before| sum == before)
}

fn put(to: &mut Vec<u8>, numbers: &[u64]) {
    numbers.iter().for_each(|n| to.extend(n.to_le_bytes()));
}

/// A length and the bytes.
fn put_bytes(to: &mut Vec<u8>, bytes: &[u8]) {
    put(to, &[bytes.len() as u64]);
    to.extend(bytes);
}

/// Reads from the front; None where there are too few bytes.
struct From<'a>(&'a [u8]);

impl<'a> From<'a> {
    fn take(&mut self, len: usize) -> Option<&'a [u8]> {
        let (front, rest) = self.0.split_at_checked(len)?;
        self.0 = rest;
        Some(front)
    }

    fn number(&mut self) -> Option<u64> {
        Some(u64::from_le_bytes(self.take(8)?.try_into().ok()?))
    }

    fn size(&mut self) -> Option<usize> {
        self.number()?.try_into().ok()
    }

    /// At most so many.
    fn bytes(&mut self, most: usize) -> Option<&'a [u8]> {
        let len = self.size()?;
        if len > most {
            return None;
        }
        self.take(len)
    }
}

fn put_session(to: &mut Vec<u8>, s: &raw::Session) {
    let head = [s.mode, s.command, s.backend, s.phase].map(u64::from);
    put(to, &head);
    put(to, &[s.reads, s.count as u64, s.at as u64, s.base, s.len, s.done, s.outstanding, s.due, s.width]);
    to.extend(s.window);
}

fn session(from: &mut From, version: u64) -> Option<raw::Session> {
    let mut word = || u32::try_from(from.number()?).ok();
    let (mode, command, backend, phase) = (word()?, word()?, word()?, word()?);
    Some(raw::Session {
        mode,
        command,
        backend,
        phase,
        reads: from.number()?,
        count: from.size()?,
        at: from.size()?,
        base: from.number()?,
        len: from.number()?,
        done: from.number()?,
        outstanding: from.number()?,
        due: from.number()?,
        width: if version == WITHOUT_WIDTH { Width::Bits64 as u64 } else { from.number()? },
        window: from.take(48)?.try_into().ok()?,
    })
}

impl Owed {
    fn numbers(self) -> [u64; 3] {
        match self {
            Owed::Nothing => [0, 0, 0],
            Owed::Send(from, to) => [1, from as u64, to as u64],
            Owed::Image(from, to) => [2, from as u64, to as u64],
            Owed::Flush => [3, 0, 0],
            Owed::EmptyRead => [4, 0, 0],
            Owed::Open(place) => [5, place as u64, 0],
            Owed::Close(place) => [6, place as u64, 0],
        }
    }

    fn of(tag: u64, first: usize, second: usize) -> Option<Owed> {
        Some(match tag {
            0 => Owed::Nothing,
            1 => Owed::Send(first, second),
            2 => Owed::Image(first, second),
            3 => Owed::Flush,
            4 => Owed::EmptyRead,
            5 => Owed::Open(first),
            6 => Owed::Close(first),
            _ => return None,
        })
    }
}

/// The reply's declared bytes.
fn declared(s: &Session) -> usize {
    match s.phase() {
        Phase::Response | Phase::Switched | Phase::Ended => s.raw().count,
        _ => 0,
    }
}

impl Driver {
    /// The run as bytes, to be read back by [`Options::restore`]. The channel must not move in between: what this run has read is in the
    /// bytes, and what it goes on to read is not. A run that went on behind its last save, and then died, is to be [resynced](Driver::resync) when it is
    /// restored: else other bytes would be taken for those that it waits for. A file of them is whole only when it is synced.
    pub fn save(&self) -> Vec<u8> {
        let mut to = MAGIC.to_vec();
        put(&mut to, &[VERSION]);
        to.extend(bundles(&self.set, &self.names));
        put_session(&mut to, self.session.raw());
        put(&mut to, &self.owed.numbers());
        let region = match self.region {
            Region::None => 0,
            Region::Open | Region::Before => 1,
            Region::Lost => 2,
        };
        put(&mut to, &[region, self.place as u64, self.asked, self.doubt]);
        put_bytes(&mut to, &self.table_read);
        put_bytes(&mut to, &self.table[..self.table_len]);
        put(&mut to, &[self.reply.len() as u64]);
        put_bytes(&mut to, &self.reply[..declared(&self.session).min(self.reply.len())]);
        to.extend(&self.out);
        put_bytes(&mut to, &self.input[self.kept..self.from]);
        put_bytes(&mut to, &self.input[self.from..self.to]);
        let sum = digest(&[&to]);
        to.extend(sum);
        to
    }
}

impl Options {
    /// A run that was [saved](Driver::save), perhaps by another process. The options are those that it was started with; the reply's length
    /// is the saved one. A region that was begun goes on in the sink by [`Sink::reopen`](crate::Sink::reopen).
    pub fn restore(&self, saved: &[u8]) -> Result<Driver, RestoreError> {
        let (set, names) = self.bundles().map_err(RestoreError::Refused)?;
        let len = saved.len().checked_sub(DIGEST).ok_or(RestoreError::Damaged)?;
        let (body, sum) = saved.split_at(len);
        let mut from = From(body.strip_prefix(MAGIC).ok_or(RestoreError::Damaged)?);
        if digest(&[body]) != sum {
            return Err(RestoreError::Damaged);
        }
        let version = from.number().ok_or(RestoreError::Damaged)?;
        if !matches!(version, WITHOUT_WIDTH | VERSION) {
            return Err(RestoreError::Version(version));
        }
        if !from.take(DIGEST).is_some_and(|sum| saved_with(sum, &set, &names)) {
            return Err(RestoreError::OtherBundles);
        }
        let session = session(&mut from, version).and_then(Session::from_raw).ok_or(RestoreError::Damaged)?;
        if !session.opened_as(self.mode, self.command, self.backend) {
            return Err(RestoreError::OtherOpening);
        }
        let driver = Driver::with(session, set, names, 0, self.timeouts);
        restored(driver, from).ok_or(RestoreError::Damaged)
    }
}

/// The driver with the rest of what was saved.
fn restored(mut d: Driver, mut from: From) -> Option<Driver> {
    d.owed = Owed::of(from.number()?, from.size()?, from.size()?)?;
    d.region = match from.number()? {
        0 => Region::None,
        1 => Region::Before,
        2 => Region::Lost,
        _ => return None,
    };
    (d.place, d.asked, d.doubt) = (from.size()?, from.number()?, from.number()?);
    d.table_read = from.bytes(OUT)?.to_vec();
    let table = from.bytes(TABLE)?;
    d.table[..table.len()].copy_from_slice(table);
    d.table_len = table.len();
    let room = from.size()?;
    let reply = from.bytes(room)?;
    // no longer than a reply can be declared, so that no length makes us reserve what is not there
    if room > u32::MAX as usize {
        return None;
    }
    d.reply = vec![0; room].into();
    d.reply[..reply.len()].copy_from_slice(reply);
    d.out.copy_from_slice(from.take(OUT)?);
    let kept = from.bytes(INPUT)?;
    let unread = from.bytes(INPUT - kept.len())?;
    (d.from, d.to) = (kept.len(), kept.len() + unread.len());
    d.input[..d.from].copy_from_slice(kept);
    d.input[d.from..d.to].copy_from_slice(unread);
    (from.0.is_empty() && sound(&d)).then_some(d)
}

/// What is owed fits the buffers and the table, no more is gathered than came of the open region, and a dump is that of its table.
fn sound(d: &Driver) -> bool {
    let entry = |place| crate::entry_at(&d.table, d.session.width(), place).is_some();
    let owed = match d.owed {
        Owed::Send(from, to) => from <= to && to <= d.out.len(),
        Owed::Image(from, to) => from <= to && to <= d.set.bytes().len(),
        Owed::Open(place) | Owed::Close(place) => entry(place),
        _ => true,
    };
    let open = match d.region {
        Region::None => d.from == 0,
        _ => entry(d.place) && d.from as u64 <= d.done(),
    };
    let s = d.session.raw();
    let dump = match d.session.phase() {
        Phase::Table => asked_for(d) && s.at <= s.count,
        Phase::Between => asked_for(d),
        Phase::Region => asked_for(d) && entry_is(d, s),
        _ => true,
    };
    owed && open && dump
}

/// The table is as long as the session says, and was asked for with a memory read of its width and length.
fn asked_for(d: &Driver) -> bool {
    let count = d.session.raw().count;
    d.table_len == count && asked_len(&d.table_read, d.session.width()) == Some(count as u64)
}

/// The length that a memory read of this width asks for.
pub(crate) fn asked_len(read: &[u8], width: Width) -> Option<u64> {
    match (parse_packet(read).map(|p| p.body), width) {
        (Ok(Body::ReadMemReq { len, .. }), Width::Bits32) => Some(len.into()),
        (Ok(Body::ReadMem64Req { len, .. }), Width::Bits64) => Some(len),
        _ => None,
    }
}

/// The region at hand is the table's.
fn entry_is(d: &Driver, s: &raw::Session) -> bool {
    crate::entry_at(d.table(), d.session.width(), s.at).is_some_and(|e| (e.base, e.len) == (s.base, s.len))
}

#[cfg(test)]
mod tests {
    use super::*;
    use crate::{Backend, Count, Mode};
    use device::{Device, Division, Memory, Wire};

    /// Where the session begins, its width and the memory reads stand, and where a region's last request began.
    const SESSION: usize = MAGIC.len() + 8 + DIGEST;
    const READS: usize = SESSION + 4 * 8;
    const WIDTH: usize = SESSION + 12 * 8;
    const ASKED: usize = WIDTH + 8 + 48 + 5 * 8;

    /// The same bytes with another number at a place, and the sum of them.
    fn with(saved: &[u8], at: usize, number: u64) -> Vec<u8> {
        let mut to = saved[..saved.len() - DIGEST].to_vec();
        to[at..at + 8].copy_from_slice(&number.to_le_bytes());
        let sum = digest(&[&to]);
        to.extend(sum);
        to
    }

    #[test]
    fn forms_and_widths_that_are_none() {
        let options = Options::new(Backend::Usb, Mode::MemoryDebug);
        let saved = options.start().unwrap().save();
        let form = MAGIC.len();
        for other in [0, 3, u64::MAX] {
            assert_eq!(options.restore(&with(&saved, form, other)).unwrap_err(), RestoreError::Version(other));
        }
        // without a width these bytes are too many
        assert_eq!(options.restore(&with(&saved, form, WITHOUT_WIDTH)).unwrap_err(), RestoreError::Damaged);
        assert_eq!(with(&saved, WIDTH, 64), saved);
        assert_eq!(options.restore(&with(&saved, WIDTH, 32)).unwrap().session().width(), Width::Bits32);
        for other in [0, 33, 1 << 32 | 32, u64::MAX] {
            assert_eq!(options.restore(&with(&saved, WIDTH, other)).unwrap_err(), RestoreError::Damaged);
        }
    }

    /// In a dump the width is that of the memory read that asked for the table: another one would take other bytes for entries.
    #[test]
    fn another_width_in_a_dump() {
        for width in device::Width::BOTH {
            let regions = [device::Region::new("A.BIN", 64, 600), device::Region::new("B.BIN", 700, 5000)];
            let mut wire = Wire::new(Device::dump(Memory::of(width, 1, 0x1000, &regions)), Division::AtMost(100), 1);
            let options = Options::new(Backend::Usb, Mode::MemoryDebug);
            let (mut run, mut sink, mut tried) = (options.start().unwrap(), Count::default(), [0; 7]);
            while run.step(&mut wire, &mut sink, |_| ()).unwrap().is_none() {
                let (saved, phase) = (run.save(), run.session().phase());
                assert_eq!(options.restore(&saved).unwrap().save(), saved);
                if let Phase::Table | Phase::Between | Phase::Region = phase {
                    let other = 96 - run.session().width() as u64;
                    assert_eq!(options.restore(&with(&saved, WIDTH, other)).unwrap_err(), RestoreError::Damaged);
                    tried[phase as usize] += 1;
                }
            }
            assert!(tried[3] > 0 && tried[4] > 1 && tried[5] > 50, "{tried:?}");
        }
    }

    /// A run of version 0.4.0, in which empty images and names started at 0, goes on; and only with the same images and names, given as they were.
    #[test]
    fn saved_with_empty_slots_at_0() {
        let words = |words: &[u32]| words.iter().flat_map(|w| w.to_le_bytes()).collect::<Vec<u8>>();
        // ["ab", empty, none, "c"], and ["n", ""], as that version wrote them
        let set = [words(&[4, 3, 0, 0, u32::MAX, 2, 2, 0, 0, 1]), b"abc".to_vec()].concat();
        let names = [words(&[2, 1, 0, 0, 1, 0]), b"n".to_vec()].concat();
        let images = |empty: Option<&str>| [Some("ab"), empty, None, Some("c")].map(|image| image.map(Vec::from));
        let options = Options::new(Backend::Usb, Mode::MemoryDebug).images(&images(Some(""))).names(["n", ""]);
        let saved = options.start().unwrap().save();
        let of = |set: &[u8], names: &[u8]| {
            let mut to = saved[..saved.len() - DIGEST].to_vec();
            to[SESSION - DIGEST..SESSION].copy_from_slice(&digest(&[set, names]));
            let sum = digest(&[&to]);
            to.extend(sum);
            to
        };
        let (now_set, now_names) = options.bundles().unwrap();
        let (now_set, now_names) = (now_set.bytes(), now_names.bytes());
        assert!(set != now_set && names != now_names && of(now_set, now_names) == saved);
        // it goes on, and is saved in the form of today
        assert_eq!(options.restore(&of(&set, &names)).unwrap().save(), saved);
        let other = |options: &Options, set: &[u8], names: &[u8]| {
            assert_eq!(options.restore(&of(set, names)).unwrap_err(), RestoreError::OtherBundles);
        };
        // where the images alone, or the names alone, have an empty one
        let alone = options.clone().names(["n"]);
        let list = alone.bundles().unwrap().1;
        assert!(alone.restore(&of(&set, list.bytes())).is_ok());
        // no version wrote one so and the other otherwise, nor an empty image elsewhere
        other(&options, &set, now_names);
        other(&options, now_set, &names);
        for start in [1, 3] {
            let mut elsewhere = set.clone();
            elsewhere[12] = start;
            other(&options, &elsewhere, &names);
            other(&options, &elsewhere, now_names);
        }
        // an empty image is not absent, and an empty name is a name
        other(&options.clone().images(&images(None)), &set, &names);
        other(&options.clone().names(["n"]), &set, &names);
        // bundles that were made elsewhere have one form, that of their bytes
        let bundle = |set: &[u8]| options.clone().image_set(ImageSet::from_bytes(set.to_vec()).unwrap());
        assert!(bundle(&set).restore(&of(&set, &names)).is_ok() && bundle(&set).restore(&of(&set, now_names)).is_ok());
        assert!(bundle(now_set).restore(&of(now_set, &names)).is_ok() && bundle(now_set).restore(&saved).is_ok());
        other(&bundle(&set), now_set, &names);
        other(&bundle(now_set), &set, &names);
        other(&bundle(now_set), &set, now_names);
    }

    /// Numbers that no run has are refused or borne, also by a resync: they make no panic.
    #[test]
    fn numbers_that_no_run_has() {
        let regions = [device::Region::new("B.BIN", 700, 5000)];
        let device = || Wire::new(Device::dump(Memory::of(device::Width::Bits32, 1, 0x1000, &regions)), Division::AtMost(20), 1);
        let options = Options::new(Backend::Serial, Mode::MemoryDebug);
        let (mut wire, mut run, mut tried) = (device(), options.start().unwrap(), 0);
        while run.step(&mut wire, &mut Count::default(), |_| ()).unwrap().is_none() {
            for (at, number) in [(ASKED, u64::MAX), (READS, u64::MAX), (READS + 16, u64::MAX), (READS + 8, 1 << 40)] {
                if let Ok(mut other) = options.restore(&with(&run.save(), at, number)) {
                    let (mut wire, mut sink) = (device(), Count::default());
                    let _ = (other.entries().count(), other.forecast(), other.resync(&mut wire, &mut sink), other.save());
                    let _ = (other.step(&mut wire, &mut sink, |_| ()), other.close(&mut sink), other.forecast(), other.save());
                    tried += 1;
                }
            }
        }
        assert!(tried > 500, "{tried}");
    }
}
