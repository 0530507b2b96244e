//! The sink of files on a disk that fails, under a process that dies, and where the power goes.
mod shaky;

use super::*;
use crate::{read_manifest, unescape};
use device::Rng;
use shaky::{Fault, Shaky, Survives};
use std::collections::BTreeMap;
use std::fs;
use std::sync::atomic::{AtomicU32, Ordering};

/// A folder of its own for each run, gone afterwards.
struct Temporary(PathBuf);

impl Temporary {
    fn new() -> Temporary {
        static NEXT: AtomicU32 = AtomicU32::new(0);
        let n = NEXT.fetch_add(1, Ordering::Relaxed);
        // in memory, where that can be: syncs are not made, and the runs are many
        let memory = Path::new("/dev/shm").join(format!("worgesli-unit-{}-{n}", std::process::id()));
        let path = match fs::create_dir(&memory) {
            Ok(()) => memory,
            Err(_) => std::env::temp_dir().join(memory.file_name().unwrap()),
        };
        fs::create_dir_all(&path).unwrap();
        Temporary(path)
    }
}

impl Drop for Temporary {
    fn drop(&mut self) {
        let _ = fs::remove_dir_all(&self.0);
    }
}

/// A table's regions and their bytes; behind them the table has others.
struct World(Vec<(Entry, Vec<u8>)>);

/// Enough that a sheet is written in more than one call.
const OTHERS: usize = 9;

fn entry(name: &[u8], base: u64, len: u64) -> Entry {
    let mut filename = [0; 20];
    filename[..name.len()].copy_from_slice(name);
    Entry { save_pref: 1, base, len, description: [0; 20], filename }
}

impl World {
    fn new() -> World {
        let mut rng = Rng::new(3);
        let names: [(&[u8], usize); 4] = [(b"DDR.BIN", 2500), (b"A/B.BIN", 700), (b"EMPTY", 0), (b"ddr.bin", 1000)];
        let region = |(name, len): (&[u8], usize)| {
            let mut bytes = vec![0; len];
            rng.fill(&mut bytes);
            (entry(name, 0x8000_0000, len as u64), bytes)
        };
        World(names.map(region).into())
    }

    fn entries(&self) -> Vec<Entry> {
        let others = vec![Entry { save_pref: 0, ..entry(b"other", 7, 9) }; OTHERS];
        self.0.iter().map(|r| r.0).chain(others).collect()
    }

    fn table(&self) -> Vec<u8> {
        let bytes =
            |e: &Entry| [&[e.save_pref, e.base, e.len].map(u64::to_le_bytes).concat()[..], &e.description, &e.filename].concat();
        self.entries().iter().flat_map(bytes).collect()
    }

    /// The sheet, by a formatter of its own.
    fn sheet(&self) -> String {
        let line = |e: &Entry| {
            let name = std::str::from_utf8(table_name(e)).unwrap();
            format!("{name:<20} {:016X} {:016X} {}\n", e.base, e.len, if e.save_pref == 0 { ' ' } else { '*' })
        };
        self.entries().iter().map(line).collect()
    }

    /// Every file of a folder that is called a sheet is one, whole; gives how many there are.
    fn true_sheets(&self, folder: &Path) -> usize {
        let files = fs::read_dir(folder).unwrap().map(|f| f.unwrap().path());
        let is_sheet = |path: &PathBuf| path.file_name().unwrap().to_str().unwrap().starts_with("regions~");
        let sheets: Vec<PathBuf> = files.filter(is_sheet).collect();
        assert!(sheets.iter().all(|s| fs::read_to_string(s).unwrap() == self.sheet()), "{sheets:?}");
        sheets.len()
    }
}

/// What a driver saves: the region that it is at, whether it is open, and how many bytes were taken.
#[derive(Clone, Copy, Debug, Default)]
struct Saved {
    place: usize,
    open: bool,
    taken: usize,
}

/// Plays a driver that saves itself after each call. With checkpoints, only after one.
#[derive(Clone)]
struct Player<'a> {
    world: &'a World,
    saved: Vec<Saved>,
    checkpoints: bool,
    /// calls that failed
    failed: usize,
    /// whether the folder was told the table: by this process, by any
    told: [bool; 2],
}

const MOST: usize = 60;

impl<'a> Player<'a> {
    fn new(world: &'a World, checkpoints: bool) -> Player<'a> {
        Player { world, saved: vec![Saved::default()], checkpoints, failed: 0, told: [false; 2] }
    }

    fn now(&self) -> Saved {
        *self.saved.last().unwrap()
    }

    /// One call. A failed one is made anew by the next.
    fn call(&mut self, folder: &mut Folder) {
        if !self.told[0] {
            match folder.table(&self.world.table(), Width::Bits64) {
                Ok(()) => self.told = [true; 2],
                Err(_) => self.failed += 1,
            }
            return;
        }
        let Saved { place, open, taken } = self.now();
        let (entry, bytes) = &self.world.0[place];
        let next = if !open {
            folder.open(place, entry).map(|()| Saved { place, open: true, taken: 0 })
        } else if taken < bytes.len() {
            let piece = &bytes[taken..bytes.len().min(taken + 1000)];
            folder.bytes(piece).map(|n| Saved { place, open, taken: taken + n })
        } else {
            match folder.close(place) {
                Ok(()) => {
                    self.kept_whole(folder, place);
                    Ok(Saved { place: place + 1, open: false, taken: 0 })
                }
                Err(Unkept::Lost(_)) => Ok(Saved { place, open: false, taken: 0 }),
                Err(Unkept::Again(e)) => Err(e),
            }
        };
        match next {
            Ok(next) => self.save(folder, next),
            Err(_) => self.failed += 1,
        }
    }

    fn save(&mut self, folder: &mut Folder, next: Saved) {
        self.saved.push(next);
        if self.checkpoints && folder.checkpoint().is_err() {
            // saved all the same in memory, and not on the disk
            self.failed += 1;
        }
    }

    /// Whatever was closed, the manifest on the disk says so, and it is so.
    fn kept_whole(&self, folder: &Folder, place: usize) {
        let regions = read_manifest(folder.manifest_path()).unwrap();
        let kept = regions.iter().rfind(|k| k.place == place).unwrap();
        assert_eq!(kept.state, State::Whole);
        assert!(fs::read(folder.at(&kept.file)).unwrap() == self.world.0[place].1);
    }

    /// Calls until all is fetched, or too many calls failed.
    fn run(&mut self, folder: &mut Folder) -> bool {
        self.failed = 0;
        while self.now().place < self.world.0.len() && self.failed < MOST {
            self.call(folder);
        }
        self.failed < MOST
    }

    /// A driver in another process, from what was saved `back` saves ago.
    fn resume(&mut self, folder: &mut Folder, back: usize) {
        self.told[0] = false;
        let saved = self.saved[self.saved.len().saturating_sub(1 + back)];
        self.saved.push(saved);
        let Saved { place, open: true, taken } = saved else { return };
        for _ in 0..MOST {
            match folder.reopen(place, &self.world.0[place].0, taken as u64) {
                Ok(()) => return,
                Err(Unkept::Lost(_)) => return self.saved.push(Saved { place, open: false, taken: 0 }),
                Err(Unkept::Again(_)) => {}
            }
        }
    }
}

/// What a manifest claims is so in its folder: each whole region is there, byte for byte; and what is called a sheet is one. Gives the lines.
fn true_claims(manifest: &Path, world: &World) -> Vec<Kept> {
    world.true_sheets(manifest.parent().unwrap());
    let regions = read_manifest(manifest).unwrap();
    for kept in &regions {
        let (entry, bytes) = &world.0[kept.place];
        assert!(kept.is_of(kept.place, entry) && unescape(&kept.file).as_ref() == Some(&kept.name));
        if kept.state == State::Whole {
            let is = fs::read(manifest.with_file_name(&kept.file)).unwrap_or_else(|e| panic!("{}: {e}", kept.file));
            assert!(is == *bytes, "{} is not as it was in the device", kept.file);
            let mut hash = Sha256::new();
            hash.update(&is);
            assert_eq!(kept.sha256, Some(hash.finish()));
        }
    }
    regions
}

/// After a whole fetch each region is whole, and every name without `.part` is that of a whole region, of a manifest or of a sheet.
fn all_whole(folder: &Folder, world: &World) -> Vec<Kept> {
    all_whole_but(folder, world, |_| false)
}

fn all_whole_but(folder: &Folder, world: &World, but: impl Fn(&Path) -> bool) -> Vec<Kept> {
    let regions = true_claims(folder.manifest_path(), world);
    assert_eq!(regions, folder.regions());
    assert_eq!(fs::read_to_string(folder.sheet_path().unwrap()).unwrap(), world.sheet());
    let last: BTreeMap<usize, &Kept> = regions.iter().map(|k| (k.place, k)).collect();
    assert!(last.len() == world.0.len() && last.values().all(|k| k.state == State::Whole), "{regions:?}");
    for name in fs::read_dir(folder.path()).unwrap() {
        let name = name.unwrap().file_name().into_string().unwrap();
        let whole = regions.iter().any(|k| k.file == name && k.state == State::Whole);
        let beside = name.starts_with("manifest~") || name.starts_with("regions~");
        assert!(name.ends_with(PART) || beside || whole || but(&folder.at(&name)), "{name}: {regions:?}");
    }
    regions
}

/// The same in what the disk has for sure, as if the power went now.
fn synced_too(disk: &Shaky, folder: &Folder, world: &World) {
    let t = Temporary::new();
    disk.image(&t.0, Survives::Synced, &mut Rng::new(0));
    let manifest = t.0.join(folder.manifest_path().file_name().unwrap());
    let regions = true_claims(&manifest, world);
    assert_eq!(regions, folder.regions(), "the manifest is not on the disk");
    let sheet = folder.sheet_path().map(|s| t.0.join(s.file_name().unwrap()));
    assert!(sheet.is_none_or(|s| s.exists()), "the sheet is not on the disk");
}

fn opened(disk: &Arc<Shaky>, path: &Path) -> Option<Folder> {
    (0..MOST).find_map(|_| Folder::on(disk.clone(), path).ok())
}

/// Any call of the system may fail, once or some times in a row, with or without having done its work: the fetch goes on to its end, all
/// is whole, and only what a sync failed for was lost.
#[test]
fn each_call_fails() {
    let world = World::new();
    let (mut runs, mut lost) = (0, 0);
    for error in [5, 28, 4, 11] {
        for (times, effect) in [(1, false), (1, true), (2, false), (3, true), (7, false)] {
            for from in 0.. {
                let t = Temporary::new();
                let disk = Shaky::new(&t.0, Some(Fault { from, times, error, effect }));
                let mut folder = opened(&disk, &t.0).unwrap();
                let mut player = Player::new(&world, from % 3 == 0);
                assert!(player.run(&mut folder), "from {from}");
                let regions = all_whole(&folder, &world);
                synced_too(&disk, &folder, &world);
                let failed = disk.failed();
                if failed.is_empty() {
                    break;
                }
                let gone = regions.iter().filter(|k| k.state != State::Whole).count();
                assert!(gone == 0 || failed.contains(&"sync"), "{failed:?}: {regions:?}");
                lost += gone;
                runs += 1;
            }
        }
    }
    assert!(runs > 1000 && lost > 50, "{runs} {lost}");
}

/// A process dies after any call; another goes on from what the driver saved last, or a while before. Also where a call failed just
/// before it died.
#[test]
fn dies_after_each_call() {
    let world = World::new();
    let mut kept = 0;
    for (back, fault) in [(0, None), (1, None), (4, None), (0, Some(0)), (0, Some(1)), (1, Some(3))] {
        for end in 0.. {
            let t = Temporary::new();
            let fault =
                fault.map(|before| Fault { from: u64::max(end, before) - before, times: 1, error: 5, effect: end % 2 == 0 });
            let disk = Shaky::new(&t.0, fault);
            disk.die_after(end);
            let mut player = Player::new(&world, false);
            let done = opened(&disk, &t.0).is_some_and(|mut folder| player.run(&mut folder));
            if done {
                break;
            }
            disk.live(None);
            let (mut folder, taken) = go_on(&disk, &t.0, &mut player, back);
            kept += taken;
            assert!(player.run(&mut folder), "end {end}");
            let regions = all_whole(&folder, &world);
            synced_too(&disk, &folder, &world);
            assert!(fault.is_some() || nothing_lost(&regions), "{regions:?}");
        }
    }
    assert!(kept > 100_000, "{kept} bytes were not fetched again");
}

/// No region is lost but one that the driver began again, or had whole already and did not know.
fn nothing_lost(regions: &[Kept]) -> bool {
    let whole = |k: &Kept, i: usize| regions[..i].iter().any(|b| b.place == k.place && b.state == State::Whole);
    let lost = |k: &Kept| matches!(&k.state, State::Lost(why) if why != "begun again");
    regions.iter().enumerate().all(|(i, k)| !lost(k) || whole(k, i))
}

/// Goes on from a manifest, or begins anew where there is none yet. Gives how many bytes of the open region it went on with.
fn go_on(disk: &Arc<Shaky>, path: &Path, player: &mut Player, back: usize) -> (Folder, usize) {
    let manifest = path.join("manifest~1.tsv");
    if !manifest.exists() {
        player.saved.push(Saved::default());
        return (Folder::on(disk.clone(), path).unwrap(), 0);
    }
    true_claims(&manifest, player.world);
    assert!(!player.told[1] || path.join("regions~1.txt").exists(), "a sheet that was kept is not there any more");
    let mut folder = (0..MOST).find_map(|_| Folder::resume_on(disk.clone(), &manifest).ok()).unwrap();
    player.resume(&mut folder, back);
    (folder, player.now().taken)
}

/// In the process that goes on each call may fail, or it may die too.
#[test]
fn each_call_of_going_on_fails() {
    let world = World::new();
    let mut failed = 0;
    for end in (20..110).step_by(3) {
        let first = Temporary::new();
        let died = Shaky::new(&first.0, None);
        died.die_after(end);
        let mut begun = Player::new(&world, false);
        if opened(&died, &first.0).is_some_and(|mut folder| begun.run(&mut folder)) {
            continue;
        }
        for from in 0..30 {
            for way in 0..3 {
                let back = from as usize % 3;
                let (t, mut player) = (Temporary::new(), begun.clone());
                let disk = died.copy(&t.0);
                disk.live((way < 2).then_some(Fault { from, times: 1 + from % 2, error: 5, effect: way == 1 }));
                if way == 2 {
                    disk.die_after(from);
                    let manifest = t.0.join("manifest~1.tsv");
                    let saved = player.saved.clone();
                    if let Ok(mut folder) = Folder::resume_on(disk.clone(), &manifest) {
                        player.resume(&mut folder, back);
                        player.run(&mut folder);
                    }
                    // it died before it saved itself
                    player.saved = saved;
                    disk.live(None);
                }
                let (mut folder, _) = go_on(&disk, &t.0, &mut player, back);
                assert!(player.run(&mut folder), "end {end}, from {from}");
                let regions = all_whole(&folder, &world);
                synced_too(&disk, &folder, &world);
                assert!(way < 2 || nothing_lost(&regions), "{regions:?}");
                failed += disk.failed().len();
            }
        }
    }
    assert!(failed > 1000, "{failed}");
}

/// The power goes after any call. What was not synced is there, or not, or in part. The driver was saved behind a checkpoint.
#[test]
fn power_goes_after_each_call() {
    let world = World::new();
    let mut kept = 0;
    let some = [Survives::Some; 6];
    for end in 0.. {
        let t = Temporary::new();
        let fault = Fault { from: end / 2, times: 1, error: 5, effect: false };
        let died = Shaky::new(&t.0, (end % 4 == 3).then_some(fault));
        died.die_after(end);
        let mut begun = Player::new(&world, true);
        if run_checked(&died, &t.0, &mut begun) {
            break;
        }
        for (round, survives) in
            [Survives::Synced, Survives::All, Survives::Names, Survives::Bytes].into_iter().chain(some).enumerate()
        {
            let (image, mut player) = (Temporary::new(), begun.clone());
            died.image(&image.0, survives, &mut Rng::new(1000 * round as u64 + end));
            let disk = Shaky::new(&image.0, None);
            let (mut folder, taken) = go_on(&disk, &image.0, &mut player, 0);
            kept += taken;
            assert!(player.run(&mut folder), "end {end}, {survives:?}");
            // where half of a rename was on the disk a file has two names
            let twin = |path: &Path| survives == Survives::Some && world.0.iter().any(|r| r.1 == fs::read(path).unwrap());
            all_whole_but(&folder, &world, twin);
            synced_too(&disk, &folder, &world);
        }
    }
    assert!(kept > 100_000, "{kept} bytes were not fetched again");
}

/// Runs until the disk dies; gives whether it did not. The driver is saved only where the checkpoint behind a call was good.
fn run_checked(disk: &Arc<Shaky>, path: &Path, player: &mut Player) -> bool {
    let Some(mut folder) = opened(disk, path) else { return false };
    let mut checked = vec![Saved::default()];
    while player.now().place < player.world.0.len() && player.failed < MOST {
        let failed = player.failed;
        player.call(&mut folder);
        if player.failed == failed {
            checked.push(player.now());
        }
    }
    player.saved = checked;
    player.failed < MOST
}

fn lost(closed: Result<(), Unkept>) -> String {
    match closed {
        Err(Unkept::Lost(e)) => e.to_string(),
        closed => panic!("{closed:?}"),
    }
}

/// After a sync that failed a region is not whole, however often it is closed. Its file stays, and it comes again into another.
#[test]
fn failed_sync() {
    let world = World::new();
    let (entry, bytes) = &world.0[1];
    for at_checkpoint in [false, true] {
        let t = Temporary::new();
        let disk = Shaky::new(&t.0, None);
        let mut folder = Folder::on(disk.clone(), &t.0).unwrap();
        folder.open(1, entry).unwrap();
        assert_eq!(folder.bytes(&bytes[..600]).unwrap(), 600);
        if at_checkpoint {
            disk.fail_next("sync", 5);
            assert!(lost(folder.checkpoint()).contains("failed"));
            // the driver does not know: its bytes are taken
        }
        assert_eq!(folder.bytes(&bytes[600..]).unwrap(), 100);
        if !at_checkpoint {
            folder.checkpoint().unwrap();
            // the manifest's own, then the file's
            disk.fail_next("rename", 5);
            assert!(matches!(folder.close(1), Err(Unkept::Again(_))));
            fail_sync_of_file(&disk, &mut folder);
        }
        for _ in 0..3 {
            assert!(lost(folder.close(1)).contains("the sync of A%2FB.BIN.part failed: Input/output error"));
        }
        let line = &read_manifest(folder.manifest_path()).unwrap()[0];
        assert_eq!((line.file.as_str(), line.bytes), ("A%2FB.BIN.part", 700));
        assert!(matches!(&line.state, State::Lost(why) if why.contains("failed")));
        assert!(fs::read(t.0.join("A%2FB.BIN.part")).unwrap() == *bytes);
        let mut player = Player::new(&world, false);
        player.saved = vec![Saved { place: 1, open: false, taken: 0 }];
        player.call(&mut folder);
        while player.now().place == 1 {
            player.call(&mut folder);
        }
        assert_eq!((player.failed, folder.regions()[1].file.as_str()), (0, "A%2FB.BIN~2"));
        synced_too(&disk, &folder, &world);
    }
}

/// Fails the sync of the open region's file, which a close makes behind that of the manifest and of the folder.
fn fail_sync_of_file(disk: &Shaky, folder: &mut Folder) {
    // create, write, sync, rename, sync; the region's
    disk.live(Some(Fault { from: 5, times: 1, error: 5, effect: false }));
    lost(folder.close(1));
    assert_eq!(disk.failed(), ["rename", "sync"]);
    disk.live(None);
}

/// A sync of the folder that failed loses nothing. The file is a part again, and gets its final name anew.
#[test]
fn failed_sync_of_the_folder() {
    let world = World::new();
    let (entry, bytes) = &world.0[3];
    let t = Temporary::new();
    let disk = Shaky::new(&t.0, None);
    let mut folder = Folder::on(disk.clone(), &t.0).unwrap();
    folder.open(3, entry).unwrap();
    let n = folder.bytes(bytes).unwrap();
    folder.bytes(&bytes[n..]).unwrap();
    // the manifest's five, the file's sync, two looks, the rename, the folder's sync
    disk.live(Some(Fault { from: 9, times: 1, error: 5, effect: false }));
    assert!(matches!(folder.close(3), Err(Unkept::Again(e)) if e.to_string().contains("sync of the folder")));
    assert_eq!(disk.failed(), ["sync"]);
    assert!(t.0.join("ddr.bin.part").exists() && !t.0.join("ddr.bin").exists());
    folder.close(3).unwrap();
    assert_eq!((folder.regions().len(), folder.regions()[0].file.as_str()), (1, "ddr.bin"));
    synced_too(&disk, &folder, &world);
}

/// What is handed over is written in one call, where the system takes it all.
#[test]
fn one_write() {
    let t = Temporary::new();
    let disk = Shaky::new(&t.0, None);
    let mut folder = Folder::on(disk.clone(), &t.0).unwrap();
    assert_eq!(folder.gathers(), 65_536);
    folder.open(0, &entry(b"A", 0, 5000)).unwrap();
    for _ in 0..5 {
        let calls = disk.calls();
        assert_eq!(folder.bytes(&[7; 500]).unwrap(), 500);
        assert_eq!(disk.calls(), calls + 1);
    }
    // after a failed write the place is set first
    disk.fail_next("write", 28);
    assert_eq!(folder.bytes(&[7; 500]).unwrap_err().kind(), ErrorKind::StorageFull);
    let calls = disk.calls();
    folder.bytes(&[7; 500]).unwrap();
    assert_eq!(disk.calls(), calls + 2);
}

/// The final name is taken by another program while the region comes: the region gets another, and the other's file stays.
#[test]
fn name_taken_meanwhile() {
    let world = World::new();
    for from in 0..40 {
        let t = Temporary::new();
        let disk = Shaky::new(&t.0, None);
        let mut folder = Folder::on(disk.clone(), &t.0).unwrap();
        let mut player = Player::new(&world, false);
        while player.now().taken < 2500 {
            player.call(&mut folder);
        }
        fs::write(t.0.join("DDR.BIN"), [7; 2500]).unwrap();
        disk.live((from > 0).then_some(Fault { from, times: 1, error: 5, effect: from % 2 == 0 }));
        assert!(player.run(&mut folder));
        assert_eq!(fs::read(t.0.join("DDR.BIN")).unwrap(), [7; 2500]);
        let regions = true_claims(folder.manifest_path(), &world);
        let whole = regions.iter().filter(|k| k.state == State::Whole);
        assert_eq!(whole.count(), world.0.len());
        assert!(regions.len() == world.0.len() || from > 0);
    }
}

/// The file is taken away, or cut, while the region comes: it is lost, and not called whole.
#[test]
fn file_taken_away() {
    let world = World::new();
    for way in 0..3 {
        let t = Temporary::new();
        let disk = Shaky::new(&t.0, None);
        let mut folder = Folder::on(disk, &t.0).unwrap();
        let mut player = Player::new(&world, false);
        while player.now().taken < 2500 {
            player.call(&mut folder);
        }
        let part = t.0.join("DDR.BIN.part");
        match way {
            0 => fs::remove_file(&part).unwrap(),
            1 => File::options().write(true).open(&part).unwrap().set_len(9).unwrap(),
            _ => {
                fs::rename(&part, t.0.join("elsewhere")).unwrap();
                std::os::unix::fs::symlink("elsewhere", &part).unwrap();
            }
        }
        assert!(lost(folder.close(0)).contains("not there any more"));
        player.saved.push(Saved::default());
        assert!(player.run(&mut folder));
        assert_eq!(true_claims(folder.manifest_path(), &world)[1].file, "DDR.BIN~2");
    }
}

/// The folders are made, one by one, whatever call fails, and the name of each is synced.
#[test]
fn folders_are_made() {
    use std::os::unix::fs::PermissionsExt;
    for from in 0..14 {
        let t = Temporary::new();
        let path = t.0.join("a/b/c");
        let disk = Shaky::new(&path, Some(Fault { from, times: 1, error: 5, effect: false }));
        let folder = opened(&disk, &path).unwrap();
        assert_eq!(disk.failed().len(), 1);
        for path in [folder.path(), &t.0.join("a/b"), &t.0.join("a")] {
            assert_eq!(fs::metadata(path).unwrap().permissions().mode() & 0o777, 0o700);
            assert!(disk.synced_folder(path.parent().unwrap()));
        }
    }
}

fn tell(folder: &mut Folder, table: &[u8]) -> Result<(), ErrorKind> {
    folder.table(table, Width::Bits64).map_err(|e| e.kind())
}

/// A sheet that could not be kept is not called one: `sheet_path` says where the table's is that was told last, or nothing.
#[test]
fn sheet_that_is_not_kept() {
    let world = World::new();
    let (table, other) = (world.table(), vec![0; 64]);
    let t = Temporary::new();
    let disk = Shaky::new(&t.0, None);
    let mut folder = Folder::on(disk.clone(), &t.0).unwrap();
    for kind in ["create", "write", "sync", "look", "rename"] {
        disk.fail_next(kind, 28);
        assert_eq!(tell(&mut folder, &table), Err(ErrorKind::StorageFull), "{kind}");
        assert_eq!((folder.sheet_path(), world.true_sheets(&t.0)), (None, 0), "{kind}");
    }
    let said = {
        disk.fail_next("write", 28);
        folder.table(&table, Width::Bits64).unwrap_err().to_string()
    };
    assert!(said.starts_with("the region sheet could not be written: "), "{said}");
    tell(&mut folder, &table).unwrap();
    assert_eq!(folder.sheet_path(), Some(&*t.0.join("regions~1.txt")));
    // told again it is not written again
    let calls = disk.calls();
    tell(&mut folder, &table).unwrap();
    assert!(disk.calls() - calls < 6);
    disk.fail_next("write", 28);
    assert_eq!(tell(&mut folder, &other), Err(ErrorKind::StorageFull));
    assert_eq!((folder.sheet_path(), world.true_sheets(&t.0)), (None, 1));
    tell(&mut folder, &other).unwrap();
    assert_eq!(folder.sheet_path(), Some(&*t.0.join("regions~1~2.txt")));
    assert_eq!(fs::read_to_string(t.0.join("regions~1~2.txt")).unwrap(), format!("{:20} {:016X} {:016X}  \n", "", 0, 0));
    synced_sheets(&disk, &folder, 2);
    // without one it goes on, and names none
    disk.fail_next("write", 28);
    assert_eq!(tell(&mut folder, &table), Err(ErrorKind::StorageFull));
    tell(&mut folder, &other).unwrap();
    folder.set_sheet(false);
    tell(&mut folder, &table).unwrap();
    assert_eq!(folder.sheet_path(), None);
}

/// So many sheets are on the disk for sure, among them the one that the folder names.
fn synced_sheets(disk: &Shaky, folder: &Folder, count: usize) {
    let t = Temporary::new();
    disk.image(&t.0, Survives::Synced, &mut Rng::new(0));
    let files = fs::read_dir(&t.0).unwrap().map(|f| f.unwrap().file_name().into_string().unwrap());
    let sheets: Vec<String> = files.filter(|f| f.starts_with("regions~")).collect();
    assert_eq!(sheets.len(), count, "{sheets:?}");
    assert!(sheets.iter().any(|s| folder.sheet_path() == Some(&*folder.at(s))));
}

/// The sheet of a process before: it stays where it is and gets on the disk, also where that process died of a failed sync of the folder. One that cannot be read
/// is another's, and stops nothing.
#[test]
fn sheet_of_a_process_before() {
    let world = World::new();
    for (kind, error, due) in [
        ("", 0, "regions~1.txt"),
        ("read", 4, "regions~1.txt"),
        ("read", 5, "regions~1~2.txt"),
        ("open_to_read", 13, "regions~1~2.txt"),
        ("look", 5, "regions~1.txt"),
    ] {
        let t = Temporary::new();
        let disk = Shaky::new(&t.0, None);
        let mut folder = Folder::on(disk.clone(), &t.0).unwrap();
        // create, two writes, sync, look, rename, and the folder's sync
        disk.live(Some(Fault { from: 6, times: 1, error: 5, effect: false }));
        disk.die_after(7);
        assert!(tell(&mut folder, &world.table()).is_err());
        assert_eq!((disk.failed(), world.true_sheets(&t.0)), (vec!["sync"], 1));
        drop(folder);
        disk.live(None);
        let mut folder = Folder::resume_on(disk.clone(), &t.0.join("manifest~1.tsv")).unwrap();
        if !kind.is_empty() {
            disk.fail_next(kind, error);
        }
        let told = tell(&mut folder, &world.table());
        if let Err(kind) = told {
            assert!(due == "regions~1.txt" && (kind == ErrorKind::Interrupted || error == 5), "{kind}");
            tell(&mut folder, &world.table()).unwrap();
        }
        assert_eq!(folder.sheet_path(), Some(&*t.0.join(due)), "{kind}");
        assert_eq!(world.true_sheets(&t.0), if due == "regions~1.txt" { 1 } else { 2 });
        synced_sheets(&disk, &folder, 1);
    }
}

/// Whether a folder under this limit takes regions of so many bytes in all.
fn takes(folder: &mut Folder, limit: u64, bytes: u64) -> bool {
    folder.set_limit(limit);
    match folder.forecast(Ok(Forecast { regions: 1, bytes, reads: 1 + bytes.div_ceil(4096) })) {
        Ok(()) => true,
        Err(e) => {
            assert_eq!(e.kind(), ErrorKind::QuotaExceeded);
            false
        }
    }
}

/// What counts beside a forecast is what was written, as when a region is opened: of whole regions, of those that were lost, and of the open one; also in a
/// folder that is resumed.
#[test]
fn forecast_and_what_was_written() {
    let world = World::new();
    let (entry, bytes) = &world.0[1];
    let t = Temporary::new();
    let disk = Shaky::new(&t.0, None);
    let mut folder = Folder::on(disk.clone(), &t.0).unwrap();
    let exact = |folder: &mut Folder, written: u64| {
        let lots = u64::MAX - 1;
        assert!(takes(folder, written + 700, 700) && !takes(folder, written + 699, 700), "{written} were written");
        assert!(takes(folder, lots, lots - written) && !takes(folder, lots, lots - written + 1));
        assert!(!takes(folder, lots, u64::MAX) && takes(folder, u64::MAX, u64::MAX));
        // nothing to come is not refused; lengths without a sum are above every limit
        folder.set_limit(0);
        folder.forecast(Ok(Forecast { regions: 0, bytes: 0, reads: 1 })).unwrap();
        folder.forecast(Err(Refusal::new(27))).unwrap_err();
        folder.set_limit(u64::MAX);
        folder.forecast(Err(Refusal::new(27))).unwrap();
    };
    exact(&mut folder, 0);
    folder.open(1, entry).unwrap();
    exact(&mut folder, 0);
    assert_eq!(folder.bytes(&bytes[..500]).unwrap(), 500);
    exact(&mut folder, 500);
    disk.fail_next("sync", 5);
    lost(folder.checkpoint());
    assert_eq!(folder.bytes(&bytes[500..]).unwrap(), 200);
    // it is lost, and still written to
    exact(&mut folder, 700);
    lost(folder.close(1));
    exact(&mut folder, 700);
    // it comes again, under a limit that the forecast and its open are of one mind about
    assert!(!takes(&mut folder, 1399, 700));
    assert_eq!(folder.open(1, entry).unwrap_err().kind(), ErrorKind::QuotaExceeded);
    assert!(takes(&mut folder, 1400, 700));
    folder.open(1, entry).unwrap();
    assert_eq!(folder.bytes(&bytes[..600]).unwrap(), 600);
    exact(&mut folder, 700 + 600);
    folder.checkpoint().unwrap();
    let manifest = folder.manifest_path().to_owned();
    drop(folder);
    let mut folder = Folder::resume_on(disk.clone(), &manifest).unwrap();
    exact(&mut folder, 700 + 600);
    folder.reopen(1, entry, 400).unwrap();
    exact(&mut folder, 700 + 400);
    assert_eq!(folder.bytes(&bytes[400..]).unwrap(), 300);
    folder.close(1).unwrap();
    exact(&mut folder, 700 + 700);
}
