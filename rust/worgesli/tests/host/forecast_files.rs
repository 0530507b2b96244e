//! A folder with a limit, and the forecast: what does not fit is refused before a byte of a region is asked for, and nothing else is.
use crate::files::{start, Temporary};
use crate::resync::two_regions;
use crate::world::{host_width, world, worlds, World};
use device::{Device, Division, Faults, Region, Rng, Width, Wire};
use std::fs;
use std::io::{self, ErrorKind};
use worgesli::{
    entry_at, read_manifest, Backend, Driver, Entry, Error, Folder, Forecast, NameList, Outcome, Phase, Refusal, Sink, State,
    Unkept,
};

/// What a run was refused for.
fn quota(end: Result<Outcome, Error>) -> String {
    match end {
        Err(Error::Sink(e)) if e.kind() == ErrorKind::QuotaExceeded => e.to_string(),
        end => panic!("{end:?}"),
    }
}

fn wire(w: &World, seed: u64) -> Wire {
    Wire::new(Device::dump(w.memory.clone()), Division::Random, seed)
}

/// Names and lengths of the files of regions.
fn files(t: &Temporary) -> Vec<(String, usize)> {
    let ours = |name: &String| !name.starts_with("manifest~") && !name.starts_with("regions~");
    t.names().into_iter().filter(ours).map(|name| (name.clone(), t.read(&name).len())).collect()
}

/// One byte less than there is: nothing is fetched, however often it is tried; just as many: all is. With the numbers, in words.
#[test]
fn refused_before_a_byte() {
    for width in Width::BOTH {
        let w = two_regions(width, Backend::Usb);
        let (t, mut wire) = (Temporary::in_memory(), wire(&w, 1));
        let mut sink = Folder::new(t.dump()).unwrap().limit(0);
        let mut run = w.options().start().unwrap();
        for limit in [0, 1, 13_606, 13_607] {
            sink.set_limit(limit);
            let why = quota(run.run(&mut wire, &mut sink, |_| ()));
            let due = "what is still to be fetched (regions: 3, bytes: 13608) would bring the sum of lengths to 13608";
            assert_eq!(why, format!("{due}, above the limit of {limit}"));
            assert_eq!((wire.device.reads(), sink.regions().len()), (1, 0));
            // the list of regions is there, for who chooses among them
            assert_eq!(t.names(), ["manifest~1.tsv", "regions~1.txt"]);
        }
        sink.set_limit(13_608);
        assert_eq!(run.run(&mut wire, &mut sink, |_| ()).unwrap(), Outcome::Dumped { reads: 6 });
        assert_eq!(files(&t), [("A.BIN", 9000), ("B.BIN", 4608), ("C.BIN", 0)].map(|(n, l)| (n.to_owned(), l)));
    }
}

/// Fewer names, of which the sum fits: the same run goes on with them.
#[test]
fn fewer_names() {
    for width in Width::BOTH {
        let w = two_regions(width, Backend::Usb);
        let (t, mut wire) = (Temporary::in_memory(), wire(&w, 1));
        let mut sink = Folder::new(t.dump()).unwrap().limit(5000);
        let mut run = w.options().start().unwrap();
        quota(run.run(&mut wire, &mut sink, |_| ()));
        run.set_names(NameList::new(&["a", "b"]).unwrap());
        assert!(quota(run.run(&mut wire, &mut sink, |_| ())).contains("(regions: 2, bytes: 13608)"));
        run.set_names(NameList::new(&["b", "x"]).unwrap());
        assert_eq!(run.run(&mut wire, &mut sink, |_| ()).unwrap(), Outcome::Dumped { reads: 3 });
        assert_eq!(files(&t), [("B.BIN".to_owned(), 4608)]);
        assert_eq!(wire.device.reads(), 3);
    }
}

/// Lengths that are no number together: above every limit. Without one the regions before come first.
#[test]
fn absurd_lengths() {
    let regions = [Region::new("A.BIN", 0, 5000), Region::new("B.BIN", 0, 1 << 63), Region::new("C.BIN", 0, 1 << 63)];
    let t = Temporary::in_memory();
    let came = 48 + 24 + 3 * 64 + 5000 + 700;
    let (_, mut wire, mut run) = start(Width::Bits64, &regions, Faults { ends_after: Some(came), ..Faults::default() });
    let mut sink = Folder::new(t.dump()).unwrap().limit(u64::MAX - 1);
    let why = quota(run.run(&mut wire, &mut sink, |_| ()));
    assert!(why.contains("is refused (27): ") && why.ends_with(&format!("above the limit of {}", u64::MAX - 1)), "{why}");
    assert_eq!((wire.device.reads(), files(&t)), (1, vec![]));
    sink.set_limit(u64::MAX);
    assert!(matches!(run.run(&mut wire, &mut sink, |_| ()), Err(Error::NoBytes)));
    sink.checkpoint().unwrap();
    assert_eq!(files(&t), [("A.BIN".to_owned(), 5000), ("B.BIN.part".to_owned(), 700)]);
    // one of them alone is above a limit as any other is
    run.set_names(NameList::new(&["c"]).unwrap());
    sink.set_limit(1 << 63);
    let why = quota(run.run(&mut wire, &mut sink, |_| ()));
    let sum = (1u64 << 63) + 5700;
    assert!(why.contains(&format!("(regions: 1, bytes: {}) would bring the sum of lengths to {sum}, ", 1u64 << 63)), "{why}");
}

/// Goes on in another process from behind each step, under a limit of just the whole: no region counts twice. Under one byte less the next region is refused:
/// between two regions by the forecast, and in one when it is closed.
#[test]
fn another_process() {
    for width in Width::BOTH {
        let w = two_regions(width, Backend::Usb);
        let mut refused = 0;
        for (less, steps) in (0..).map(|n| (n % 2, n / 2)) {
            let (t, mut wire) = (Temporary::in_memory(), wire(&w, 1));
            let (mut run, mut sink) = (w.options().start().unwrap(), Folder::new(t.dump()).unwrap());
            if (0..steps).any(|_| run.step(&mut wire, &mut sink, |_| ()).unwrap().is_some()) {
                break;
            }
            sink.checkpoint().unwrap();
            let manifest = sink.manifest_path().to_owned();
            let whole = sink.regions().iter().filter(|k| k.state == State::Whole).count();
            let open = sink.regions().len() > whole;
            drop(sink);
            let mut sink = Folder::resume(manifest).unwrap().limit(13_608 - less);
            let mut run = w.options().restore(&run.save()).unwrap();
            // the third has no byte: it would be refused for those before it
            let fits = less == 0 || whole + usize::from(open) == 3;
            let end = run.run(&mut wire, &mut sink, |_| ());
            if !fits {
                let why = quota(end);
                assert!(open || why.contains("still to be fetched (regions: "), "{steps} steps: {why}");
                assert_eq!(sink.regions().len(), whole + usize::from(open), "{steps} steps");
                refused += 1;
                sink.set_limit(13_608);
                run.run(&mut wire, &mut sink, |_| ()).unwrap();
            } else {
                end.unwrap();
            }
            assert_eq!(files(&t), [("A.BIN", 9000), ("B.BIN", 4608), ("C.BIN", 0)].map(|(n, l)| (n.to_owned(), l)));
        }
        assert!(refused > 10, "{refused}");
    }
}

/// A run that goes on in a region, under a limit that its next region passes: that is refused when it is its turn, and fewer names go on without it.
#[test]
fn fewer_names_behind_a_refused_region() {
    for width in Width::BOTH {
        let w = two_regions(width, Backend::Serial);
        let (t, mut wire) = (Temporary::in_memory(), wire(&w, 1));
        let (mut run, mut sink) = (w.options().start().unwrap(), Folder::new(t.dump()).unwrap());
        while run.session().phase() != Phase::Region || run.session().raw().done == 0 {
            run.step(&mut wire, &mut sink, |_| ()).unwrap();
        }
        sink.checkpoint().unwrap();
        let mut sink = Folder::resume(sink.manifest_path()).unwrap().limit(9000);
        let mut run = w.options().restore(&run.save()).unwrap();
        quota(run.run(&mut wire, &mut sink, |_| ()));
        for _ in 0..2 {
            // the limit holds A; B is chosen by these too, and C alone has no byte
            run.set_names(NameList::new(&["b", "c"]).unwrap());
            quota(run.run(&mut wire, &mut sink, |_| ()));
        }
        run.set_names(NameList::new(&["c"]).unwrap());
        assert_eq!(run.run(&mut wire, &mut sink, |_| ()).unwrap(), Outcome::Dumped { reads: 4 });
        assert_eq!(files(&t), [("A.BIN", 9000), ("C.BIN", 0)].map(|(n, l)| (n.to_owned(), l)));
    }
}

/// The folder closed the region, and who saved the run before did not hear of it: it is not counted twice.
#[test]
fn closed_behind_the_last_save() {
    for width in Width::BOTH {
        let w = two_regions(width, Backend::Serial);
        let (t, mut wire) = (Temporary::in_memory(), wire(&w, 1));
        let (mut run, mut sink) = (w.options().start().unwrap(), Folder::new(t.dump()).unwrap());
        let mut saved = run.save();
        while sink.regions().first().is_none_or(|k| k.state != State::Whole) {
            saved = run.save();
            run.step(&mut wire, &mut Through { to: &mut sink, forecasts: true, gathers: 0 }, |_| ()).unwrap();
        }
        let mut sink = Folder::resume(sink.manifest_path()).unwrap().limit(13_608);
        let mut run = w.options().restore(&saved).unwrap();
        assert_eq!((run.session().phase(), run.session().raw().done), (Phase::Region, 9000));
        assert_eq!(run.run(&mut wire, &mut sink, |_| ()).unwrap(), Outcome::Dumped { reads: 6 });
        assert_eq!(files(&t), [("A.BIN", 9000), ("B.BIN", 4608), ("C.BIN", 0)].map(|(n, l)| (n.to_owned(), l)));
    }
}

/// A run that goes on into another folder: only what is still to come counts there.
#[test]
fn another_folder() {
    for width in Width::BOTH {
        let w = two_regions(width, Backend::Usb);
        let (t, other, mut wire) = (Temporary::in_memory(), Temporary::in_memory(), wire(&w, 1));
        let (mut run, mut sink) = (w.options().start().unwrap(), Folder::new(t.dump()).unwrap());
        while sink.regions().first().is_none_or(|k| k.state != State::Whole) {
            run.step(&mut wire, &mut sink, |_| ()).unwrap();
        }
        let mut sink = Folder::new(other.dump()).unwrap().limit(4607);
        assert!(quota(run.run(&mut wire, &mut sink, |_| ()))
            .contains("(regions: 2, bytes: 4608) would bring the sum of lengths to 4608,"));
        sink.set_limit(4608);
        run.run(&mut wire, &mut sink, |_| ()).unwrap();
        assert_eq!((files(&t).len(), files(&other).len()), (1, 2));
    }
}

/// Nothing more is to be opened: a limit below what was written, or names that choose nothing, stop nothing.
#[test]
fn nothing_to_come() {
    for width in Width::BOTH {
        let w = two_regions(width, Backend::Usb);
        let (t, mut wire) = (Temporary::in_memory(), wire(&w, 1));
        let (mut run, mut sink) = (w.options().start().unwrap(), Folder::new(t.dump()).unwrap());
        while sink.regions().last().is_none_or(|k| k.place < 2 || k.state != State::Whole) {
            assert_eq!(run.step(&mut wire, &mut sink, |_| ()).unwrap(), None);
        }
        sink.set_limit(5);
        assert_eq!(run.run(&mut wire, &mut sink, |_| ()).unwrap(), Outcome::Dumped { reads: 6 });
        let mut run = w.options().names(["x"]).start().unwrap();
        assert_eq!(run.run(&mut self::wire(&w, 2), &mut sink, |_| ()).unwrap(), Outcome::Dumped { reads: 1 });
        // an empty region more is refused, as its open would be
        let mut run = w.options().names(["c"]).start().unwrap();
        assert!(quota(run.run(&mut self::wire(&w, 2), &mut sink, |_| ()))
            .contains("(regions: 1, bytes: 0) would bring the sum of lengths to 13608,"));
        let entry = entry_at(w.memory.table(), host_width(width), 2).unwrap();
        assert_eq!(sink.open(2, &entry).unwrap_err().kind(), ErrorKind::QuotaExceeded);
    }
}

/// A folder with another gathering, or one that is told no forecast: it refuses when it opens, as one did before there was any.
struct Through<'a> {
    to: &'a mut Folder,
    forecasts: bool,
    gathers: usize,
}

impl Sink for Through<'_> {
    fn table(&mut self, table: &[u8], width: worgesli::Width) -> io::Result<()> {
        self.to.table(table, width)
    }
    fn forecast(&mut self, forecast: Result<Forecast, Refusal>) -> io::Result<()> {
        if self.forecasts {
            self.to.forecast(forecast)?;
        }
        Ok(())
    }
    fn open(&mut self, place: usize, entry: &Entry) -> io::Result<()> {
        self.to.open(place, entry)
    }
    fn bytes(&mut self, bytes: &[u8]) -> io::Result<usize> {
        self.to.bytes(bytes)
    }
    fn close(&mut self, place: usize) -> Result<(), Unkept> {
        self.to.close(place)
    }
    fn reopen(&mut self, place: usize, entry: &Entry, taken: u64) -> Result<(), Unkept> {
        self.to.reopen(place, entry, taken)
    }
    fn gathers(&self) -> usize {
        self.gathers
    }
}

/// A folder and a run with a past, by a seed: fetches into it that ended or were left in the middle, processes before, older runs, other names. Gives whether
/// the run is at its beginning, and the folder has no region that is begun and not whole.
fn with_a_past(w: &World, rng: &mut Rng, t: &Temporary) -> (Folder, Wire, Driver, bool) {
    let mut sink = Folder::new(t.dump()).unwrap().sheet(false).digests(false);
    let start = |seed| (Wire::new(Device::dump(w.memory.clone()), Division::AtMost(3000), seed), w.options().start().unwrap());
    for _ in 0..rng.below(3) {
        let (mut wire, mut run) = start(rng.number());
        let most = if rng.chance(300) { u64::MAX } else { rng.below(20) };
        let _ = (0..most).try_for_each(|_| match run.step(&mut wire, &mut sink, |_| ()) {
            Ok(None) => Ok(()),
            _ => Err(()),
        });
    }
    let (mut wire, mut run) = start(rng.number());
    let (mut saved, mut fresh) = (None, true);
    for step in 0..rng.below(30) {
        if run.step(&mut wire, &mut sink, |_| ()).unwrap().is_some() {
            ((wire, run), saved, fresh) = (start(rng.number()), None, true);
            break;
        }
        fresh = run.session().raw().at == 0 && run.session().phase() != Phase::Region;
        if step % 4 == 0 && run.session().phase() != Phase::Packet {
            saved = Some(run.save());
        }
    }
    match (rng.below(4), saved) {
        (0, _) => {}
        (1, Some(saved)) => {
            sink.checkpoint().unwrap();
            sink = Folder::resume(sink.manifest_path()).unwrap().sheet(false).digests(false);
            run = w.options().restore(&saved).unwrap();
            // what it finds of the region at hand may be of the later run: then it is lost, and comes again
            let _ = run.resync(&mut wire, &mut sink);
            fresh = false;
        }
        (1 | 2, _) => {
            sink.checkpoint().unwrap();
            sink = Folder::resume(sink.manifest_path()).unwrap().sheet(false).digests(false);
            run = w.options().restore(&run.save()).unwrap();
        }
        _ => {
            let other = world(rng.below(100), w.width()).names;
            run.set_names(NameList::new(&other).unwrap());
        }
    }
    let parts = sink.regions().iter().any(|k| k.state == State::Part);
    (sink, wire, run, fresh && !parts)
}

/// Runs to the end, or to a refusal by the limit, going on behind other errors.
fn to_the_end(run: &mut Driver, wire: &mut Wire, sink: &mut impl Sink) -> Result<(), String> {
    for _ in 0..20 {
        match run.run(wire, sink, |_| ()) {
            Ok(_) => return Ok(()),
            Err(Error::Sink(e)) if e.kind() == ErrorKind::QuotaExceeded => return Err(e.to_string()),
            Err(Error::TimedOut(_)) => drop(run.resync(wire, sink)),
            Err(_) => {}
        }
    }
    panic!("it does not end");
}

/// Whatever the folder and the run have behind them, the forecast refuses nothing of which every region would be opened; and of a run at its beginning all that
/// would not, before the first.
#[test]
fn as_the_opens_would() {
    let (mut seen, mut early) = ([[0; 2]; 2], 0);
    for (seed, w) in worlds(0..300) {
        for turn in 0..3 {
            let runs = || {
                let (mut rng, t) = (Rng::new(7 * seed + turn), Temporary::in_memory());
                let (mut sink, wire, run, fresh) = with_a_past(&w, &mut rng, &t);
                // about what it comes to
                let have: u64 = sink.regions().iter().map(|k| k.bytes).sum();
                let Forecast { bytes, .. } = run.forecast().unwrap().unwrap_or(w.forecast());
                sink.set_limit((have + bytes + rng.below(3)).saturating_sub(rng.below(2) * rng.below(bytes + 2) + 1));
                (t, sink, wire, run, fresh)
            };
            let (_t, mut sink, mut wire, mut run, fresh) = runs();
            let (_u, mut other, mut other_wire, mut other_run, _) = runs();
            let begun = sink.regions().len();
            let end = to_the_end(&mut run, &mut wire, &mut sink);
            let due =
                to_the_end(&mut other_run, &mut other_wire, &mut Through { to: &mut other, forecasts: false, gathers: 65_536 });
            assert!(end.is_ok() || due.is_err(), "seed {seed} {turn}, {w:?}: {end:?}");
            assert!(due.is_ok() || end.is_err(), "seed {seed} {turn}, {w:?}: {due:?}");
            if fresh && end.is_err() {
                assert_eq!(sink.regions().len(), begun, "seed {seed} {turn}, {w:?}: {end:?}");
                early += 1;
            }
            seen[usize::from(end.is_ok())][usize::from(fresh)] += 1;
        }
    }
    assert!(seen.iter().flatten().all(|n| *n > 50) && early > 50, "{seen:?} {early}");
}

/// The manifest of a fetch that was refused says so: no region.
#[test]
fn manifest_of_a_refused_fetch() {
    let w = two_regions(Width::Bits32, Backend::Usb);
    let t = Temporary::in_memory();
    let mut sink = Folder::new(t.dump()).unwrap().limit(100);
    quota(w.options().start().unwrap().run(&mut wire(&w, 1), &mut sink, |_| ()));
    let manifest = sink.manifest_path().to_owned();
    sink.finish().unwrap();
    assert_eq!(read_manifest(&manifest).unwrap(), []);
    assert_eq!(fs::read_to_string(manifest.with_file_name("regions~1.txt")).unwrap().lines().count(), 3);
}
