//! Runs the original and this host over the same conversations and tells where they differ.
//!
//! Arguments: docs/DIFFERENCES.md, the folder for the sample, the seed (1 if there is none).
mod events;
mod generate;
mod host;
mod judge;
mod leaves;
mod lines;
mod mode_one;
mod narrow;
mod original;
mod packets;
mod random;
mod sample;
mod shorts;
mod talk;

use device::Rng;
use generate::Seeded;
use host::Cut;
use judge::Verdict;
use original::Original;
use random::Draws;
use std::collections::BTreeMap;
use std::path::{Path, PathBuf};
use std::process::ExitCode;
use talk::Talk;

#[derive(Default)]
struct Count {
    run: u64,
    inside: u64,
}

#[derive(Default)]
struct Comparison {
    seed: u64,
    kinds: BTreeMap<&'static str, Count>,
    /// The kinds in the order in which they came.
    order: Vec<&'static str>,
    ends: BTreeMap<String, u64>,
    /// Of those of 32 bits that the original's run tells all of.
    narrow_ends: BTreeMap<String, u64>,
    named: BTreeMap<&'static str, u64>,
    lines: u64,
    differ: u64,
    sample: sample::Sample,
}

/// What both sides are lent, as bundles.
struct Lent<'a> {
    talk: &'a Talk,
    set: &'a [u8],
    names: &'a [u8],
}

/// Where a conversation lies.
#[derive(PartialEq)]
enum Met {
    /// inside the domain
    Inside,
    /// mode 1 or a board of 32 bits has a part in it
    Measured,
    /// outside by another difference, or it differs
    Outside,
}

impl Comparison {
    /// A conversation, and one of eight again with mode 1 in it, another one of eight with a board of 32 bits. Gives all bytes that the device queued.
    fn compare(&mut self, t: &Talk) -> Vec<u8> {
        let (o, met) = self.converse(t);
        if met == Met::Inside {
            self.kinds.entry(t.kind).or_default().inside += 1;
            *self.ends.entry(events::name_of(&o.ran.end)).or_default() += 1;
        }
        if met != Met::Outside {
            self.sample.offer(t, &o, met == Met::Inside);
        }
        let n = self.kinds[t.kind].run;
        if n % 8 == 0 {
            self.converse(&mode_one::with(t, n / 8));
        }
        if n % 8 == 4 {
            self.compare_narrow(t, n);
        }
        o.fed
    }

    /// With a board of 32 bits, and some of these with mode 1 too.
    fn compare_narrow(&mut self, t: &Talk, n: u64) {
        let Some(board) = narrow::with(t) else { return };
        self.converse(&board);
        if n % 32 == 4 {
            self.converse(&mode_one::with(&board, n / 32));
        }
    }

    fn converse(&mut self, t: &Talk) -> (Original, Met) {
        let (set, names) = (t.image_set(), t.name_list());
        let lent = Lent { talk: t, set: &set.bytes, names: &names.bytes };
        let (o, one, narrow) = mode_one::run(t, &set);
        if !self.kinds.contains_key(t.kind) {
            self.order.push(t.kind);
        }
        self.kinds.entry(t.kind).or_default().run += 1;
        let same = self.answered(&lent, &o);
        if same {
            self.cut(&lent, &o);
        }
        for (id, met) in [("mode-1", one), ("memory-32", narrow)] {
            *self.named.entry(id).or_default() += u64::from(met);
        }
        if narrow && same {
            *self.narrow_ends.entry(events::name_of(&o.ran.end)).or_default() += 1;
        }
        let met = match (one || narrow, same) {
            (true, _) => Met::Measured,
            (false, true) => Met::Inside,
            (false, false) => Met::Outside,
        };
        (o, met)
    }

    /// Deliveries of all that is queued. True where the original's run tells all of it, and it is the same.
    fn answered(&mut self, l: &Lent, o: &Original) -> bool {
        let h = host::run(l.talk, l.set, l.names, Cut::Whole, false);
        match judge::judge(o, &h) {
            Err(text) => self.differs(l, "whole deliveries", &text),
            Ok(Verdict::Outside(id)) => *self.named.entry(id).or_default() += 1,
            Ok(Verdict::SameFile) => {
                *self.named.entry("same-file").or_default() += 1;
                return true;
            }
            Ok(Verdict::Same) => return true,
        }
        false
    }

    /// The same again: deliveries cut at random, and as the session wants them; then of one size, each step's line.
    fn cut(&mut self, l: &Lent, o: &Original) {
        let mut r = Rng::new(self.seed ^ self.kinds[l.talk.kind].run);
        for (cut, how) in [(Cut::Random(r.clone()), "random deliveries"), (Cut::Wanted, "wanted deliveries")] {
            let h = host::run(l.talk, l.set, l.names, cut, false);
            if let Some(text) = judge::differs(&o.ran, &h.ran) {
                self.differs(l, how, &text);
            }
        }
        let sizes = if o.fed.len() < 1000 {
            [1, 2, 3, 7, 8, 9, 24, 47, 48, 49]
        } else {
            [61, 63, 64, 65, 511, 512, 1000, 4095, 4096, 5000]
        };
        let size = r.pick(&sizes);
        let queued = Talk { opening: o.fed.clone(), live: None, ..l.talk.clone() };
        let h = host::run(&queued, l.set, l.names, Cut::Grid(size), true);
        let wanted = lines::lines(o, size, Some(&h.opens)).unwrap_or_default();
        self.lines += wanted.len() as u64;
        if let Some(i) = (0..wanted.len().max(h.lines.len())).find(|&i| wanted.get(i) != h.lines.get(i)) {
            let text = format!("deliveries of {size}, step {i}: the original: {:?}; here: {:?}", wanted.get(i), h.lines.get(i));
            self.differs(l, "line by line", &text);
        }
    }

    fn differs(&mut self, l: &Lent, how: &str, text: &str) {
        self.differ += 1;
        if self.differ > 8 {
            return;
        }
        let t = l.talk;
        let command = t.command.map_or("none".into(), |c| c.to_string());
        let backend = if t.usb { "USB" } else { "serial" };
        println!("DIFFERENT ({}, {how}): {text}", t.kind);
        println!(
            "    mode {} command {command} {backend}; set {}; names {}",
            t.mode,
            events::short(l.set),
            events::short(l.names)
        );
        println!("    device {}", events::short(&t.opening));
        if let Some(l) = &t.live {
            println!("    table {}; seed {}; answers {}", events::short(l.memory.table()), l.seed, l.answers);
        }
    }

    fn exhaustive(&mut self) {
        let families = [
            generate::headers,
            generate::lengths,
            generate::openings,
            generate::ranges,
            generate::chunks,
            generate::tables,
            generate::narrow,
            generate::filenames,
        ];
        for family in families {
            family(&mut |t| drop(self.compare(&t)));
        }
    }

    fn seeded(&mut self) {
        let mut g = Seeded::new(self.seed);
        for _ in 0..50_000 {
            self.compare(&g.soup());
        }
        for _ in 0..20_000 {
            for (t, damaged) in [
                (g.transfer(), "damaged transfers"),
                (g.command(), "damaged commands"),
                (g.dump(), "damaged dumps"),
                (g.whole(), "damaged whole runs"),
            ] {
                let fed = self.compare(&t);
                self.compare(&g.damaged(&t, damaged, &fed));
            }
        }
    }

    fn print(&self) {
        println!("conversations");
        for kind in &self.order {
            println!("  {:>9} run, {:>6} inside the domain: {kind}", self.kinds[kind].run, self.kinds[kind].inside);
        }
        let (run, inside) = self.kinds.values().fold((0, 0), |a, k| (a.0 + k.run, a.1 + k.inside));
        println!("  {run:>9} run, {inside:>6} inside the domain, {} differ", self.differ);
        println!(
            "  those inside, of mode 1 and of 32 bits ran again with deliveries cut at random, as wanted, and at one size ({} lines)",
            self.lines
        );
        for (which, ends) in [("inside", &self.ends), ("of 32 bits", &self.narrow_ends)] {
            println!("ends of those {which}");
            ends.iter().for_each(|(end, n)| println!("  {n:>9} {end}"));
        }
    }
}

fn operations(seed: u64) -> bool {
    println!("operations");
    let all = leaves::all(&mut Rng::new(seed));
    for l in &all {
        println!("  {:>9} cases, {} differ: {}", l.cases, l.differ.len(), l.what);
        l.differ.iter().take(3).for_each(|d| println!("DIFFERENT: {d}"));
    }
    all.iter().all(|l| l.differ.is_empty())
}

/// The original's fault; how often it showed, and whether this host is free of it.
fn short_reads(seed: u64) -> (u64, bool) {
    let s = shorts::shown(seed, 3_000);
    println!("the original, where a read gives less than a chunk");
    for shown in &s.smallest {
        println!("    {}", shown.text);
        println!(
            "      here, with deliveries of 1 byte and cut at random: {}",
            if shown.right { "the memory's bytes" } else { "DIFFERENT" }
        );
    }
    println!("    of {} seeded dumps, reads cut at random, {} have other bytes in a region", s.dumps, s.wrong);
    (s.wrong, s.smallest.len() == 2 && s.smallest.iter().all(|s| s.right))
}

/// Every difference that is met has its identifier in docs/DIFFERENCES.md, and every identifier there is met.
fn named(met: &BTreeMap<&'static str, u64>, ids: &[String]) -> bool {
    println!("differences that docs/DIFFERENCES.md names");
    let mut good = true;
    for id in judge::NAMED {
        let (n, known) = (met.get(id).copied().unwrap_or(0), ids.iter().any(|i| i == id));
        println!("  {n:>9} {id}{}", if known { "" } else { ": NOT NAMED" });
        good &= n > 0 && known;
    }
    for id in ids.iter().filter(|i| !judge::NAMED.contains(&i.as_str())) {
        println!("            {id}: NAMED, AND NOT COMPARED");
        good = false;
    }
    good
}

/// The identifiers that stand at the beginnings of a table's rows.
fn identifiers(text: &str) -> Vec<String> {
    text.lines().filter_map(|l| l.strip_prefix("| `")?.split_once("` |")).map(|(id, _)| id.to_owned()).collect()
}

fn compared(ids: &[String], sample: &Path, seed: u64) -> bool {
    println!("seed {seed}");
    let mut good = operations(seed);
    let mut c = Comparison { seed, ..Default::default() };
    c.exhaustive();
    c.seeded();
    c.print();
    let (wrong, free) = short_reads(seed);
    c.named.insert("short-read", wrong);
    good &= named(&c.named, ids) && free && c.differ == 0;
    let ends: Vec<String> = c.sample.ends.iter().map(|(e, n)| format!("{e}: {n}")).collect();
    println!("sample: {} conversations ({})", c.sample.cases, ends.join(", "));
    good &= c.sample.whole();
    for (name, bytes) in c.sample.files() {
        std::fs::write(sample.join(name), bytes).expect("the sample is written");
    }
    println!("{}", if good { "no difference but those named" } else { "DIFFERENT" });
    good
}

/// A fresh folder so deep that no filename of a table leads out of it.
fn fresh() -> std::io::Result<PathBuf> {
    let base = if Path::new("/dev/shm").is_dir() { PathBuf::from("/dev/shm") } else { std::env::temp_dir() };
    let top = base.join(format!("worgesli-compare.{}", std::process::id()));
    let deep = top.join("1/2/3/4/5/6/7/8");
    std::fs::create_dir_all(&deep)?;
    std::env::set_current_dir(&deep)?;
    Ok(top)
}

fn main() -> ExitCode {
    let args: Vec<String> = std::env::args().collect();
    let seed = args.get(3).map_or(Ok(1), |a| a.parse());
    let (Some(differences), Some(sample), Ok(seed)) = (args.get(1), args.get(2), seed) else {
        eprintln!("compare DIFFERENCES.md SAMPLE-FOLDER [SEED]");
        return ExitCode::from(2);
    };
    let text = std::fs::read_to_string(differences).expect("docs/DIFFERENCES.md is read");
    let sample = std::path::absolute(sample).expect("a folder for the sample");
    std::fs::create_dir_all(&sample).expect("the sample's folder is made");
    let top = fresh().expect("a folder for the original");
    let shown = std::panic::take_hook();
    std::panic::set_hook(Box::new(move |p| {
        if !original::RUNNING.load(std::sync::atomic::Ordering::Relaxed) {
            shown(p);
        }
    }));
    let good = compared(&identifiers(&text), &sample, seed);
    let _ = std::env::set_current_dir("/");
    let _ = std::fs::remove_dir_all(top);
    ExitCode::from(u8::from(!good))
}
