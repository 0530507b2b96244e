//! Single steps in guarded buffers: what they report, in order, and which bytes they change.
use crate::guard::{Guarded, Side};
use crate::world::{worlds, World};
use device::{Device, Rng, Width};
use worgesli::{raw, Answer, Backend, ImageSet, Mode, NameList, Phase, Session};

#[derive(Clone, Debug, PartialEq, Eq)]
enum Report {
    Sent(Vec<u8>),
    Open(usize),
    Bytes(Vec<u8>),
    EmptyRead,
    Close(usize),
    Finished(u8, u64),
}

fn mem_read(w: &World, at: u64, len: u64) -> Report {
    Report::Sent(match w.width() {
        Width::Bits32 => device::packet(0x0a, &[at.try_into().unwrap(), len.try_into().unwrap()]),
        Width::Bits64 => device::packet64(0x11, &[at, len]),
    })
}

/// What a host does that never sees a division.
fn plain(w: &World) -> Vec<Report> {
    let hello = device::packet(2, &[2, 1, 0, 2, 0, 0, 0, 0, 0, 0]);
    let mut all = vec![Report::Sent(hello), mem_read(w, w.memory.table_at(), w.memory.table_len())];
    for place in w.selected() {
        let r = &w.regions[place];
        all.push(Report::Open(place));
        let mut done = 0;
        while done < r.len {
            let n = (r.len - done).min(4096);
            all.push(mem_read(w, r.base + done, n));
            all.push(Report::Bytes(w.memory.bytes(r.base + done, n as usize)));
            if w.backend == Backend::Usb && n.is_multiple_of(512) {
                all.push(Report::EmptyRead);
            }
            done += n;
        }
        all.push(Report::Close(place));
    }
    all.push(Report::Finished(3, w.memory_reads()));
    all
}

/// The buffers of a run, each against a guard page and no longer than it must be.
struct Lent {
    set: Guarded,
    names: Guarded,
    table: Guarded,
    reply: Guarded,
    out: Guarded,
    side: Side,
}

impl Lent {
    fn new(w: &World, side: Side) -> Lent {
        let set = ImageSet::new(&[Some(vec![5; 9]), None]).unwrap();
        let names = NameList::new(&w.names).unwrap();
        Lent {
            set: Guarded::new(set.bytes(), side),
            names: Guarded::new(names.bytes(), side),
            table: Guarded::new(&vec![0x11; w.memory.table_len() as usize], side),
            reply: Guarded::new(&[0x22; 3], side),
            out: Guarded::new(&[0x33; 48], side),
            side,
        }
    }

    /// A step, with every byte of the buffers looked at afterwards.
    fn step(&mut self, s: &mut Session, delivery: &[u8]) -> (usize, Answer) {
        let was = *s.raw();
        let (mut table, reply, mut out) = (self.table.to_vec(), self.reply.to_vec(), self.out.to_vec());
        let mut lent = Guarded::new(delivery, self.side);
        let (taken, answer) = s.step(&lent, &self.set, &self.names, &mut self.table, &mut self.reply, &mut self.out);
        if was.phase == Phase::Table as u32 {
            table[was.at..was.at + taken].copy_from_slice(&delivery[..taken]);
        }
        if let Answer::Send(k) = answer {
            out[..k].copy_from_slice(&self.out[..k]);
        }
        assert!(*self.table == *table && *self.reply == *reply && *self.out == *out && *lent == *delivery);
        [&mut lent, &mut self.set, &mut self.names, &mut self.table, &mut self.reply, &mut self.out]
            .into_iter()
            .for_each(Guarded::check);
        (taken, answer)
    }

    /// A step lent something else, that must be refused: nothing changes.
    fn refused(&mut self, s: &mut Session, rng: &mut Rng) {
        let was = *s;
        let side = self.side;
        let (mut set, mut names, mut out) = (self.set.to_vec(), self.names.to_vec(), self.out.len());
        let number = 1 + rng.below(3);
        match number {
            1 => set.push(0),
            2 => names.truncate(7),
            _ => out = rng.below(48) as usize,
        }
        let (set, names) = (Guarded::new(&set, side), Guarded::new(&names, side));
        let mut out = Guarded::new(&vec![0x44; out], side);
        let mut delivery = vec![0; rng.below(100) as usize];
        rng.fill(&mut delivery);
        let table = self.table.to_vec();
        let (taken, answer) = s.step(&delivery, &set, &names, &mut self.table, &mut self.reply, &mut out);
        assert!(taken == 0 && *s == was && *self.table == *table && out.iter().all(|b| *b == 0x44));
        assert!(matches!(answer, Answer::Refused(why) if u64::from(why.number()) == number), "{answer:?}");
    }
}

/// Runs a session to its end; gives the reports, with neighbouring bytes joined, and the number of steps.
fn run(w: &World, seed: u64, side: Side) -> (Vec<Report>, u64) {
    let mut rng = Rng::new(seed);
    let mut device = Device::dump(w.memory.clone());
    let mut lent = Lent::new(w, side);
    let mut s = Session::open(Mode::MemoryDebug, None, w.backend);
    let (mut queue, mut reports, mut steps) = (Vec::new(), Vec::new(), 0);
    loop {
        if rng.chance(50) {
            lent.refused(&mut s, &mut rng);
        }
        // all that the device has said; a delivery is any beginning of it
        let more = device.queued() as usize;
        let held = queue.len();
        queue.resize(held + more, 0);
        device.say(&mut queue[held..]);
        let n = if queue.is_empty() { 0 } else { rng.piece(queue.len()) };
        let wanted = s.wanted();
        assert!(n > 0 || wanted == 0, "it waits for bytes that nobody sends");
        let (taken, answer) = lent.step(&mut s, &queue[..n]);
        steps += 1;
        // no more than is wanted is taken whole; where nothing is wanted, nothing is taken
        assert!(if n <= wanted { taken == n } else { taken >= wanted && (taken > 0) == (wanted > 0) });
        match answer {
            Answer::Go => {}
            Answer::Send(k) => {
                device.hear(&lent.out[..k]);
                reports.push(Report::Sent(lent.out[..k].to_vec()));
            }
            Answer::Open(i) => reports.push(Report::Open(i)),
            Answer::Bytes(k) => match reports.last_mut() {
                Some(Report::Bytes(bytes)) => bytes.extend_from_slice(&queue[..k]),
                _ => reports.push(Report::Bytes(queue[..k].to_vec())),
            },
            Answer::EmptyRead => reports.push(Report::EmptyRead),
            Answer::Close(i) => reports.push(Report::Close(i)),
            Answer::Finished { how, reads } => {
                reports.push(Report::Finished(how, reads));
                assert_eq!((queue.len() - taken, device.wrong()), (0, None));
                return (reports, steps);
            }
            a => panic!("{a:?}"),
        }
        queue.drain(..taken);
    }
}

/// For any division and with refused steps between, the reports are those of the plain host, after no more steps than document 01 counts.
#[test]
fn reports_of_the_plain_host() {
    for (seed, w) in worlds(0..1500) {
        let side = if seed % 2 == 0 { Side::Behind } else { Side::Before };
        let (reports, steps) = run(&w, seed, side);
        assert_eq!(reports, plain(&w), "seed {seed}, {w:?}");
        let bytes = w.opening() + w.memory.table_len() + w.chunks().iter().sum::<u64>();
        assert!(steps <= bytes + 2 * w.selected().len() as u64 + 2 * w.memory_reads(), "seed {seed}, {w:?}: {steps}");
    }
}

/// The response and its buffer: filled byte by byte, 18 where the buffer is too short, in the finishing step too.
#[test]
fn response() {
    for len in [0usize, 1, 7, 100] {
        for side in [Side::Behind, Side::Before] {
            let empty = [0; 8];
            let (mut reply, mut out) = (Guarded::new(&vec![0x22; len], side), Guarded::new(&[0; 48], side));
            let mut s = Session::open(Mode::Command, Some(worgesli::Command::ReadHwId), Backend::Usb);
            let said = device::execute_resp(2, len as u32);
            let mut step = |s: &mut Session, d: &[u8], reply: &mut [u8]| s.step(d, &empty, &empty, &mut [], reply, &mut out);
            let refused = |a| matches!(a, Answer::Refused(why) if why.number() == 18);
            assert_eq!(step(&mut s, &said, &mut reply), (16, Answer::Send(12)));
            for i in 0..len {
                assert_eq!((s.phase(), s.wanted()), (Phase::Response, len - i));
                assert!(refused(step(&mut s, &[1], &mut reply[..len - 1]).1));
                let (taken, answer) = step(&mut s, &[i as u8], &mut reply);
                assert_eq!((taken, answer), (1, if i + 1 == len { Answer::Send(12) } else { Answer::Go }));
                assert!(reply[..=i].iter().enumerate().all(|(i, b)| *b == i as u8) && reply[i + 1..].iter().all(|b| *b == 0x22));
            }
            if len == 0 {
                assert_eq!(step(&mut s, &[], &mut reply), (0, Answer::Send(12)));
            } else {
                assert!(refused(step(&mut s, &[], &mut reply[..len - 1]).1));
            }
            assert_eq!((s.phase(), s.wanted(), s.reply_len()), (Phase::Switched, 0, len));
            assert_eq!(step(&mut s, &[9], &mut reply), (0, Answer::Finished { how: 4, reads: 0 }));
            assert_eq!((s.phase(), s.reply_len()), (Phase::Ended, len));
            reply.check();
        }
    }
}

/// A session kept as numbers and taken up again goes on as if nothing had been.
#[test]
fn kept_as_numbers() {
    let s = Session::open(Mode::MemoryDebug, None, Backend::Usb);
    assert_eq!(Session::from_raw(*s.raw()), Some(s));
    assert_eq!(Session::from_raw(raw::Session { phase: 7, ..*s.raw() }), None);
    assert_eq!(Session::from_raw(raw::Session { mode: 4, ..*s.raw() }), None);
    for width in [0, 31, 33, 63, 65, 1 << 32 | 32, u64::MAX] {
        assert_eq!(Session::from_raw(raw::Session { width, ..*s.raw() }), None);
    }
    assert_eq!((s.width(), s.raw().width), (worgesli::Width::Bits64, 64));
    let narrow = Session::from_raw(raw::Session { width: 32, ..*s.raw() }).unwrap();
    assert_eq!((narrow.width(), narrow == s), (worgesli::Width::Bits32, false));
    assert_eq!((s.wanted(), s.reads(), s.phase(), s.reply_len()), (8, 0, Phase::Packet, 0));
}
