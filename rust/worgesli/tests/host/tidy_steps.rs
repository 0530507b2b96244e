//! A device gets the same from an image set and from its tidy form: lists of steps of any session, made with either, each step lent all else alike. Answers with
//! their values, bytes taken, sessions and buffers must be the same, and of an image its length and bytes; where it starts in its set need not be.
use crate::bad_input::{numbers, step};
use crate::tidy::{form_with, random, set, slots, Slot, ABSENT};
use device::{Region, Rng, Width};
use std::collections::BTreeMap;
use worgesli::{raw, tidy, Answer, Backend, Mode, NameList, Session, SLOTS};

const IMAGE: u32 = 2;
const REFUSED: u32 = 8;

// ---- the case of the request

/// Of one image and an absent second slot: the image is served under its own ID, the other ID is refused, and a device that is done with status 0 may go on. So
/// it is from the tidy form. The image alone is served under every ID, and there is nothing to go on with.
#[test]
fn one_image_and_an_absent_second_slot() {
    let assembled = set(&[(3, 5), ABSENT], b"abcimagexyz");
    let tidied = [2, 0, 0, 0, 5, 0, 0, 0, 0, 0, 0, 0, 255, 255, 255, 255, 5, 0, 0, 0, 0, 0, 0, 0, b'i', b'm', b'a', b'g', b'e'];
    let alone = [1, 0, 0, 0, 5, 0, 0, 0, 0, 0, 0, 0, 5, 0, 0, 0, b'i', b'm', b'a', b'g', b'e'];
    assert_eq!(tidy(&assembled).unwrap(), tidied);
    assert_eq!((tidy(&tidied).unwrap(), tidy(&alone).unwrap()), (tidied.to_vec(), alone.to_vec()));
    let finished = Answer::Finished { how: 1, reads: 0 };
    for (set, second, done) in
        [(&assembled[..], Err(12), Answer::Go), (&tidied[..], Err(12), Answer::Go), (&alone[..], Ok(true), finished)]
    {
        let (open, none) = (Session::open(Mode::WaitingForImage, None, Backend::Usb), [0; 8]);
        let said = |mut s: Session, packet: &[u8]| {
            let (taken, answer) = s.step(packet, set, &none, &mut [], &mut [], &mut [0; 48]);
            assert_eq!(taken, packet.len());
            answer
        };
        let served = |answer| match answer {
            Answer::Image { start, len } => Ok(set[start..start + len] == *b"image"),
            Answer::Refused(why) => Err(why.number()),
            other => panic!("{other:?}"),
        };
        assert_eq!(served(said(open, &device::read_data(0, 0, 5))), Ok(true));
        assert_eq!(served(said(open, &device::read_data64(0, 0, 5))), Ok(true));
        assert_eq!(served(said(open, &device::read_data(1, 0, 5))), second);
        assert_eq!(served(said(open, &device::read_data64(1, 0, 5))), second);
        assert_eq!(said(open, &device::done_resp(0)), done);
        assert_eq!(said(open, &device::done_resp(1)), finished);
    }
}

// ---- two runs

/// A session and its buffers.
#[derive(Clone, Debug, PartialEq)]
pub struct Run {
    pub session: raw::Session,
    pub table: Vec<u8>,
    pub reply: Vec<u8>,
    pub out: Vec<u8>,
}

/// What a step is lent of a run's buffers, so many bytes of each, and beside them.
struct Lent<'a> {
    delivery: &'a [u8],
    names: &'a [u8],
    table: usize,
    reply: usize,
    out: usize,
}

impl Run {
    /// One step, by value and in place.
    fn step(&mut self, lent: &Lent, set: &[u8]) -> raw::Stepped {
        let (table, reply, out) = (&mut self.table[..lent.table], &mut self.reply[..lent.reply], &mut self.out[..lent.out]);
        let r = step(self.session, lent.delivery, set, lent.names, table, reply, out);
        self.session = r.session;
        r
    }
}

/// Answer, values and bytes taken, and in the place of an image's start its bytes.
fn told(r: raw::Stepped, set: &[u8]) -> (u32, u64, u64, usize, &[u8]) {
    match r.answer {
        IMAGE => (IMAGE, 0, r.second, r.taken, &set[r.first as usize..][..r.second as usize]),
        answer => (answer, r.first, r.second, r.taken, &[]),
    }
}

/// How often each answer came, a refusal and a finish by its number; and what else is worth a count.
#[derive(Default)]
struct Seen {
    answers: BTreeMap<(u32, u64), u32>,
    others: BTreeMap<&'static str, u32>,
}

impl Seen {
    fn answer(&mut self, r: &raw::Stepped) {
        let number = if r.answer >= 7 { r.first } else { 0 };
        *self.answers.entry((r.answer, number)).or_default() += 1;
    }

    /// Of a step from this session with a set of these images, and with its form.
    fn note(&mut self, was: &raw::Session, a: &raw::Stepped, b: &raw::Stepped, images: &[Option<&[u8]>]) {
        let mut note = |what, so: bool| *self.others.entry(what).or_default() += u32::from(so);
        note("an image that starts elsewhere", a.answer == IMAGE && a.second > 0 && a.first != b.first);
        // one image, which may not be served under another's ID for want of other slots
        let (first, behind) = (images.first(), images.get(1..).unwrap_or_default());
        let first_alone = matches!(first, Some(Some(_))) && !behind.is_empty() && behind.iter().all(Option::is_none);
        let refused = (a.answer, a.first) == (REFUSED, 12);
        note("12 of a set with its first slot alone", first_alone && refused);
        note("12 of a set with absent slots at its end", behind.last() == Some(&None) && refused);
        // only a DoneResp is whole and answered by go
        let done = (a.answer, was.phase, a.session.phase, a.session.count) == (0, 0, 0, 0) && a.taken > 0;
        note("done, and go on, with the first slot alone", first_alone && done);
        note("done, and go on, without a slot", images.is_empty() && done);
        note("done, and finished, with one absent slot", *images == [None] && (a.answer, a.first) == (7, 1));
    }
}

/// Makes a list of steps with either set; what came of the first one that tells them apart.
fn apart(rng: &mut Rng, set: &[u8], form: &[u8], seen: &mut Seen) -> Option<String> {
    let images = slots(set);
    let (mut ours, mut queue) = begun(rng, &images);
    let mut theirs = ours.clone();
    for _ in 0..1 + rng.below(12) {
        if queue.is_empty() || rng.chance(100) {
            queue.extend(speech(rng, &ours.session, &images));
        }
        let piece = [0, queue.len(), rng.piece(queue.len())][(rng.below(17) as usize).div_ceil(8)];
        let (names, other) = (names(rng), other(rng, set));
        let short = |rng: &mut Rng, len: usize, chance| if rng.chance(chance) { rng.below(len as u64) as usize } else { len };
        let lent = Lent {
            delivery: &queue[..piece],
            names: &names,
            table: short(rng, ours.table.len(), 40),
            reply: short(rng, ours.reply.len(), 40),
            out: short(rng, ours.out.len(), 20),
        };
        // now and then the same set in both runs, good or malformed
        let (set, form) = other.as_deref().map_or((set, form), |other| (other, other));
        let was = ours.session;
        let (a, b) = (ours.step(&lent, set), theirs.step(&lent, form));
        let same = told(a, set) == told(b, form) && (other.is_none() || a == b);
        if !same || ours != theirs {
            return Some(format!("{was:?}, {:?}: {a:?} and {b:?}", lent.delivery));
        }
        seen.answer(&a);
        if other.is_none() {
            seen.note(&was, &a, &b, &images);
        }
        queue.drain(..a.taken);
        // these stay as they are
        if was.phase == 6 || (a.answer, a.first) == (REFUSED, 18) && rng.chance(500) {
            break;
        }
    }
    None
}

// ---- at random

/// A set at random, often with its first slot alone.
pub fn any_set(rng: &mut Rng) -> Vec<u8> {
    if rng.chance(850) {
        return random(rng);
    }
    let mut data = vec![0; 1 + rng.below(30) as usize];
    rng.fill(&mut data);
    let (start, behind) = (rng.below(data.len() as u64) as u32, [0, 1, 1, 2, rng.below(64)][rng.below(5) as usize]);
    let image = (start, rng.below(data.len() as u64 + 1 - u64::from(start)) as u32);
    set(&[&[image][..], &vec![ABSENT; behind as usize]].concat(), &data)
}

/// Another set for this step: none, most often.
fn other(rng: &mut Rng, set: &[u8]) -> Option<Vec<u8>> {
    match rng.below(50) {
        0 => Some(random(rng)),
        1 => Some(set[..set.len() - 1].to_vec()),
        2 => Some(vec![65, 0, 0, 0, 0, 0, 0, 0]),
        _ => None,
    }
}

pub fn names(rng: &mut Rng) -> Vec<u8> {
    match rng.below(40) {
        0 => set(&[ABSENT], b""),
        1..10 => NameList::new(&["a", "Ocimem"]).unwrap().bytes().to_vec(),
        _ => vec![0; 8],
    }
}

/// Entries of a table, and a part of one.
pub fn entries(rng: &mut Rng, width: Width) -> Vec<u8> {
    let names: [&[u8]; 8] = [b"A.BIN", b"a.x", b"OCIMEM.BIN", b"B", b"", b"A.23456789abcdefghijk", b"A\xff.", b"A.\0\xff"];
    let mut table = Vec::new();
    for _ in 0..rng.below(5) {
        let len = [0, 1, 600, 4096][rng.below(4) as usize];
        let base = if rng.chance(150) { width.end_less(1 + rng.below(2)) } else { rng.below(1 << 20) };
        let region = Region::new(names[(rng.below(11) as usize).saturating_sub(3)], base, len);
        table.extend(if rng.chance(200) { region.unpreferred() } else { region }.bytes(width));
    }
    table.extend(vec![7; rng.below(20) as usize]);
    table
}

/// A session and its buffers, and what its device has said: just opened, made up in any phase, or numbers that are no session.
pub fn begun(rng: &mut Rng, images: &[Option<&[u8]>]) -> (Run, Vec<u8>) {
    let width = Width::BOTH[rng.below(2) as usize];
    let command = [0, 1, 2, 3, raw::NO_COMMAND][rng.below(5) as usize];
    let mut s = raw::worgesli_open(rng.below(4) as u32, command, rng.below(2) as u32);
    let (mut table, mut queue) = (entries(rng, width), Vec::new());
    table.resize(280, 9);
    let kind = rng.below(16);
    if kind < 7 {
        (s.phase, s.width) = ((rng.below(10) as u32).saturating_sub(3), width.bits().into());
        s.reads = [0, 1, rng.below(99), (1 << 63) + rng.below(3)][(rng.below(20) as usize).saturating_sub(16)];
        match s.phase {
            0 => queue = held(rng, &mut s, images),
            1 | 2 | 6 => s.count = rng.below(66) as usize,
            _ => s.count = rng.below(282) as usize,
        }
        match s.phase {
            1 | 3 => s.at = rng.below(s.count as u64 + 2) as usize,
            4 | 5 => s.at = rng.below(s.count as u64 / 64 + 2) as usize,
            _ => {}
        }
        if s.phase == 5 {
            region(rng, &mut s, width);
        }
    } else if kind == 7 {
        s = numbers(rng);
    }
    let mut rest = [0; 64 + 52];
    rng.fill(&mut rest);
    (Run { session: s, table, reply: rest[..64].to_vec(), out: rest[64..].to_vec() }, queue)
}

/// A packet is there in part, by its count now and then with more bytes than it has; gives what is still to come.
fn held(rng: &mut Rng, s: &mut raw::Session, images: &[Option<&[u8]>]) -> Vec<u8> {
    let packet = packet(rng, images);
    s.count = rng.below(packet.len() as u64) as usize;
    let n = s.count.min(48);
    s.window[..n].copy_from_slice(&packet[..n]);
    let rest = packet[s.count..].to_vec();
    s.count += if rng.chance(50) { rng.below(5000) as usize } else { 0 };
    rest
}

fn region(rng: &mut Rng, s: &mut raw::Session, width: Width) {
    s.len = [0, 1, 512, 600, 4096, 5000][rng.below(6) as usize];
    s.base = if rng.chance(150) { width.end_less(1 + rng.below(600)) } else { rng.below(1 << 20) };
    s.done = if rng.chance(400) { 0 } else { rng.below(s.len + 1) };
    let rest = s.len - s.done;
    s.outstanding = [0, 0, rest.min(512), rest.min(4096), rng.below(rest + 2)][rng.below(5) as usize];
    s.due = rng.below(8) / 7;
}

/// What a device says next, by the phase.
pub fn speech(rng: &mut Rng, s: &raw::Session, images: &[Option<&[u8]>]) -> Vec<u8> {
    let width = if s.width == 32 { Width::Bits32 } else { Width::Bits64 };
    let mut bytes = vec![0; [1, 5, 64, 512, 4096][rng.below(5) as usize]];
    rng.fill(&mut bytes);
    match s.phase {
        0 => (0..1 + rng.below(2)).flat_map(|_| packet(rng, images)).collect(),
        3 => [entries(rng, width), bytes].concat(),
        _ => bytes,
    }
}

/// A part of an image, by ID, offset and length: IDs around the slot count, ranges around the image's end.
fn part(rng: &mut Rng, images: &[Option<&[u8]>]) -> [u64; 3] {
    let n = images.len() as u64;
    let there: Vec<u64> = (0..n).filter(|i| images[*i as usize].is_some()).collect();
    let edges = [n, n + 1, n.saturating_sub(1), 0, 1, rng.below(n + 1), rng.number(), 1 << 32];
    let id = match there.len() as u64 {
        n @ 1.. if rng.chance(600) => there[rng.below(n) as usize],
        _ => edges[rng.below(8) as usize],
    };
    let slot = if n == 1 { 0 } else { id as usize };
    let size = images.get(slot).copied().flatten().map_or(3, |image| image.len() as u64);
    let offset = [0, 0, rng.below(size + 1), size, size + 1][rng.below(5) as usize];
    let rest = size.saturating_sub(offset);
    let len = [rest, rest, rng.below(rest + 1), 0, rest + 1][rng.below(5) as usize];
    [id, offset, len]
}

/// A packet of any kind, most often one that asks for a part of an image.
pub fn packet(rng: &mut Rng, images: &[Option<&[u8]>]) -> Vec<u8> {
    let [id, offset, len] = part(rng, images);
    let narrow = |n: u64| n as u32;
    match rng.below(36) {
        0..10 => device::read_data(narrow(id), narrow(offset), narrow(len)),
        10..19 => device::read_data64(id, offset, len),
        19 => device::read_data64(id, [offset + (1 << 32), u64::MAX][rng.below(2) as usize], len),
        20..24 => device::done_resp(0),
        24 => device::done_resp(1 + narrow(rng.below(2))),
        25 => device::end_of_image(narrow(id), narrow(rng.below(4) / 3)),
        26 => device::hello(narrow(rng.below(5))),
        27 => device::command_ready(),
        28 => device::execute_resp(narrow(rng.below(4)), [0, 3, 64, 65][rng.below(4) as usize]),
        29..32 => {
            let width = Width::BOTH[rng.below(2) as usize];
            width.mem_debug(rng.below(1 << 32), [0, 1, 52, 64, 128, 170, 280, 281, 65_537][rng.below(9) as usize])
        }
        32 => device::reset_resp(),
        _ => {
            let (command, len, body) = ODD[rng.below(ODD.len() as u64) as usize];
            device::framed(command, len, &vec![0; body])
        }
    }
}

/// Packets that a session is refused for: command, length field and bytes of the body.
const ODD: [(u32, u32, usize); 12] = [
    (1, 7, 0),
    (3, 4097, 12),
    (0x15, 8, 0),
    (0, 60, 52),
    (0x6d78_3f3c, 8, 0),
    (0x0c, 12, 4),
    (7, 8, 0),
    (0x12, 31, 23),
    (5, 8, 0),
    (0x11, 24, 16),
    (3, 21, 13),
    (8, 300, 292),
];

#[test]
fn any_session() {
    let (mut rng, mut seen) = (Rng::new(71), Seen::default());
    for round in 0..40_000 {
        let set = any_set(&mut rng);
        let apart = apart(&mut rng, &set, &tidy(&set).unwrap(), &mut seen);
        assert_eq!(apart, None, "round {round}, of {set:?}");
    }
    // every answer, finish and refusal of a step
    let refusals = (1..=22).chain([24]).map(|why| (REFUSED, why));
    for what in (0..7).map(|answer| (answer, 0)).chain((1..=4).map(|how| (7, how))).chain(refusals) {
        assert!(seen.answers.get(&what).is_some_and(|n| *n > 30), "{what:?}: {:?}", seen.answers);
    }
    assert!(seen.others.len() == 6 && seen.others.values().all(|n| *n > 30), "{:?}", seen.others);
}

// ---- forms that are wrong

type Images = Vec<Option<Vec<u8>>>;

/// An image that is not empty.
fn some<'a>(rng: &mut Rng, images: &'a mut Images) -> Option<&'a mut Vec<u8>> {
    let mut some: Vec<_> = images.iter_mut().flatten().filter(|image| !image.is_empty()).collect();
    let i = rng.below(some.len().max(1) as u64) as usize;
    (i < some.len()).then(|| some.swap_remove(i))
}

/// What a wrong form does to the images before they are written, and the mark that it gives to absent slots.
type Wrong = (&'static str, fn(&mut Rng, &mut Images), Slot);

const WRONG: [Wrong; 8] = [
    (
        "absent slots at the end are dropped",
        |_, images| images.truncate(images.iter().rposition(Option::is_some).map_or(0, |i| i + 1)),
        ABSENT,
    ),
    ("one absent slot at the end is dropped", |_, images| drop(images.pop_if(|last| last.is_none())), ABSENT),
    ("a slot more", |_, images| images.resize((images.len() + 1).min(SLOTS), None), ABSENT),
    ("a byte is another", |rng, images| some(rng, images).into_iter().for_each(|image| image[0] ^= 1), ABSENT),
    ("a byte fewer", |rng, images| some(rng, images).into_iter().for_each(|image| image.truncate(image.len() - 1)), ABSENT),
    (
        "empty images are absent",
        |_, images| images.iter_mut().for_each(|image| *image = image.take().filter(|image| !image.is_empty())),
        ABSENT,
    ),
    ("absent slots have another start", |_, _| {}, (0, 0)),
    ("absent slots have a length", |_, _| {}, (u32::MAX, 1)),
];

/// They are told apart from their sets, where a device can see it.
#[test]
fn wrong_forms() {
    for (what, wrong, mark) in WRONG {
        let (mut rng, mut seen, mut made, mut told) = (Rng::new(72), Seen::default(), 0, 0);
        for _ in 0..3000 {
            let set = any_set(&mut rng);
            let mut images = slots(&set).into_iter().map(|image| image.map(Vec::from)).collect();
            wrong(&mut rng, &mut images);
            let form = form_with(&images.iter().map(Option::as_deref).collect::<Vec<_>>(), mark);
            made += u32::from(form != tidy(&set).unwrap());
            told += u32::from(apart(&mut rng, &set, &form, &mut seen).is_some());
        }
        assert!(told > 20 && told <= made, "{what}: {told} of {made}");
    }
}
