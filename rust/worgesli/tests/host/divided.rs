//! How a conversation's bytes are divided changes nothing. A device says a string of bytes, whatever it is sent. A run has a session, its own buffers and the
//! rest of the string: each of its own steps is lent a beginning of that rest, and the bytes taken leave it; steps that are refused with 1, 2, 3, 4 or 18 may
//! be lent anything. The undivided run is lent all that is left in each step.
//! After any list of steps the reports are a beginning of the undivided run's. Once L + L/8 own steps count, L being the string's length, they are the whole
//! of it, and the rest of the string, the buffers and the session are the same too: but for the window, where a packet ended the session. Every own step
//! counts but one that needs bytes and is delivered none while some are left.
use crate::bad_input::{region, step, well_formed};
use crate::tidy::{form_with, slots, ABSENT};
use crate::tidy_steps::{any_set, begun, entries, names, packet, speech, Run};
use device::{Memory, Region, Rng, Tape, Width};
use std::fmt::Arguments;
use worgesli::{raw, NameList};

const GO: u32 = 0;
const SEND: u32 = 1;
const IMAGE: u32 = 2;
const BYTES: u32 = 4;
const FINISHED: u32 = 7;
const REFUSED: u32 = 8;

const PACKET: u32 = 0;
const RESPONSE: u32 = 1;
const SWITCHED: u32 = 2;
const TABLE: u32 = 3;
const BETWEEN: u32 = 4;
const REGION: u32 = 5;
const ENDED: u32 = 6;

/// A bundle without a slot, and one that is malformed.
const EMPTY: [u8; 8] = [0; 8];
const BAD: [u8; 8] = [65, 0, 0, 0, 0, 0, 0, 0];

/// A host: what it makes of a right step, from the session before it, the delivery, what it gives and the reply buffer.
type Host = fn(&raw::Session, &[u8], &mut raw::Stepped, &mut [u8]);

const RIGHT: Host = |_, _, _, _| {};

/// One step of a host with these buffers; the session there goes on.
fn made(host: Host, run: &mut Run, delivery: &[u8], set: &[u8], names: &[u8]) -> raw::Stepped {
    let was = run.session;
    let mut r = step(was, delivery, set, names, &mut run.table, &mut run.reply, &mut run.out);
    host(&was, delivery, &mut r, &mut run.reply);
    run.session = r.session;
    r
}

// ---- reports

/// An answer, its numbers and its bytes.
type Report<'a> = (u32, [u64; 2], &'a [u8]);

/// What a step reports, from the delivery, the image set and the out buffer: go and refusals report nothing.
fn reported<'a>(r: &raw::Stepped, delivery: &'a [u8], set: &'a [u8], out: &'a [u8]) -> Option<Report<'a>> {
    match r.answer {
        GO | REFUSED => None,
        SEND => Some((SEND, [0, 0], &out[..r.first as usize])),
        IMAGE => Some((IMAGE, [0, 0], &set[r.first as usize..][..r.second as usize])),
        BYTES => Some((BYTES, [0, 0], &delivery[..r.first as usize])).filter(|_| r.first > 0),
        answer => Some((answer, [r.first, r.second], &[])),
    }
}

/// A run's reports. Bytes that are handed out, each of them a report, stand together where no other report is between them.
#[derive(Debug, Default, PartialEq)]
struct Reports(Vec<(u32, [u64; 2], Vec<u8>)>);

impl Reports {
    fn add(&mut self, report: Option<Report>) {
        match (self.0.last_mut(), report) {
            (_, None) => {}
            (Some((BYTES, _, bytes)), Some((BYTES, _, more))) => bytes.extend(more),
            (_, Some((answer, numbers, bytes))) => self.0.push((answer, numbers, bytes.to_vec())),
        }
    }

    /// Where so many came, and so many bytes of the next one: how many it is with this one, if this comes next.
    fn with(&self, (n, bytes): (usize, usize), (answer, numbers, more): Report) -> Option<(usize, usize)> {
        let next = self.0.get(n).filter(|next| (next.0, next.1) == (answer, numbers))?;
        let rest = &next.2[bytes..];
        if rest == more {
            Some((n + 1, 0))
        } else {
            (answer == BYTES && rest.starts_with(more)).then_some((n, bytes + more.len()))
        }
    }
}

// ---- runs

/// What a run begins with, the image set and the names that are its own, and all that its device says.
#[derive(Clone, Debug)]
struct Conversation {
    begun: Run,
    set: Vec<u8>,
    names: Vec<u8>,
    said: Vec<u8>,
}

impl Conversation {
    /// So many own steps that count are enough.
    fn enough(&self) -> usize {
        self.said.len() + self.said.len() / 8
    }
}

/// Where a run is.
#[derive(Clone, Debug, PartialEq)]
struct Point {
    run: Run,
    /// bytes of the string that were taken
    taken: usize,
    /// how many of the undivided run's reports came, and how many bytes of the next one
    told: (usize, usize),
    /// what ended the session: an answer and its number, and whether a packet did
    end: Option<(u32, u64, bool)>,
}

impl Point {
    fn start(c: &Conversation) -> Point {
        Point { run: c.begun.clone(), taken: 0, told: (0, 0), end: None }
    }

    fn left(&self, c: &Conversation) -> usize {
        c.said.len() - self.taken
    }

    /// Whether an own step counts that is delivered so many bytes.
    fn counts(&self, c: &Conversation, k: usize) -> bool {
        k > 0 || self.left(c) == 0 || raw::worgesli_wanted(self.run.session) == 0
    }

    /// One own step, delivered so many bytes.
    fn step(&mut self, host: Host, c: &Conversation, k: usize) -> raw::Stepped {
        let was = self.run.session.phase;
        let r = made(host, &mut self.run, &c.said[self.taken..][..k], &c.set, &c.names);
        self.taken += r.taken;
        if was != ENDED && r.session.phase == ENDED {
            self.end = Some((r.answer, r.first, was == PACKET));
        }
        r
    }

    /// The same of a divided run: what it reports must come next.
    fn own(&mut self, host: Host, c: &Conversation, whole: &Undivided, k: usize) -> Result<raw::Stepped, String> {
        let (from, was) = (self.taken, self.run.session);
        let r = self.step(host, c, k);
        if let Some(report) = reported(&r, &c.said[from..], &c.set, &self.run.out) {
            let told = whole.reports.with(self.told, report);
            self.told = told.ok_or_else(|| format!("{was:?} lent {k} bytes from {from} on reports {report:?}"))?;
        }
        Ok(r)
    }

    /// All is as in the undivided run; tells whether the window is another, as it may be where a packet ended the session.
    fn ends_as(&self, whole: &Undivided) -> Result<bool, String> {
        let mut due = whole.last.clone();
        let window = due.run.session.window != self.run.session.window;
        if matches!(self.end, Some((_, _, true))) {
            due.run.session.window = self.run.session.window;
        }
        match *self == due {
            true => Ok(window),
            false => Err(format!("it ends as {self:?}\nand undivided as {due:?}")),
        }
    }
}

/// Whether a step changed nothing, so that the same again does not either.
fn still(was: &raw::Session, r: &raw::Stepped) -> bool {
    matches!(r.answer, GO | REFUSED) && r.taken == 0 && r.session == *was
}

/// The undivided run: what it reports, and where it comes to.
struct Undivided {
    reports: Reports,
    last: Point,
}

fn undivided(host: Host, c: &Conversation) -> Undivided {
    let (mut reports, mut last) = (Reports::default(), Point::start(c));
    for _ in 0..c.enough() {
        let (from, was) = (last.taken, last.run.session);
        let r = last.step(host, c, c.said.len() - from);
        reports.add(reported(&r, &c.said[from..], &c.set, &last.run.out));
        if still(&was, &r) {
            break;
        }
    }
    last.told = (reports.0.len(), 0);
    Undivided { reports, last }
}

/// How often what came: each answer, finish and refusal of an own step, each refusal of another, and what else is worth a count.
#[derive(Debug, Default)]
struct Seen {
    divisions: usize,
    steps: usize,
    answers: [usize; 9],
    finishes: [usize; 5],
    refusals: [usize; 25],
    others: [usize; 25],
    empty: usize,
    uncounted: usize,
    windows: usize,
}

impl Seen {
    fn step(&mut self, r: &raw::Stepped, k: usize, counts: bool) {
        self.steps += 1;
        self.answers[r.answer as usize] += 1;
        match r.answer {
            FINISHED => self.finishes[r.first as usize] += 1,
            REFUSED => self.refusals[r.first as usize] += 1,
            _ => {}
        }
        self.empty += usize::from(k == 0);
        self.uncounted += usize::from(!counts);
    }
}

/// A divided run, until enough own steps count or a few of them change nothing. `deliver` says how many bytes the next own step is delivered.
fn divided(
    host: Host,
    c: &Conversation,
    whole: &Undivided,
    seen: &mut Seen,
    mut deliver: impl FnMut(&Point, &mut Seen) -> Result<usize, String>,
) -> Result<(), String> {
    let (mut point, mut counted, mut rests) = (Point::start(c), 0, 0);
    while counted < c.enough() && rests < 2 {
        let k = deliver(&point, seen)?;
        let (was, counts) = (point.run.session, point.counts(c, k));
        let r = point.own(host, c, whole, k)?;
        seen.step(&r, k, counts);
        counted += usize::from(counts);
        if counts {
            rests = if still(&was, &r) { rests + 1 } else { 0 };
        }
    }
    seen.divisions += 1;
    seen.windows += usize::from(point.ends_as(whole)?);
    Ok(())
}

/// The same where a delivery goes up to the next cut behind what was taken, or to the end.
fn cut(c: &Conversation, whole: &Undivided, seen: &mut Seen, next: impl Fn(usize) -> usize) -> Result<(), String> {
    divided(RIGHT, c, whole, seen, |point, _| Ok(next(point.taken).min(c.said.len()) - point.taken))
}

// ---- every list of own steps

/// Of the lists of own steps that count, from a point to where none changes anything: the longest, and how many there are.
#[derive(Clone, Copy, Debug)]
struct Lists {
    longest: usize,
    number: f64,
}

/// From each point that can be reached a step of each delivery is made, once: from the same point the same steps follow.
struct Search<'a> {
    host: Host,
    c: &'a Conversation,
    whole: &'a Undivided,
    /// by the bytes taken
    seen: Vec<Vec<(Point, Lists)>>,
}

impl Search<'_> {
    /// All lists from a point that so many own steps led to.
    fn from(&mut self, point: &Point, steps: usize) -> Result<Lists, String> {
        if let Some((_, lists)) = self.seen[point.taken].iter().find(|(seen, _)| seen == point) {
            return Ok(*lists);
        }
        let (mut lists, mut rests) = (Lists { longest: 0, number: 0.0 }, 0);
        for k in 0..=point.left(self.c) {
            let mut next = point.clone();
            next.own(self.host, self.c, self.whole, k)?;
            if !point.counts(self.c, k) && next != *point {
                return Err(format!("a step without bytes makes {next:?} of {point:?}"));
            }
            if next == *point {
                rests += usize::from(point.counts(self.c, k));
                continue;
            }
            if steps == self.c.enough() {
                return Err(format!("after {steps} steps {point:?} goes on"));
            }
            let further = self.from(&next, steps + 1)?;
            lists = Lists { longest: lists.longest.max(1 + further.longest), number: lists.number + further.number };
        }
        if rests > 0 {
            point.ends_as(self.whole)?;
            lists.number += 1.0;
        }
        self.seen[point.taken].push((point.clone(), lists));
        Ok(lists)
    }
}

/// Every list of own steps of a conversation.
fn every_list(host: Host, c: &Conversation) -> Result<Lists, String> {
    let whole = undivided(host, c);
    let mut search = Search { host, c, whole: &whole, seen: vec![Vec::new(); c.said.len() + 1] };
    let lists = search.from(&Point::start(c), 0)?;
    match lists.longest <= c.enough() {
        true => Ok(lists),
        false => Err(format!("{lists:?}")),
    }
}

// ---- conversations by hand

/// What a session is opened with, the lengths of the table, reply and out buffers, and the own image set and names.
struct Setting {
    opening: [u32; 3],
    lens: [usize; 3],
    set: Vec<u8>,
    names: Vec<u8>,
}

impl Setting {
    fn new(opening: [u32; 3], lens: [usize; 3]) -> Setting {
        Setting { opening, lens, set: EMPTY.to_vec(), names: EMPTY.to_vec() }
    }

    /// The conversation with a device that says this.
    fn hears(&self, said: &[&[u8]]) -> Conversation {
        let ([mode, command, backend], [table, reply, out]) = (self.opening, self.lens);
        let session = raw::worgesli_open(mode, command, backend);
        let begun = Run { session, table: vec![0x11; table], reply: vec![0x22; reply], out: vec![0x33; out] };
        Conversation { begun, set: self.set.clone(), names: self.names.clone(), said: said.concat() }
    }
}

const NONE: u32 = raw::NO_COMMAND;

/// With every kind of opening, buffers that are long enough and that are not, and one of each malformed.
fn settings() -> Vec<Setting> {
    let named = NameList::new(&["a"]).unwrap().bytes().to_vec();
    let (alone, absent) = (form_with(&[Some(b"image")], ABSENT), form_with(&[Some(b"image"), None], ABSENT));
    vec![
        Setting { set: alone, ..Setting::new([0, NONE, 0], [3, 1, 48]) },
        Setting { names: named, ..Setting::new([3, 1, 1], [0, 3, 48]) },
        Setting { set: absent, ..Setting::new([2, NONE, 1], [64, 0, 52]) },
        Setting::new([1, 0, 0], [1, 8, 49]),
        Setting { set: BAD.to_vec(), ..Setting::new([2, 3, 1], [3, 3, 48]) },
        Setting { names: BAD.to_vec(), ..Setting::new([0, 2, 0], [3, 3, 48]) },
        Setting::new([3, 3, 1], [3, 3, 47]),
    ]
}

/// Packets of 8 to 20 bytes: each of these lengths, and each refusal that a packet of so few bytes can be.
fn short_packets() -> Vec<Vec<u8>> {
    let debug = |len| Width::Bits32.mem_debug(0x8000_0000, len);
    let mut all = vec![device::reset_resp(), device::command_ready()];
    all.extend([0, 1].map(device::done_resp));
    all.extend([(0, 0), (1, 2)].map(|(id, status)| device::end_of_image(id, status)));
    all.extend([(0, 0), (1, 1), (2, 3), (3, 300), (4, 0)].map(|(command, len)| device::execute_resp(command, len)));
    all.extend([0, 1, 3, 300].map(debug));
    all.extend([(0, 0, 5), (7, 4, 1), (0, 4, 2)].map(|(id, offset, len)| device::read_data(id, offset, len)));
    let odd = [(1, 7, 0), (8, 4097, 0), (0x15, 8, 0), (0x6d78_3f3c, 8, 0), (0x0c, 8, 0), (4, 12, 4), (5, 8, 0), (8, 12, 4)];
    all.extend(odd.map(|(command, len, body)| device::framed(command, len, &vec![9; body])));
    all
}

/// A memory debug, its table and so many bytes of memory, each another than those beside it.
fn dump(width: Width, backend: u32, regions: &[Region], memory: usize) -> Conversation {
    let table: Vec<u8> = regions.iter().flat_map(|r| r.bytes(width)).collect();
    let memory: Vec<u8> = (0..memory).map(|i| (i * 7 % 251) as u8).collect();
    let offer = width.mem_debug(0x1000, table.len() as u64);
    Setting::new([2, NONE, backend], [table.len() + 5, 3, 48]).hears(&[&offer, &table, &memory])
}

/// Of each kind, some hundred bytes long: images, a response, and memory of either width that is dumped, is more or less than was asked for, or is refused.
fn conversations() -> Vec<Conversation> {
    let settings = settings();
    let (hello, read, end) = (device::hello(0), device::read_data(0, 1, 3), device::end_of_image(0, 0));
    let read64 = device::read_data64(0, 0, 5);
    let mut all = vec![
        settings[0].hears(&[&hello, &read, &end, &device::done_resp(0), b"<?xml"]),
        settings[2].hears(&[&read64, &read, &device::done_resp(0), &device::read_data64(1, 0, 1)]),
        Setting::new([3, 1, 1], [0, 24, 48]).hears(&[&device::command_ready(), &device::execute_resp(1, 20), &[7; 27]]),
        Setting::new([3, 1, 0], [0, 40, 48]).hears(&[&device::framed(6, 60, &[5; 52]), &device::execute_resp(1, 40), &[7; 33]]),
    ];
    for width in Width::BOTH {
        let (end, hidden) = (width.end_less(2), Region::new("b", 7, 40).unpreferred());
        let some = [Region::new("A.BIN", 1, 9), hidden, Region::new("empty", 2, 0), Region::new("C.BIN", 5, 1)];
        all.extend([9, 10, 15].map(|memory| dump(width, 0, &some, memory)));
        for region in [
            Region::new("A.BIN", end, 3),
            Region::new("A.BIN", end, 2),
            Region::new("a name of twenty byte", 1, 3),
            Region::new(b"\xff", 1, 3),
            Region::new(b"a\0\xff", 1, 3),
        ] {
            all.push(dump(width, 1, &[region], 5));
        }
    }
    all
}

// ---- every division

/// What went wrong, and with what conversation.
fn must<T>(what: Result<T, String>, c: &Conversation, how: Arguments) -> T {
    what.unwrap_or_else(|why| panic!("{why}\n{how} of {c:?}"))
}

/// Every list of own steps, of one short packet in each setting, of two in some, and of longer conversations; and a bit of what follows.
#[test]
fn every_list_of_steps() {
    let (settings, packets, mut all) = (settings(), short_packets(), conversations());
    for first in &packets {
        all.extend(settings.iter().map(|setting| setting.hears(&[first, &[1, 0, 0]])));
        let goes_on = |setting: &&Setting| undivided(RIGHT, &setting.hears(&[first])).last.end.is_none();
        if let Some(setting) = settings[..4].iter().find(goes_on) {
            all.extend(packets.iter().map(|second| setting.hears(&[first, second, &[1, 0, 0]])));
        }
    }
    let lists: f64 = all.iter().map(|c| must(every_list(RIGHT, c), c, format_args!("a list of steps")).number).sum();
    assert!(all.len() > 300 && lists > 1e60, "{} conversations, {lists:e} lists", all.len());
}

/// Every composition of strings of 12 and 16 bytes, run by run: a bit for each place between two bytes, set where it is cut.
#[test]
fn every_composition() {
    let (mut seen, settings) = (Seen::default(), settings());
    let strings: [&[&[u8]]; 7] = [
        &[&device::done_resp(0)],
        &[&device::command_ready(), &[8, 0, 0, 0]],
        &[&device::reset_resp(), &[1, 2, 3, 4]],
        &[&device::framed(1, 7, &[]), &[1, 2, 3, 4]],
        &[&device::framed(4, 12, &[0; 4])],
        &[&device::execute_resp(1, 0)],
        &[&Width::Bits32.mem_debug(0x8000_0000, 0)],
    ];
    for (i, said) in strings.into_iter().enumerate() {
        let c = settings[i % 4].hears(said);
        let whole = undivided(RIGHT, &c);
        for cuts in 0..1u32 << (c.said.len() - 1) {
            let next = |taken: usize| taken + 1 + (cuts >> taken).trailing_zeros() as usize;
            must(cut(&c, &whole, &mut seen, next), &c, format_args!("cuts {cuts:#b}"));
        }
    }
    assert_eq!(seen.divisions, (5 << 11) + (2 << 15));
}

/// Every division into at most three pieces; and of longer ones, with a region of 512 bytes, behind which an empty read comes, and with one of two chunks,
/// every division into two and into pieces of each length, one byte among these.
#[test]
fn pieces() {
    let mut seen = Seen::default();
    for c in conversations().iter().filter(|c| c.said.len() < 110).step_by(2) {
        let (whole, len) = (undivided(RIGHT, c), c.said.len());
        for (first, second) in (0..len).flat_map(|first| (first + 1..=len).map(move |second| (first, second))) {
            let next = |taken| [first, second, len].into_iter().find(|cut| taken < *cut).unwrap_or(len);
            must(cut(c, &whole, &mut seen, next), c, format_args!("cuts at {first}, {second}"));
        }
    }
    for (width, len) in [(Width::Bits32, 512), (Width::Bits64, 600), (Width::Bits32, 4100)] {
        let c = dump(width, 1, &[Region::new("A.BIN", 5, len), Region::new("B.BIN", 5, 7)], len as usize + 9);
        let whole = undivided(RIGHT, &c);
        for n in 1..=c.said.len() {
            must(cut(&c, &whole, &mut seen, |taken| (taken / n + 1) * n), &c, format_args!("pieces of {n}"));
            must(cut(&c, &whole, &mut seen, |taken| if taken < n { n } else { usize::MAX }), &c, format_args!("a cut at {n}"));
        }
    }
    assert!(seen.divisions > 30_000 && seen.answers[5] > 5000, "{seen:?}");
}

/// L + L/8 steps are needed: 18, one byte a step, of these 16 bytes, and 17 are not enough.
#[test]
fn as_many_steps_as_that() {
    for said in [Width::Bits32.mem_debug(0x8000_0000, 0), device::execute_resp(1, 0)] {
        let c = Setting::new([3, 1, 0], [0, 0, 48]).hears(&[&said]);
        let (whole, mut point) = (undivided(RIGHT, &c), Point::start(&c));
        assert_eq!((c.enough(), must(every_list(RIGHT, &c), &c, format_args!("a list of steps")).longest), (18, 18));
        for steps in 0..18 {
            assert!(point.ends_as(&whole).is_err() && point.told < whole.last.told, "{steps}: {point:?}");
            must(point.own(RIGHT, &c, &whole, point.left(&c).min(1)), &c, format_args!("one byte a step"));
        }
        must(point.ends_as(&whole), &c, format_args!("one byte a step"));
    }
}

// ---- conversations at random

/// A session just opened and its buffers, these now and then short.
fn opened(rng: &mut Rng) -> Run {
    let command = [0, 1, 2, 3, NONE][rng.below(5) as usize];
    let mut rest = [0; 280 + 64 + 60];
    rng.fill(&mut rest);
    let len = |rng: &mut Rng, len: u64| if rng.chance(60) { rng.below(len) } else { len } as usize;
    let (table, reply) = (len(rng, 280), len(rng, 64));
    let out = if rng.chance(20) { rng.below(48) } else { 48 + rng.below(13) };
    Run {
        session: raw::worgesli_open(rng.below(4) as u32, command, rng.below(2) as u32),
        table: rest[..table].to_vec(),
        reply: rest[280..][..reply].to_vec(),
        out: rest[344..][..out as usize].to_vec(),
    }
}

/// Bytes at random.
fn noise(rng: &mut Rng, len: u64) -> Vec<u8> {
    let mut bytes = vec![0; len as usize];
    rng.fill(&mut bytes);
    bytes
}

/// A device that loads images, one after the other, and then says that it is done.
fn load(rng: &mut Rng, images: &[Option<&[u8]>]) -> Vec<u8> {
    let mut said = device::hello(rng.below(4) as u32);
    let there = (0..).zip(images).filter_map(|(id, image)| image.map(|image| (id, image.len() as u64)));
    for (id, size) in there.take(1 + rng.below(3) as usize) {
        for _ in 0..rng.below(3) {
            let offset = rng.below(size + 1);
            let len = rng.below(size - offset + 1);
            said.extend(match rng.below(2) {
                0 => device::read_data(id, offset as u32, len as u32),
                _ => device::read_data64(id.into(), offset, len),
            });
        }
        said.extend([device::end_of_image(id, rng.below(9) as u32 / 8), device::done_resp(rng.below(3) as u32 / 2)].concat());
    }
    let done = if rng.chance(512) { device::done_resp(1) } else { Vec::new() };
    let rest = [b"<?xml version".to_vec(), device::framed(0x6d78_3f3c, 12, b"vers")];
    [&said, &done, &rest[rng.below(2) as usize]].map(Vec::as_slice).concat()
}

/// A device that answers a command.
fn answer(rng: &mut Rng) -> Vec<u8> {
    let len = [0, 1, 3, 20, 63, 64, 64, 65][rng.below(8) as usize];
    let hello = if rng.chance(512) { device::hello(3) } else { Vec::new() };
    [hello, device::command_ready(), device::execute_resp(rng.below(4) as u32, len as u32), noise(rng, len + 9)].concat()
}

/// A device that offers its memory and answers memory reads, now and then only the first ones: what it says to a run that is undivided.
fn offer(rng: &mut Rng, c: &Conversation) -> Vec<u8> {
    let width = Width::BOTH[rng.below(2) as usize];
    let (mut table, n, at) = (entries(rng, width), width.number_len(), rng.number() % width.half());
    for e in table.chunks_exact_mut(width.entry_len()) {
        let len: u64 = [0, 1, 20, 511, 512, 600, 4096, 5000][rng.below(8) as usize];
        e[2 * n..3 * n].copy_from_slice(&len.to_le_bytes()[..n]);
    }
    let hello = if rng.chance(512) { device::hello(2) } else { Vec::new() };
    let offer = [hello, width.mem_debug(at, table.len() as u64)].concat();
    let memory = Memory::mixed(rng.number(), at, table).wide(width);
    let mut tape = Tape::new(&offer, memory, if rng.chance(100) { rng.below(4) as usize } else { usize::MAX });
    let Run { mut session, mut table, mut reply, mut out } = c.begun.clone();
    loop {
        let was = session;
        let r = raw::step_in_place(&mut session, tape.left(), &c.set, &c.names, &mut table, &mut reply, &mut out);
        tape.at += r.taken;
        match r.answer {
            SEND => tape.hear(&out[..r.first as usize]),
            GO | REFUSED | FINISHED if session == was || session.phase == ENDED => return tape.said,
            _ => {}
        }
    }
}

/// Says something else, more or less.
fn damage(rng: &mut Rng, said: &mut Vec<u8>) {
    let at = rng.below(said.len() as u64 + 1) as usize;
    match rng.below(6) {
        0 => said.truncate(at),
        1 => drop(said.drain(at..(at + 1 + rng.below(9) as usize).min(said.len()))),
        2 => drop(said.splice(at..at, noise(rng, 9))),
        3 => said.extend(noise(rng, 30)),
        _ => said[..at].iter_mut().rev().take(1).for_each(|byte| *byte = rng.number() as u8 >> rng.below(8)),
    }
}

/// Bytes that begin as some packet might.
fn nearly(rng: &mut Rng) -> Vec<u8> {
    let len = rng.below(90);
    [device::framed(rng.below(0x14) as u32, len as u32, &[]), noise(rng, 120)].concat()
}

fn conversation(rng: &mut Rng) -> Conversation {
    let mut c = Conversation { begun: opened(rng), set: any_set(rng), names: names(rng), said: Vec::new() };
    let images = slots(&c.set);
    c.said = match rng.below(10) {
        0 | 1 => load(rng, &images),
        2 | 3 => answer(rng),
        4..7 => offer(rng, &c),
        7 => nearly(rng),
        _ => (0..1 + rng.below(6)).flat_map(|_| packet(rng, &images)).collect(),
    };
    for _ in 0..rng.below(8).saturating_sub(5) {
        damage(rng, &mut c.said);
    }
    if rng.chance(20) {
        c.set = BAD.to_vec();
    }
    c
}

/// A step that is lent something else, and is refused for it: it changes nothing.
fn other(rng: &mut Rng, host: Host, c: &Conversation, point: &Point, seen: &mut Seen) -> Result<(), String> {
    let s = point.run.session;
    let good = |own: &[u8], absent| if well_formed(own, absent) { own.to_vec() } else { EMPTY.to_vec() };
    let (mut lent, mut set, mut names) = (point.run.clone(), good(&c.set, true), good(&c.names, false));
    let short = |rng: &mut Rng, n: usize| {
        let len = rng.below(n as u64);
        noise(rng, len)
    };
    lent.out = noise(rng, 48);
    let why = match (rng.below(5), s.phase) {
        (0, _) => 1,
        (1, _) => 2,
        (_, ENDED) => 4,
        (3 | 4, RESPONSE..ENDED) if s.count > 0 => 18,
        _ => 3,
    };
    match why {
        1 => set = BAD.to_vec(),
        2 => names = BAD.to_vec(),
        3 => lent.out = short(rng, 48),
        4 => (lent.table, lent.reply) = (short(rng, 300), short(rng, 70)),
        _ if s.phase <= SWITCHED => lent.reply = short(rng, s.count),
        _ => lent.table = short(rng, s.count),
    }
    let (delivery, was) = (short(rng, 100), lent.clone());
    let r = made(host, &mut lent, &delivery, &set, &names);
    seen.others[why as usize] += 1;
    match r == (raw::Stepped { session: s, taken: 0, first: why, second: 0, answer: REFUSED }) && lent == was {
        true => Ok(()),
        false => Err(format!("not refused with {why}: {r:?}, {lent:?} of {was:?}")),
    }
}

/// A divided run with deliveries of at most so many bytes, empty ones and steps that are refused among them.
fn at_random(rng: &mut Rng, host: Host, c: &Conversation, whole: &Undivided, seen: &mut Seen) -> Result<(), String> {
    let most = [1, 3, 8, 64, 512, 600, 5000, usize::MAX][rng.below(8) as usize].max(c.said.len() / 100);
    let (empty, refused) = ([0, 100, 500][rng.below(3) as usize], [0, 50][rng.below(2) as usize]);
    divided(host, c, whole, seen, |point, seen| {
        if rng.chance(refused) {
            other(rng, host, c, point, seen)?;
        }
        let left = point.left(c).min(most);
        Ok(if left == 0 || rng.chance(empty) { 0 } else { rng.piece(left) })
    })
}

#[test]
fn conversations_at_random() {
    let (mut seen, mut short) = (Seen::default(), 0);
    for seed in 0..3000 {
        let rng = &mut Rng::new(seed);
        let c = conversation(rng);
        let whole = undivided(RIGHT, &c);
        for i in 0..4 {
            must(at_random(rng, RIGHT, &c, &whole, &mut seen), &c, format_args!("seed {seed}, division {i}"));
        }
        if c.said.len() < 30 {
            short += 1;
            must(every_list(RIGHT, &c), &c, format_args!("seed {seed}, a list of steps"));
        }
    }
    // every answer, finish and refusal that a run can come to, and every refusal that changes nothing
    let own = (1..=24).filter(|why| ![18, 23].contains(why)).map(|why| seen.refusals[why]);
    let others = [1, 2, 3, 4, 18].map(|why| seen.others[why]);
    let counts = seen.answers.into_iter().chain(seen.finishes[1..].to_vec()).chain(own).chain(others);
    assert!(counts.min() > Some(30) && (seen.refusals[18], seen.refusals[23]) == (0, 0), "{seen:?}");
    assert!(seen.empty > 9000 && seen.uncounted > 9000 && seen.windows > 1000 && short > 100, "{seen:?}, {short}");
}

// ---- the law of one step

/// A step that is delivered d and e behind it is one of two things: the step that is delivered d alone; or that one and then, since it took all of d, the next
/// one, delivered e. Gives whether it is the second. `begun` has any bits for a session.
fn law(host: Host, begun: &Run, [d, e]: [&[u8]; 2], set: &[u8], names: &[u8]) -> Result<bool, String> {
    let (mut parts, mut once, both) = (begun.clone(), begun.clone(), [d, e].concat());
    let (p, r) = (made(host, &mut parts, d, set, names), made(host, &mut once, &both, set, names));
    if p == r && parts == once {
        return Ok(false);
    }
    let (mut told, mut due) = (Reports::default(), Reports::default());
    due.add(reported(&r, &both, set, &once.out));
    told.add(reported(&p, d, set, &parts.out));
    let q = made(host, &mut parts, e, set, names);
    told.add(reported(&q, e, set, &parts.out));
    if (begun.session.phase, r.session.phase) == (PACKET, ENDED) {
        once.session.window = parts.session.window;
    }
    // behind go, a refusal's number too
    let answer = p.answer != GO || (r.answer, r.first, r.second) == (q.answer, q.first, q.second);
    match answer && p.taken == d.len() && r.taken == d.len() + q.taken && told == due && parts == once {
        true => Ok(true),
        false => Err(format!("{p:?}, then {q:?}: {parts:?}\nin one {r:?}: {once:?}")),
    }
}

/// The law of numbers at random, a session in any phase or none, and of cuts of what its device says; `seen` counts by the phase and by which of the two it is.
fn law_at_random(seed: u64, host: Host, seen: &mut [[usize; 2]; 8]) -> Result<(), String> {
    let rng = &mut Rng::new(seed);
    let (set, names) = (any_set(rng), names(rng));
    let (mut run, mut said) = begun(rng, &slots(&set));
    if rng.chance(200) {
        run.session = region(rng);
    }
    said.extend(speech(rng, &run.session, &slots(&set)));
    for (buffer, most) in [(&mut run.table, 280), (&mut run.reply, 64), (&mut run.out, 52)] {
        if rng.chance(30) {
            buffer.truncate(rng.below(most) as usize);
        }
    }
    for _ in 0..3 {
        let first = rng.below(9) as usize * rng.piece(said.len()) / 8;
        let second = first + rng.below((said.len() - first) as u64 + 1) as usize;
        let delivered = [&said[..first], &said[first..second]];
        let joined = law(host, &run, delivered, &set, &names)
            .map_err(|why| format!("{why}\nseed {seed}, of {run:?}, delivered {delivered:?}, set {set:?}, names {names:?}"))?;
        seen[run.session.phase as usize][usize::from(joined)] += 1;
    }
    Ok(())
}

#[test]
fn law_of_one_step() {
    let mut seen = [[0; 2]; 8];
    (0..15_000).for_each(|seed| law_at_random(seed, RIGHT, &mut seen).unwrap_or_else(|why| panic!("{why}")));
    assert!(seen[..7].iter().all(|n| n[0] > 1000), "{seen:?}");
    // bytes are taken in these phases
    assert!([PACKET, RESPONSE, TABLE, REGION].into_iter().all(|phase| seen[phase as usize][1] > 300), "{seen:?}");
}

// ---- hosts that are wrong

const WRONG: [(&str, Host); 10] = [
    ("drops what is behind a packet", |was, delivery, r, _| {
        let whole = r.taken > 0 && (r.session.phase, r.session.count > 0) != (PACKET, true);
        if was.phase == PACKET && whole && (r.answer, r.first) != (REFUSED, 5) {
            r.taken = delivery.len();
        }
    }),
    ("drops what is behind the table", |was, delivery, r, _| {
        if (was.phase, r.session.phase) == (TABLE, BETWEEN) {
            r.taken = delivery.len();
        }
    }),
    ("judges a length only where one delivery has all of the header", |was, delivery, r, _| {
        if was.count > 0 && (r.answer, r.first) == (REFUSED, 5) {
            r.session = raw::Session { count: 8, ..*was };
            r.session.window[was.count..8].copy_from_slice(&delivery[..r.taken]);
            (r.answer, r.first) = (GO, 0);
        }
    }),
    ("asks anew after a short delivery in a region", |_, _, r, _| {
        if r.answer == BYTES {
            r.session.outstanding = 0;
        }
    }),
    ("takes nothing of what it hands out", |_, _, r, _| {
        if r.answer == BYTES {
            r.taken = 0;
        }
    }),
    ("counts a memory read for each delivery", |_, _, r, _| r.session.reads += u64::from(r.answer == BYTES)),
    ("clears the reply buffer behind a part of the response", |was, _, r, reply| {
        if (was.phase, r.session.phase) == (RESPONSE, RESPONSE) {
            reply[r.session.at..].fill(0);
        }
    }),
    ("clears the reply buffer behind a response in one piece", |was, _, r, reply| {
        if (was.phase, was.at, r.session.phase) == (RESPONSE, 0, SWITCHED) {
            reply[was.count..].fill(0);
        }
    }),
    ("spoils the window with a part of the table", |was, _, r, _| {
        if (was.phase, r.session.phase) == (TABLE, TABLE) {
            r.session.window.fill(1);
        }
    }),
    ("ends where nothing came", |was, delivery, r, _| {
        if delivery.is_empty() && r.answer == GO && raw::worgesli_wanted(*was) > 0 {
            r.session = raw::worgesli_closed(*was).session;
        }
    }),
];

/// Each of them is told apart from a right one, by its runs and by the law.
#[test]
fn wrong_hosts() {
    for (what, host) in WRONG {
        let apart = |seed: &u64| {
            let rng = &mut Rng::new(*seed);
            let c = conversation(rng);
            let whole = undivided(host, &c);
            (0..3).any(|_| at_random(rng, host, &c, &whole, &mut Seen::default()).is_err())
        };
        let told = (0..200).filter(apart).count();
        let law = (0..5000).find(|seed| law_at_random(*seed, host, &mut [[0; 2]; 8]).is_err());
        assert!(told > 3 && law.is_some(), "{what}: {told} {law:?}");
    }
    // a bad length, by the session alone
    let c = settings()[0].hears(&[&device::framed(1, 7, &[])]);
    assert!(every_list(WRONG[2].1, &c).is_err_and(|why| why.starts_with("it ends as")));
}
