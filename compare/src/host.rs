//! The host under comparison: the archive's session, driven by a thin loop over a device.
use crate::events::{hex, End, Event, Ran, What};
use crate::random::Draws;
use crate::talk::Talk;
use device::{Rng, Tape};
use worgesli::raw;

pub const TABLE: usize = 65_536;
pub const REPLY: usize = 8_192;
const OUT: usize = 48;
/// No conversation here takes so many steps.
const STEPS: usize = 2_000_000;

/// How the device's bytes are cut into deliveries.
pub enum Cut {
    /// All that is queued.
    Whole,
    /// No more than the session wants.
    Wanted,
    /// At random, now and then an empty one.
    Random(Rng),
    /// At the multiples of a length, as the program `runs` does.
    Grid(usize),
}

impl Cut {
    fn len(&mut self, d: &Tape, wanted: usize) -> usize {
        let left = d.left().len();
        match self {
            Cut::Whole => left,
            Cut::Wanted => left.min(wanted),
            Cut::Grid(k) => left.min(*k - d.at % *k),
            Cut::Random(r) => {
                if r.one_in(16) {
                    return 0;
                }
                let most = r.pick(&[1, 9, 70, 600, 5000]);
                left.min(1 + r.upto(most - 1))
            }
        }
    }
}

pub struct Host {
    pub ran: Ran,
    /// The entries that were opened.
    pub opens: Vec<usize>,
    /// A line a step, as the program `runs` prints them.
    pub lines: Vec<String>,
}

/// What a session is lent.
struct Lent<'a> {
    set: &'a [u8],
    names: &'a [u8],
    table: Vec<u8>,
    reply: Vec<u8>,
    out: [u8; OUT],
}

impl Lent<'_> {
    /// A step, or the channel's end where bytes are wanted and none are left.
    fn step(&mut self, s: raw::Session, device: &Tape, wanted: usize, n: usize) -> raw::Stepped {
        if wanted > 0 && device.left().is_empty() {
            return raw::worgesli_closed(s);
        }
        let mut session = s;
        let (table, reply, out) = (&mut self.table, &mut self.reply, &mut self.out);
        let told = raw::step_in_place(&mut session, &device.left()[..n], self.set, self.names, table, reply, out);
        raw::Stepped { session, taken: told.taken, first: told.first, second: told.second, answer: told.answer }
    }
}

pub fn run(t: &Talk, set: &[u8], names: &[u8], mut cut: Cut, lined: bool) -> Host {
    let mut device = t.device();
    let mut s = raw::worgesli_open(t.mode, t.command.unwrap_or(raw::NO_COMMAND), t.usb as u32);
    let ran = Ran { events: Vec::new(), end: End::Other("endless".into()), taken: 0 };
    let mut h = Host { ran, opens: Vec::new(), lines: Vec::new() };
    let mut lent = Lent { set, names, table: vec![0; TABLE], reply: vec![0; REPLY], out: [0; OUT] };
    for _ in 0..STEPS {
        let wanted = raw::worgesli_wanted(s);
        let n = cut.len(&device, wanted);
        let r = lent.step(s, &device, wanted, n);
        if r.taken > n || wanted == 0 && r.taken > 0 {
            h.ran.end = End::Other(format!("{} taken of {n}, wanted {wanted}", r.taken));
            break;
        }
        device.at += r.taken;
        if lined {
            h.lines.push(line(&r, &lent));
        }
        if s.phase == 3 && r.session.phase == 4 {
            let whole = part(&lent.table, 0, r.session.count).to_vec();
            h.ran.events.push(Event { at: device.at, what: What::Table(whole) });
        }
        s = r.session;
        if let Some(end) = h.answered(&r, &lent, &mut device) {
            h.ran.end = end;
            break;
        }
    }
    if let (true, End::Finished { how: 4, reply, .. }) = (lined, &h.ran.end) {
        h.lines.push(format!("reply {}", if reply.is_empty() { "-".into() } else { hex(reply) }));
    }
    h.ran.taken = device.at;
    h
}

impl Host {
    /// Does what an answer says; gives the end where it is one.
    fn answered(&mut self, r: &raw::Stepped, lent: &Lent, device: &mut Tape) -> Option<End> {
        let (first, second) = (r.first as usize, r.second as usize);
        let what = match r.answer {
            0 => return None,
            1 => {
                let packet = part(&lent.out, 0, first);
                device.hear(packet);
                What::Sent(packet.to_vec())
            }
            2 => What::Image { start: first, bytes: part(lent.set, first, second).to_vec() },
            3 => {
                self.opens.push(first);
                let e = raw::entry_at(part(&lent.table, 0, r.session.count), r.session.width, first);
                What::Open { len: e.len, name: (e.there == 1).then_some(e.filename) }
            }
            4 => {
                let from = device.at - r.taken;
                let bytes = part(&device.said, from, first);
                if let Some(Event { at, what: What::Bytes(b) }) = self.ran.events.last_mut() {
                    b.extend_from_slice(bytes);
                    *at = device.at;
                    return None;
                }
                What::Bytes(bytes.to_vec())
            }
            5 => What::EmptyRead,
            6 => What::Close,
            7 => {
                let reply = if first == 4 { part(&lent.reply, 0, r.session.count).to_vec() } else { Vec::new() };
                return Some(End::Finished { how: r.first as u8, reads: r.second, reply });
            }
            8 => return Some(End::Refused(r.first as u8)),
            n => return Some(End::Other(format!("answer {n}"))),
        };
        self.ran.events.push(Event { at: device.at, what });
        None
    }
}

/// The bytes from a place on, as far as they are there: numbers that are wrong are a difference and no panic.
fn part(b: &[u8], from: usize, len: usize) -> &[u8] {
    let from = from.min(b.len());
    &b[from..from + len.min(b.len() - from)]
}

/// A step as the program `runs` prints it.
fn line(r: &raw::Stepped, lent: &Lent) -> String {
    let (first, second) = (r.first as usize, r.second as usize);
    let text = match r.answer {
        0 => "go 0".into(),
        1 => format!("send {first} {}", hex(part(&lent.out, 0, first))),
        2 => format!("image {second} {first} {}", hex(part(lent.set, first, second))),
        3 => format!("open {first}"),
        4 => format!("bytes {first}"),
        5 => "empty read 0".into(),
        6 => format!("close {first}"),
        7 => format!("finished {first} {second}"),
        8 => format!("refused {first}"),
        n => format!("answer {n}"),
    };
    format!("{} {}", r.taken, text.trim_end())
}
