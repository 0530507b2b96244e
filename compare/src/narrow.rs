//! Boards of 32 bits, which the original does not have. By document 02 they are boards like the others with narrower numbers, so what is wanted is the
//! original's run over the same board with wide ones, where it would refuse a packet of theirs, told in narrow numbers again.
use crate::events::{End, Event, What};
use crate::original::{self, Original, Reads};
use crate::packets::{mem_read, packet, Width};
use crate::talk::{command_of, long, word, Bundle, Live, Talk};

/// MemDebug and MemRead; each is below its wide one by as much.
const KINDS: [u32; 2] = [9, 0x0a];
pub const WIDER: u32 = 7;
/// The longest packet.
const LONGEST: usize = 4096;
/// A region above this length is not dumped whole: the device falls silent.
const HUGE: u64 = 1 << 20;

/// Whether this packet is one of theirs.
pub fn says(packet: &[u8]) -> bool {
    packet.len() >= 8 && KINDS.contains(&command_of(packet))
}

/// A table's length in wide entries, a remainder being kept; and back.
fn wide_len(n: u64) -> u64 {
    64 * (n / 52) + n % 52
}

fn narrow_len(n: u64) -> u64 {
    52 * (n / 64) + n % 64
}

/// A table with wide entries, and with narrow ones, their numbers cut.
pub fn wide_table(table: &[u8]) -> Vec<u8> {
    let entries = table.chunks_exact(52);
    let rest = entries.remainder();
    let wide = entries.flat_map(|e| [&wide_numbers(e, 3)[..], &e[12..]].concat());
    wide.chain(rest.iter().copied()).collect()
}

pub fn narrow_table(table: &[u8]) -> Vec<u8> {
    let entries = table.chunks_exact(64);
    let rest = entries.remainder();
    let narrow = entries.flat_map(|e| [&e[..4], &e[8..12], &e[16..20], &e[24..]].concat());
    narrow.chain(rest.iter().copied()).collect()
}

/// The first so many words, each as a number of 8 bytes.
fn wide_numbers(b: &[u8], n: usize) -> Vec<u8> {
    (0..n).flat_map(|i| u64::from(word(b, 4 * i)).to_le_bytes()).collect()
}

/// What is decoded of a packet of theirs, in wide numbers: with 8 bytes more, where both numbers are there. The length field stays.
pub fn wide_fields(p: &[u8]) -> Vec<u8> {
    let mut wide = p.to_vec();
    wide[0] += WIDER as u8;
    if p.len() >= 16 {
        wide.splice(8..16, wide_numbers(&p[8..], 2));
    }
    wide
}

/// A board's packet, and its table, where the packet is the memory debug that offers it.
struct Board<'a> {
    talk: &'a Talk,
    /// where the packet is
    from: usize,
    to: usize,
    /// the wide packet
    packet: Vec<u8>,
    /// the table's declared length and those of its bytes that come
    declared: Option<u64>,
    table: Vec<u8>,
}

impl<'a> Board<'a> {
    fn new(talk: &'a Talk, (from, to): (usize, usize)) -> Self {
        let narrow = &talk.opening[from..to];
        let debug = command_of(narrow) == KINDS[0] && narrow.len() == 16;
        let declared = debug.then(|| u64::from(word(narrow, 12)));
        let behind = &talk.opening[to..];
        let table = match (&talk.live, declared) {
            (_, None) => Vec::new(),
            (None, Some(n)) => behind[..behind.len().min(n as usize)].to_vec(),
            (Some(live), Some(n)) => {
                assert!(behind.is_empty(), "a board that answers says nothing behind its offer");
                let there = live.answers > 0 && n <= HUGE;
                live.memory.bytes(word(narrow, 8).into(), if there { n as usize } else { 0 })
            }
        };
        let mut packet = wide_fields(narrow);
        packet.truncate(LONGEST);
        let len = packet.len() as u32;
        packet[4..8].copy_from_slice(&len.to_le_bytes());
        if let Some(n) = declared {
            packet[16..24].copy_from_slice(&wide_len(n).to_le_bytes());
        }
        Board { talk, from, to, packet, declared, table }
    }

    /// The same board with wide numbers. It answers the first memory read with the table, and all others from the same memory.
    fn wide(&self) -> Talk {
        let t = self.talk;
        let mut opening = [&t.opening[..self.from], &self.packet[..]].concat();
        let mut live = None;
        if let Some(l) = &t.live {
            let first = (!self.table.is_empty()).then(|| wide_table(&self.table));
            let answers = l.answers - usize::from(first.is_some());
            live = Some(Live { memory: l.memory.clone().wide(Width::Bits64), answers, first, ..*l });
        } else {
            opening.extend(wide_table(&self.table));
            opening.extend(&t.opening[self.to + self.table.len()..]);
        }
        Talk { opening, live, ..t.clone() }
    }

    /// Where the wide packet, and where the wide table ends.
    fn ends(&self) -> (usize, usize) {
        let to = self.from + self.packet.len();
        (to, to + wide_len(self.table.len() as u64) as usize)
    }

    /// A place among the wide board's bytes, among those of this one.
    fn place(&self, at: usize) -> usize {
        let (packet, table) = self.ends();
        if at <= self.from {
            at
        } else if at < table {
            self.to + narrow_len((at - packet) as u64) as usize
        } else {
            self.to + self.table.len() + at - table
        }
    }

    fn event(&self, e: Event, first: &mut bool) -> Event {
        let what = match e.what {
            What::Table(b) => What::Table(narrow_table(&b)),
            What::Sent(b) => What::Sent(match mem_read(&b) {
                Some((at, len)) => {
                    let len = if std::mem::take(first) { narrow_len(len) } else { len };
                    packet(KINDS[1], &[at as u32, len as u32])
                }
                None => b,
            }),
            what => what,
        };
        Event { at: self.place(e.at), what }
    }

    /// The original's run over the wide board, in narrow numbers.
    fn narrow(&self, mut o: Original) -> Original {
        let told = |events: Vec<Event>| {
            let mut first = true;
            events.into_iter().map(|e| self.event(e, &mut first)).collect()
        };
        o.ran.events = told(o.ran.events);
        o.steps = told(o.steps);
        o.ran.taken = self.place(o.ran.taken);
        o.packet = (self.from, self.to);
        let rest = o.fed.split_off(self.ends().1);
        o.fed = [&self.talk.opening[..self.to], &self.table[..], &rest].concat();
        if self.declared.is_some() {
            o.width = Width::Bits32;
        }
        o
    }
}

/// The original's run, and whether a packet of theirs had a part in it.
pub fn run(t: &Talk, set: &Bundle) -> (Original, bool) {
    let o = original::run(t, set, Reads::Full);
    if o.ran.end != End::Refused(8) || !says(o.last_packet()) {
        return (o, false);
    }
    let board = Board::new(t, o.packet);
    (board.narrow(original::run(&board.wide(), set, Reads::Full)), true)
}

/// The same conversation with a board of 32 bits, where it comes to a memory packet.
pub fn with(t: &Talk) -> Option<Talk> {
    let from = offer(&t.opening)?;
    let (head, tail) = t.opening.split_at(from);
    let (wide, behind) = tail.split_at(word(tail, 4) as usize);
    let mut narrow = wide.to_vec();
    narrow[0] -= WIDER as u8;
    let mut t = Talk { kind: "with 32 bits", ..t.clone() };
    let mut table = behind.to_vec();
    if wide.len() >= 24 {
        let (at, len) = (long(wide, 8) as u32, narrow_len(long(wide, 16)) as u32);
        narrow.splice(4..24, [wide.len() as u32 - 8, at, len].into_iter().flat_map(u32::to_le_bytes));
        let whole = behind.len().min(long(wide, 16) as usize);
        table = [&narrow_table(&behind[..whole])[..], &behind[whole..]].concat();
    }
    t.opening = [head, &narrow, &table].concat();
    t.live = t.live.map(|l| {
        let (table, at) = (narrow_table(l.memory.table()), l.memory.table_at() as u32);
        let huge = table.chunks_exact(52).any(|e| u64::from(word(e, 8)) > HUGE);
        let answers = if huge { l.answers.min(9) } else { l.answers };
        Live::new(Width::Bits32, l.seed, at.into(), table, answers)
    });
    Some(t)
}

/// Where the first memory packet of 64 bits is, if it is whole.
fn offer(opening: &[u8]) -> Option<usize> {
    let mut at = 0;
    loop {
        let packet = opening.get(at..).filter(|p| p.len() >= 8)?;
        let len = word(packet, 4) as usize;
        if len < 8 || packet.len() < len {
            return None;
        }
        if KINDS.contains(&command_of(packet).wrapping_sub(WIDER)) {
            return Some(at);
        }
        at += len;
    }
}
