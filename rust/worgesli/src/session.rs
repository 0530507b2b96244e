//! A session: what the host keeps from step to step.
use crate::{raw, Answer, Backend, Command, Mode, Phase, Refusal, Width};
use std::fmt;

/// The least out buffer.
pub const OUT: usize = 48;
/// The longest memory table.
pub const TABLE: usize = 65_536;

/// A value: a copy of it is a session of its own.
#[derive(Clone, Copy, PartialEq, Eq)]
pub struct Session(raw::Session);

impl Session {
    /// A session just opened.
    pub fn open(mode: Mode, command: Option<Command>, backend: Backend) -> Session {
        let command = command.map_or(raw::NO_COMMAND, |c| c as u32);
        Session(raw::worgesli_open(mode as u32, command, backend as u32))
    }

    /// A session kept elsewhere as numbers, if they are one.
    pub fn from_raw(numbers: raw::Session) -> Option<Session> {
        raw::worgesli_is_session(numbers).then_some(Session(numbers))
    }

    /// Its numbers.
    pub fn raw(&self) -> &raw::Session {
        &self.0
    }

    /// For a step in place.
    #[inline]
    pub(crate) fn raw_mut(&mut self) -> &mut raw::Session {
        &mut self.0
    }

    /// One step: gives the bytes taken of the delivery and what is to be done. Any bytes and buffers are answered.
    pub fn step(
        &mut self,
        delivery: &[u8],
        set: &[u8],
        names: &[u8],
        table: &mut [u8],
        reply: &mut [u8],
        out: &mut [u8],
    ) -> (usize, Answer) {
        let told = raw::step_in_place(&mut self.0, delivery, set, names, table, reply, out);
        (told.taken, answer(told.answer, told.first, told.second))
    }

    /// The channel was closed: refused (23), or (4) where the session had ended.
    pub fn closed(&mut self) -> Answer {
        let closed = raw::worgesli_closed(self.0);
        self.0 = closed.session;
        answer(closed.answer, closed.first, closed.second)
    }

    /// How many bytes to read for the next step; 0: it needs none. Of a session within its limits a delivery of no more is taken whole, and who
    /// reads no more takes no byte that belongs to what comes after Sahara.
    #[inline]
    pub fn wanted(&self) -> usize {
        raw::wanted_in_place(&self.0)
    }

    /// Where it stands.
    #[inline]
    pub fn phase(&self) -> Phase {
        match self.0.phase {
            0 => Phase::Packet,
            1 => Phase::Response,
            2 => Phase::Switched,
            3 => Phase::Table,
            4 => Phase::Between,
            5 => Phase::Region,
            _ => Phase::Ended,
        }
    }

    /// The width of the memory debug that came; before one came, 64 bits.
    #[inline]
    pub fn width(&self) -> Width {
        match self.0.width {
            32 => Width::Bits32,
            _ => Width::Bits64,
        }
    }

    /// Whether it was opened with these.
    pub(crate) fn opened_as(&self, mode: Mode, command: Option<Command>, backend: Backend) -> bool {
        let opened = Session::open(mode, command, backend).0;
        (self.0.mode, self.0.command, self.0.backend) == (opened.mode, opened.command, opened.backend)
    }

    /// The session in a region or behind its close, put back to where it is to choose its next region, at this place of the table or behind it.
    pub(crate) fn before_region(&self, place: usize) -> Session {
        let phase = Phase::Between as u32;
        Session(raw::Session { phase, at: place, base: 0, len: 0, done: 0, outstanding: 0, due: 0, ..self.0 })
    }

    /// A session in a region, with so many of its bytes done and none outstanding.
    pub(crate) fn region_at(&self, done: u64) -> Session {
        Session(raw::Session { done, outstanding: 0, due: 0, ..self.0 })
    }

    /// A session whose table is asked for anew: none of it is there, and one memory read more is sent.
    pub(crate) fn table_begun(&self) -> Session {
        Session(raw::Session { phase: Phase::Table as u32, at: 0, reads: self.0.reads.saturating_add(1), ..self.0 })
    }

    /// Memory reads since opening.
    pub fn reads(&self) -> u64 {
        self.0.reads
    }

    /// The length of the reply: after finished (4), else 0.
    pub fn reply_len(&self) -> usize {
        match self.phase() {
            Phase::Switched | Phase::Ended => self.0.count,
            _ => 0,
        }
    }
}

impl fmt::Debug for Session {
    fn fmt(&self, f: &mut fmt::Formatter<'_>) -> fmt::Result {
        let raw::Session { width, reads, count, at, done, len, .. } = self.0;
        let phase = self.phase();
        write!(f, "Session({phase:?}, {width} bits, count {count}, at {at}, {done} of {len} bytes, {reads} memory reads)")
    }
}

/// What a step asks its caller to do, by its answer's number and values.
#[inline]
pub(crate) fn answer(number: u32, first: u64, second: u64) -> Answer {
    let at = first as usize;
    match number {
        0 => Answer::Go,
        1 => Answer::Send(at),
        2 => Answer::Image { start: at, len: second as usize },
        3 => Answer::Open(at),
        4 => Answer::Bytes(at),
        5 => Answer::EmptyRead,
        6 => Answer::Close(at),
        7 => Answer::Finished { how: first as u8, reads: second },
        _ => Answer::Refused(Refusal::new(first)),
    }
}
