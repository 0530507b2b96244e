//! The driver: runs a session over a channel.
//!
//! What a step took or asked for is written down before anything that is not ours is called (channel, sink, progress), and crossed out
//! behind it: after an error or a panic there, the next call goes on with what is still owed.
use crate::saved::asked_len;
use crate::session::{answer, OUT, TABLE};
use crate::{
    entry_at, forecast, raw, Answer, Entry, Error, Forecast, ImageSet, NameList, Options, Phase, Refusal, Session, Sink, Unkept,
};
use std::fmt;
use std::io::{self, ErrorKind, Read, Write};

/// The reply buffer of a run, if its options name no other.
pub const REPLY: usize = 65_536;
/// What is read and not yet handed over, at most.
pub(crate) const INPUT: usize = 65_536;

/// How a run ended.
#[derive(Clone, Debug, PartialEq, Eq)]
#[non_exhaustive]
pub enum Outcome {
    /// finished (1): the images were sent
    ImagesSent,
    /// finished (2): the device was reset
    Reset,
    /// finished (3): the regions were dumped
    Dumped {
        /// memory reads that were sent: one for the table, one for each chunk; 1 where no region was chosen
        reads: u64,
    },
    /// finished (4): the response to the command
    Reply(Vec<u8>),
}

/// Bytes of a region came.
#[derive(Clone, Copy, Debug, PartialEq, Eq)]
#[non_exhaustive]
pub struct Progress {
    /// the region's place in the table
    pub place: usize,
    /// bytes so far
    pub done: u64,
    /// its length
    pub len: u64,
}

/// What the last step asked for and is not done yet. Bytes of a region are not here: they are the driver's input[kept..from].
#[derive(Clone, Copy, Debug, PartialEq, Eq)]
pub(crate) enum Owed {
    Nothing,
    /// these bytes of the out buffer are to be written
    Send(usize, usize),
    /// these of the image set
    Image(usize, usize),
    Flush,
    EmptyRead,
    Open(usize),
    Close(usize),
}

/// What the sink has of a region.
#[derive(Clone, Copy, Debug, PartialEq, Eq)]
pub(crate) enum Region {
    /// none is open
    None,
    Open,
    /// open in an earlier process
    Before,
    /// the sink lost it: what comes is not kept, and behind its end it is fetched again
    Lost,
}

/// A run in progress: the session, the buffers it is lent, and what is still to be done. Whatever stops [`run`](Driver::run), an error
/// or a panic of the channel, the sink or the progress callback, no byte is lost: called again, it goes on.
pub struct Driver {
    pub(crate) session: Session,
    pub(crate) set: ImageSet,
    pub(crate) names: NameList,
    timeouts: u32,
    pub(crate) table: Box<[u8]>,
    pub(crate) reply: Box<[u8]>,
    pub(crate) out: Box<[u8]>,
    pub(crate) input: Box<[u8]>,
    /// input[kept..from] is the open region's and not the sink's yet; input[from..to] was read and not taken yet
    pub(crate) kept: usize,
    pub(crate) from: usize,
    pub(crate) to: usize,
    pub(crate) owed: Owed,
    pub(crate) region: Region,
    /// the place in the table of the region that was opened last
    pub(crate) place: usize,
    /// of that region, how many bytes were done when the last memory read was sent
    pub(crate) asked: u64,
    /// the memory read that the table was asked for with, once it was, and the table's length; of a run that was closed before the table came whole and was
    /// trusted there is no read
    pub(crate) table_read: Vec<u8>,
    pub(crate) table_len: usize,
    /// behind a resync, the memory reads before the one that is not trusted yet; else the greatest number
    pub(crate) doubt: u64,
    /// the sink of this call knows the table, which is not asked for again then, and the forecast by these names. It is not saved: another process has another
    /// sink
    told: bool,
    /// reads, writes and flushes of the channel that succeeded
    moves: u64,
}

fn buffer(len: usize) -> Box<[u8]> {
    vec![0; len].into()
}

impl Driver {
    pub(crate) fn with(session: Session, set: ImageSet, names: NameList, reply: usize, timeouts: u32) -> Driver {
        Driver {
            session,
            set,
            names,
            timeouts,
            table: buffer(TABLE),
            reply: buffer(reply),
            out: buffer(OUT),
            input: buffer(INPUT),
            kept: 0,
            from: 0,
            to: 0,
            owed: Owed::Nothing,
            region: Region::None,
            place: 0,
            asked: 0,
            table_read: Vec::new(),
            table_len: 0,
            doubt: u64::MAX,
            told: false,
            moves: 0,
        }
    }

    /// The session as it stands.
    pub fn session(&self) -> &Session {
        &self.session
    }

    /// The memory table, as much of it as came: none before a device offered its memory. What a [resync](Driver::resync) asked for again is in doubt until a step
    /// is made from it.
    pub fn table(&self) -> &[u8] {
        let len = match self.session.phase() {
            Phase::Table => self.session.raw().at,
            _ => self.table_len,
        };
        &self.table[..len]
    }

    /// The entries of the memory table: the device's regions, chosen or not.
    pub fn entries(&self) -> impl Iterator<Item = Entry> + '_ {
        (0..).map_while(|i| entry_at(self.table(), self.session.width(), i))
    }

    /// How large the whole fetch is, by the table and the names as they stand; none before the table came whole, and while a [resync](Driver::resync) has it in
    /// doubt.
    ///
    /// Where it is not refused (27), and the run goes from its beginning to [`Outcome::Dumped`] with these names, it opens so many regions, hands out so many
    /// bytes and reports so many memory reads: that is proved of the session, whatever the device says. Other [names](Driver::set_names) move it. What is
    /// fetched twice, behind a resync or where the sink lost a region, comes on top. It stays as it is while regions come, and behind the end.
    pub fn forecast(&self) -> Result<Option<Forecast>, Refusal> {
        self.knows_table().then(|| forecast(&self.table[..self.table_len], self.session.width(), &self.names)).transpose()
    }

    /// The same of the regions that are still to be opened: not of those behind, nor of the one that is open, unless the sink lost it.
    fn to_come(&self) -> Result<Forecast, Refusal> {
        let next = match self.region {
            Region::None => self.session.raw().at,
            Region::Lost => self.place,
            Region::Open | Region::Before => self.place + 1,
        };
        let width = self.session.width();
        let from = next.saturating_mul(width.entry_len()).min(self.table_len);
        forecast(&self.table[from..self.table_len], width, &self.names)
    }

    /// Other names choose the regions from the next step on: for who looks at the table first. A region that a sink has not opened yet, or lost, is chosen by
    /// these again; one that is open goes on. A run that is saved is restored with these. The sink is told the table and the [forecast](Sink::forecast) again
    /// before that step.
    pub fn set_names(&mut self, names: NameList) {
        self.names = names;
        self.told = false;
        if let (Region::None, Owed::Open(place)) = (self.region, self.owed) {
            (self.session, self.owed) = (self.session.before_region(place), Owed::Nothing);
        }
    }

    /// Runs the session to its end, or to the first error; time-outs are borne as [`Options::timeouts`] says.
    ///
    /// The channel is asked for no more bytes than the session wants, so that what comes after Sahara is left in it. A read of 0 bytes
    /// is borne like a time-out. Interrupted calls are made again. An empty read is made once, and its error is not looked at: a device may send no
    /// empty packet. In a region nothing is allocated or copied: the sink is lent the bytes where they were read. What was gathered is handed over
    /// before an error is returned.
    pub fn run<C, S, P>(&mut self, channel: &mut C, sink: &mut S, mut progress: P) -> Result<Outcome, Error>
    where
        C: Read + Write + ?Sized,
        S: Sink + ?Sized,
        P: FnMut(Progress),
    {
        let mut borne = 0;
        loop {
            let moves = self.moves;
            let why = match self.go::<false, C, S, P>(channel, sink, &mut progress) {
                Ok(Some(end)) => return Ok(end),
                Ok(None) => continue,
                Err(why) => why,
            };
            self.hand_over_behind(&why, sink)?;
            if self.moves != moves {
                borne = 0;
            }
            if !why.is_silence() || borne == self.timeouts {
                return Err(why);
            }
            borne += 1;
        }
    }

    /// One step, and what it asks for: the end, where it is that. No time-out is borne. Between two calls a run can be [saved](Driver::save).
    pub fn step<C, S, P>(&mut self, channel: &mut C, sink: &mut S, mut progress: P) -> Result<Option<Outcome>, Error>
    where
        C: Read + Write + ?Sized,
        S: Sink + ?Sized,
        P: FnMut(Progress),
    {
        let end = self.go::<true, C, S, P>(channel, sink, &mut progress);
        end.or_else(|why| self.hand_over_behind(&why, sink).and(Err(why)))
    }

    /// Gives up: a table that came whole, is not in doubt and was not told yet is, what was gathered is handed over, a region's close that is owed is made, and
    /// the session is closed; nothing more is sent. A table that the sink does not take keeps it from nothing but the last of these. No forecast is told: a
    /// sink that has too little space keeps nobody from giving up. Gives the refusal: 23, or 4 where it had ended.
    pub fn close<S: Sink + ?Sized>(&mut self, sink: &mut S) -> Result<Refusal, Error> {
        self.begin();
        let told = self.tell_table(sink);
        self.reopen(sink)?;
        self.hand_over(sink)?;
        if let (Owed::Close(place), Region::Open) = (self.owed, self.region) {
            self.close_region(sink, place)?;
        }
        told?;
        self.owed = Owed::Nothing;
        if !self.knows_table() {
            self.table_read.clear();
        }
        self.table_len = self.table().len();
        match self.session.closed() {
            Answer::Refused(why) => Ok(why),
            _ => unreachable!("closing is a refusal"),
        }
    }

    /// Begins the last memory read anew, in a dump, from its table on: hears what the device still says until it is silent, forgets it, and asks again from
    /// where the last chunk, or the table, began. For a channel that lost bytes (a run that times out with bytes outstanding, a cable that was
    /// pulled), and for a run that was saved some steps before its process died. In any other phase it does nothing.
    ///
    /// The channel must time out: silence, as often in a row as the options bear time-outs and once more, is the sign. What then comes is trusted only when the device is silent
    /// behind it too: else late bytes of the old answer were among it; the run tells that as an error of the channel, and, called again, asks for it once more.
    pub fn resync<C, S>(&mut self, channel: &mut C, sink: &mut S) -> Result<(), Error>
    where
        C: Read + Write + ?Sized,
        S: Sink + ?Sized,
    {
        let (phase, s) = (self.session.phase(), *self.session.raw());
        if !matches!(phase, Phase::Table | Phase::Between | Phase::Region) {
            return Ok(());
        }
        self.begin();
        // half a packet would spoil the next
        if let Owed::Send(1.., _) | Owed::Flush = self.owed {
            self.settle(channel, sink)?;
        }
        // an answer that came behind a resync and is not trusted yet: what would show that it was another is heard now
        let doubted = s.reads > self.doubt;
        match (phase, self.owed) {
            // it is still to be sent, and counted already
            (_, Owed::Send(..)) => (self.to, self.doubt) = (self.from, s.reads.saturating_sub(1)),
            (Phase::Region, _) => self.chunk_again(if s.outstanding > 0 || doubted { self.asked } else { s.done }),
            (Phase::Between, _) if !doubted => self.doubt = s.reads,
            _ => self.table_again(),
        }
        // written down before: what is heard is gone, also where the channel then fails or panics
        self.drain(channel)?;
        self.tell(sink)?;
        self.reopen(sink)
    }

    /// Hears a channel out; gives how many bytes it said.
    fn drain<C: Read + ?Sized>(&mut self, channel: &mut C) -> Result<usize, Error> {
        let (mut heard, mut silent) = (0, 0);
        while heard < MOST {
            match again(|| channel.read(&mut [0; 4096])).map_err(Error::channel) {
                Ok(0) | Err(Error::TimedOut(_)) if silent == self.timeouts => return Ok(heard),
                Ok(0) | Err(Error::TimedOut(_)) => silent += 1,
                said => (heard, silent) = (heard + said?, 0),
            }
        }
        Err(Error::Channel(io::Error::new(ErrorKind::InvalidData, "the device does not fall silent")))
    }

    /// Behind an answer that was asked for again: where the device has more to say, it was not that answer alone. That is told, and the next call asks once more.
    #[cold]
    fn trust<C: Read + ?Sized>(&mut self, channel: &mut C) -> Result<(), Error> {
        let in_region = match self.session.phase() {
            _ if self.session.raw().reads <= self.doubt => return Ok(()),
            Phase::Region if self.session.raw().outstanding == 0 => true,
            Phase::Between => false,
            // it still comes
            _ => return Ok(()),
        };
        let as_it_came = (self.session, self.kept, self.from, self.to, self.owed, self.region);
        // written down before: of a channel that fails or panics it is not known what it said
        match in_region {
            true => self.chunk_again(self.asked),
            false => self.table_again(),
        }
        let heard = self.drain(channel);
        if let Ok(0) = heard {
            (self.session, self.kept, self.from, self.to, self.owed, self.region) = as_it_came;
            self.doubt = u64::MAX;
            return Ok(());
        }
        let more = io::Error::new(ErrorKind::InvalidData, "more came than was asked for: it is asked for again");
        heard.and(Err(Error::Channel(more)))
    }

    /// The table is to be asked for anew.
    fn table_again(&mut self) {
        let len = self.table_read.len();
        self.doubt = self.session.raw().reads;
        self.session = self.session.table_begun();
        self.out[..len].copy_from_slice(&self.table_read);
        (self.kept, self.from, self.to, self.owed) = (0, 0, 0, Owed::Send(0, len));
    }

    /// The open region goes on from the byte `begun`: of what came behind it nothing is kept, here or by the sink.
    fn chunk_again(&mut self, begun: u64) {
        let s = self.session.raw();
        let begun = begun.min(s.done);
        let handed = s.done - (self.from - self.kept) as u64;
        self.doubt = s.reads;
        self.from = self.kept + begun.saturating_sub(handed) as usize;
        self.to = self.from;
        self.session = self.session.region_at(begun);
        if self.owed == Owed::EmptyRead {
            self.owed = Owed::Nothing;
        }
        if begun < handed && self.region == Region::Open {
            self.region = Region::Before;
        }
    }

    /// What is owed, then steps and what each asks for: one, or all to the end.
    fn go<const ONE: bool, C, S, P>(&mut self, channel: &mut C, sink: &mut S, progress: &mut P) -> Result<Option<Outcome>, Error>
    where
        C: Read + Write + ?Sized,
        S: Sink + ?Sized,
        P: FnMut(Progress),
    {
        self.begin();
        self.settle(channel, sink)?;
        let gathers = sink.gathers().min(INPUT);
        // whether the next step may need bytes. Where it does and is lent none, it only says go. In a region the step before told how many.
        let (mut hungry, mut waits) = (true, 0);
        loop {
            if self.doubt != u64::MAX {
                self.trust(channel)?;
                self.tell(sink)?;
                (hungry, waits) = (true, 0);
            }
            let wanted = match hungry && self.from == self.to {
                true if waits > 0 => waits,
                true => self.session.wanted(),
                false => 0,
            };
            if wanted > 0 {
                self.fill(channel, sink, wanted)?;
            }
            let told = self.step_lent();
            (hungry, waits) = (true, told.waits as usize);
            match answer(told.answer, told.first, told.second) {
                Answer::Bytes(k) => {
                    self.from += k;
                    hungry = k < wanted;
                    if self.from - self.kept >= gathers {
                        self.hand_over(sink)?;
                    }
                    let s = self.session.raw();
                    progress(Progress { place: self.place, done: s.done, len: s.len });
                }
                Answer::Send(k) => {
                    self.owed = Owed::Send(0, k);
                    self.asked = self.session.raw().done;
                    if told.taken > 0 {
                        self.answered(told.taken, k);
                    }
                    self.send(channel, 0, k)?;
                }
                Answer::EmptyRead => {
                    hungry = false;
                    self.owed = Owed::EmptyRead;
                    self.empty_read(channel);
                }
                Answer::Finished { how, reads } => {
                    self.taken(told.taken);
                    return Ok(Some(self.outcome(how, reads)));
                }
                Answer::Refused(why) => {
                    self.taken(told.taken);
                    return Err(why.into());
                }
                asked => {
                    self.owed = Owed::by(asked);
                    self.taken(told.taken);
                    self.settle(channel, sink)?;
                }
            }
            if ONE {
                return Ok(None);
            }
        }
    }

    /// Bytes that a step took are the session's, unless it handed them out: no other step of a region takes any.
    #[inline(always)]
    fn taken(&mut self, taken: usize) {
        if taken > 0 {
            self.from += taken;
            self.kept = self.from;
        }
    }

    /// A packet was taken, and the answer to it has k bytes. Where that asks for the table, it is noted.
    #[cold]
    fn answered(&mut self, taken: usize, k: usize) {
        self.taken(taken);
        if self.session.phase() == Phase::Table {
            self.table_read = self.out[..k].to_vec();
            // refused (17) above that
            self.table_len = self.session.raw().count.min(TABLE);
        }
    }

    /// A step lent what was read and not taken yet.
    #[inline(always)]
    fn step_lent(&mut self) -> raw::Placed {
        raw::step_in_place(
            self.session.raw_mut(),
            &self.input[self.from..self.to],
            self.set.bytes(),
            self.names.bytes(),
            &mut self.table,
            &mut self.reply,
            &mut self.out,
        )
    }

    fn outcome(&self, how: u8, reads: u64) -> Outcome {
        match how {
            1 => Outcome::ImagesSent,
            2 => Outcome::Reset,
            3 => Outcome::Dumped { reads },
            _ => Outcome::Reply(self.reply[..self.session.reply_len()].to_vec()),
        }
    }

    /// Does what is owed, behind what the sink must know first.
    fn settle<C, S>(&mut self, channel: &mut C, sink: &mut S) -> Result<(), Error>
    where
        C: Read + Write + ?Sized,
        S: Sink + ?Sized,
    {
        self.tell(sink)?;
        self.reopen(sink)?;
        match self.owed {
            Owed::Nothing => Ok(()),
            Owed::Send(from, to) => self.send(channel, from, to),
            Owed::Image(from, to) => self.send_image(channel, from, to),
            Owed::Flush => self.flush(channel),
            Owed::EmptyRead => {
                self.empty_read(channel);
                Ok(())
            }
            Owed::Open(place) => self.open(sink, place),
            Owed::Close(place) => self.close_region(sink, place),
        }
    }

    /// Sends out[from..to], which is owed.
    #[inline(always)]
    fn send<C: Write + ?Sized>(&mut self, channel: &mut C, mut from: usize, to: usize) -> Result<(), Error> {
        while from < to {
            from += write(channel, &self.out[from..to]).map_err(Error::channel)?;
            self.moves += 1;
            if from < to {
                self.owed = Owed::Send(from, to);
            }
        }
        self.owed = Owed::Flush;
        self.flush(channel)
    }

    /// Sends the image set's bytes from..to, which are owed.
    fn send_image<C: Write + ?Sized>(&mut self, channel: &mut C, mut from: usize, to: usize) -> Result<(), Error> {
        while from < to {
            from += write(channel, &self.set.bytes()[from..to]).map_err(Error::channel)?;
            self.moves += 1;
            if from < to {
                self.owed = Owed::Image(from, to);
            }
        }
        self.owed = Owed::Flush;
        self.flush(channel)
    }

    #[inline(always)]
    fn flush<C: Write + ?Sized>(&mut self, channel: &mut C) -> Result<(), Error> {
        again(|| channel.flush()).map_err(Error::channel)?;
        self.owed = Owed::Nothing;
        self.moves += 1;
        Ok(())
    }

    /// The original looks at no error here either: the empty packet may not come, and carries nothing.
    #[inline]
    fn empty_read<C: Read + ?Sized>(&mut self, channel: &mut C) {
        let _ = again(|| channel.read(&mut []));
        self.owed = Owed::Nothing;
    }

    /// Bytes of the open region that came: all of them, where its close is owed.
    pub(crate) fn done(&self) -> u64 {
        match self.session.phase() {
            Phase::Region => self.session.raw().done,
            _ => self.entry(self.place).len,
        }
    }

    /// The entry of a region that the session opened in this table.
    fn entry(&self, place: usize) -> Entry {
        entry_at(&self.table, self.session.width(), place).expect("an opened region has an entry")
    }

    /// The table came whole, and is not in doubt.
    fn knows_table(&self) -> bool {
        match self.session.phase() {
            Phase::Between => self.session.raw().reads <= self.doubt,
            Phase::Region => true,
            // of a run that an earlier version closed in the middle of its table, the table is shorter than what was asked for
            Phase::Ended => asked_len(&self.table_read, self.session.width()) == Some(self.table_len as u64),
            _ => false,
        }
    }

    /// A call begins. Where no sink of this process has a region open, its own may be another than the last one's.
    fn begin(&mut self) {
        self.told &= self.region == Region::Open;
    }

    /// Whether the sink is to be told.
    fn untold(&self) -> bool {
        !self.told && self.session.phase() != Phase::Ended && self.knows_table()
    }

    /// Tells the sink the table and the forecast, once the table is whole and not in doubt.
    #[cold]
    fn tell<S: Sink + ?Sized>(&mut self, sink: &mut S) -> Result<(), Error> {
        if self.untold() {
            self.tell_table(sink)?;
            let to_come = self.to_come();
            again(|| sink.forecast(to_come)).map_err(Error::Sink)?;
            self.told = true;
        }
        Ok(())
    }

    /// Tells it the table alone.
    fn tell_table<S: Sink + ?Sized>(&mut self, sink: &mut S) -> Result<(), Error> {
        match self.untold() {
            true => again(|| sink.table(&self.table[..self.table_len], self.session.width())).map_err(Error::Sink),
            false => Ok(()),
        }
    }

    fn open<S: Sink + ?Sized>(&mut self, sink: &mut S, place: usize) -> Result<(), Error> {
        let entry = self.entry(place);
        self.place = place;
        again(|| sink.open(place, &entry)).map_err(Error::Sink)?;
        (self.region, self.owed) = (Region::Open, Owed::Nothing);
        Ok(())
    }

    /// A region of an earlier process goes on.
    #[cold]
    fn reopen<S: Sink + ?Sized>(&mut self, sink: &mut S) -> Result<(), Error> {
        if self.region != Region::Before {
            return Ok(());
        }
        let entry = self.entry(self.place);
        let taken = self.done() - (self.from - self.kept) as u64;
        match keeping(|| sink.reopen(self.place, &entry, taken)) {
            Ok(()) => self.region = Region::Open,
            Err(Unkept::Again(e)) => return Err(Error::Sink(e)),
            Err(Unkept::Lost(e)) => {
                self.region = Region::Lost;
                return Err(Error::Sink(e));
            }
        }
        Ok(())
    }

    fn close_region<S: Sink + ?Sized>(&mut self, sink: &mut S, place: usize) -> Result<(), Error> {
        self.hand_over(sink)?;
        let closed = match self.region {
            Region::Lost => Ok(false),
            _ => keeping(|| sink.close(place)).map(|()| true),
        };
        match closed {
            Ok(true) => (self.region, self.owed) = (Region::None, Owed::Nothing),
            Ok(false) => self.fetch_again(place),
            Err(Unkept::Again(e)) => return Err(Error::Sink(e)),
            Err(Unkept::Lost(e)) => {
                // told now, and fetched again by the next call
                self.region = Region::Lost;
                return Err(Error::Sink(e));
            }
        }
        Ok(())
    }

    /// Back to before the region was opened: by the same names it is chosen again. Its memory reads so far stay counted: they were sent.
    #[cold]
    fn fetch_again(&mut self, place: usize) {
        self.session = self.session.before_region(place);
        (self.region, self.owed) = (Region::None, Owed::Nothing);
    }

    /// Hands input[kept..from] to the sink: the last bytes that the session counts as done.
    #[inline(always)]
    fn hand_over<S: Sink + ?Sized>(&mut self, sink: &mut S) -> Result<(), Error> {
        if self.region == Region::Lost {
            self.kept = self.from;
        }
        while self.kept < self.from {
            let bytes = &self.input[self.kept..self.from];
            let n = again(|| sink.bytes(bytes)).and_then(|n| judged(n, bytes.len())).map_err(Error::Sink)?;
            self.kept += n;
        }
        Ok(())
    }

    /// The same before an error is returned; the sink's own has been.
    #[cold]
    fn hand_over_behind<S: Sink + ?Sized>(&mut self, why: &Error, sink: &mut S) -> Result<(), Error> {
        match why {
            Error::Sink(_) => Ok(()),
            _ => self.hand_over(sink),
        }
    }

    /// Reads what the channel gives, at most `wanted` bytes: at least one.
    #[inline]
    fn fill<C, S>(&mut self, channel: &mut C, sink: &mut S, wanted: usize) -> Result<(), Error>
    where
        C: Read + ?Sized,
        S: Sink + ?Sized,
    {
        let wanted = wanted.min(INPUT);
        if self.to + wanted > INPUT {
            self.hand_over(sink)?;
        }
        if self.kept == self.to {
            (self.kept, self.from, self.to) = (0, 0, 0);
        }
        let room = &mut self.input[self.to..][..wanted];
        match again(|| channel.read(room)).map_err(Error::channel)? {
            0 => Err(Error::NoBytes),
            n if n > wanted => Err(Error::Channel(beyond())),
            n => {
                self.to += n;
                self.moves += 1;
                Ok(())
            }
        }
    }
}

impl Owed {
    #[inline]
    fn by(asked: Answer) -> Owed {
        match asked {
            Answer::Send(k) => Owed::Send(0, k),
            Answer::Image { start, len } => Owed::Image(start, start + len),
            Answer::Open(place) => Owed::Open(place),
            Answer::EmptyRead => Owed::EmptyRead,
            Answer::Close(place) => Owed::Close(place),
            _ => Owed::Nothing,
        }
    }
}

impl fmt::Debug for Driver {
    fn fmt(&self, f: &mut fmt::Formatter<'_>) -> fmt::Result {
        let unread = self.to - self.from;
        let gathered = self.from - self.kept;
        f.debug_struct("Driver")
            .field("session", &self.session)
            .field("owed", &self.owed)
            .field("region", &self.region)
            .field("gathered", &gathered)
            .field("unread", &unread)
            .finish_non_exhaustive()
    }
}

/// Makes a call again while it is interrupted.
#[inline]
fn again<T>(mut call: impl FnMut() -> io::Result<T>) -> io::Result<T> {
    loop {
        match call() {
            Err(e) if e.kind() == ErrorKind::Interrupted => {}
            done => return done,
        }
    }
}

/// The same for a sink's close and reopen.
fn keeping(mut call: impl FnMut() -> Result<(), Unkept>) -> Result<(), Unkept> {
    loop {
        match call() {
            Err(Unkept::Again(e)) if e.kind() == ErrorKind::Interrupted => {}
            done => return done,
        }
    }
}

/// What a device is let say before it must be silent: more than any answer to a memory read has.
const MOST: usize = 1 << 20;

/// Writes some of the bytes.
#[inline]
fn write<C: Write + ?Sized>(channel: &mut C, bytes: &[u8]) -> io::Result<usize> {
    again(|| channel.write(bytes)).and_then(|n| judged(n, bytes.len()))
}

/// How much of `most` bytes a call says that it took: not none, and no more than that.
#[inline]
fn judged(n: usize, most: usize) -> io::Result<usize> {
    match n {
        0 => Err(ErrorKind::WriteZero.into()),
        n if n > most => Err(beyond()),
        n => Ok(n),
    }
}

#[cold]
fn beyond() -> io::Error {
    io::Error::new(ErrorKind::InvalidData, "it says that it moved more bytes than it was lent")
}

/// The short form, for callers who give up at the first error: the run is dropped with it, and a device in mid-dump stays there. A channel
/// that gives no bytes, more often in a row than the options bear, is closed: refused (23). Who wants to go on keeps a [`Driver`].
pub fn sahara_run<C, S, P>(channel: &mut C, options: &Options, sink: &mut S, progress: P) -> Result<Outcome, Error>
where
    C: Read + Write + ?Sized,
    S: Sink + ?Sized,
    P: FnMut(Progress),
{
    let mut driver = options.start()?;
    match driver.run(channel, sink, progress) {
        Err(Error::NoBytes) => Err(driver.close(sink)?.into()),
        end => end,
    }
}

#[cfg(test)]
mod tests {
    use super::*;
    use crate::{Backend, Count, Mode};
    use std::io::Cursor;

    /// What it is told is gone; what it says ends, and nothing comes then.
    struct Said(Cursor<Vec<u8>>);

    impl Read for Said {
        fn read(&mut self, to: &mut [u8]) -> io::Result<usize> {
            self.0.read(to)
        }
    }

    impl Write for Said {
        fn write(&mut self, bytes: &[u8]) -> io::Result<usize> {
            Ok(bytes.len())
        }
        fn flush(&mut self) -> io::Result<()> {
            Ok(())
        }
    }

    /// A run that version 0.3.0 closed while its table came kept the memory read: there is no forecast of a part of a table. Behind a whole one there is.
    #[test]
    fn closed_while_the_table_came() {
        let options = Options::new(Backend::Serial, Mode::MemoryDebug);
        for (came, forecast) in [(0, None), (70, None), (127, None), (128, Some(Forecast { regions: 2, bytes: 514, reads: 3 }))] {
            let mut said: Vec<u8> = [0x10u32, 24].iter().flat_map(|w| w.to_le_bytes()).collect();
            said.extend([0x1000u64, 128].iter().flat_map(|w| w.to_le_bytes()));
            // two entries of 64 bytes: preference 1, base 0, a length of 257
            said.extend((0..came).map(|i| u8::from(matches!(i % 64, 0 | 16 | 17))));
            let mut run = options.start().unwrap();
            run.run(&mut Said(Cursor::new(said)), &mut Count::default(), |_| ()).unwrap_err();
            run.owed = Owed::Nothing;
            run.table_len = run.table().len();
            run.session.closed();
            let run = options.restore(&run.save()).unwrap();
            assert_eq!((run.table_len, run.forecast()), (came, Ok(forecast)));
        }
    }
}
