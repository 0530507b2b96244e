//! A simulated Sahara device: what it says and hears, in memory or behind a socket, with its bytes divided anywhere and with faults.
//! It knows nothing of the host under test.
mod bulk;
mod memory;
mod packets;
mod pty;
mod report;
mod rng;
mod socket;
mod tape;
mod width;
mod wire;

pub use bulk::Bulk;
pub use memory::{padded, Memory, Region};
pub use packets::*;
pub use pty::Pty;
pub use report::not_run;
pub use rng::{mix, Rng};
pub use socket::{serve, serve_until, Socket};
pub use tape::Tape;
pub use width::Width;
pub use wire::{Division, Faults, Wire};

use std::collections::VecDeque;

/// One turn of a conversation, seen from the device.
#[derive(Clone, Debug)]
pub enum Turn {
    Say(Vec<u8>),
    /// wait for so many bytes
    Hear(usize),
}

enum Piece {
    Bytes(Vec<u8>, usize),
    Memory { at: u64, len: u64 },
}

/// Plays its turns; after the last it answers each memory read of its memory's width, and no other, with the memory's bare bytes.
pub struct Device {
    pub memory: Memory,
    turns: VecDeque<Turn>,
    queue: VecDeque<Piece>,
    queued: u64,
    /// bytes still to be heard before the next turn
    waiting: usize,
    /// the memory read that is being heard
    request: [u8; 24],
    held: usize,
    /// what was heard in the turns
    heard: Vec<u8>,
    reads: u64,
    wrong: Option<String>,
}

impl Device {
    pub fn new(memory: Memory, turns: Vec<Turn>) -> Device {
        let mut device = Device {
            memory,
            turns: turns.into(),
            queue: VecDeque::new(),
            queued: 0,
            waiting: 0,
            request: [0; 24],
            held: 0,
            heard: Vec::new(),
            reads: 0,
            wrong: None,
        };
        device.play();
        device
    }

    /// Offers its memory: Hello, then MemDebug or MemDebug64.
    pub fn dump(memory: Memory) -> Device {
        Device::dump_after(hello(2), memory)
    }

    /// The same behind another hello.
    pub fn dump_after(hello: Vec<u8>, memory: Memory) -> Device {
        let offer = memory.width().mem_debug(memory.table_at(), memory.table_len());
        Device::new(memory, vec![Turn::Say(hello), Turn::Hear(48), Turn::Say(offer)])
    }

    /// Asks for images: each request is an image's ID, offset and length. It ends with `rest`, which is no Sahara any more.
    pub fn load(requests: &[(u32, u32, u32)], rest: &[u8]) -> Device {
        let mut turns = vec![Turn::Say(hello(0)), Turn::Hear(48)];
        for &(id, offset, len) in requests {
            turns.push(Turn::Say(read_data(id, offset, len)));
            turns.push(Turn::Hear(len as usize));
        }
        turns.extend([Turn::Say(end_of_image(0, 0)), Turn::Hear(8)]);
        turns.push(Turn::Say([done_resp(1), rest.to_vec()].concat()));
        Device::new(Memory::empty(), turns)
    }

    /// Answers one command; `rest` is what it says after SwitchMode.
    pub fn command(command: u32, reply: &[u8], rest: &[u8]) -> Device {
        Device::new(
            Memory::empty(),
            vec![
                Turn::Say(hello(3)),
                Turn::Hear(48),
                Turn::Say(command_ready()),
                Turn::Hear(12),
                Turn::Say(execute_resp(command, reply.len() as u32)),
                Turn::Hear(12),
                Turn::Say(reply.to_vec()),
                Turn::Hear(12),
                Turn::Say(rest.to_vec()),
            ],
        )
    }

    fn play(&mut self) {
        while self.waiting == 0 {
            match self.turns.pop_front() {
                None => return,
                Some(Turn::Hear(n)) => self.waiting = n,
                Some(Turn::Say(bytes)) => {
                    self.queued += bytes.len() as u64;
                    self.queue.push_back(Piece::Bytes(bytes, 0));
                }
            }
        }
    }

    /// The host's bytes, in any division.
    pub fn hear(&mut self, mut bytes: &[u8]) {
        while !bytes.is_empty() {
            let n = if self.waiting > 0 {
                let n = self.waiting.min(bytes.len());
                self.heard.extend_from_slice(&bytes[..n]);
                self.waiting -= n;
                self.play();
                n
            } else {
                let end = if self.held < 8 { 8 } else { self.memory.width().packet_len() };
                let n = (end - self.held).min(bytes.len());
                self.request[self.held..self.held + n].copy_from_slice(&bytes[..n]);
                self.held += n;
                self.requested();
                n
            };
            bytes = &bytes[n..];
        }
    }

    /// Looks at a memory read as soon as its header is there, and answers it when it is whole.
    fn requested(&mut self) {
        let (width, r) = (self.memory.width(), &self.request[..self.held]);
        if r.len() == 8 && *r != width.mem_read_head() {
            self.wrong.get_or_insert_with(|| format!("no memory read of {width:?}: {r:?}"));
            self.held = 0;
            return;
        }
        let Some((at, len)) = mem_read(r) else { return };
        self.held = 0;
        if self.queued > 0 {
            self.wrong.get_or_insert_with(|| format!("asked for {len} bytes at {at:#x} with {} still queued", self.queued));
        }
        self.reads += 1;
        self.queued += len;
        self.queue.push_back(Piece::Memory { at, len });
    }

    /// Fills `to` from the queue; gives how many bytes there were.
    pub fn say(&mut self, to: &mut [u8]) -> usize {
        let mut filled = 0;
        while filled < to.len() {
            match self.say_of_one(&mut to[filled..]) {
                None => break,
                Some((n, _)) => filled += n,
            }
        }
        filled
    }

    /// Fills `to` from what was said in one piece, a packet or the answer to a memory read; gives how many bytes, and whether it ends with them.
    /// None where nothing is queued.
    pub fn say_of_one(&mut self, to: &mut [u8]) -> Option<(usize, bool)> {
        let (n, ended) = match self.queue.front_mut()? {
            Piece::Bytes(bytes, from) => {
                let n = to.len().min(bytes.len() - *from);
                to[..n].copy_from_slice(&bytes[*from..*from + n]);
                *from += n;
                (n, *from == bytes.len())
            }
            Piece::Memory { at, len } => {
                let n = (*len).min(to.len() as u64) as usize;
                self.memory.read(*at, &mut to[..n]);
                *at = at.wrapping_add(n as u64);
                *len -= n as u64;
                (n, *len == 0)
            }
        };
        if ended {
            self.queue.pop_front();
        }
        self.queued -= n as u64;
        Some((n, ended))
    }

    /// Bytes that were said and not taken yet.
    pub fn queued(&self) -> u64 {
        self.queued
    }

    /// What the host said in the turns, without the memory reads.
    pub fn heard(&self) -> &[u8] {
        &self.heard
    }

    /// Memory reads that were heard.
    pub fn reads(&self) -> u64 {
        self.reads
    }

    /// The first thing the host did that a host does not do in a dump: bytes that are no memory read of the device's width, or a request before the
    /// last one was fetched.
    pub fn wrong(&self) -> Option<&str> {
        self.wrong.as_deref()
    }
}
