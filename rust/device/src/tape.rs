//! A device that says its opening at once, whatever it hears, and whose bytes are kept.
use crate::{mem_read, Device, Memory, Turn};

/// The longest memory read that is answered.
const LONGEST: u64 = 1 << 20;

/// Hears packet by packet: memory reads are answered, so many of them, and all else is ignored.
pub struct Tape {
    device: Device,
    answers: usize,
    /// all that the device said
    pub said: Vec<u8>,
    /// how many bytes of it were taken
    pub at: usize,
}

impl Tape {
    pub fn new(opening: &[u8], memory: Memory, answers: usize) -> Tape {
        let device = Device::new(memory, vec![Turn::Say(opening.to_vec())]);
        let mut tape = Tape { device, answers, said: Vec::new(), at: 0 };
        tape.keep();
        tape
    }

    fn keep(&mut self) {
        let from = self.said.len();
        self.said.resize(from + self.device.queued() as usize, 0);
        self.device.say(&mut self.said[from..]);
    }

    /// What was said and not taken yet.
    pub fn left(&self) -> &[u8] {
        &self.said[self.at..]
    }

    pub fn hear(&mut self, packet: &[u8]) {
        let ours = packet.len() == self.device.memory.width().packet_len();
        if ours && self.answers > 0 && mem_read(packet).is_some_and(|(_, len)| len <= LONGEST) {
            self.answers -= 1;
            self.device.hear(packet);
            self.keep();
        }
    }
}
