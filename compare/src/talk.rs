//! A conversation: how the host is opened, what it is lent, and the device.
use crate::random::Draws;
use device::{Memory, Rng, Tape, Width};

#[derive(Clone)]
pub struct Talk {
    pub kind: &'static str,
    pub mode: u32,
    pub command: Option<u32>,
    pub usb: bool,
    pub images: Vec<Option<Vec<u8>>>,
    pub names: Vec<String>,
    /// How the image set and the names are laid out as bundles; 0 is slot by slot without gaps.
    pub layout: u64,
    /// The bytes that the device queues first.
    pub opening: Vec<u8>,
    /// What it answers memory reads from; without one, `opening` is all it ever says.
    pub live: Option<Live>,
}

/// A device that answers memory reads.
#[derive(Clone)]
pub struct Live {
    pub memory: Memory,
    pub seed: u64,
    /// Memory reads that are answered before the device falls silent.
    pub answers: usize,
    /// What the first of them is answered with, before these, in the place of the memory's bytes.
    pub first: Option<Vec<u8>>,
}

impl Live {
    pub fn new(width: Width, seed: u64, table_at: u64, table: Vec<u8>, answers: usize) -> Self {
        Live { memory: Memory::mixed(seed, table_at, table).wide(width), seed, answers, first: None }
    }
}

pub fn word(b: &[u8], at: usize) -> u32 {
    u32::from_le_bytes(b[at..at + 4].try_into().unwrap())
}

pub fn long(b: &[u8], at: usize) -> u64 {
    u64::from_le_bytes(b[at..at + 8].try_into().unwrap())
}

pub fn command_of(packet: &[u8]) -> u32 {
    word(packet, 0)
}

/// A bundle's bytes, and where in them each slot starts.
pub struct Bundle {
    pub bytes: Vec<u8>,
    pub starts: Vec<usize>,
}

/// Slots as a bundle. A layout other than 0 changes their order in the data, leaves gaps and lets slots share bytes.
pub fn bundle(slots: &[Option<&[u8]>], layout: u64) -> Bundle {
    let mut r = Rng::new(layout);
    let mut order: Vec<usize> = (0..slots.len()).collect();
    if layout != 0 {
        for i in (1..order.len()).rev() {
            order.swap(i, r.upto(i));
        }
    }
    let mut data = Vec::new();
    let mut places = vec![(u32::MAX, 0u32); slots.len()];
    for i in order {
        let Some(s) = slots[i] else { continue };
        let shared = if layout != 0 && r.one_in(2) { find(&data, s) } else { None };
        let start = shared.unwrap_or_else(|| {
            if layout != 0 {
                let gap = r.upto(3);
                data.extend(r.bytes(gap));
            }
            data.extend_from_slice(s);
            data.len() - s.len()
        });
        places[i] = (start as u32, s.len() as u32);
    }
    let mut bytes = Vec::new();
    for v in
        [slots.len() as u32, data.len() as u32].into_iter().chain(places.iter().map(|p| p.0)).chain(places.iter().map(|p| p.1))
    {
        bytes.extend(v.to_le_bytes());
    }
    let head = bytes.len();
    bytes.extend(data);
    Bundle { bytes, starts: places.iter().map(|p| head.wrapping_add(p.0 as usize)).collect() }
}

fn find(data: &[u8], s: &[u8]) -> Option<usize> {
    if s.is_empty() {
        return None;
    }
    data.windows(s.len()).position(|w| w == s)
}

impl Talk {
    pub fn device(&self) -> Tape {
        match &self.live {
            Some(l) => Tape::new(&self.opening, l.memory.clone(), l.answers),
            None => Tape::new(&self.opening, Memory::mixed(0, 0, Vec::new()), 0),
        }
    }

    pub fn image_set(&self) -> Bundle {
        bundle(&self.images.iter().map(|i| i.as_deref()).collect::<Vec<_>>(), self.layout)
    }

    pub fn name_list(&self) -> Bundle {
        bundle(&self.names.iter().map(|n| Some(n.as_bytes())).collect::<Vec<_>>(), self.layout)
    }
}
