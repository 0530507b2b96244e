//! The fixed sample: conversations in the input format of the program `runs`, and the original's answers in its output format.
use crate::events::{name_of, End, What};
use crate::lines::lines;
use crate::original::Original;
use crate::talk::Talk;
use device::mix;
use std::collections::BTreeMap;

/// Of one kind and one end.
const FEW: usize = 3;
/// Bytes of a conversation, and of one that is chosen for its long regions.
const SMALL: usize = 600;
const LONG: usize = 6_000;
const SIZES: [usize; 8] = [4096, 1, 7, 8, 9, 20, 64, 500];

#[derive(Default)]
pub struct Sample {
    given: Vec<u8>,
    wanted: Vec<String>,
    seen: u64,
    /// How many there are of a kind and an end.
    had: BTreeMap<(&'static str, String), usize>,
    pub cases: usize,
    pub ends: BTreeMap<String, usize>,
}

impl Sample {
    /// Takes in one of eight conversations, if it is inside the domain and few of its kind ended as it did. The device's bytes are all that it queued.
    pub fn offer(&mut self, t: &Talk, o: &Original, inside: bool) {
        self.seen += 1;
        if !inside || mix(self.seen) % 8 != 0 {
            return;
        }
        let (set, names) = (t.image_set().bytes, t.name_list().bytes);
        let long = set.len() + names.len() + o.fed.len() > SMALL;
        let end = name_of(&o.ran.end);
        let empty_reads = o.steps.iter().filter(|e| e.what == What::EmptyRead).count();
        let group = if long { format!("long, usb {}, {empty_reads} empty reads", t.usb) } else { end.clone() };
        let had = self.had.entry((t.kind, group)).or_default();
        if *had >= FEW || long && (t.kind != "chunks" || o.fed.len() > LONG) {
            return;
        }
        let size = if long { [4096, 1000][self.cases % 2] } else { SIZES[self.cases % SIZES.len()] };
        let Some(told) = lines(o, size, None) else { return };
        *had += 1;
        *self.ends.entry(end).or_default() += 1;
        self.add(t, size, [&set, &names, &o.fed], told);
    }

    fn add(&mut self, t: &Talk, size: usize, parts: [&[u8]; 3], told: Vec<String>) {
        // out, table and reply buffers of these lengths; the session is as opened
        let head = [t.mode, t.command.unwrap_or(4), t.usb as u32, size as u32, 48, 65_536, 8_192, 0, 0];
        for v in head.into_iter().chain(parts.map(|p| p.len() as u32)) {
            self.given.extend(v.to_le_bytes());
        }
        self.given.extend(parts.concat());
        if self.cases > 0 {
            self.wanted.push(String::new());
        }
        self.wanted.extend(told);
        self.cases += 1;
    }

    /// Whether every finish and every refusal that the original has is among them.
    pub fn whole(&self) -> bool {
        let ends = (1..=4).map(|how| End::Finished { how, reads: 0, reply: Vec::new() });
        let refusals = (5..=15).chain(19..=21).chain([23]).map(End::Refused);
        ends.chain(refusals).all(|e| self.ends.contains_key(&name_of(&e)))
    }

    pub fn files(&self) -> [(&'static str, Vec<u8>); 2] {
        [("stdin", self.given.clone()), ("stdout", (self.wanted.join("\n") + "\n").into_bytes())]
    }
}
