//! Mode 1, which the original does not have. By document 02 it is a mode like the others, so what is wanted is the original's run with mode 0 in its
//! place, where it would refuse a hello of mode 1 or cannot be opened in it; only the answers of a session of mode 1 have 1 and not 0.
use crate::events::{End, Event, What};
use crate::narrow;
use crate::original::Original;
use crate::talk::{command_of, word, Bundle, Talk};

/// Where a hello and its response have their mode.
pub const AT: usize = 20;
/// The bytes of each that are decoded.
const WHOLE: usize = 48;

/// The same conversation with mode 1 in it: opened in it, or every hello of it, or both.
pub fn with(t: &Talk, n: u64) -> Talk {
    let mut t = Talk { kind: "with mode 1", ..t.clone() };
    if n % 3 != 0 {
        t.mode = 1;
    }
    let mut at = 0;
    while let Some(packet) = t.opening.get_mut(at..).filter(|p| n % 3 != 1 && p.len() >= AT + 4) {
        if matches!(command_of(packet), 1 | 2) {
            packet[AT..AT + 4].copy_from_slice(&1u32.to_le_bytes());
        }
        at += word(packet, 4).max(8) as usize;
    }
    t
}

/// Whether these bytes are decoded as a hello, or as its response, of mode 1.
pub fn says(packet: &[u8]) -> bool {
    packet.len() >= WHOLE && matches!(command_of(packet), 1 | 2) && word(packet, AT) == 1
}

/// The original's run, and what had a part in it: mode 1, a packet of 32 bits.
pub fn run(t: &Talk, set: &Bundle) -> (Original, bool, bool) {
    let opened = t.mode == 1;
    let mut other = Talk { mode: if opened { 0 } else { t.mode }, ..t.clone() };
    let mut places = Vec::new();
    let (mut o, mut narrow) = narrow::run(&other, set);
    while o.ran.end == End::Refused(9) && says(o.last_packet()) {
        let place = o.packet.0 + AT;
        other.opening[place] = 0;
        places.push(place);
        (o, narrow) = narrow::run(&other, set);
    }
    for place in &places {
        o.fed[*place] = 1;
    }
    if opened {
        o.ran.events.iter_mut().chain(&mut o.steps).for_each(answer_in_mode_one);
    }
    (o, opened || !places.is_empty(), narrow)
}

fn answer_in_mode_one(e: &mut Event) {
    if let What::Sent(b) = &mut e.what {
        if command_of(b) == 2 {
            b[AT] = 1;
        }
    }
}
