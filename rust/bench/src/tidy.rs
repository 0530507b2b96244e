//! What tidying an image set costs beside copying as many bytes.
use device::Rng;
use std::hint::black_box;
use std::time::Instant;
use worgesli::{tidy, tidy_into, tidy_len};

const ROUNDS: usize = 60;

/// An image set, by the starts and lengths of its slots.
struct Set {
    what: &'static str,
    slots: Vec<(usize, usize)>,
    data: usize,
}

impl Set {
    /// Slots of this length one behind the other, the last image first.
    fn of(what: &'static str, n: usize, len: usize) -> Set {
        Set { what, slots: (0..n).rev().map(|i| (i * len, len)).collect(), data: n * len }
    }

    fn bytes(&self) -> Vec<u8> {
        let numbers = [self.slots.len(), self.data].into_iter();
        let numbers = numbers.chain(self.slots.iter().map(|s| s.0)).chain(self.slots.iter().map(|s| s.1));
        let mut bytes: Vec<u8> = numbers.flat_map(|n| (n as u32).to_le_bytes()).collect();
        let at = bytes.len();
        bytes.resize(at + self.data, 0);
        Rng::new(5).fill(&mut bytes[at..]);
        bytes
    }
}

/// The least and the median.
fn of(mut times: Vec<f64>) -> [f64; 2] {
    times.sort_by(f64::total_cmp);
    [times[0], times[times.len() / 2]]
}

/// Prints a line: the microseconds of tidying, and how often as long it takes as the same bytes in one copy, and as the images copied one by one from the set.
fn line(set: &Set) {
    let (bytes, head) = (set.bytes(), 8 + 8 * set.slots.len());
    let form = tidy(&bytes).expect("a set");
    assert_eq!(tidy_len(&bytes), Ok(form.len()));
    let (mut to, mut times) = (vec![1; form.len()], [vec![], vec![], vec![]]);
    let mut time = |i: usize, call: &mut dyn FnMut(&mut [u8])| {
        to.fill(1);
        let start = Instant::now();
        call(black_box(&mut to));
        times[i].push(start.elapsed().as_nanos() as f64);
        let from = if i == 2 { head } else { 0 };
        assert!(to[from..] == form[from..], "{}", set.what);
    };
    for _ in 0..ROUNDS {
        time(0, &mut |to| {
            black_box(tidy_into(black_box(&bytes), to)).expect("room");
        });
        time(1, &mut |to| to.copy_from_slice(black_box(&form)));
        time(2, &mut |to| {
            let (mut at, data) = (head, black_box(&bytes[head..]));
            for (start, len) in &set.slots {
                to[at..at + len].copy_from_slice(&data[*start..start + len]);
                at += len;
            }
        });
    }
    let [ours, copy, parts] = times.map(of);
    println!(
        "    {:<44} {:10.1} {:10.1}   {:6.3} {:6.3}   {:6.3} {:6.3}",
        set.what,
        ours[0] / 1000.0,
        ours[1] / 1000.0,
        ours[0] / copy[0],
        ours[1] / copy[1],
        ours[0] / parts[0],
        ours[1] / parts[1]
    );
}

pub fn print() {
    println!("tidying an image set, µs, and as a ratio to the same bytes in one copy_from_slice and in one for each image, by turns, {ROUNDS} rounds (least, median)");
    const KIB: usize = 1 << 10;
    for set in [
        Set::of("one image of 16 MiB", 1, 16 << 20),
        Set::of("64 images of 256 KiB", 64, 256 * KIB),
        Set { what: "64 slots that share 256 KiB", slots: vec![(0, 256 * KIB); 64], data: 256 * KIB },
        Set::of("64 images of 4 KiB", 64, 4 * KIB),
        Set::of("64 images of 16 bytes", 64, 16),
    ] {
        line(&set);
    }
}
