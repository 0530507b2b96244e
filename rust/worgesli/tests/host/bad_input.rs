//! Input that no honest caller gives: malformed bundles, bits that are no session, buffers of any length, NULL.
use crate::guard::{Guarded, Side};
use device::{Rng, Width};
use std::ptr::{null, null_mut};
use worgesli::{raw, Backend, Command, ImageSet, Mode, NameList, Session};

const EMPTY: [u8; 8] = [0; 8];
/// No image set and no name list: 65 slots.
const BAD: [u8; 8] = [65, 0, 0, 0, 0, 0, 0, 0];

/// A step of the session in place; and by value, in buffers of its own, which must come to the same.
pub fn step(
    s: raw::Session,
    delivery: &[u8],
    set: &[u8],
    names: &[u8],
    table: &mut [u8],
    reply: &mut [u8],
    out: &mut [u8],
) -> raw::Stepped {
    let mut place = s;
    let (mut t, mut y, mut o) = (table.to_vec(), reply.to_vec(), out.to_vec());
    let r = raw::step(s, delivery, set, names, &mut t, &mut y, &mut o);
    let told = raw::step_in_place(&mut place, delivery, set, names, table, reply, out);
    let raw::Placed { taken, first, second, answer, waits } = told;
    assert_eq!(raw::Stepped { session: place, taken, first, second, answer }, r, "{s:?}");
    assert!(t == table && y == reply && o == out, "{s:?}");
    // of a session what it wants in a region, else 0
    if raw::worgesli_is_session(place) {
        let wanted = if place.phase == 5 { raw::worgesli_wanted(place) } else { 0 };
        assert_eq!(waits, wanted as u64, "{place:?}");
    }
    r
}

pub fn word(bytes: &[u8], at: usize) -> u64 {
    u32::from_le_bytes(bytes[at..at + 4].try_into().unwrap()).into()
}

/// Document 01's paragraph on bundles.
pub fn well_formed(b: &[u8], absent_allowed: bool) -> bool {
    if b.len() < 8 {
        return false;
    }
    let (n, d) = (word(b, 0), word(b, 4));
    n <= 64
        && b.len() as u64 == 8 + 8 * n + d
        && (0..n as usize).all(|i| {
            let (start, len) = (word(b, 8 + 4 * i), word(b, 8 + 4 * (n as usize + i)));
            if (start, len) == (0xffff_ffff, 0) {
                absent_allowed
            } else {
                start + len <= d
            }
        })
}

/// A bundle, good or not far from it.
fn bundle(rng: &mut Rng) -> Vec<u8> {
    let n = [0, 1, 2, 3, 63, 64][rng.below(6) as usize];
    let slots: Vec<Option<Vec<u8>>> =
        (0..n).map(|_| if rng.chance(300) { None } else { Some(vec![9; rng.below(6) as usize]) }).collect();
    let mut b = ImageSet::new(&slots).unwrap().bytes().to_vec();
    match rng.below(8) {
        0 => b.truncate(rng.below(b.len() as u64 + 1) as usize),
        1 => b.push(0),
        2 | 3 => {
            let at = rng.below(b.len() as u64) as usize;
            b[at] = rng.number() as u8;
        }
        4 => {
            let at = rng.below(b.len() as u64 / 4) as usize * 4;
            b[at..at + 4].copy_from_slice(&[0xff; 4]);
        }
        5 => b[..4].copy_from_slice(&65u32.to_le_bytes()),
        _ => {}
    }
    b
}

#[test]
fn malformed_bundles() {
    let mut rng = Rng::new(1);
    let mut bad = [0, 0];
    for i in 0..30_000 {
        let side = if i % 2 == 0 { Side::Behind } else { Side::Before };
        let b = Guarded::new(&bundle(&mut rng), side);
        let (images, names) = (well_formed(&b, true), well_formed(&b, false));
        bad[0] += u32::from(!images);
        bad[1] += u32::from(!names);
        assert_eq!(raw::check_images(&b), if images { 0 } else { 1 });
        assert_eq!(raw::check_names(&b), if names { 0 } else { 2 });
        assert_eq!(ImageSet::from_bytes(b.to_vec()).map(|s| s.bytes().to_vec()).ok(), images.then(|| b.to_vec()));
        assert_eq!(NameList::from_bytes(b.to_vec()).is_ok(), names);
        let s = *Session::open(Mode::WaitingForImage, None, Backend::Usb).raw();
        let lent = |set: &[u8], names: &[u8]| {
            let r = step(s, &[1], set, names, &mut [], &mut [], &mut [0; 48]);
            (r.answer, r.first, r.taken)
        };
        assert_eq!(lent(&b, &EMPTY), if images { (0, 0, 1) } else { (8, 1, 0) });
        assert_eq!(lent(&EMPTY, &b), if names { (0, 0, 1) } else { (8, 2, 0) });
        // an image of a malformed set is none
        assert!(images || raw::image_range(&b, 0, 0, 0) == raw::Range { start: 0, len: 0, refused: 1 });
        // selection with any bytes for names comes to an end, at an entry that is there
        let table = Guarded::new(&[b'A'; 200], side);
        assert!([32, 64, 33].into_iter().all(|width| raw::next_selected(&table, width, 3, &b, 0) <= 3));
    }
    assert!(bad[0] > 5000 && bad[1] > 5000, "{bad:?}");
}

/// Numbers that are a session or nearly one.
pub fn numbers(rng: &mut Rng) -> raw::Session {
    let small = |rng: &mut Rng| match rng.below(8) {
        0 => rng.number(),
        1 => u64::MAX - rng.below(3),
        2 => 1 << 63,
        3 => rng.below(70_000),
        _ => rng.below(200),
    };
    let phase = rng.below(8) as u32;
    let mut s = raw::Session {
        mode: [0, 1, 2, 3, 4][(rng.below(16) as usize).saturating_sub(11)],
        command: [0, 3, 0xffff_ffff, 4][(rng.below(16) as usize).saturating_sub(12)],
        backend: (rng.below(16) / 7) as u32,
        phase,
        reads: small(rng),
        count: small(rng) as usize,
        at: 0,
        base: 0,
        len: 0,
        done: 0,
        outstanding: 0,
        due: 0,
        width: [32, 32, 32, 64, 64, 64, 64, 33][rng.below(8) as usize],
        window: [0; 48],
    };
    if matches!(phase, 1 | 3 | 4 | 5) || rng.chance(20) {
        s.at = small(rng) as usize;
    }
    if phase == 5 || rng.chance(20) {
        (s.base, s.len) = (small(rng), small(rng));
        (s.done, s.outstanding) = (rng.below(s.len.max(1)), rng.below(s.len.max(1)));
        s.due = rng.below(16) / 7;
    }
    rng.fill(&mut s.window);
    s.window[4..8].copy_from_slice(&(rng.below(300) as u32).to_le_bytes());
    s
}

/// Any bits at all are answered, in any buffers, and only a session's step changes anything.
#[test]
fn bits_that_are_no_session() {
    let mut rng = Rng::new(2);
    let (mut none, mut some) = (0, 0);
    let mut orders = std::collections::BTreeSet::new();
    for i in 0..40_000 {
        let side = if i % 2 == 0 { Side::Behind } else { Side::Before };
        let s = numbers(&mut rng);
        assert_eq!(raw::wanted_in_place(&s), raw::worgesli_wanted(s), "{s:?}");
        let mut bytes = |most: u64| {
            let mut b = vec![0; rng.below(most + 1) as usize];
            rng.fill(&mut b);
            Guarded::new(&b, side)
        };
        let (delivery, mut table, mut reply, mut out) = (bytes(300), bytes(300), bytes(150), bytes(100));
        let was = (table.to_vec(), reply.to_vec(), out.to_vec());
        if !raw::worgesli_is_session(s) {
            none += 1;
            for (set, names) in [(&BAD, &BAD), (&BAD, &EMPTY), (&EMPTY, &BAD), (&EMPTY, &EMPTY)] {
                let r = step(s, &delivery, set, names, &mut table, &mut reply, &mut out);
                // the first of 1, 2, 3 and 18
                let why =
                    [(1, *set == BAD), (2, *names == BAD), (3, out.len() < 48)].into_iter().find(|w| w.1).map_or(18, |w| w.0);
                orders.insert((why, out.len() < 48));
                assert_eq!(r, raw::Stepped { session: s, taken: 0, first: why, second: 0, answer: 8 });
            }
            [&mut table, &mut reply, &mut out].into_iter().for_each(Guarded::check);
            assert!(*table == *was.0 && *reply == *was.1 && *out == *was.2);
            let refused = raw::Stepped { session: s, taken: 0, first: 18, second: 0, answer: 8 };
            assert_eq!((raw::worgesli_closed(s), raw::worgesli_wanted(s)), (refused, 0));
            continue;
        }
        let r = step(s, &delivery, &EMPTY, &EMPTY, &mut table, &mut reply, &mut out);
        [&mut table, &mut reply, &mut out].into_iter().for_each(Guarded::check);
        let closed = raw::worgesli_closed(s);
        some += 1;
        assert_eq!(Session::from_raw(s).unwrap().wanted(), raw::worgesli_wanted(s));
        // the next value is a session too, and the answer stays within what was lent
        assert!(raw::worgesli_is_session(r.session) && raw::worgesli_is_session(closed.session));
        assert!(r.taken <= delivery.len() && (r.taken == 0 || raw::worgesli_wanted(s) > 0));
        match r.answer {
            0 | 5 | 6 => {}
            1 => assert!(r.first <= 48),
            2 => panic!("an image of an empty set"),
            3 => assert!(r.first < table.len() as u64 / if s.width == 32 { 52 } else { 64 }),
            4 => assert!(r.first == r.taken as u64),
            7 => assert!((1..=4).contains(&r.first) && r.session.phase == 6),
            8 => assert!((3..=22).contains(&r.first) && (r.first, s.width) != (22, 32) || (r.first, s.width) == (24, 32)),
            a => panic!("answer {a}"),
        }
        if r.answer == 8 && matches!(r.first, 3 | 4 | 18) {
            assert!(r.session == s && r.taken == 0);
            assert!(*table == *was.0 && *reply == *was.1);
        }
        if r.answer != 1 {
            assert!(*out == *was.2);
        }
        assert_eq!((closed.answer, closed.first, closed.taken), (8, if s.phase == 6 { 4 } else { 23 }, 0));
    }
    assert!(none > 5000 && some > 5000, "{none} {some}");
    assert_eq!(orders.len(), 6, "{orders:?}");
}

/// A session in a region, its counts at or next to their limits.
pub fn region(rng: &mut Rng) -> raw::Session {
    let near = |rng: &mut Rng, n: u64| n.wrapping_add(rng.below(5)).wrapping_sub(2);
    let len: u64 = [0, 1, 511, 512, 4096, 4097, 10_000][rng.below(7) as usize];
    let done = [0, 0, 1, len / 2, len, 512, 4096][rng.below(7) as usize];
    let rest = len.saturating_sub(done);
    let mut s = *Session::open(Mode::MemoryDebug, None, Backend::Serial).raw();
    s.backend = rng.below(2) as u32;
    s.phase = 5;
    s.width = [32, 32, 32, 64, 64, 64, 64, 33][rng.below(8) as usize];
    s.reads = if rng.chance(100) { near(rng, (1 << 63) + 1) } else { 1 + rng.below(9) };
    s.count = [52, 64][rng.below(2) as usize] * rng.below(4) as usize + rng.below(2) as usize;
    s.at = if rng.chance(800) { 0 } else { rng.below(4) as usize };
    s.len = len;
    // around the last address that a region of its width may have
    let end = if s.width == 32 { (1 << 32) - len } else { len.wrapping_neg() };
    s.base = if rng.chance(300) { near(rng, end) } else { rng.below(1 << 40) };
    s.done = done;
    s.outstanding = [0, 0, rest, rest.min(512), near(rng, rest)][rng.below(5) as usize];
    s.due = [0, 0, 0, 1, 1, 2][rng.below(6) as usize];
    rng.fill(&mut s.window);
    s
}

/// What a region does is the same in place and by value, wherever its counts are.
#[test]
fn regions_in_place() {
    let mut rng = Rng::new(4);
    let table = [0; 256];
    let mut seen = std::collections::BTreeMap::new();
    for i in 0..60_000 {
        let side = if i % 2 == 0 { Side::Behind } else { Side::Before };
        let s = region(&mut rng);
        assert_eq!(raw::wanted_in_place(&s), raw::worgesli_wanted(s), "{s:?}");
        let set = if rng.chance(30) { bundle(&mut rng) } else { EMPTY.to_vec() };
        let names = if rng.chance(30) { bundle(&mut rng) } else { EMPTY.to_vec() };
        let mut delivery = vec![0; [0, 1, 511, 512, 5000][rng.below(5) as usize]];
        rng.fill(&mut delivery);
        let mut table = Guarded::new(&table[..if rng.chance(900) { 256 } else { rng.below(257) as usize }], side);
        let mut out = Guarded::new(&vec![9; if rng.chance(950) { 48 } else { 47 }], side);
        let r = step(s, &delivery, &set, &names, &mut table, &mut [], &mut out);
        [&mut table, &mut out].into_iter().for_each(Guarded::check);
        *seen.entry((r.answer, if r.answer == 8 { r.first } else { 0 })).or_insert(0) += 1;
    }
    // go, a memory read, bytes, an empty read, a close, and the refusals that a region knows
    for what in [(0, 0), (1, 0), (4, 0), (5, 0), (6, 0), (8, 1), (8, 2), (8, 3), (8, 18), (8, 22), (8, 24)] {
        assert!(seen.get(&what).is_some_and(|n| *n > 50), "{what:?}: {seen:?}");
    }
}

/// Opening with numbers that name none gives a value that is no session.
#[test]
fn opened_with_nonsense() {
    for mode in [0, 1, 2, 3, 4, 5, 0x100, 0x101, 0xffff_ffff] {
        for command in [0, 1, 2, 3, 4, 0xffff_fffe, 0xffff_ffff] {
            for backend in 0..3 {
                let named = mode < 4 && (command < 4 || command == raw::NO_COMMAND) && backend < 2;
                let s = raw::worgesli_open(mode, command, backend);
                assert_eq!(raw::worgesli_is_session(s), named);
                assert_eq!(raw::worgesli_wanted(s), if named { 8 } else { 0 });
            }
        }
    }
}

/// NULL with length 0 in each place.
#[test]
fn null_with_length_0() {
    let s = *Session::open(Mode::Command, Some(Command::Nop), Backend::Serial).raw();
    let (e, n) = (EMPTY.as_ptr(), null::<u8>());
    let mut out = [0u8; 48];
    let o = out.as_mut_ptr();
    let m = null_mut::<u8>();
    // Safe: each pair is a live buffer, or NULL and 0.
    let (none, set, both, all) = unsafe {
        (
            raw::worgesli_step(s, n, 0, n, 0, n, 0, m, 0, m, 0, m, 0),
            raw::worgesli_step(s, n, 0, e, 8, n, 0, m, 0, m, 0, m, 0),
            raw::worgesli_step(s, n, 0, e, 8, e, 8, m, 0, m, 0, m, 0),
            raw::worgesli_step(s, n, 0, e, 8, e, 8, m, 0, m, 0, o, 48),
        )
    };
    let numbers = |r: raw::Stepped| (r.answer, r.first, r.taken, r.session == s);
    assert_eq!(numbers(none), (8, 1, 0, true));
    assert_eq!(numbers(set), (8, 2, 0, true));
    assert_eq!(numbers(both), (8, 3, 0, true));
    assert_eq!(numbers(all), (0, 0, 0, true));
    // Safe: NULL and 0.
    unsafe {
        assert_eq!(raw::worgesli_check_images(n, 0), 1);
        assert_eq!(raw::worgesli_check_names(n, 0), 2);
        assert_eq!(raw::worgesli_image_range(n, 0, 0, 0, 0), raw::Range { start: 0, len: 0, refused: 1 });
        assert!([32, 64, 33].into_iter().all(|width| raw::worgesli_entry_at(n, 0, width, 0).there == 0));
        assert!([32, 64, 33].into_iter().all(|width| raw::worgesli_next_selected(n, 0, width, 0, n, 0, 0) == 0));
        let tidied = [raw::worgesli_tidy(n, 0, m, 0), raw::worgesli_tidy(e, 8, m, 0), raw::worgesli_tidy(n, 0, o, 48)];
        assert_eq!(tidied.map(|t| (t.len, t.refused)), [(0, 28), (0, 29), (0, 28)]);
        assert_eq!(raw::worgesli_tidy_len(n, 0), raw::Tidied { len: 0, refused: 28 });
        assert!(raw::worgesli_utf8(n, 0));
        assert_eq!(raw::worgesli_parse_packet(n, 0).refused, 9);
        assert_eq!(raw::worgesli_reset(m, 0), 3);
    }
}

/// In each phase: 3 below 48 bytes of out, 18 below the declared length of the table.
#[test]
fn short_buffers() {
    for width in Width::BOTH {
        let mut s = Session::open(Mode::MemoryDebug, None, Backend::Usb);
        let entry = device::Region::new("A.BIN", 4096, 512).bytes(width);
        let mut table = vec![0; entry.len()];
        let said: [&[u8]; 6] = [&width.mem_debug(0, entry.len() as u64), &entry, &[], &[], &[7; 512], &[]];
        for (i, delivery) in said.into_iter().enumerate() {
            for out in 0..48 {
                let mut out = Guarded::new(&vec![0; out], Side::Behind);
                let r = step(*s.raw(), delivery, &EMPTY, &EMPTY, &mut table, &mut [], &mut out);
                assert_eq!((r.answer, r.first, r.taken, r.session), (8, 3, 0, *s.raw()));
            }
            for short in (0..entry.len()).filter(|_| i > 0) {
                let mut short = Guarded::new(&table[..short], Side::Behind);
                let r = step(*s.raw(), delivery, &EMPTY, &EMPTY, &mut short, &mut [], &mut [0; 48]);
                assert_eq!((r.answer, r.first, r.taken, r.session), (8, 18, 0, *s.raw()));
            }
            s.step(delivery, &EMPTY, &EMPTY, &mut table, &mut [], &mut [0; 48]);
        }
        // packet, table, open, memory read, bytes, empty read
        assert_eq!((s.raw().phase, s.raw().done, s.raw().due, s.reads()), (5, 512, 0, 2));
    }
}

/// Made-up sessions in a region, at the end of all addresses: where nothing is done, the refusal is the width's own; where something is, it is 18. What a session of
/// 32 bits is refused for, one of 64 goes on with.
#[test]
fn made_up_ends() {
    let (narrow, wide) = (1u64 << 32, u64::MAX);
    // width, base, length, done, outstanding, due; the answer and its first value
    type Row = ((u64, u64, u64, u64, u64, u64), (u32, u64));
    let rows: [Row; 22] = [
        ((32, narrow - 1, 1, 0, 0, 0), (1, 16)),
        ((32, narrow - 1, 2, 0, 0, 0), (8, 24)),
        ((64, narrow - 1, 2, 0, 0, 0), (1, 24)),
        ((32, narrow, 0, 0, 0, 0), (6, 0)),
        ((32, narrow, 1, 0, 0, 0), (8, 24)),
        ((32, narrow + 1, 0, 0, 0, 0), (8, 24)),
        ((32, wide, wide, 0, 0, 0), (8, 24)),
        ((64, wide, 1, 0, 0, 0), (1, 24)),
        ((64, wide, 2, 0, 0, 0), (8, 22)),
        // an empty read that is due comes first
        ((32, narrow, 1, 0, 0, 1), (5, 0)),
        // something is done or outstanding
        ((32, narrow - 2, 2, 1, 0, 0), (1, 16)),
        ((32, narrow - 2, 2, 2, 0, 0), (6, 0)),
        ((32, narrow - 2, 2, 2, 0, 1), (5, 0)),
        ((32, narrow - 1, 2, 1, 0, 0), (8, 18)),
        ((32, narrow - 1, 2, 0, 1, 0), (8, 18)),
        ((32, narrow - 1, 2, 1, 0, 1), (8, 18)),
        ((32, narrow - 1, 2, 0, 1, 1), (8, 18)),
        ((64, narrow - 1, 2, 1, 0, 0), (1, 24)),
        ((64, narrow - 1, 2, 0, 1, 0), (0, 0)),
        ((64, wide - 1, 2, 1, 0, 0), (1, 24)),
        ((64, wide, 2, 1, 0, 0), (8, 18)),
        ((64, wide, 2, 0, 1, 0), (8, 18)),
    ];
    for ((width, base, len, done, outstanding, due), expected) in rows {
        let open = *Session::open(Mode::MemoryDebug, None, Backend::Usb).raw();
        let s = raw::Session { phase: 5, reads: 1, count: 64, base, len, done, outstanding, due, width, ..open };
        let r = step(s, &[], &EMPTY, &EMPTY, &mut [0; 64], &mut [], &mut [0; 48]);
        assert_eq!((r.answer, r.first), expected, "{s:?}");
        assert_eq!(r.session.width, width);
    }
}

/// The table's length tells a session's entries by its width: where they number n, n is the last entry to go on from, and n - 1 the last to be in.
#[test]
fn made_up_entries() {
    for (count, narrow, wide) in [(0, 0, 0), (51, 0, 0), (52, 1, 0), (63, 1, 0), (64, 1, 1), (104, 2, 1), (65_536, 1260, 1024)] {
        for (width, entries) in [(32, narrow), (64, wide)] {
            let open = *Session::open(Mode::MemoryDebug, None, Backend::Usb).raw();
            let answer = |phase, at| {
                let s = raw::Session { phase, reads: 1, count, at, width, ..open };
                let r = step(s, &[], &EMPTY, &EMPTY, &mut vec![0; count], &mut [], &mut [0; 48]);
                (r.answer, r.first)
            };
            assert_eq!((answer(4, entries), answer(4, entries + 1)), ((7, 3), (8, 18)), "{width}: {count}");
            assert_eq!(answer(5, entries), (8, 18), "{width}: {count}");
            assert!(entries == 0 || answer(5, entries - 1) == (6, entries as u64 - 1), "{width}: {count}");
        }
    }
}
