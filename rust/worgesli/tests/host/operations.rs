//! The single operations: packets, bundles, images, entries, selection, UTF-8.
use crate::guard::{Guarded, Side};
use crate::world::{host_width, worlds};
use device::{Region, Rng};
use worgesli::{entry_at, next_selected, parse_packet, raw, reset, utf8, Body, Command, ImageSet, Mode, NameList, Width, SLOTS};

#[test]
fn packets() {
    let unk = [0; 6];
    let cases = [
        (device::hello(3), Body::HelloReq { ver: 2, compatible: 1, max_len: 4096, mode: Mode::Command, unk }),
        (device::hello(1), Body::HelloReq { ver: 2, compatible: 1, max_len: 4096, mode: Mode::ImageTransferComplete, unk }),
        (
            device::packet(2, &[2, 1, 9, 2, 11, 12, 13, 14, 15, 16]),
            Body::HelloResp { ver: 2, compatible: 1, status: 9, mode: Mode::MemoryDebug, unk: [11, 12, 13, 14, 15, 16] },
        ),
        (device::read_data(1, 2, 3), Body::ReadReq { image: 1, offset: 2, len: 3 }),
        (device::end_of_image(1, 2), Body::Eoi { image: 1, status: 2 }),
        (device::packet(5, &[]), Body::DoneReq),
        (device::done_resp(7), Body::DoneResp { status: 7 }),
        (device::reset_resp(), Body::ResetResp),
        (device::command_ready(), Body::CommandReady),
        (device::execute_resp(2, 9), Body::ExecResp { command: Command::ReadHwId, len: 9 }),
        (device::packet(0x0f, &[1]), Body::ExecData { command: Command::ReadSerialNum }),
        (device::packet(9, &[0xf123_4567, 52]), Body::DebugReq { addr: 0xf123_4567, len: 52 }),
        (device::packet(0x0a, &[1, u32::MAX]), Body::ReadMemReq { addr: 1, len: u32::MAX }),
        (device::mem_debug64(1 << 40, 64), Body::Debug64Req { addr: 1 << 40, len: 64 }),
        (device::packet64(0x11, &[u64::MAX, 1]), Body::ReadMem64Req { addr: u64::MAX, len: 1 }),
        (device::read_data64(1 << 33, 1 << 34, 3), Body::ReadData64Req { image: 1 << 33, offset: 1 << 34, len: 3 }),
    ];
    for (bytes, body) in cases {
        let len = bytes.len();
        let packet = parse_packet(&bytes).unwrap();
        assert_eq!((packet.len, packet.body), (len as u32, body));
        for side in [Side::Behind, Side::Before] {
            // bytes behind the body do not matter; one byte fewer is 9
            let longer = Guarded::new(&[&bytes[..], &[0xff; 9]].concat(), side);
            assert_eq!(parse_packet(&longer).unwrap().body, body);
            let shorter = Guarded::new(&bytes[..len - 1], side);
            assert_eq!(parse_packet(&shorter).unwrap_err().number(), 9);
        }
    }
    let number = |b: &[u8]| parse_packet(b).unwrap_err().number();
    assert_eq!(number(&device::hello(4)), 9);
    assert_eq!(number(&device::execute_resp(4, 0)), 9);
    for unimplemented in [7, 0x0c, 0x0d, 0x13, 0x14] {
        assert_eq!(number(&device::packet(unimplemented, &[0, 0])), 8);
    }
    assert_eq!(number(&device::packet(0x15, &[])), 6);
    assert_eq!(number(b"<?xml version"), 7);
}

#[test]
fn reset_packet() {
    let mut out = Guarded::new(&[0xee; 50], Side::Behind);
    assert_eq!(reset(&mut out), Ok(8));
    assert_eq!(out[..8], [7, 0, 0, 0, 8, 0, 0, 0]);
    assert!(out[8..].iter().all(|b| *b == 0xee));
    assert_eq!(reset(&mut out[..47]).unwrap_err().number(), 3);
}

#[test]
fn images() {
    let mut rng = Rng::new(3);
    for _ in 0..5000 {
        let n = rng.below(SLOTS as u64 + 1);
        let images: Vec<Option<Vec<u8>>> = (0..n)
            .map(|_| {
                let mut image = vec![0; rng.below(20) as usize];
                rng.fill(&mut image);
                (!rng.chance(200)).then_some(image)
            })
            .collect();
        let set = ImageSet::new(&images).unwrap();
        for _ in 0..10 {
            let (id, offset, len) = (rng.below(n + 2), rng.below(22), rng.below(22));
            let slot = if n == 1 { 0 } else { id as usize };
            let due = match images.get(slot) {
                Some(Some(image)) => image.get(offset as usize..(offset + len) as usize).ok_or(13),
                _ => Err(12),
            };
            assert_eq!(set.image_range(id, offset, len).map_err(|e| e.number()), due);
        }
        let past = set.image_range(0, u64::MAX, 2).map_err(|e| e.number());
        assert_eq!(past, Err(if matches!(images.first(), Some(Some(_))) { 13 } else { 12 }));
    }
    let many = vec![None; SLOTS + 1];
    assert_eq!(ImageSet::new(&many).unwrap_err().number(), 1);
    assert!(ImageSet::new(&many[1..]).is_ok());
    assert_eq!(NameList::new(&["a"; SLOTS + 1]).unwrap_err().number(), 2);
    assert!(NameList::new(&["a"; SLOTS]).is_ok());
    assert_eq!(NameList::new::<&str>(&[]).unwrap().bytes(), [0; 8]);
}

#[test]
fn tables() {
    for (seed, w) in worlds(0..2000) {
        let table = Guarded::new(&w.memory.bytes(w.memory.table_at(), w.memory.table_len() as usize), Side::Behind);
        let (n, width) = (w.regions.len(), host_width(w.width()));
        for (i, r) in w.regions.iter().enumerate() {
            let e = entry_at(&table, width, i).unwrap();
            assert_eq!((e.save_pref, e.base, e.len), (r.save_pref, r.base, r.len));
            assert_eq!((e.description, e.filename), (r.description, r.filename));
            assert!(e.name().unwrap().ends_with(".BIN"));
        }
        assert_eq!(entry_at(&table, width, n), None);
        assert_eq!(entry_at(&table, width, usize::MAX), None);
        let names = NameList::new(&w.names).unwrap();
        let mut found = Vec::new();
        while let Some(i) = next_selected(&table, width, n, &names, found.last().map_or(0, |i| i + 1)) {
            found.push(i);
        }
        assert_eq!(found, w.selected(), "seed {seed}, {w:?}");
    }
}

/// So many entries as fit the bytes, each field from its own: 52 bytes with numbers of 4, 64 with numbers of 8.
#[test]
fn entries_of_each_width() {
    let bytes: Vec<u8> = (0..=255).collect();
    let number = |at: usize, len: usize| bytes[at..at + len].iter().rev().fold(0, |n, b| n << 8 | u64::from(*b));
    for (width, size, len) in [(Width::Bits32, 52, 4), (Width::Bits64, 64, 8)] {
        assert_eq!(width.entry_len(), size);
        for end in 0..=bytes.len() {
            let table = Guarded::new(&bytes[..end], Side::Behind);
            for i in 0..end / size {
                let (e, at) = (entry_at(&table, width, i).unwrap(), i * size);
                let numbers = [at, at + len, at + 2 * len].map(|at| number(at, len));
                assert_eq!([e.save_pref, e.base, e.len], numbers);
                let texts = &bytes[at + 3 * len..];
                assert_eq!((&e.description[..], &e.filename[..]), (&texts[..20], &texts[20..40]));
            }
            for none in [end / size, end / size + 1, usize::MAX / size, usize::MAX / size + 1, usize::MAX] {
                assert_eq!(entry_at(&table, width, none), None, "{width:?}: entry {none} of {end} bytes");
            }
            // all are preferred
            let (names, most) = (NameList::new::<&str>(&[]).unwrap(), usize::MAX);
            assert_eq!(next_selected(&table, width, most, &names, 0), (end >= size).then_some(0));
            assert_eq!(next_selected(&table, width, most, &names, end / size), None);
        }
    }
}

/// In a table of a number that is no width nothing is there, and nothing is selected.
#[test]
fn numbers_that_are_no_width() {
    let table = [1; 256];
    let none = raw::Entry { save_pref: 0, base: 0, len: 0, description: [0; 20], filename: [0; 20], there: 0 };
    let (no_names, names) = (NameList::new::<&str>(&[]).unwrap(), NameList::new(&[[1; 20]]).unwrap());
    for number in [0, 1, 31, 33, 52, 63, 65, 96, 128, 1 << 32 | 32, 1 << 32 | 64, 1 << 63, u64::MAX] {
        assert_eq!(Width::from_number(number), None);
        for i in [0, 1, 3, usize::MAX] {
            assert_eq!(raw::entry_at(&table, number, i), none);
        }
        for (entries, from) in [(0, 0), (3, 0), (3, 2), (3, 3), (3, 9), (usize::MAX, 0), (usize::MAX, usize::MAX)] {
            for names in [&no_names, &names] {
                assert_eq!(raw::next_selected(&table, number, entries, names.bytes(), from), entries.max(from), "width {number}");
            }
        }
    }
    assert_eq!([32, 64].map(|n| raw::next_selected(&table, n, 3, no_names.bytes(), 1)), [1, 1]);
    assert_eq!([32, 64].map(|n| raw::next_selected(&table, n, 3, names.bytes(), 1)), [1, 1]);
}

/// Behind a table's end nothing is selected, and nothing is searched: these would not come to an end otherwise.
#[test]
fn more_entries_than_the_table_has() {
    let names = |names: &[&str]| NameList::new(names).unwrap();
    let lists = [(names(&[]), Some(1)), (names(&["a"]), Some(0)), (names(&["c"]), None)];
    for ((list, found), of) in device::Width::with_both(lists) {
        let (mut table, width) = (Region::new(b"A.BIN", 0, 1).unpreferred().bytes(of), host_width(of));
        table.extend(Region::new(b"B.BIN", 0, 1).bytes(of));
        assert_eq!(next_selected(&table, width, usize::MAX, &list, 0), found);
        assert_eq!(next_selected(&table[..table.len() - 1], width, usize::MAX, &list, 1), None);
        for from in [2, 1 << 32, usize::MAX] {
            assert_eq!(next_selected(&table, width, usize::MAX, &list, from), None);
        }
        assert_eq!(next_selected(&[], width, usize::MAX, &list, 0), None);
    }
}

/// Document 01's stems: the part before the first '.', zero bytes included.
#[test]
fn stems() {
    let selects = |filename: &[u8], name: &str| {
        let selected = device::Width::BOTH.map(|of| {
            let (table, names) = (Region::new(filename, 0, 1).bytes(of), NameList::new(&[name]).unwrap());
            next_selected(&table, host_width(of), 1, &names, 0) == Some(0)
        });
        assert_eq!(selected[0], selected[1]);
        selected[0]
    };
    assert!(selects(b"OCIMEM.BIN", "ocimem"));
    assert!(!selects(b"DDRCS0", "ddrcs0"));
    assert!(selects(b"DDRCS0", "ddrcs0\0\0\0\0\0\0\0\0\0\0\0\0\0\0"));
    assert!(selects(b".x", "") && selects(b"A\xff.BIN", "") && !selects(b"A.BIN", ""));
}

#[test]
fn utf8_as_the_standard_library() {
    let mut rng = Rng::new(4);
    let mut good = 0;
    const BYTES: [u8; 20] =
        [0x00, 0x41, 0x7f, 0x80, 0x8f, 0x90, 0x9f, 0xa0, 0xbf, 0xc0, 0xc1, 0xc2, 0xdf, 0xe0, 0xed, 0xef, 0xf0, 0xf4, 0xf5, 0xff];
    for i in 0..100_000 {
        let mut bytes: Vec<u8> = (0..rng.below(6)).map(|_| BYTES[rng.below(20) as usize]).collect();
        if i % 3 == 0 {
            let c = char::from_u32(rng.below(0x11_0000) as u32).unwrap_or('?');
            bytes.extend(c.to_string().bytes());
        }
        let due = std::str::from_utf8(&bytes).is_ok();
        good += u32::from(due);
        assert_eq!(utf8(&Guarded::new(&bytes, Side::Behind)), due, "{bytes:?}");
    }
    assert!((10_000..90_000).contains(&good), "{good}");
}
