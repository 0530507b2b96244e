//! Boards of both widths: their entries, what they offer, and that each answers its own memory reads and no other.
use device::{hello, packet, packet64, padded, Device, Memory, Region, Width};

#[test]
fn entries() {
    let r = Region {
        save_pref: 0x0403_0201,
        base: 0x0807_0605,
        len: 0x0c0b_0a09,
        description: [0xdd; 20],
        filename: padded(b"F.BIN"),
    };
    let texts = [r.description, r.filename].concat();
    let narrow: Vec<u8> = (1..=12).chain(texts.clone()).collect();
    let wide = [&[1, 2, 3, 4, 0, 0, 0, 0, 5, 6, 7, 8, 0, 0, 0, 0, 9, 10, 11, 12, 0, 0, 0, 0][..], &texts].concat();
    assert_eq!((narrow.len(), wide.len()), (52, 64));
    assert_eq!((r.bytes(Width::Bits32), r.bytes(Width::Bits64)), (narrow.clone(), wide));
    assert_eq!(Memory::of(Width::Bits32, 1, 0, &[r, r]).table(), [narrow.clone(), narrow].concat());
    assert_eq!(Width::BOTH.map(|w| (w.entry_len(), w.packet_len())), [(52, 16), (64, 24)]);
    assert_eq!(Width::BOTH.map(|w| (w.half(), w.end_less(1))), [(1 << 31, 0xffff_ffff), (1 << 63, u64::MAX)]);
}

fn said(device: &mut Device) -> Vec<u8> {
    let mut bytes = vec![0; device.queued() as usize];
    device.say(&mut bytes);
    bytes
}

#[test]
fn each_its_own_memory_reads() {
    let requests = [packet(0x0a, &[0xffff_fff0, 40]), packet64(0x11, &[0xffff_fff0, 40])];
    let offers = [packet(9, &[64, 0]), packet64(0x10, &[64, 0])];
    for (own, width) in Width::BOTH.into_iter().enumerate() {
        let memory = Memory::of(width, 3, 64, &[]);
        for pieces in [1, 3, 8, 100] {
            let mut device = Device::dump(memory.clone());
            assert_eq!(said(&mut device), hello(2));
            device.hear(&[0; 48]);
            assert_eq!(said(&mut device), offers[own]);
            for _ in 0..2 {
                requests[own].chunks(pieces).for_each(|p| device.hear(p));
                assert_eq!(said(&mut device), memory.bytes(0xffff_fff0, 40));
            }
            assert_eq!((device.wrong(), device.reads()), (None, 2));
            requests[1 - own].chunks(pieces).for_each(|p| device.hear(p));
            assert!(device.wrong().is_some_and(|w| w.starts_with("no memory read")), "{width:?}");
            assert_eq!((device.queued(), device.reads()), (0, 2));
        }
    }
}
