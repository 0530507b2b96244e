//! Memory that does not repeat, and the device whose bytes are kept.
use device::{hello, mem_read, mix, packet, packet64, reset_resp, Memory, Tape, Width};

/// The byte at an address, from its definition.
fn byte(seed: u64, table_at: u64, table: &[u8], at: u64) -> u8 {
    let place = at.wrapping_sub(table_at);
    table.get(place as usize).copied().unwrap_or(mix(at ^ seed) as u8)
}

#[test]
fn mixed_memory_is_read_as_it_is_defined() {
    let table: Vec<u8> = (0..=99).collect();
    for table_at in [0, 5, 1000, 0u64.wrapping_sub(100), 0u64.wrapping_sub(30)] {
        let memory = Memory::mixed(7, table_at, table.clone());
        for before in 0..130 {
            for len in [0, 1, 29, 30, 31, 100, 101, 300] {
                let at = table_at.wrapping_sub(before).wrapping_add(20);
                let wanted: Vec<u8> = (0..len).map(|i| byte(7, table_at, &table, at.wrapping_add(i))).collect();
                assert_eq!(memory.bytes(at, len as usize), wanted, "{len} bytes at {at:#x}, the table at {table_at:#x}");
            }
        }
    }
    assert_ne!(Memory::mixed(7, 0, Vec::new()).bytes(0, 64), Memory::mixed(8, 0, Vec::new()).bytes(0, 64));
}

#[test]
fn a_tape_answers_memory_reads_alone_and_keeps_what_it_said() {
    for (width, other) in [(Width::Bits32, Width::Bits64), (Width::Bits64, Width::Bits32)] {
        let (memory, request) = (Memory::mixed(1, 64, vec![9; 64]).wide(width), |at, len| width.mem_read(at, len));
        let offer = width.mem_debug(64, 64);
        let opening = [hello(2), offer.clone()].concat();
        let mut tape = Tape::new(&opening, memory.clone(), 2);
        assert_eq!(tape.left(), opening);
        tape.at = 48;
        let short = &request(0, 3)[..width.packet_len() - 1];
        let no_read = vec![width.mem_read_head()[0]; width.packet_len()];
        for ignored in [&hello(2)[..], &[], &reset_resp(), &request(0, 1 << 21), short, &no_read, &other.mem_read(64, 64)] {
            tape.hear(ignored);
            assert_eq!(tape.left(), offer);
        }
        let last = width.end_less(1);
        tape.hear(&request(64, 64));
        tape.hear(&request(last, 5000));
        let all = [opening, memory.bytes(64, 64), memory.bytes(last, 5000)].concat();
        assert_eq!((&tape.said, tape.left()), (&all, &all[48..]));
        // it answers two
        tape.hear(&request(0, 1));
        assert_eq!(tape.said, all);
    }
}

#[test]
fn a_memory_read_is_told() {
    let (narrow, wide) = (packet(0x0a, &[u32::MAX, 7]), packet64(0x11, &[3, 1 << 40]));
    assert_eq!((mem_read(&narrow), mem_read(&wide)), (Some((0xffff_ffff, 7)), Some((3, 1 << 40))));
    for none in [packet(9, &[3, 4]), packet64(0x10, &[3, 4]), packet(0x11, &[3, 4]), packet64(0x0a, &[3, 4]), Vec::new()] {
        assert_eq!(mem_read(&none), None);
    }
    for packet in [narrow, wide] {
        assert_eq!((mem_read(&packet[1..]), mem_read(&[&packet[..], &[0]].concat())), (None, None));
    }
}
