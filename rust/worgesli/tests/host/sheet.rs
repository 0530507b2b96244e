//! The region sheet of a table's bytes: beside lines written out by hand, and beside a formatter of this file.
use crate::guard::{Guarded, Side};
use crate::world::host_width;
use device::{padded, Region, Rng};
use worgesli::{raw, region_sheet, Width};

const LINE: usize = raw::SHEET_LINE_LEN;

/// The lines of a table, from its bytes alone.
fn lines(table: &[u8], width: Width) -> String {
    let n = if width == Width::Bits32 { 4 } else { 8 };
    let number = |bytes: &[u8]| bytes.iter().rev().fold(0u64, |n, b| n << 8 | u64::from(*b));
    let line = |e: &[u8]| {
        let name = e[3 * n + 20..].split(|b| *b == 0).next().unwrap();
        let name: String = name.iter().map(|b| if matches!(b, 0x20..=0x7e) { *b as char } else { '?' }).collect();
        let mark = if number(&e[..n]) == 0 { ' ' } else { '*' };
        format!("{name:<20} {:016X} {:016X} {mark}\n", number(&e[n..2 * n]), number(&e[2 * n..3 * n]))
    };
    table.chunks_exact(3 * n + 40).map(line).collect()
}

/// Both widths, the same lines; numbers that only 64 bits have in a table of their own.
#[test]
fn lines_by_hand() {
    let regions = [
        Region::new("OCIMEM.BIN", 0x1468_0000, 0x4_0000),
        Region::new("DDRCS0_0", 0, 0xffff_ffff).unpreferred(),
        Region { save_pref: 2, ..Region::new("a b.c", 0xdead_beef, 0) },
        Region { save_pref: 1 << 31, filename: *b"ABCDEFGHIJKLMNOPQRST", ..Region::new("", 1, 16) },
        Region { filename: padded(b"A\0B.BIN"), ..Region::new("", 1, 16) },
        Region::new("", 1, 16),
        Region::new("\x1b[2J\r\n\t\x07\x7f", 1, 16),
        Region { filename: [0x80; 20], ..Region::new("", 1, 16) },
        Region::new(b"\xff\xfe~ \x1f!", 1, 16),
        Region::new("\u{202e}\u{e9}", 1, 16),
        Region { filename: padded(&[b' '; 20]), ..Region::new("", 1, 16) },
    ];
    let due = [
        "OCIMEM.BIN           0000000014680000 0000000000040000 *\n",
        "DDRCS0_0             0000000000000000 00000000FFFFFFFF  \n",
        "a b.c                00000000DEADBEEF 0000000000000000 *\n",
        "ABCDEFGHIJKLMNOPQRST 0000000000000001 0000000000000010 *\n",
        "A                    0000000000000001 0000000000000010 *\n",
        "                     0000000000000001 0000000000000010 *\n",
        "?[2J?????            0000000000000001 0000000000000010 *\n",
        "???????????????????? 0000000000000001 0000000000000010 *\n",
        "??~ ?!               0000000000000001 0000000000000010 *\n",
        "?????                0000000000000001 0000000000000010 *\n",
        "                     0000000000000001 0000000000000010 *\n",
    ];
    for of in device::Width::BOTH {
        let table: Vec<u8> = regions.iter().flat_map(|r| r.bytes(of)).collect();
        assert_eq!(region_sheet(&table, host_width(of)), due.concat(), "{of:?}");
        assert_eq!(regions.map(|r| r.line()), due);
        assert_eq!(lines(&table, host_width(of)), due.concat());
    }
    let wide = [
        Region { save_pref: 1 << 32, ..Region::new("A", u64::MAX, 0) },
        Region { save_pref: 1 << 63, ..Region::new("B", 0x0123_4567_89ab_cdef, u64::MAX) },
        Region { save_pref: 0, ..Region::new("C", 1 << 63, 1 << 32) },
    ];
    let due = "A                    FFFFFFFFFFFFFFFF 0000000000000000 *\n\
               B                    0123456789ABCDEF FFFFFFFFFFFFFFFF *\n\
               C                    8000000000000000 0000000100000000  \n";
    let table: Vec<u8> = wide.iter().flat_map(|r| r.bytes(device::Width::Bits64)).collect();
    assert_eq!(region_sheet(&table, Width::Bits64), due);
    assert_eq!((region_sheet(&[], Width::Bits64), region_sheet(&[], Width::Bits32)), (String::new(), String::new()));
}

/// A table at random: any bytes, or entries whose names and numbers are at their edges, and part of an entry behind them.
fn random(rng: &mut Rng, width: Width) -> Vec<u8> {
    const BYTES: [u8; 16] = [0, 0, 0x1b, b'\n', 0x1f, 0x20, b'.', b'0', b'A', b'z', 0x7e, 0x7f, 0x80, 0x9b, 0xc3, 0xff];
    let mut table = vec![0; rng.below(8) as usize * width.entry_len() + rng.below(width.entry_len() as u64) as usize];
    rng.fill(&mut table);
    if rng.chance(700) {
        table.iter_mut().for_each(|b| *b = BYTES[*b as usize % 16]);
    }
    let n = (width.entry_len() - 40) / 3;
    for number in table.chunks_mut(width.entry_len()).flat_map(|e| e.chunks_exact_mut(n).take(3)) {
        // as it is, 0, the greatest, or one bit
        match rng.below(8) {
            0 => number.fill(0),
            1 => number.fill(0xff),
            2 => {
                number.fill(0);
                number[rng.below(n as u64) as usize] = 1 << rng.below(8);
            }
            _ => {}
        }
    }
    table
}

#[test]
fn tables_at_random() {
    let mut rng = Rng::new(11);
    for round in 0..20_000 {
        let width = Width::BOTH[round % 2];
        let table = random(&mut rng, width);
        let side = if round % 4 < 2 { Side::Behind } else { Side::Before };
        let sheet = region_sheet(&Guarded::new(&table, side), width);
        assert_eq!(sheet, lines(&table, width), "{table:?}");
        assert!(sheet.bytes().all(|b| matches!(b, b' '..=b'~' | b'\n')));
        assert_eq!(sheet.len(), LINE * (table.len() / width.entry_len()));
        assert!(sheet.as_bytes().chunks(LINE).all(|line| line.iter().position(|b| *b == b'\n') == Some(LINE - 1)));
    }
}

/// As long as a table can be, and longer.
#[test]
fn long_tables() {
    for (width, most) in [(Width::Bits32, 71_820), (Width::Bits64, 1024 * 57)] {
        for (len, sheet) in [(65_536, most), (1 << 20, (1 << 20) / width.entry_len() * 57)] {
            let mut table = vec![0; len];
            Rng::new(len as u64).fill(&mut table);
            let said = region_sheet(&table, width);
            assert!(said.len() == sheet && said == lines(&table, width));
        }
    }
}

/// A page of any length: written from its first byte on, and no further than the sheet; or, where it is too short, not at all.
#[test]
fn pages() {
    let mut rng = Rng::new(12);
    for round in 0..4000 {
        let width = Width::BOTH[round % 2];
        let table = random(&mut rng, width);
        let due = lines(&table, width);
        let len = match rng.below(5) {
            0 => due.len().saturating_sub(1),
            1 => due.len(),
            2 => due.len() + 1,
            3 => rng.below(due.len() as u64 + 1) as usize,
            _ => due.len() + rng.below(200) as usize,
        };
        let side = if round % 4 < 2 { Side::Behind } else { Side::Before };
        let (table, mut page) = (Guarded::new(&table, side), Guarded::new(&vec![0xee; len], side));
        let sheet = raw::region_sheet(&table, width as u64, &mut page);
        let written = if len < due.len() { 0 } else { due.len() };
        assert_eq!(sheet, raw::Sheet { written, refused: if len < due.len() { 25 } else { 0 } });
        assert!(page[..written] == due.as_bytes()[..written] && page[written..].iter().all(|b| *b == 0xee));
        page.check();
    }
    assert_eq!(raw::region_sheet(&[], 32, &mut []), raw::Sheet { written: 0, refused: 0 });
    assert_eq!(raw::region_sheet(&[1; 51], 32, &mut []), raw::Sheet { written: 0, refused: 0 });
    assert_eq!(raw::region_sheet(&[1; 52], 32, &mut []), raw::Sheet { written: 0, refused: 25 });
    assert_eq!(raw::region_sheet(&[1; 52], 64, &mut []), raw::Sheet { written: 0, refused: 0 });
}

/// A table of a number that is no width has no entry.
#[test]
fn numbers_that_are_no_width() {
    for number in [0, 1, 31, 33, 52, 63, 65, 128, 1 << 32 | 32, 1 << 32 | 64, 1 << 63, u64::MAX] {
        for len in [0, 57, 500] {
            let mut page = vec![0xee; len];
            assert_eq!(raw::region_sheet(&[b'A'; 256], number, &mut page), raw::Sheet { written: 0, refused: 0 });
            assert!(page.iter().all(|b| *b == 0xee), "width {number}");
        }
    }
}
