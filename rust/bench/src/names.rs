//! The cost of the UTF-8 test on names of 20 bytes, beside that of Rust's library.
use device::Rng;
use std::hint::black_box;
use std::ops::RangeInclusive;
use std::time::Instant;
use worgesli::raw;

/// What is judged, and its bytes: a name, or several that are judged by turns.
struct Names {
    what: &'static str,
    bytes: Vec<[u8; 20]>,
}

/// The first 20 bytes, zeros behind them where there are fewer.
fn twenty(name: &[u8]) -> [u8; 20] {
    std::array::from_fn(|i| name.get(i).copied().unwrap_or(0))
}

/// 1,024 names of characters of each length, the same in each run; where `spoiled`, one byte of each is FF.
fn by_chance(spoiled: bool) -> Vec<[u8; 20]> {
    let mut r = Rng::new(3);
    let mut name = || {
        let mut text = String::new();
        while text.len() < 20 {
            let (first, many) = [(0x20, 0x5f), (0x80, 0x780), (0x3000, 0x3000), (0x1_0000, 0x1_0000)][r.below(4) as usize];
            let c = char::from_u32(first + r.below(many) as u32).expect("no surrogate is in these ranges");
            text.push(if text.len() + c.len_utf8() > 20 { '.' } else { c });
        }
        let mut bytes = twenty(text.as_bytes());
        if spoiled {
            bytes[r.below(20) as usize] = 0xff;
        }
        bytes
    };
    (0..1024).map(|_| name()).collect()
}

/// 1,024 names of an encoding that are not UTF-8, the same in each run: two to eight characters and ".bin". A character is of one of the kinds, and has a
/// byte of each of its ranges.
fn encoded(what: &'static str, kinds: &[&[RangeInclusive<u8>]]) -> Names {
    let mut r = Rng::new(4);
    let mut name = || {
        let mut text = Vec::new();
        for _ in 0..2 + r.below(7) {
            let kind = kinds[r.below(kinds.len() as u64) as usize];
            text.extend(kind.iter().map(|bytes| bytes.start() + r.below(bytes.len() as u64) as u8));
        }
        text.extend(b".bin");
        twenty(&text)
    };
    let bytes = std::iter::from_fn(|| Some(name())).filter(|name| std::str::from_utf8(name).is_err()).take(1024).collect();
    Names { what, bytes }
}

fn all() -> Vec<Names> {
    let one = |what, name: &[u8]| Names { what, bytes: vec![twenty(name)] };
    vec![
        one("ASCII", b"DDRCS0_0.BIN"),
        one("ASCII, all 20", b"CODERAM_of_board.bin"),
        one("two bytes once, then ASCII", "é_take_0001.bin".as_bytes()),
        one("ASCII, two bytes twice", "Prüfstand_Süd.bin".as_bytes()),
        one("two bytes", "εγγραφή.bin".as_bytes()),
        one("three bytes", "録音機の記.bin".as_bytes()),
        one("four bytes", "🎙🎧🎚🎛.bin".as_bytes()),
        one("each length", "aé日🎙bü本🎧".as_bytes()),
        Names { what: "each length, 1,024 names", bytes: by_chance(false) },
        encoded("not UTF-8: ISO 8859-1", &[&[0x61..=0x7a], &[0x61..=0x7a], &[0x61..=0x7a], &[0xe0..=0xff]]),
        encoded("not UTF-8: Windows-1251", &[&[0xc0..=0xff], &[0xe0..=0xff]]),
        encoded("not UTF-8: KOI8-R", &[&[0xc0..=0xdf], &[0xc0..=0xff]]),
        encoded("not UTF-8: Shift JIS", &[&[0x82..=0x82, 0x9f..=0xf1], &[0x83..=0x83, 0x40..=0x7e], &[0x88..=0x97, 0x80..=0xfc]]),
        encoded("not UTF-8: EUC-JP", &[&[0xa4..=0xa5, 0xa1..=0xf3], &[0xb0..=0xcf, 0xa1..=0xfe]]),
        encoded("not UTF-8: GB 2312", &[&[0xb0..=0xd7, 0xa1..=0xfe]]),
        encoded("not UTF-8: EUC-KR", &[&[0xb0..=0xc8, 0xa1..=0xfe]]),
        encoded("not UTF-8: Big5", &[&[0xa4..=0xc6, 0x40..=0x7e], &[0xa4..=0xc6, 0xa1..=0xfe]]),
        Names { what: "not UTF-8: one byte FF", bytes: by_chance(true) },
        encoded(
            "not UTF-8: CESU-8",
            &[&[0xed..=0xed, 0xa0..=0xaf, 0x80..=0xbf, 0xed..=0xed, 0xb0..=0xbf, 0x80..=0xbf], &[0x61..=0x7a]],
        ),
        one("not UTF-8: cut short", &"録音機の記録機".as_bytes()[..20]),
        one("not UTF-8: a surrogate at the end", &["éééééééé".as_bytes(), b"_\xed\xa0\x80"].concat()),
        one("not UTF-8: A4 A2 (EUC-JP)", b"\xa4\xa2\xa4\xab\xa4\xb5.bin"),
        one("not UTF-8: C0 80", b"\xc0\x80take_0001.bin"),
        one("not UTF-8: CF BF B2 (EUC-JP)", b"\xcf\xbf\xb2\xbb\xb5\xa1.bin"),
        one("not UTF-8: C2 BC D2 F4 (GB 2312)", b"\xc2\xbc\xd2\xf4\xbb\xfa.bin"),
        one("not UTF-8: F5 80", b"\xf5\x80\x80\x80take_0001.bin"),
        one("not UTF-8: E0 80 80", b"\xe0\x80\x80take_0001.bin"),
        one("not UTF-8: ED A0 80", b"\xed\xa0\x80take_0001.bin"),
    ]
}

/// A test of bytes.
type Test<'a> = &'a dyn Fn(&[u8]) -> bool;

/// The least nanoseconds that a name takes each test: the tests take turns, 300 times, at 1,024 names each.
fn least(names: &Names, tests: &[Test]) -> Vec<f64> {
    let mut least = vec![f64::MAX; tests.len()];
    let turns = 1024 / names.bytes.len();
    for _ in 0..300 {
        for (test, least) in tests.iter().zip(&mut least) {
            let start = Instant::now();
            for _ in 0..turns {
                for name in &names.bytes {
                    black_box(test(black_box(name)));
                }
            }
            *least = least.min(start.elapsed().as_nanos() as f64 / 1024.0);
        }
    }
    least
}

pub fn print() {
    println!("UTF-8, 20 bytes, ns (least of 300 batches of 1,024): this host, std::str::from_utf8");
    let library = |name: &[u8]| std::str::from_utf8(name).is_ok();
    for names in all() {
        let good = !names.what.starts_with("not UTF-8");
        assert!(names.bytes.iter().all(|name| raw::utf8(name) == good && library(name) == good), "{}", names.what);
        let ns = least(&names, &[&raw::utf8, &library]);
        println!("    {:<44} {:8.1} {:8.1}", names.what, ns[0], ns[1]);
    }
}
