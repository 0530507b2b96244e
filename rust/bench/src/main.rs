//! Prints what the host costs. `cargo run --release -p bench`
//!
//! `bench once bare|worgesli serial|usb MIB [32]` makes one fetch, of a device of 64 bits or 32, and prints nothing, for a count of its instructions.
//! `bench utf8` prints the UTF-8 test alone, `bench tidy` the tidying of image sets.
mod names;
mod steps;
mod tidy;

use bench::{fetches, table, Bare, Files, Host, Keep, Setting, Worgesli};
use device::{Division, Width};
use worgesli::Backend;

const MIB: u64 = 1 << 20;

/// The host's own nanoseconds a chunk and the fetch's microseconds, in one line.
fn line(what: &str, setting: &Setting, rounds: usize) {
    let (mut bare, mut ours) = (Bare(Keep::Count), Worgesli(Keep::Count));
    let costs = fetches(&mut [&mut bare, &mut ours as &mut dyn Host], setting, rounds);
    let ((bl, bm), (l, m)) = (costs[0].per_chunk(), costs[1].per_chunk());
    let all = costs[1].least.as_nanos() as f64 / 1000.0;
    println!("    {what:<44} {:8.1} {:8.1}   {all:12.1}", l - bl, m - bm);
}

/// One fetch, bytes counted.
fn once(args: &[String]) {
    let (host, backend, mib, width) = match args {
        [host, backend, mib] => (host, backend, mib, Width::Bits64),
        [host, backend, mib, width] if width == "32" => (host, backend, mib, Width::Bits32),
        _ => panic!("bench once bare|worgesli serial|usb MIB [32]"),
    };
    let backend = if backend == "usb" { Backend::Usb } else { Backend::Serial };
    let setting = Setting { width, ..Setting::new(backend, mib.parse::<u64>().expect("a number of MiB") * MIB) };
    let mut wire = setting.wire();
    let kept = match host.as_str() {
        "bare" => Bare(Keep::Count).fetch(&setting, &mut wire),
        _ => Worgesli(Keep::Count).fetch(&setting, &mut wire),
    };
    assert_eq!(kept, setting.regions[0]);
}

/// Into files in memory, deliveries whole and short.
fn files() {
    println!("USB, 64 MiB into a file in memory: ns for each 4,096 bytes (least, median), device included");
    for digests in [false, true] {
        for (what, division) in [("whole chunks", Division::Whole), ("deliveries of 512 bytes", Division::AtMost(512))] {
            let setting = Setting { division, ..Setting::new(Backend::Usb, 64 * MIB) };
            let mut host = Files { folder: "/dev/shm".into(), digests };
            let (least, median) = fetches(&mut [&mut host as &mut dyn Host], &setting, 7)[0].per_chunk();
            let sha = if digests { "with SHA-256" } else { "without" };
            println!("    {what:<28} {sha:<16} {least:8.1} {median:8.1}");
        }
    }
}

fn main() -> std::io::Result<()> {
    let args: Vec<String> = std::env::args().skip(1).collect();
    if let Some(("once", rest)) = args.split_first().map(|(first, rest)| (first.as_str(), rest)) {
        once(rest);
        return Ok(());
    }
    if args == ["utf8"] {
        names::print();
        return Ok(());
    }
    if args == ["tidy"] {
        tidy::print();
        return Ok(());
    }
    for (name, backend) in [("serial", Backend::Serial), ("USB", Backend::Usb)] {
        let setting = Setting::new(backend, 64 * MIB);
        let mut hosts = (Bare(Keep::Count), Worgesli(Keep::Count));
        let title = format!("{name}, 64 MiB, bytes counted: ns for each 4,096 bytes, 15 rounds");
        table(&title, &mut [&mut hosts.0, &mut hosts.1], &setting, 15);
        let mut hosts = (Bare(Keep::null()?), Worgesli(Keep::null()?));
        let title = format!("{name}, 64 MiB, bytes written to /dev/null: ns for each 4,096 bytes, 15 rounds");
        table(&title, &mut [&mut hosts.0, &mut hosts.1], &setting, 15);
    }
    println!("USB, the host's own ns for each 4,096 bytes (least, median), and the whole fetch in µs (least)");
    for mib in [1, 4, 16, 64, 256, 1024] {
        line(&format!("one region of {mib} MiB"), &Setting::new(Backend::Usb, mib * MIB), if mib > 64 { 3 } else { 15 });
    }
    for others in [0, 15, 255, 1023] {
        let setting = Setting { others, ..Setting::new(Backend::Usb, 16 * MIB) };
        line(&format!("16 MiB, {} entries, the last preferred", others + 1), &setting, 15);
    }
    for others in [0, 1259] {
        let setting = Setting { width: Width::Bits32, others, ..Setting::new(Backend::Usb, 16 * MIB) };
        line(&format!("16 MiB, {} entries of 32 bits", others + 1), &setting, 15);
    }
    for n in [1, 16, 256, 1024] {
        let setting = Setting { regions: vec![16 * MIB / n; n as usize], ..Setting::new(Backend::Usb, 0) };
        line(&format!("16 MiB in {n} regions"), &setting, 15);
    }
    for (names, slots) in [(0, 0), (64, 0), (0, 64), (64, 64)] {
        let setting = Setting { names, slots, ..Setting::new(Backend::Usb, 16 * MIB) };
        line(&format!("16 MiB, {names} names, {slots} slots"), &setting, 15);
    }
    files();
    steps::print(Width::Bits64, 1, 0);
    steps::print(Width::Bits64, 1024, 64);
    steps::print(Width::Bits32, 1260, 64);
    names::print();
    tidy::print();
    Ok(())
}
