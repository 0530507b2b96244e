//! The cost of one step, in each phase: the archive's function called directly, again and again with the same numbers.
use device::{Region, Width};
use std::hint::black_box;
use std::time::Instant;
use worgesli::{raw, Backend, Command, ImageSet, Mode, NameList, Session};

struct Lent {
    set: Vec<u8>,
    names: Vec<u8>,
    table: Vec<u8>,
    reply: Vec<u8>,
    out: Vec<u8>,
}

impl Lent {
    fn step(&mut self, s: raw::Session, delivery: &[u8]) -> raw::Stepped {
        raw::step(s, delivery, &self.set, &self.names, &mut self.table, &mut self.reply, &mut self.out)
    }

    /// Prints the least nanoseconds of a step: of a copy of the session in place, and by value.
    fn line(&mut self, what: &str, s: raw::Session, delivery: &[u8]) {
        let value = least(|| {
            black_box(self.step(black_box(s), black_box(delivery)));
        });
        let place = least(|| {
            let mut p = black_box(s);
            let (table, reply, out) = (&mut self.table, &mut self.reply, &mut self.out);
            black_box(raw::step_in_place(&mut p, black_box(delivery), &self.set, &self.names, table, reply, out));
            black_box(&p);
        });
        println!("    {what:<44} {place:8.1} {value:8.1}");
    }
}

/// The least of 30 batches of 2,000 calls.
fn least(mut call: impl FnMut()) -> f64 {
    let mut batch = || {
        let start = Instant::now();
        (0..2000).for_each(|_| call());
        start.elapsed().as_nanos() as f64 / 2000.0
    };
    (0..30).map(|_| batch()).fold(f64::MAX, f64::min)
}

fn lent(width: Width, entries: usize, many: usize) -> Lent {
    let mut table: Vec<u8> = Region::new("OTHER.BIN", 0, 4096).unpreferred().bytes(width).repeat(entries - 1);
    table.extend(Region::new("DDR.BIN", 1 << 20, 1 << 30).bytes(width));
    let images: Vec<Option<Vec<u8>>> = (0..many).map(|i| Some(vec![i as u8; 16])).collect();
    let names: Vec<String> = (1..=many).map(|i| if i == many { "DDR".into() } else { format!("name{i:014}") }).collect();
    Lent {
        set: ImageSet::new(&images).unwrap().bytes().into(),
        names: NameList::new(&names).unwrap().bytes().into(),
        table,
        reply: vec![0; 4096],
        out: vec![0; 48],
    }
}

/// Prints the steps of a dump and of a command, with so many entries of this width, and so many names and slots.
pub fn print(width: Width, entries: usize, many: usize) {
    println!(
        "one step, in place and by value, ns (least of 30 batches of 2,000), {entries} entries of {} bits in the table, {many} names and slots",
        width.bits()
    );
    let mut l = lent(width, entries, many);
    let start = *Session::open(Mode::MemoryDebug, Some(Command::Nop), Backend::Usb).raw();
    let hello = device::hello(2);
    l.line("packet: one byte", start, &hello[..1]);
    l.line("packet: a whole hello", start, &hello);
    let exec = l.step(start, &device::execute_resp(0, 4096)).session;
    l.line("response: 64 bytes", exec, &[7; 64]);
    l.line("response: 4,096 bytes, the last", exec, &[7; 4096]);
    let switched = l.step(exec, &[7; 4096]).session;
    l.line("switched", switched, &[]);
    let bytes = l.table.clone();
    let table = l.step(start, &width.mem_debug(0, bytes.len() as u64)).session;
    l.line("table: 64 bytes", table, &bytes[..64]);
    l.line("table: all", table, &bytes);
    let between = l.step(table, &bytes).session;
    l.line("between: open the last entry", between, &[]);
    let region = l.step(between, &[]).session;
    l.line("region: the first memory read", region, &[]);
    let waiting = l.step(region, &[]).session;
    l.line("region: 1 byte", waiting, &[1]);
    l.line("region: 4,096 bytes", waiting, &[1; 4096]);
    let due = l.step(waiting, &[1; 4096]).session;
    l.line("region: the empty read", due, &[]);
    let next = l.step(due, &[]).session;
    l.line("region: a further memory read", next, &[]);
    let whole = raw::Session { done: next.len, ..next };
    l.line("region: close", whole, &[]);
    let after = l.step(whole, &[]);
    assert_eq!(after.answer, 6);
    l.line("between: finish", after.session, &[]);
    let ended = raw::worgesli_closed(next).session;
    l.line("ended: refused (4)", ended, &[]);
    let closed = || {
        black_box(raw::worgesli_closed(black_box(next)));
    };
    println!("    {:<44} {:8} {:8.1}", "closed", "", least(closed));
    let wanted = || {
        black_box(raw::worgesli_wanted(black_box(waiting)));
    };
    let place = || {
        black_box(raw::wanted_in_place(black_box(&waiting)));
    };
    println!("    {:<44} {:8.1} {:8.1}", "wanted, in a region", least(place), least(wanted));
    let mut page = vec![0; raw::SHEET_LINE_LEN * entries];
    let sheet = || {
        black_box(raw::region_sheet(black_box(&bytes), width.bits().into(), &mut page));
    };
    println!("    {:<44} {:8} {:8.1}", "the region sheet, which is no step", "", least(sheet));
    let forecast = || {
        black_box(raw::forecast_table(black_box(&bytes), width.bits().into(), black_box(&l.names)));
    };
    println!("    {:<44} {:8} {:8.1}", "the forecast, which is no step either", "", least(forecast));
}
