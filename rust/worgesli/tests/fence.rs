//! The driver's own buffers against guard pages, and what it allocates: with an allocator that ends each run of bytes at a page that no
//! one may touch.
use device::{Device, Division, Memory, Region, Width, Wire};
use std::alloc::{GlobalAlloc, Layout, System};
use std::cell::Cell;
use std::ffi::c_void;
use worgesli::{Backend, Command, Count, Mode, Options, Outcome};

const PAGE: usize = 4096;

extern "C" {
    fn mmap(at: *mut c_void, len: usize, prot: i32, flags: i32, fd: i32, offset: i64) -> *mut c_void;
    fn mprotect(at: *mut c_void, len: usize, prot: i32) -> i32;
    fn munmap(at: *mut c_void, len: usize) -> i32;
}

/// Bytes (alignment 1) of 8 and more get pages of their own; everything else is the system's.
struct Fence;

thread_local! {
    /// allocations of this thread
    static CALLS: Cell<u64> = const { Cell::new(0) };
}

fn fenced(l: Layout) -> bool {
    l.align() == 1 && l.size() >= 8
}

fn pages(l: Layout) -> usize {
    l.size().div_ceil(PAGE) * PAGE
}

// Safe: a new map for each allocation, which ends at its guard page; given back whole.
unsafe impl GlobalAlloc for Fence {
    unsafe fn alloc(&self, l: Layout) -> *mut u8 {
        CALLS.set(CALLS.get() + 1);
        if !fenced(l) {
            return System.alloc(l);
        }
        let map = mmap(std::ptr::null_mut(), pages(l) + PAGE, 3, 0x22, -1, 0);
        if map as isize == -1 || mprotect(map.add(pages(l)), PAGE, 0) != 0 {
            return std::ptr::null_mut();
        }
        (map as *mut u8).add(pages(l) - l.size())
    }

    unsafe fn dealloc(&self, at: *mut u8, l: Layout) {
        if !fenced(l) {
            return System.dealloc(at, l);
        }
        munmap(at.add(l.size()).sub(pages(l)) as *mut c_void, pages(l) + PAGE);
    }
}

#[global_allocator]
static FENCE: Fence = Fence;

#[test]
fn images_and_replies() {
    for seed in 0..50 {
        let image = vec![3; 500 + seed as usize];
        let all = image.len() as u32;
        let mut wire = Wire::new(Device::load(&[(0, 0, all), (0, all, 0), (0, 100, 400)], b""), Division::Random, seed);
        let names = ["a name", "another"];
        let mut driver = Options::new(Backend::Usb, Mode::WaitingForImage).images(&[Some(image)]).names(names).start().unwrap();
        assert_eq!(driver.run(&mut wire, &mut Count::default(), |_| ()).unwrap(), Outcome::ImagesSent);
        let reply = vec![9; 65_536 - seed as usize];
        let mut wire = Wire::new(Device::command(1, &reply, b""), Division::Random, seed);
        let mut driver = Options::new(Backend::Usb, Mode::Command).command(Command::ReadSerialNum).start().unwrap();
        assert_eq!(driver.run(&mut wire, &mut Count::default(), |_| ()).unwrap(), Outcome::Reply(reply));
    }
}

#[test]
fn tables_of_each_length() {
    let lens = [0, 1, 51, 52, 53, 63, 64, 65, 4096, 65_472, 65_520, 65_535, 65_536];
    for (len, width) in Width::with_both(lens) {
        let memory = Memory::with_table(1, width.half(), vec![0; len]).wide(width);
        let mut wire = Wire::new(Device::dump(memory), Division::Random, len as u64);
        let mut driver = Options::new(Backend::Usb, Mode::MemoryDebug).start().unwrap();
        assert_eq!(driver.run(&mut wire, &mut Count::default(), |_| ()).unwrap(), Outcome::Dumped { reads: 1 });
    }
}

/// From the first bytes of a region to its last nothing is allocated.
#[test]
fn no_allocation_in_a_region() {
    let fetch = |width: Width, len: u64, division| {
        let memory = Memory::of(width, 1, width.half(), &[Region::new("A.BIN", 0, len)]);
        let mut wire = Wire::new(Device::dump(memory), division, 1);
        let mut driver = Options::new(Backend::Usb, Mode::MemoryDebug).start().unwrap();
        let mut sink = Count::default();
        let mut before = 0;
        driver
            .run(&mut wire, &mut sink, |p| {
                if before == 0 {
                    before = CALLS.get();
                }
                if p.done == p.len {
                    assert_eq!(CALLS.get(), before, "allocated in a region");
                }
            })
            .unwrap();
        assert_eq!(sink.bytes, len);
        assert!(before > 0);
    };
    for width in Width::BOTH {
        fetch(width, 10_000, Division::Whole);
        fetch(width, 10_000_000, Division::Whole);
        fetch(width, 3_000_000, Division::Random);
    }
}
