//! Buffers with a page behind or before them that no one may touch.
use std::cell::RefCell;
use std::collections::BTreeMap;
use std::ffi::c_void;
use std::ops::{Deref, DerefMut};
use std::ptr::null_mut;

const PAGE: usize = 4096;
const NONE: i32 = 0;
const READ_WRITE: i32 = 3;
const PRIVATE_ANONYMOUS: i32 = 0x22;

extern "C" {
    fn mmap(at: *mut c_void, len: usize, prot: i32, flags: i32, fd: i32, offset: i64) -> *mut c_void;
    fn mprotect(at: *mut c_void, len: usize, prot: i32) -> i32;
    fn munmap(at: *mut c_void, len: usize) -> i32;
}

/// Where the buffer touches a guard page.
#[derive(Clone, Copy, Debug)]
pub enum Side {
    Behind,
    Before,
}

/// A copy of bytes in a map of its own: a guard page, pages, a guard page. What the pages have beside the bytes is looked at too.
pub struct Guarded {
    map: *mut u8,
    pages: usize,
    at: usize,
    len: usize,
}

const FILL: u8 = 0xdb;

thread_local! {
    /// Maps whose buffers are gone, by their pages: to make one anew takes longer than most tests of a buffer.
    static FREE: RefCell<BTreeMap<usize, Vec<*mut u8>>> = const { RefCell::new(BTreeMap::new()) };
}

/// A map of so many bytes between two guard pages.
fn map_of(pages: usize) -> *mut u8 {
    if let Some(map) = FREE.with_borrow_mut(|free| free.get_mut(&pages)?.pop()) {
        return map;
    }
    // Safe: a new map, of which the middle is made writable.
    unsafe {
        let map = mmap(null_mut(), pages + 2 * PAGE, NONE, PRIVATE_ANONYMOUS, -1, 0);
        assert!(map as isize != -1);
        assert_eq!(mprotect(map.add(PAGE), pages, READ_WRITE), 0);
        map as *mut u8
    }
}

impl Guarded {
    pub fn new(bytes: &[u8], side: Side) -> Guarded {
        let pages = bytes.len().div_ceil(PAGE).max(1) * PAGE;
        let map = map_of(pages);
        let at = match side {
            Side::Behind => PAGE + pages - bytes.len(),
            Side::Before => PAGE,
        };
        let mut g = Guarded { map, pages, at, len: bytes.len() };
        g.inside().fill(FILL);
        g.copy_from_slice(bytes);
        g
    }

    fn inside(&mut self) -> &mut [u8] {
        // Safe: the writable part of our own map.
        unsafe { std::slice::from_raw_parts_mut(self.map.add(PAGE), self.pages) }
    }

    /// Whether no byte of the map beside the buffer has changed.
    fn untouched(&mut self) -> bool {
        let (at, len) = (self.at - PAGE, self.len);
        let all = self.inside();
        let filled = |bytes: &[u8]| bytes.chunks(PAGE).all(|part| *part == [FILL; PAGE][..part.len()]);
        filled(&all[..at]) && filled(&all[at + len..])
    }

    pub fn check(&mut self) {
        assert!(self.untouched(), "a byte beside the buffer was written");
    }
}

impl Deref for Guarded {
    type Target = [u8];
    fn deref(&self) -> &[u8] {
        // Safe: within the writable part of our own map.
        unsafe { std::slice::from_raw_parts(self.map.add(self.at), self.len) }
    }
}

impl DerefMut for Guarded {
    fn deref_mut(&mut self) -> &mut [u8] {
        // Safe: as above.
        unsafe { std::slice::from_raw_parts_mut(self.map.add(self.at), self.len) }
    }
}

impl Drop for Guarded {
    /// No slice of it is alive.
    fn drop(&mut self) {
        FREE.with_borrow_mut(|free| free.entry(self.pages).or_default().push(self.map));
    }
}

/// The first bytes of so many, the others of which no one may touch: they are addresses alone, and take no memory.
pub struct Beginning {
    map: *mut u8,
    pages: usize,
    at: usize,
    len: usize,
}

impl Beginning {
    pub fn new(bytes: &[u8], len: usize) -> Beginning {
        assert!(bytes.len() <= PAGE);
        let pages = PAGE + len.div_ceil(PAGE) * PAGE;
        // Safe: a new map, of which the first page is made writable and gets the bytes, up to its end.
        let (map, at) = unsafe {
            let map = mmap(null_mut(), pages, NONE, PRIVATE_ANONYMOUS, -1, 0);
            assert!(map as isize != -1);
            assert_eq!(mprotect(map, PAGE, READ_WRITE), 0);
            (map as *mut u8, PAGE - bytes.len())
        };
        // Safe: within that page.
        unsafe { std::slice::from_raw_parts_mut(map.add(at), bytes.len()) }.copy_from_slice(bytes);
        Beginning { map, pages, at, len }
    }

    pub fn parts(&self) -> (*const u8, usize) {
        (self.map.wrapping_add(self.at), self.len)
    }
}

impl Drop for Beginning {
    fn drop(&mut self) {
        // Safe: our own map, of which there are pointers alone.
        unsafe { munmap(self.map as *mut c_void, self.pages) };
    }
}

/// The guard bites: a child that reads one byte behind, or before, is killed.
#[test]
fn stray_bytes_are_seen() {
    use std::os::unix::process::ExitStatusExt;
    const NAME: &str = "WORGESLI_TEST_STRAY";
    let stray = |side, past: isize| {
        let g = Guarded::new(&[7; 100], side);
        // Not safe: that is the point.
        unsafe { std::ptr::read_volatile(g.as_ptr().offset(past)) }
    };
    let hidden = |last: bool| {
        let beginning = Beginning::new(&[7; 100], 1 << 33);
        let (at, len) = beginning.parts();
        // Not safe: the same.
        unsafe { std::ptr::read_volatile(at.add(if last { len - 1 } else { 99 })) }
    };
    match std::env::var(NAME).as_deref() {
        Ok("hidden") => assert_eq!(hidden(true), 0),
        Ok("shown") => assert_eq!(hidden(false), 7),
        Ok("behind") => assert_eq!(stray(Side::Behind, 100), 0),
        Ok("before") => assert_eq!(stray(Side::Before, -1), 0),
        Ok("within") => assert_eq!(stray(Side::Behind, 99), 7),
        _ => {
            for (what, signal) in
                [("behind", Some(11)), ("before", Some(11)), ("hidden", Some(11)), ("shown", None), ("within", None)]
            {
                let exe = std::env::current_exe().unwrap();
                let args = ["--exact", "guard::stray_bytes_are_seen"];
                let run = std::process::Command::new(exe).args(args).env(NAME, what).output().unwrap();
                assert_eq!(run.status.signal(), signal, "{what}");
            }
        }
    }
}

/// So does the look beside the buffer, at every place; and pages that are used again are as new.
#[test]
fn written_bytes_are_seen() {
    for (side, len) in [(Side::Behind, 100), (Side::Before, 100), (Side::Behind, 5000), (Side::Before, 5000)] {
        let buffer = || Guarded::new(&vec![7; len], side);
        let (own, pages) = (buffer().at - PAGE..buffer().at - PAGE + len, buffer().pages);
        for place in 0..pages {
            let mut g = buffer();
            assert!(g.untouched() && g.iter().all(|b| *b == 7));
            g.inside()[place] ^= 1;
            assert_eq!(g.untouched(), own.contains(&place), "{side:?}, {len} bytes, place {place}");
        }
    }
}
