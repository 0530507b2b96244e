//! The archive's C interface, as `include/worgesli.h` has it: the structs, the functions, and for each function that takes a
//! pointer a safe one beside it. The header says what each is. Unsafe code is here and in the calls of the C library that a tty needs.
//!
//! A slice crosses as a pointer and a length. The functions are proved total: any bits of a struct and any bytes are answered. They
//! read and write within the lent slices only, keep no pointer and call nothing back. So a Rust slice is all they need, and a
//! pointer that does not stand for one (NULL with a length above 0, a stale one) is the only way to break them.
#![allow(unsafe_code, missing_docs)]

#[cfg(test)]
pub(crate) mod interface;

use std::mem::{offset_of, size_of};

/// The number of this interface. A program of this crate links only with an archive of the same number.
pub const ABI: u32 = 2;

#[used]
static LINKED: extern "C" fn() -> u32 = worgesli_abi_2;

/// No command.
pub const NO_COMMAND: u32 = 0xffff_ffff;

/// The bytes of a line of a region sheet.
pub const SHEET_LINE_LEN: usize = 57;

/// A session as numbers. Those that its phase does not use are 0.
#[repr(C)]
#[derive(Clone, Copy, Debug, PartialEq, Eq)]
pub struct Session {
    pub mode: u32,
    pub command: u32,
    pub backend: u32,
    pub phase: u32,
    /// memory reads since opening
    pub reads: u64,
    /// packet: bytes held; response, table: declared length; switched, ended: the reply's length; between, region: the table's length
    pub count: usize,
    /// response, table: bytes filled; between: the entry to go on from; region: its entry
    pub at: usize,
    pub base: u64,
    pub len: u64,
    pub done: u64,
    pub outstanding: u64,
    /// 1: an empty read is due
    pub due: u64,
    /// of the memory debug that came, 32 or 64; before one came, 64
    pub width: u64,
    pub window: [u8; 48],
}

/// What a step gives: the next session, the bytes taken, and an answer with its values (0 where it has none).
#[repr(C)]
#[derive(Clone, Copy, Debug, PartialEq, Eq)]
pub struct Stepped {
    pub session: Session,
    pub taken: usize,
    pub first: u64,
    pub second: u64,
    pub answer: u32,
}

/// What a step in place gives: all of [`Stepped`] but the session, and in a region the bytes that the next step waits for, else 0.
#[repr(C)]
#[derive(Clone, Copy, Debug, PartialEq, Eq)]
pub struct Placed {
    pub taken: usize,
    pub first: u64,
    pub second: u64,
    pub answer: u32,
    pub waits: u64,
}

/// An entry of the memory table; all 0 where `there` is 0.
#[repr(C)]
#[derive(Clone, Copy, Debug, PartialEq, Eq)]
pub struct Entry {
    pub save_pref: u64,
    pub base: u64,
    pub len: u64,
    pub description: [u8; 20],
    pub filename: [u8; 20],
    pub there: u32,
}

/// How many bytes of a page were written, or a refusal.
#[repr(C)]
#[derive(Clone, Copy, Debug, PartialEq, Eq)]
pub struct Sheet {
    pub written: usize,
    pub refused: u32,
}

/// How large a fetch is, or a refusal and zeros.
#[repr(C)]
#[derive(Clone, Copy, Debug, PartialEq, Eq)]
pub struct Forecast {
    pub regions: u64,
    pub bytes: u64,
    /// memory reads, the table's among them
    pub reads: u64,
    pub refused: u32,
}

/// How long a tidy form is, or 0 and a refusal.
#[repr(C)]
#[derive(Clone, Copy, Debug, PartialEq, Eq)]
pub struct Tidied {
    pub len: usize,
    pub refused: u32,
}

/// A part of an image set's bytes, or a refusal.
#[repr(C)]
#[derive(Clone, Copy, Debug, PartialEq, Eq)]
pub struct Range {
    pub start: usize,
    pub len: usize,
    pub refused: u32,
}

/// A decoded packet, or a refusal and zeros.
#[repr(C)]
#[derive(Clone, Copy, Debug, PartialEq, Eq)]
pub struct Packet {
    pub refused: u32,
    /// the kind's number
    pub command: u32,
    /// the length field
    pub len: u32,
    /// a hello's mode; the command of ExecuteResp and ExecuteData
    pub value: u32,
    /// the other numbers of the body, in order
    pub first: u64,
    pub second: u64,
    pub third: u64,
    pub unk0: u32,
    pub unk1: u32,
    pub unk2: u32,
    pub unk3: u32,
    pub unk4: u32,
    pub unk5: u32,
}

// The layout that the archive was compiled for (x86-64, System V). Fields and functions are held to the Rattle source by the tests.
const _: () = {
    assert!(size_of::<usize>() == 8);
    assert!(size_of::<Session>() == 136);
    assert!(offset_of!(Session, reads) == 16);
    assert!(offset_of!(Session, window) == 88);
    assert!(size_of::<Stepped>() == 168);
    assert!(size_of::<Placed>() == 40);
    assert!(size_of::<Entry>() == 72);
    assert!(size_of::<Sheet>() == 16);
    assert!(size_of::<Forecast>() == 32);
    assert!(size_of::<Tidied>() == 16);
    assert!(size_of::<Range>() == 24);
    assert!(size_of::<Packet>() == 64);
};

// Unsafe: that these declarations agree with the archive is on us. The tests hold them to its source.
unsafe extern "C" {
    pub safe fn worgesli_abi() -> u32;
    pub safe fn worgesli_abi_2() -> u32;
    pub safe fn worgesli_open(mode: u32, command: u32, backend: u32) -> Session;
    pub fn worgesli_step(
        s: Session,
        delivery: *const u8,
        delivery_len: usize,
        set: *const u8,
        set_len: usize,
        names: *const u8,
        names_len: usize,
        table: *mut u8,
        table_len: usize,
        reply: *mut u8,
        reply_len: usize,
        out: *mut u8,
        out_len: usize,
    ) -> Stepped;
    pub fn worgesli_step_in_place(
        head: *mut u32,
        numbers: *mut u64,
        window: *mut u8,
        delivery: *const u8,
        delivery_len: usize,
        set: *const u8,
        set_len: usize,
        names: *const u8,
        names_len: usize,
        table: *mut u8,
        table_len: usize,
        reply: *mut u8,
        reply_len: usize,
        out: *mut u8,
        out_len: usize,
    ) -> Placed;
    pub safe fn worgesli_closed(s: Session) -> Stepped;
    pub safe fn worgesli_is_session(s: Session) -> bool;
    pub safe fn worgesli_wanted(s: Session) -> usize;
    pub fn worgesli_wanted_in_place(head: *const u32, numbers: *const u64, window: *const u8) -> usize;
    pub fn worgesli_check_images(set: *const u8, set_len: usize) -> u32;
    pub fn worgesli_check_names(names: *const u8, names_len: usize) -> u32;
    pub fn worgesli_image_range(set: *const u8, set_len: usize, id: u64, offset: u64, len: u64) -> Range;
    pub fn worgesli_entry_at(table: *const u8, table_len: usize, width: u64, i: usize) -> Entry;
    pub fn worgesli_next_selected(
        table: *const u8,
        table_len: usize,
        width: u64,
        entries: usize,
        names: *const u8,
        names_len: usize,
        from: usize,
    ) -> usize;
    pub fn worgesli_region_sheet(table: *const u8, table_len: usize, width: u64, page: *mut u8, page_len: usize) -> Sheet;
    pub fn worgesli_forecast_table(
        table: *const u8,
        table_len: usize,
        width: u64,
        names: *const u8,
        names_len: usize,
    ) -> Forecast;
    pub fn worgesli_tidy(set: *const u8, set_len: usize, to: *mut u8, to_len: usize) -> Tidied;
    pub fn worgesli_tidy_len(set: *const u8, set_len: usize) -> Tidied;
    pub fn worgesli_utf8(bytes: *const u8, bytes_len: usize) -> bool;
    pub fn worgesli_parse_packet(bytes: *const u8, bytes_len: usize) -> Packet;
    pub fn worgesli_reset(out: *mut u8, out_len: usize) -> u32;
}

/// Calls a step with its first arguments, then each slice as a pointer and a length: those that are read; those that are written.
macro_rules! call {
    ($step:ident($($first:expr),+), $($read:ident),+; $($written:ident),+) => {
        $step($($first,)+ $($read.as_ptr(), $read.len(),)+ $($written.as_mut_ptr(), $written.len(),)+)
    };
}

/// One step of a session.
#[inline]
pub fn step(
    s: Session,
    delivery: &[u8],
    set: &[u8],
    names: &[u8],
    table: &mut [u8],
    reply: &mut [u8],
    out: &mut [u8],
) -> Stepped {
    // Safe: each pair is a live slice, and no two of the mutable ones overlap another.
    unsafe { call!(worgesli_step(s), delivery, set, names; table, reply, out) }
}

/// One step of a session where it stands: as [`step`], and cheaper.
#[inline]
pub fn step_in_place(
    s: &mut Session,
    delivery: &[u8],
    set: &[u8],
    names: &[u8],
    table: &mut [u8],
    reply: &mut [u8],
    out: &mut [u8],
) -> Placed {
    let s: *mut Session = s;
    // Safe: as above. The session's parts lie where the assertions say: four u32, nine u64 (a usize is one) and the window.
    unsafe {
        let (numbers, window) = (s.byte_add(offset_of!(Session, reads)), s.byte_add(offset_of!(Session, window)));
        call!(worgesli_step_in_place(s.cast(), numbers.cast(), window.cast()), delivery, set, names; table, reply, out)
    }
}

/// How many bytes the next step of a session where it stands asks for: as [`worgesli_wanted`], and cheaper.
#[inline]
pub fn wanted_in_place(s: &Session) -> usize {
    let s: *const Session = s;
    // Safe: the session's parts lie where the assertions say, and are only read.
    unsafe {
        worgesli_wanted_in_place(
            s.cast(),
            s.byte_add(offset_of!(Session, reads)).cast(),
            s.byte_add(offset_of!(Session, window)).cast(),
        )
    }
}

/// 0, or 1 for a malformed image set.
pub fn check_images(set: &[u8]) -> u32 {
    // Safe: a live slice, which is only read.
    unsafe { worgesli_check_images(set.as_ptr(), set.len()) }
}

/// 0, or 2 for a malformed name list.
pub fn check_names(names: &[u8]) -> u32 {
    // Safe: a live slice, which is only read.
    unsafe { worgesli_check_names(names.as_ptr(), names.len()) }
}

/// The part of an image set's bytes that a device asks for.
pub fn image_range(set: &[u8], id: u64, offset: u64, len: u64) -> Range {
    // Safe: a live slice, which is only read.
    unsafe { worgesli_image_range(set.as_ptr(), set.len(), id, offset, len) }
}

/// Entry i of a table of this width, 32 or 64; of any other there is none.
pub fn entry_at(table: &[u8], width: u64, i: usize) -> Entry {
    // Safe: a live slice, which is only read.
    unsafe { worgesli_entry_at(table.as_ptr(), table.len(), width, i) }
}

/// The first selected entry at or after `from` and before `entries`, else `entries` (`from` if that is not below it).
pub fn next_selected(table: &[u8], width: u64, entries: usize, names: &[u8], from: usize) -> usize {
    let (table, table_len) = (table.as_ptr(), table.len());
    // Safe: two live slices, which are only read.
    unsafe { worgesli_next_selected(table, table_len, width, entries, names.as_ptr(), names.len(), from) }
}

/// The region sheet of a table of this width: 57 bytes of the page for each entry, or 25 and nothing where it has fewer.
pub fn region_sheet(table: &[u8], width: u64, page: &mut [u8]) -> Sheet {
    // Safe: a live slice, which is only read, and one that is lent to us alone.
    unsafe { worgesli_region_sheet(table.as_ptr(), table.len(), width, page.as_mut_ptr(), page.len()) }
}

/// How large the fetch of a table of this width is with these names; or 26, 27.
pub fn forecast_table(table: &[u8], width: u64, names: &[u8]) -> Forecast {
    // Safe: two live slices, which are only read.
    unsafe { worgesli_forecast_table(table.as_ptr(), table.len(), width, names.as_ptr(), names.len()) }
}

/// The tidy form of an image set in the first bytes of `to`; or 28, 29, and `to` as it was.
pub fn tidy(set: &[u8], to: &mut [u8]) -> Tidied {
    // Safe: a live slice, which is only read, and one that is lent to us alone.
    unsafe { worgesli_tidy(set.as_ptr(), set.len(), to.as_mut_ptr(), to.len()) }
}

/// How long the tidy form of an image set is; or 28, 29.
pub fn tidy_len(set: &[u8]) -> Tidied {
    // Safe: a live slice, which is only read.
    unsafe { worgesli_tidy_len(set.as_ptr(), set.len()) }
}

/// Whether bytes are UTF-8.
pub fn utf8(bytes: &[u8]) -> bool {
    // Safe: a live slice, which is only read.
    unsafe { worgesli_utf8(bytes.as_ptr(), bytes.len()) }
}

/// A packet decoded.
pub fn parse_packet(bytes: &[u8]) -> Packet {
    // Safe: a live slice, which is only read.
    unsafe { worgesli_parse_packet(bytes.as_ptr(), bytes.len()) }
}

/// 0 and a Reset packet in the first 8 bytes, or 3.
pub fn reset(out: &mut [u8]) -> u32 {
    // Safe: a live slice, lent to us alone.
    unsafe { worgesli_reset(out.as_mut_ptr(), out.len()) }
}
