//! The memory table: entries, which of them are dumped and how much that is, and the sheet of all of them.
use crate::{raw, NameList, Refusal, Width};

/// An entry of the memory table, of either width: a region.
#[derive(Clone, Copy, Debug, PartialEq, Eq)]
pub struct Entry {
    /// not 0: dumped where no names are given
    pub save_pref: u64,
    /// its address
    pub base: u64,
    /// its length
    pub len: u64,
    /// what it is, for people
    pub description: [u8; 20],
    /// its name, with a zero byte behind it
    pub filename: [u8; 20],
}

impl Entry {
    /// The filename's bytes before the first zero byte, where there is one and they are UTF-8.
    pub fn name(&self) -> Option<&str> {
        let end = self.filename.iter().position(|b| *b == 0)?;
        std::str::from_utf8(&self.filename[..end]).ok()
    }
}

/// Entry i of a table's bytes.
pub fn entry_at(table: &[u8], width: Width, i: usize) -> Option<Entry> {
    let e = raw::entry_at(table, width as u64, i);
    (e.there != 0).then_some(Entry {
        save_pref: e.save_pref,
        base: e.base,
        len: e.len,
        description: e.description,
        filename: e.filename,
    })
}

/// The place of the first selected entry at or after `from` among a table's first `entries`.
pub fn next_selected(table: &[u8], width: Width, entries: usize, names: &NameList, from: usize) -> Option<usize> {
    let i = raw::next_selected(table, width as u64, entries, names.bytes(), from);
    (i < entries).then_some(i)
}

/// The region sheet of a table's bytes, for people: a line of 57 bytes for each entry, dumped or not.
///
/// A line has the filename in 20 columns, base and length in 16 hexadecimal digits each, and `*` where the device prefers the region. Each byte of a
/// filename that is not printable ASCII is a `?`: a device's bytes do nothing to a terminal or a printer. A table without an entry gives no line.
///
/// ```
/// use worgesli::{region_sheet, Width};
/// let mut table = vec![];
/// table.extend([1, 0x1468_0000, 0x4_0000].map(u32::to_le_bytes).concat()); // preferred, base, length
/// table.extend(b"IMEM of the chip\0\0\0\0");
/// table.extend(b"OCIMEM.BIN\0\0\0\0\0\0\0\0\0\0");
/// assert_eq!(region_sheet(&table, Width::Bits32), "OCIMEM.BIN           0000000014680000 0000000000040000 *\n");
/// ```
pub fn region_sheet(table: &[u8], width: Width) -> String {
    let mut page = vec![0; raw::SHEET_LINE_LEN * (table.len() / width.entry_len())];
    let sheet = raw::region_sheet(table, width as u64, &mut page);
    assert_eq!((sheet.written, sheet.refused), (page.len(), 0), "a page has a line for each entry");
    String::from_utf8(page).expect("a sheet is printable ASCII")
}

/// How large a fetch is.
#[derive(Clone, Copy, Debug, PartialEq, Eq)]
pub struct Forecast {
    /// regions that are opened
    pub regions: u64,
    /// bytes that are handed out: the sum of their lengths
    pub bytes: u64,
    /// memory reads: one for the table, and one for each chunk of 4,096 bytes, or part of one
    pub reads: u64,
}

/// How large the fetch of a table's regions is that these names choose; with no names, of those that the device prefers. Where none is chosen: no region, no
/// byte, and the table's memory read.
///
/// Refused (27) where the bytes, or the memory reads, are above 2^64 - 1. Nothing else is judged: a region counts that would end the session, for its filename
/// or its end (19 to 24). [`Driver::forecast`](crate::Driver::forecast) says what it is worth.
///
/// ```
/// use worgesli::{forecast, Forecast, NameList, Width};
/// let mut table = vec![];
/// table.extend([0, 0x1468_0000, 0x4_0001].map(u32::to_le_bytes).concat()); // not preferred, base, length
/// table.extend(b"IMEM of the chip\0\0\0\0");
/// table.extend(b"OCIMEM.BIN\0\0\0\0\0\0\0\0\0\0");
/// let named = forecast(&table, Width::Bits32, &NameList::new(&["ocimem"])?)?;
/// assert_eq!(named, Forecast { regions: 1, bytes: 0x4_0001, reads: 1 + 65 });
/// let preferred = forecast(&table, Width::Bits32, &NameList::new::<&str>(&[])?)?;
/// assert_eq!(preferred, Forecast { regions: 0, bytes: 0, reads: 1 });
/// # Ok::<(), worgesli::Refusal>(())
/// ```
pub fn forecast(table: &[u8], width: Width, names: &NameList) -> Result<Forecast, Refusal> {
    let raw::Forecast { regions, bytes, reads, refused } = raw::forecast_table(table, width as u64, names.bytes());
    Refusal::check(refused)?;
    Ok(Forecast { regions, bytes, reads })
}

/// Whether bytes are UTF-8.
pub fn utf8(bytes: &[u8]) -> bool {
    raw::utf8(bytes)
}
