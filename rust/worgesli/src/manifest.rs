//! The manifest beside the regions: a line for each of them.
//!
//! Columns with tabs between them, in printable ASCII: place, name in the table, file, base, length, bytes written, state, SHA-256 of
//! these bytes, and why it was lost. The first line has the version and names the columns.
use crate::escape::{decode, escape, escape_text, unescape, PART};
use crate::Entry;
use std::fs;
use std::io::{self, ErrorKind};
use std::path::Path;

const HEADER: &str = "#worgesli-manifest-1\tname\tfile\tbase\tlength\tbytes\tstate\tsha256\twhy";

/// A region of a [`Folder`](crate::Folder), as its manifest has it.
#[derive(Clone, Debug, PartialEq, Eq)]
#[non_exhaustive]
pub struct Kept {
    /// its place in the table, from 0
    pub place: usize,
    /// its filename in the table, as the bytes came
    pub name: Vec<u8>,
    /// its file in the folder; it ends in `.part` until the region is whole
    pub file: String,
    /// where it is in the device's memory
    pub base: u64,
    /// how long it is there
    pub len: u64,
    /// how many bytes were written when the manifest was; the file of a region that is being fetched has more
    pub bytes: u64,
    /// how it stands
    pub state: State,
    /// of the file's first `bytes` bytes; none where digests are switched off
    pub sha256: Option<[u8; 32]>,
}

/// How a region stands.
#[derive(Clone, Debug, PartialEq, Eq)]
#[non_exhaustive]
pub enum State {
    /// begun, and not whole yet
    Part,
    /// all of it is on the disk, under its final name
    Whole,
    /// not whole, and it will not be: what was written of it is in a `.part`; and the reason
    Lost(String),
}

impl Kept {
    pub(crate) fn new(place: usize, entry: &Entry, file: String) -> Kept {
        let name = table_name(entry).to_vec();
        Kept { place, name, file, base: entry.base, len: entry.len, bytes: 0, state: State::Part, sha256: None }
    }

    pub(crate) fn is_of(&self, place: usize, entry: &Entry) -> bool {
        self.place == place && self.base == entry.base && self.len == entry.len && self.name == table_name(entry)
    }

    /// The file's final name.
    pub(crate) fn whole_name(&self) -> &str {
        self.file.strip_suffix(PART).unwrap_or(&self.file)
    }

    fn line(&self) -> String {
        let Kept { place, name, file, base, len, bytes, .. } = self;
        let (state, why) = match &self.state {
            State::Part => ("part", "-".into()),
            State::Whole => ("whole", "-".into()),
            State::Lost(why) => ("lost", escape_text(why)),
        };
        let sha256 = self.sha256.as_ref().map_or("-".into(), hex);
        format!("{place}\t{}\t{file}\t{base:#018x}\t{len}\t{bytes}\t{state}\t{sha256}\t{why}\n", escape(name))
    }

    fn parse(line: &str) -> Option<Kept> {
        let columns: Vec<&str> = line.split('\t').collect();
        let [place, name, file, base, len, bytes, state, sha256, why] = columns[..].try_into().ok()?;
        let kept = Kept {
            place: place.parse().ok()?,
            name: unescape(name)?,
            file: file.into(),
            base: u64::from_str_radix(base.strip_prefix("0x")?, 16).ok()?,
            len: len.parse().ok()?,
            bytes: bytes.parse().ok()?,
            state: match state {
                "part" => State::Part,
                "whole" => State::Whole,
                _ => State::Lost(String::from_utf8(decode(why)?).ok()?),
            },
            sha256: if sha256 == "-" { None } else { Some(unhex(sha256)?) },
        };
        // a file of this name, and so none outside the folder
        let named = unescape(file).as_ref() == Some(&kept.name);
        let whole = kept.state != State::Whole || kept.bytes == kept.len && !file.ends_with(PART);
        // each line has one spelling
        let same = kept.line().strip_suffix('\n') == Some(line);
        (named && whole && same && kept.bytes <= kept.len).then_some(kept)
    }
}

/// The filename's bytes before the first zero byte, or all of them.
pub(crate) fn table_name(entry: &Entry) -> &[u8] {
    entry.filename.split(|b| *b == 0).next().unwrap_or_default()
}

pub(crate) fn text(regions: &[Kept]) -> String {
    let mut text = format!("{HEADER}\n");
    text.extend(regions.iter().map(Kept::line));
    text
}

/// The regions of a manifest.
pub fn read_manifest(path: impl AsRef<Path>) -> io::Result<Vec<Kept>> {
    parse(&fs::read(path)?)
}

fn parse(bytes: &[u8]) -> io::Result<Vec<Kept>> {
    let unfit = |why: String| io::Error::new(ErrorKind::InvalidData, why);
    let text = std::str::from_utf8(bytes).ok().and_then(|t| t.strip_suffix('\n'));
    let mut lines = text.unwrap_or_default().split('\n');
    if lines.next() != Some(HEADER) {
        return Err(unfit("no manifest of version 1".into()));
    }
    lines.zip(2..).map(|(line, n)| Kept::parse(line).ok_or_else(|| unfit(format!("line {n} of the manifest is none")))).collect()
}

pub(crate) fn hex(digest: &[u8; 32]) -> String {
    digest.iter().map(|b| format!("{b:02x}")).collect()
}

fn unhex(text: &str) -> Option<[u8; 32]> {
    let digits = text.bytes().map(|b| match b {
        b'0'..=b'9' => Some(b - b'0'),
        b'a'..=b'f' => Some(b - b'a' + 10),
        _ => None,
    });
    let digits: Vec<u8> = digits.collect::<Option<_>>()?;
    let bytes: Vec<u8> = digits.chunks_exact(2).map(|d| 16 * d[0] + d[1]).collect();
    (digits.len() == 64).then(|| bytes.try_into().ok())?
}

#[cfg(test)]
mod tests {
    use super::*;

    fn regions() -> Vec<Kept> {
        let mut filename = [0; 20];
        filename[..4].copy_from_slice(b"A\tB\n");
        let entry = Entry { save_pref: 1, base: 0x1468_0000, len: 9, description: [0; 20], filename };
        let part = Kept { bytes: 7, ..Kept::new(3, &entry, "A%09B%0A.part".into()) };
        let whole = Kept { bytes: 9, state: State::Whole, sha256: Some([0x5a; 32]), file: "A%09B%0A~2".into(), ..part.clone() };
        let why = "torn\tby %\n\u{202e}".to_owned();
        let lost = Kept { state: State::Lost(why), file: "A%09B%0A~12.part".into(), ..part.clone() };
        vec![part, whole, lost]
    }

    #[test]
    fn there_and_back() {
        let regions = regions();
        let text = text(&regions);
        assert_eq!(parse(text.as_bytes()).unwrap(), regions);
        assert!(text.bytes().all(|b| matches!(b, b' '..=b'~' | b'\t' | b'\n')));
        assert!(text.lines().all(|l| l.split('\t').count() == 9));
        assert_eq!(text.lines().nth(1).unwrap(), "3\tA%09B%0A\tA%09B%0A.part\t0x0000000014680000\t9\t7\tpart\t-\t-");
        assert_eq!(parse(super::text(&[]).as_bytes()).unwrap(), []);
    }

    /// Cut anywhere, or with any one byte another, a manifest is refused or says another thing; it never says the same.
    #[test]
    fn torn() {
        let regions = regions();
        let whole = text(&regions);
        for n in 0..whole.len() {
            if let Ok(read) = parse(&whole.as_bytes()[..n]) {
                assert!(read.len() < 3 && whole.as_bytes()[n - 1] == b'\n' && read[..] == regions[..read.len()], "{n}");
            }
            for to in [b'\0', b'\t', b'\n', b'/', b'9', b'%', 0xff] {
                let mut other = whole.clone().into_bytes();
                if other[n] != to {
                    other[n] = to;
                    assert!(parse(&other).ok().as_ref() != Some(&regions), "{n} {to}");
                }
            }
        }
    }

    /// What would lead out of the folder, or claims what cannot be, is no line.
    #[test]
    fn lies() {
        let line = regions()[1].line();
        let good = line.trim_end();
        assert!(Kept::parse(good).is_some());
        for (from, to) in [
            ("A%09B%0A~2", "../x"),
            ("A%09B%0A~2", "/etc/passwd"),
            ("A%09B%0A~2", "other"),
            ("A%09B%0A~2", "A%09B%0A~2.part"),
            ("\t9\t9\t", "\t9\t8\t"),
            ("\t9\t9\t", "\t9\t10\t"),
            ("3\tA%09B%0A\t", "3\tA%09B%0A~2\t"),
            ("whole", "WHOLE"),
            ("5a5a", "5A5A"),
            ("0x", ""),
        ] {
            assert!(good.contains(from), "{from}");
            assert_eq!(Kept::parse(&good.replacen(from, to, 1)), None, "{from} {to}");
        }
    }
}
