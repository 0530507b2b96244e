//! A device's names as names of files: printable, unique and reversible.

/// What a file of a region that is not whole ends in.
pub(crate) const PART: &str = ".part";

/// A name of a device's table as the name of a file: one plain step down, whatever its bytes are.
///
/// ASCII letters, digits, `.`, `_`, `-` and inner spaces stay; every other byte is `%` and two capital hexadecimal digits, and so are a
/// `.`, `-` or space at the beginning, a `.` or space at the end, and the dot of a `.part` at the end. The empty name is `%`.
/// [`unescape`] goes back.
///
/// ```
/// assert_eq!(worgesli::escape(b"A/B.BIN"), "A%2FB.BIN");
/// assert_eq!(worgesli::unescape("A%2FB.BIN~2.part").unwrap(), b"A/B.BIN");
/// ```
pub fn escape(name: &[u8]) -> String {
    if name.is_empty() {
        return "%".into();
    }
    let last = name.len() - 1;
    let dot = part_at(name);
    let stays = |i: usize, b: u8| match b {
        b'.' => i != 0 && i != last && Some(i) != dot,
        b'-' => i != 0,
        b' ' => i != 0 && i != last,
        b'_' => true,
        b => b.is_ascii_alphanumeric(),
    };
    encode(name, stays)
}

/// Where a name ends in `.part`, in any case: the place of its dot.
fn part_at(name: &[u8]) -> Option<usize> {
    let at = name.len().checked_sub(PART.len())?;
    name[at..].eq_ignore_ascii_case(PART.as_bytes()).then_some(at)
}

/// From the name of a region's file to the bytes of its name in the table; `.part` and `~2`, `~3`, … behind it are taken off. None for
/// what is no such name: each file name has one meaning, and each meaning one spelling.
pub fn unescape(file: &str) -> Option<Vec<u8>> {
    let name = unnumbered(file.strip_suffix(PART).unwrap_or(file))?;
    let bytes = if name == "%" { Vec::new() } else { decode(name)? };
    (escape(&bytes) == name).then_some(bytes)
}

/// Takes the number off: from 2 on, without a zero before it.
fn unnumbered(name: &str) -> Option<&str> {
    let Some((name, number)) = name.split_once('~') else {
        return Some(name);
    };
    let digits = number.bytes().all(|b| b.is_ascii_digit()) && !number.starts_with('0');
    (digits && !number.is_empty() && number != "1").then_some(name)
}

/// A text in printable ASCII without a tab, for a column of the manifest.
pub(crate) fn escape_text(text: &str) -> String {
    encode(text.as_bytes(), |_, b| matches!(b, b' '..=b'~') && b != b'%')
}

/// Each byte as it is where it stays, else `%` and two hexadecimal digits.
fn encode(bytes: &[u8], stays: impl Fn(usize, u8) -> bool) -> String {
    let mut text = String::new();
    for (i, &b) in bytes.iter().enumerate() {
        match stays(i, b) {
            true => text.push(b.into()),
            false => text += &format!("%{b:02X}"),
        }
    }
    text
}

/// The bytes of an encoded text.
pub(crate) fn decode(text: &str) -> Option<Vec<u8>> {
    let mut bytes = Vec::new();
    let mut rest = text.bytes();
    while let Some(b) = rest.next() {
        bytes.push(match b {
            b'%' => 16 * digit(rest.next()?)? + digit(rest.next()?)?,
            b => b,
        });
    }
    Some(bytes)
}

fn digit(b: u8) -> Option<u8> {
    match b {
        b'0'..=b'9' => Some(b - b'0'),
        b'A'..=b'F' => Some(b - b'A' + 10),
        _ => None,
    }
}

#[cfg(test)]
mod tests {
    use super::*;
    use device::Rng;

    #[test]
    fn names() {
        let cases: [(&[u8], &str); 26] = [
            (b"DDRCS0_0.BIN", "DDRCS0_0.BIN"),
            (b"A/B.BIN", "A%2FB.BIN"),
            (b"", "%"),
            (b"%", "%25"),
            (b".", "%2E"),
            (b"..", "%2E%2E"),
            (b"...", "%2E.%2E"),
            (b"..a..b..", "%2E.a..b.%2E"),
            (b"-rf", "%2Drf"),
            (b"a-b-", "a-b-"),
            (b" a b ", "%20a b%20"),
            (b" ", "%20"),
            (b"../x", "%2E.%2Fx"),
            (b"..\\x", "%2E.%5Cx"),
            (b"DDR.BIN~2", "DDR.BIN%7E2"),
            (b"manifest~1.tsv", "manifest%7E1.tsv"),
            (b"a.part", "a%2Epart"),
            (b"a.PaRt", "a%2EPaRt"),
            (b".part", "%2Epart"),
            (b"a.part.part", "a.part%2Epart"),
            (b"a.parts", "a.parts"),
            (b"nul\n", "nul%0A"),
            (b"\x1b[2J", "%1B%5B2J"),
            ("\u{202e}NIB.EKAT".as_bytes(), "%E2%80%AENIB.EKAT"),
            (&[b'/'; 19], "%2F%2F%2F%2F%2F%2F%2F%2F%2F%2F%2F%2F%2F%2F%2F%2F%2F%2F%2F"),
            (b"\xff\x00\x7f\t", "%FF%00%7F%09"),
        ];
        for (name, file) in cases {
            assert_eq!(escape(name), file);
            for behind in ["", "~2", "~10", ".part", "~3.part"] {
                assert_eq!(unescape(&format!("{file}{behind}")).as_deref(), Some(name), "{file}{behind}");
            }
        }
    }

    /// Any bytes: printable, one step down, and back.
    #[test]
    fn any_bytes() {
        let mut rng = Rng::new(8);
        for round in 0..50_000 {
            let mut name = vec![0; rng.below(21) as usize];
            rng.fill(&mut name);
            if round % 2 == 0 {
                name.iter_mut().for_each(|b| *b = b"..-- ~%/pPaArRtT019_"[*b as usize % 20]);
            }
            let file = escape(&name);
            assert!(file.bytes().all(|b| matches!(b, b' '..=b'}') && b != b'/' && b != b'\\'), "{file}");
            assert!(!file.is_empty() && !file.starts_with(['.', '-', ' ']) && !file.ends_with(['.', ' ']), "{file}");
            assert!(!file.to_ascii_lowercase().ends_with(PART), "{file}");
            assert_eq!(unescape(&file), Some(name));
        }
    }

    /// What is no name of ours is told.
    #[test]
    fn foreign_names() {
        let foreign = [
            "",
            "a~",
            "a~1",
            "a~0",
            "a~02",
            "a~b",
            "a~2~3",
            "~2",
            "%4",
            "%%",
            "%41",
            "%2f",
            "a/b",
            ".a",
            "-a",
            "a ",
            "a.",
            "a.PART",
            "a.part.part",
            "manifest~1.tsv",
            "manifest~2.tsv.new",
            "a\tb",
            "\u{e9}",
            "%G0",
            "..",
            "a~+2",
            "a~٢",
        ];
        for file in foreign {
            assert_eq!(unescape(file), None, "{file}");
        }
    }

    #[test]
    fn texts() {
        for text in ["", "-", "Input/output error (os error 5)", "a\tb\nc%20", "\u{202e}\x1b[2J"] {
            let escaped = escape_text(text);
            assert!(escaped.bytes().all(|b| matches!(b, b' '..=b'~')));
            assert_eq!(decode(&escaped).unwrap(), text.as_bytes());
        }
        assert_eq!(escape_text("Input/output error (os error 5)"), "Input/output error (os error 5)");
    }
}
