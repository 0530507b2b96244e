//! The original's run in the lines of the program `runs`: its events, cut at the borders of deliveries of one size.
use crate::events::{hex, End, Event, What};
use crate::original::Original;
use crate::packets::{mem_read, parts, Width};

struct Lines {
    size: usize,
    /// Bytes that lines stand for.
    at: usize,
    lines: Vec<String>,
}

impl Lines {
    /// The bytes up to here, cut at multiples of the size.
    fn pieces(&mut self, to: usize) -> Vec<usize> {
        let mut pieces = Vec::new();
        while self.at < to {
            let n = (to - self.at).min(self.size - self.at % self.size);
            pieces.push(n);
            self.at += n;
        }
        pieces
    }

    fn go(&mut self, pieces: &[usize]) {
        self.lines.extend(pieces.iter().map(|n| format!("{n} go 0")));
    }

    /// The last piece gets the answer, those before it are go.
    fn answer(&mut self, to: usize, text: String) {
        let mut pieces = self.pieces(to);
        let last = pieces.pop().unwrap_or(0);
        self.go(&pieces);
        self.lines.push(format!("{last} {}", text.trim_end()));
    }

    fn end(&mut self, end: &End, to: usize) -> Option<()> {
        match end {
            End::Finished { how, reads, reply } => {
                self.answer(to, format!("finished {how} {reads}"));
                if *how == 4 {
                    self.lines.push(format!("reply {}", if reply.is_empty() { "-".into() } else { hex(reply) }));
                }
            }
            End::Refused(23) => {
                let pieces = self.pieces(to);
                self.go(&pieces);
                self.lines.push("0 refused 23".into());
            }
            End::Refused(n) => self.answer(to, format!("refused {n}")),
            End::Other(_) => return None,
        }
        Some(())
    }
}

/// None where the original's doings leave open which entry a region is: `opens` settles it, if it is one of those that fit.
pub fn lines(o: &Original, size: usize, opens: Option<&[usize]>) -> Option<Vec<String>> {
    let mut l = Lines { size, at: 0, lines: Vec::new() };
    let (mut table, mut opened): (&[u8], Vec<usize>) = (&[], Vec::new());
    for (i, e) in o.steps.iter().enumerate() {
        let text = match &e.what {
            What::Go => "go 0".into(),
            What::Sent(b) => format!("send {} {}", b.len(), hex(b)),
            What::Image { start, bytes } => format!("image {} {start} {}", bytes.len(), hex(bytes)),
            What::Table(b) => {
                table = b;
                "go 0".into()
            }
            What::Open { len, name } => {
                let from = opened.last().map_or(0, |n| n + 1);
                let entry = entry(o.width, table, from, *len, *name, o.steps.get(i + 1));
                opened.push(entry.settled(opens.map(|o| o.get(opened.len()).copied()))?);
                format!("open {}", opened.last()?)
            }
            What::Bytes(_) => {
                let pieces = l.pieces(e.at);
                l.lines.extend(pieces.iter().map(|n| format!("{n} bytes {n}")));
                continue;
            }
            What::EmptyRead => "empty read 0".into(),
            What::Close => format!("close {}", opened.last()?),
        };
        l.answer(e.at, text);
    }
    l.end(&o.ran.end, o.ran.taken)?;
    Some(l.lines)
}

/// The entries that fit a region.
struct Fit(Vec<usize>);

impl Fit {
    fn settled(self, hint: Option<Option<usize>>) -> Option<usize> {
        match hint {
            Some(hint) => hint.filter(|h| self.0.contains(h)),
            None => (self.0.len() == 1).then(|| self.0[0]),
        }
    }
}

/// The entries at or after `from` of this length, filename and, by the region's first memory read, base.
fn entry(width: Width, table: &[u8], from: usize, len: u64, name: Option<[u8; 20]>, after: Option<&Event>) -> Fit {
    let base = match after {
        Some(Event { what: What::Sent(b), .. }) => mem_read(b).map(|r| r.0),
        _ => None,
    };
    let size = width.entry_len();
    let fits = |i: &usize| {
        let e = parts(width, &table[size * i..size * (i + 1)]);
        e.1 == len && name.is_none_or(|n| n == e.2) && base.is_none_or(|b| b == e.0)
    };
    Fit((from..table.len() / size).filter(fits).collect())
}
