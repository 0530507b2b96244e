//! What a host did, in a form that both sides have. `at` counts the device's bytes taken so far.
#[derive(Clone, Debug, PartialEq)]
pub enum What {
    /// A packet that nothing is said to. Only the original's steps have it: a host here says go to a part of a packet as well.
    Go,
    Sent(Vec<u8>),
    /// An image's bytes, and where they start in the lent set.
    Image {
        start: usize,
        bytes: Vec<u8>,
    },
    /// The whole memory table.
    Table(Vec<u8>),
    /// A region of this length and filename; the original tells no filename where its bytes are not UTF-8.
    Open {
        len: u64,
        name: Option<[u8; 20]>,
    },
    /// All bytes of a chunk.
    Bytes(Vec<u8>),
    EmptyRead,
    Close,
}

#[derive(Clone, Debug, PartialEq)]
pub struct Event {
    pub at: usize,
    pub what: What,
}

#[derive(Clone, Debug, PartialEq)]
pub enum End {
    Finished {
        how: u8,
        reads: u64,
        reply: Vec<u8>,
    },
    Refused(u8),
    /// Neither: what it was instead.
    Other(String),
}

pub fn name_of(e: &End) -> String {
    match e {
        End::Finished { how, .. } => format!("finished {how}"),
        End::Refused(n) => format!("refused {n:2}"),
        End::Other(text) => text.clone(),
    }
}

#[derive(Clone, Debug)]
pub struct Ran {
    pub events: Vec<Event>,
    pub end: End,
    /// Bytes taken in all.
    pub taken: usize,
}

pub fn alike(a: &Event, b: &Event) -> bool {
    if a.at != b.at {
        return false;
    }
    match (&a.what, &b.what) {
        (What::Open { len: l, name: n }, What::Open { len: k, name: m }) => l == k && (n == m || n.is_none() || m.is_none()),
        (x, y) => x == y,
    }
}

/// The first place at which two lists of events differ.
pub fn parting(a: &[Event], b: &[Event]) -> Option<usize> {
    let n = a.len().min(b.len());
    (0..n).find(|&i| !alike(&a[i], &b[i])).or(if a.len() == b.len() { None } else { Some(n) })
}

pub fn hex(b: &[u8]) -> String {
    b.iter().map(|x| format!("{x:02x}")).collect()
}

pub fn short(b: &[u8]) -> String {
    if b.len() <= 96 {
        return hex(b);
    }
    format!("{}.. ({} bytes)", hex(&b[..96]), b.len())
}

pub fn show(e: &Event) -> String {
    let w = match &e.what {
        What::Go => "go".into(),
        What::Sent(b) => format!("send {}", short(b)),
        What::Image { start, bytes } => format!("image from {start}: {}", short(bytes)),
        What::Table(b) => format!("table {}", short(b)),
        What::Open { len, name } => format!("open, {len} bytes, {}", name.map_or("-".into(), |n| hex(&n))),
        What::Bytes(b) => format!("bytes {}", short(b)),
        What::EmptyRead => "empty read".into(),
        What::Close => "close".into(),
    };
    format!("after {}: {w}", e.at)
}
