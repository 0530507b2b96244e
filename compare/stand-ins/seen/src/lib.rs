//! What the original was seen to do, in order: on its channel, on its progress bar and on standard output.
use std::cell::RefCell;

pub enum Seen {
    /// A `read_exact`: bytes asked for, bytes that were there.
    Filled {
        asked: usize,
        got: usize,
    },
    /// A `read`; an empty read asks for 0.
    Read {
        asked: usize,
        got: usize,
    },
    /// A `write_all`, and the address that its bytes stood at.
    Written {
        bytes: Vec<u8>,
        from: usize,
    },
    Printed(String),
    /// A progress bar made for a region of this length, its message, and its end.
    Bar(u64),
    Message(String),
    BarGone,
}

thread_local! {
    static LOG: RefCell<Vec<Seen>> = const { RefCell::new(Vec::new()) };
}

pub fn note(s: Seen) {
    LOG.with(|l| l.borrow_mut().push(s));
}

/// All that was noted since the last call.
pub fn take() -> Vec<Seen> {
    LOG.with(|l| std::mem::take(&mut *l.borrow_mut()))
}
