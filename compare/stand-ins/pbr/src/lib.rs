//! Stands in for pbr: a progress bar that shows nothing. When it is made, named and dropped is noted, for the original makes one for each region.
use seen::{note, Seen};

pub enum Units {
    Bytes,
}

pub struct ProgressBar {
    pub show_time_left: bool,
}

impl ProgressBar {
    pub fn new(total: u64) -> Self {
        note(Seen::Bar(total));
        ProgressBar { show_time_left: false }
    }

    pub fn message(&mut self, text: &str) {
        note(Seen::Message(text.to_owned()));
    }

    pub fn set_units(&mut self, _: Units) {}

    pub fn set(&mut self, _: u64) {}
}

impl Drop for ProgressBar {
    fn drop(&mut self) {
        note(Seen::BarGone);
    }
}
