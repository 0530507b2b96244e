//! What a test could not do.
use std::io::{self, Write};
use std::process::Command;

/// Says that something was NOT run, although the test passes, as the gate's tools say it (tools/not-run); fails where that is a failure.
pub fn not_run(why: &str, what: &str) {
    let tool = concat!(env!("CARGO_MANIFEST_DIR"), "/../../tools/not-run");
    let said = Command::new(tool).args([why, what]).output().expect("tools/not-run");
    let _ = io::stderr().write_all(&said.stdout);
    assert!(said.status.success(), "NOT run: {what}");
}
