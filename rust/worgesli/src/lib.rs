//! A host of Qualcomm's Sahara protocol, proved in Rattle and driven from Rust.
//!
//! What a step does is proved; this crate calls the proved archive and moves the bytes. [`sahara_run`] runs a host over any channel
//! that reads and writes. [`Driver`] is the same as a value that survives time-outs. [`Session`] is the bare host.
#![doc = include_str!("../../README.md")]
#![deny(unsafe_code, missing_docs)]

mod bundle;
mod disk;
mod driver;
mod error;
mod escape;
mod folder;
mod manifest;
mod numbers;
mod options;
mod packet;
mod packets;
pub mod raw;
mod saved;
mod serial;
mod session;
mod sha256;
mod sink;
mod table;
mod tidy;
mod tty;

pub use bundle::{ImageSet, NameList, SLOTS};
pub use driver::{sahara_run, Driver, Outcome, Progress, REPLY};
pub use error::Error;
pub use escape::{escape, unescape};
pub use folder::Folder;
pub use manifest::{read_manifest, Kept, State};
pub use numbers::{Answer, Backend, Command, Mode, Phase, Refusal, Width};
pub use options::Options;
pub use packet::{parse_packet, reset, Body, Packet, Unk};
pub use packets::Packets;
pub use saved::RestoreError;
pub use serial::Serial;
pub use session::{Session, OUT, TABLE};
pub use sink::{Count, Sink, Unkept};
pub use table::{entry_at, forecast, next_selected, region_sheet, utf8, Entry, Forecast};
pub use tidy::{tidy, tidy_into, tidy_len};

/// The guide's code is compiled with the tests of the documentation.
#[cfg(doctest)]
#[doc = include_str!("../../../docs/MIGRATION.md")]
struct Migration;
