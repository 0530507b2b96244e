//! The process that fetches.
use crate::world::{CHILD, STEPS};
use std::fs::{self, File};
use std::io::{self, Write};
use std::os::fd::AsFd;
use std::path::Path;
use std::process::{abort, exit};
use worgesli::{Backend, Driver, Error, Folder, Mode, Options};

/// How often an error is answered by going on.
const TRIES: u32 = 6;

/// Nothing, unless this process was started as one that fetches.
#[test]
fn child() {
    if let Some(folder) = std::env::var_os(CHILD) {
        exit(fetch(folder.as_ref()));
    }
}

/// 0: the end; 3: given up, and saved; 4: given up.
fn fetch(folder: &Path) -> i32 {
    let steps = std::env::var(STEPS).map_or(u64::MAX, |s| s.parse().unwrap());
    let mut channel = File::from(io::stdin().as_fd().try_clone_to_owned().unwrap());
    let options = Options::new(Backend::Usb, Mode::MemoryDebug).timeouts(1);
    let state = folder.join("state");
    let saved = fs::read(&state).ok();
    // a file that is not there; the faults begin and end with it
    let _ = fs::remove_file("/worgesli-faults-begin");
    let mut run = match &saved {
        Some(saved) => options.restore(saved).unwrap(),
        None => options.start().unwrap(),
    };
    let mut sink = None;
    for _ in 0..TRIES {
        match turn(folder, saved.is_some(), &mut sink, &mut run, &mut channel, steps) {
            Ok(true) => return 0,
            Ok(false) => {
                save(&run, sink.as_ref(), folder).unwrap();
                abort();
            }
            Err(why) => eprintln!("{why}"),
        }
    }
    let _ = fs::remove_file("/worgesli-faults-end");
    save(&run, sink.as_ref(), folder).map_or(4, |()| 3)
}

/// So many steps with a folder that is opened or reopened first; true at the end.
fn turn(
    folder: &Path,
    saved: bool,
    sink: &mut Option<Folder>,
    run: &mut Driver,
    channel: &mut File,
    steps: u64,
) -> Result<bool, Error> {
    let sink = match sink {
        Some(sink) => sink,
        None => {
            let made = match saved {
                true => fs::read_to_string(folder.join("manifest")).and_then(Folder::resume),
                false => Folder::new(folder.join("dump")),
            };
            sink.insert(made.map_err(Error::Sink)?)
        }
    };
    for _ in 0..steps {
        if run.step(channel, sink, |_| ())?.is_some() {
            return Ok(true);
        }
    }
    Ok(false)
}

/// The run, and where its manifest is: whole or not at all. Where no folder was made there is nothing to go on with.
fn save(run: &Driver, sink: Option<&Folder>, folder: &Path) -> io::Result<()> {
    let manifest = sink.ok_or(io::ErrorKind::NotFound)?.manifest_path();
    fs::write(folder.join("manifest"), manifest.to_str().unwrap())?;
    let part = folder.join("state.part");
    let mut file = File::create(&part)?;
    file.write_all(&run.save())?;
    file.sync_all()?;
    fs::rename(part, folder.join("state"))
}
