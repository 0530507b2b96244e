//! Each system call of a fetch fails in turn.
use crate::world::{Far, Temporary};
use device::Width;
use std::path::{Path, PathBuf};
use std::process::Command;

const EINTR: i32 = 4;
const EIO: i32 = 5;
const EAGAIN: i32 = 11;
const ENOSPC: i32 = 28;

/// Compiles the library that makes calls fail; None where there is no C compiler, which is said as the gate's tools say it.
fn shim(folder: &Path) -> Option<PathBuf> {
    let here = Path::new(env!("CARGO_MANIFEST_DIR"));
    let library = folder.join("shim.so");
    let mut cc = Command::new(std::env::var_os("CC").unwrap_or("cc".into()));
    cc.args(["-shared", "-fPIC", "-O1", "-Wall", "-Wextra", "-Werror", "-o"]).arg(&library);
    match cc.arg(here.join("process/shim.c")).status() {
        Ok(status) => {
            assert!(status.success(), "the C compiler failed");
            Some(library)
        }
        Err(_) => {
            device::not_run("no C compiler is on this machine", "the fetch with failing system calls");
            None
        }
    }
}

/// What becomes of a fetch whose k-th system call fails, once or with all behind it. False where it makes no k-th call.
fn fails(library: &Path, width: Width, k: u64, number: i32, forever: bool) -> bool {
    let (far, folder) = (Far::new(width, k), Temporary::new());
    let mark = folder.0.join("mark");
    let settings = [
        ("LD_PRELOAD", library.display().to_string()),
        ("FAULT_AT", k.to_string()),
        ("FAULT_ERRNO", number.to_string()),
        ("FAULT_FOREVER", u8::from(forever).to_string()),
        ("FAULT_MARK", mark.display().to_string()),
    ];
    let what = format!("{width:?}, call {k}, error {number}, forever {forever}");
    let ended = far.process(&folder.0, &settings);
    let failed = mark.exists();
    match ended {
        Some(0) => far.assert_whole(&folder.0),
        Some(3) if forever => {
            far.assert_honest(&folder.0);
            // what failed is mended, and another process goes on
            assert_eq!(far.process(&folder.0, &[]), Some(0), "{what}");
            far.assert_whole(&folder.0);
        }
        Some(4) if forever => return failed,
        ended => panic!("{what}: {ended:?}"),
    }
    far.end();
    failed
}

/// Right files, or an honest error from which another process goes on to right files.
#[test]
fn each_system_call_fails() {
    let folder = Temporary::new();
    let Some(library) = shim(&folder.0) else { return };
    let faults = [(EIO, false), (ENOSPC, false), (EINTR, false), (EAGAIN, false), (EIO, true), (ENOSPC, true)];
    let each = |width| {
        for (number, forever) in faults {
            let mut k = 0;
            while fails(&library, width, k, number, forever) {
                k += 1;
            }
            assert!(k > 40, "{k} calls");
        }
    };
    // both boards at a time
    std::thread::scope(|scope| Width::BOTH.map(|width| scope.spawn(move || each(width))).map(drop));
}
