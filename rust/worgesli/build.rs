//! Links the proved archive. Its folder is WORGESLI_ARCHIVE_DIR, else target/staticlib of the repository.
use std::{env, path::PathBuf};

const NAME: &str = "WORGESLI_ARCHIVE_DIR";

fn main() {
    let named = env::var_os(NAME).filter(|folder| !folder.is_empty()).map(PathBuf::from);
    if named.as_ref().is_some_and(|folder| folder.is_relative()) {
        println!("cargo::error={NAME} must be an absolute path: a build script does not know from where cargo was called");
        return;
    }
    let folder = named.unwrap_or_else(|| {
        let here = PathBuf::from(env::var_os("CARGO_MANIFEST_DIR").unwrap());
        here.join("../../target/staticlib")
    });
    let archive = folder.join("libworgesli.a");
    println!("cargo::rerun-if-env-changed={NAME}");
    println!("cargo::rerun-if-changed={}", archive.display());
    match folder.canonicalize() {
        Ok(folder) if archive.is_file() => {
            println!("cargo::rustc-link-search=native={}", folder.display());
            println!("cargo::rustc-link-lib=static=worgesli");
        }
        _ => println!(
            "cargo::error={} is not there: run `tools/archive` in the repository, or name the archive's folder in {NAME}",
            archive.display()
        ),
    }
}
