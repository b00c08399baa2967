//! Finds the archive of the proved library and links it.

use std::env;
use std::fs;
use std::path::{Path, PathBuf};
use std::process::ExitCode;

/// Names another folder that holds the archive.
const FOLDER_VARIABLE: &str = "VEKTRID_ARCHIVE_DIR";

const ARCHIVE: &str = "libvektrid.a";

/// The call that answers the number of the interface, which src/library.rs compares.
const NUMBER_CALL: &str = "vektrid_abi";

fn main() -> ExitCode {
    println!("cargo:rerun-if-env-changed={FOLDER_VARIABLE}");
    let folder = folder();
    let archive = folder.join(ARCHIVE);
    println!("cargo:rerun-if-changed={}", archive.display());
    if let Some(fault) = fault(&archive) {
        eprintln!(
            "{} {fault}: run tools/archive from the root of the repository, which makes it, \
             or set {FOLDER_VARIABLE} to a folder that has it",
            archive.display()
        );
        return ExitCode::FAILURE;
    }
    println!("cargo:rustc-link-search=native={}", folder.display());
    println!("cargo:rustc-link-lib=static=vektrid");
    ExitCode::SUCCESS
}

fn folder() -> PathBuf {
    if let Some(folder) = env::var_os(FOLDER_VARIABLE) {
        return PathBuf::from(folder);
    }
    let package = env::var_os("CARGO_MANIFEST_DIR").expect("cargo sets it");
    let here = PathBuf::from(package).join("../../target/staticlib");
    // A path without `..` reads better in the message; a missing folder stays as it is.
    here.canonicalize().unwrap_or(here)
}

/// Why the archive cannot be linked. One without the call is found here, because the linker would
/// say only that a name is missing; which number the call answers is known when a program runs.
fn fault(archive: &Path) -> Option<String> {
    let content = match fs::read(archive) {
        Ok(content) => content,
        Err(error) => return Some(format!("cannot be read ({error})")),
    };
    let has_call = content.windows(NUMBER_CALL.len()).any(|name| name == NUMBER_CALL.as_bytes());
    (!has_call).then(|| format!("is older than this crate: it has no {NUMBER_CALL}"))
}
