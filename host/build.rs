//! Builds the proved library and links it. SLOTPLAN_LIBRARY names a folder with its archive that is to be taken instead.

use std::env;
use std::fs;
use std::path::{Path, PathBuf};
use std::process::Command;

/// The crate of the library, which names the archive too.
const LIBRARY: &str = "slotplan_lib";

/// The crate that exports its functions.
const EXPORTS: &str = "slotplan_lib_c";

/// The script that proves both and all that they rest on, and writes the archive.
const SCRIPT: &str = "tools/library.sh";

const FOLDER: &str = "SLOTPLAN_LIBRARY";

fn rerun_if_changed(path: &Path) {
    println!("cargo:rerun-if-changed={}", path.display());
}

/// What a proof reads. A crate's out/, where rt keeps its work, is none of that.
fn rerun_if_sources_changed(top: &Path) {
    rerun_if_changed(&top.join(SCRIPT));
    rerun_if_changed(&top.join("crates.txt"));
    let crates = top.join("crates");
    let folders =
        fs::read_dir(&crates).unwrap_or_else(|error| panic!("{}: {error}", crates.display()));
    for folder in folders {
        let folder = folder.expect("the folder can be read").path();
        let parts = ["src", "specs", "proofs"].map(|part| folder.join(part));
        for part in parts.iter().filter(|part| part.is_dir()) {
            rerun_if_changed(part);
        }
    }
}

/// The folder of the archive that the script writes.
fn built(top: &Path) -> PathBuf {
    rerun_if_sources_changed(top);
    let script = top.join(SCRIPT);
    match Command::new(&script).status() {
        Ok(status) if status.success() => top.join("target/staticlib"),
        Ok(status) => panic!(
            "{SCRIPT} ended with {status}. It needs the Rattle kit with rt on the path; {FOLDER} names a folder with lib{LIBRARY}.a instead"
        ),
        Err(error) => panic!("{}: {error}", script.display()),
    }
}

fn main() {
    rerun_if_changed(Path::new("build.rs"));
    println!("cargo:rerun-if-env-changed={FOLDER}");
    let folder = match env::var_os(FOLDER) {
        Some(folder) => PathBuf::from(folder),
        None => built(&Path::new(env!("CARGO_MANIFEST_DIR")).join("..")),
    };
    let archive = folder.join(format!("lib{LIBRARY}.a"));
    rerun_if_changed(&archive);
    // The times name the archive, and a test links a host in C with it.
    println!("cargo:rustc-env=SLOTPLAN_ARCHIVE={}", archive.display());
    // A test reads the functions of the crate.
    println!("cargo:rustc-env=SLOTPLAN_CRATE={EXPORTS}");
    println!("cargo:rustc-link-search=native={}", folder.display());
    println!("cargo:rustc-link-lib=static={LIBRARY}");
}
