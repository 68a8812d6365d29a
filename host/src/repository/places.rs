//! Files and folders of the tests.

use std::env;
use std::fs;
use std::io::Write;
use std::os::unix::fs::symlink;
use std::path::{Path, PathBuf};
use std::process::{Command, Stdio};

/// The top of the repository.
pub fn top() -> PathBuf {
    Path::new(env!("CARGO_MANIFEST_DIR")).join("..")
}

pub fn read(path: &Path) -> Vec<u8> {
    fs::read(path).unwrap_or_else(|error| panic!("{}: {error}", path.display()))
}

pub fn read_text(path: &Path) -> String {
    let text = String::from_utf8(read(path));
    text.unwrap_or_else(|error| panic!("{}: {error}", path.display()))
}

/// A folder of its own for each test, gone at its end.
pub struct Folder(pub PathBuf);

impl Folder {
    pub fn new(name: &str) -> Folder {
        let folder = format!("slotplan_{name}_{}", std::process::id());
        let folder = std::env::temp_dir().join(folder);
        fs::create_dir_all(&folder).unwrap();
        Folder(folder)
    }
}

impl Drop for Folder {
    /// If the folder cannot be removed, the test has still shown what it shows.
    fn drop(&mut self) {
        let _ = fs::remove_dir_all(&self.0);
    }
}

/// A shell script that can be run. A shell of its own writes the file: while this process has a file open for writing, so may a program that another test
/// starts at that moment, and then the file cannot be run.
pub fn write_script(path: &Path, text: &str) {
    let text = format!("#!/bin/sh\n{text}\n");
    let mut shell = Command::new("sh")
        .args(["-c", "cat > \"$0\" && chmod +x \"$0\""])
        .arg(path)
        .stdin(Stdio::piped())
        .spawn()
        .unwrap();
    let mut input = shell.stdin.take().unwrap();
    input.write_all(text.as_bytes()).unwrap();
    drop(input);
    assert!(shell.wait().unwrap().success());
}

/// Puts programs of the path of this process into a folder, so that a path of this folder alone has no others.
pub fn link_programs(programs: &[&str], folder: &Path) {
    let path = env::var_os("PATH").unwrap();
    for program in programs {
        let mut found = env::split_paths(&path).map(|folder| folder.join(program));
        let found = found.find(|path| path.is_file());
        let found = found.unwrap_or_else(|| panic!("no {program} on the path"));
        symlink(found, folder.join(program)).unwrap();
    }
}
