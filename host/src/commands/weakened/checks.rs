//! `rt check` in a copy of the repository, and what it tells.

use std::path::Path;
use std::process::Command;

/// The first crate that is refused, and the first error in it.
#[derive(Clone, Debug, PartialEq, Eq)]
pub struct Refused {
    pub owner: String,
    pub error: String,
}

#[derive(Debug, PartialEq, Eq)]
pub struct Checked {
    /// None if all is proved.
    pub refused: Option<Refused>,
    /// `crate::function` of each function that is not proved.
    pub unproved: Vec<String>,
}

/// An error is told up to this many signs.
const SHOWN: usize = 180;

/// `fn CRATE::FUNCTION: not proved`, or where rt was to find the proof, `fn CRATE::FUNCTION: no proof: ..`.
fn unproved_function(line: &str) -> Option<&str> {
    let (function, told) = line.strip_prefix("fn ")?.split_once(": ")?;
    let is_unproved = told == "not proved" || told.starts_with("no proof");
    is_unproved.then_some(function)
}

/// `rt: chose --jobs 2 for NAME`: what follows is told of this crate.
fn begun(line: &str) -> Option<&str> {
    let (begin, name) = line.split_once(" for ")?;
    begin.starts_with("rt: chose --jobs ").then_some(name)
}

/// `rt: the library NAME did not build, so nothing above it was checked`.
fn not_built(line: &str) -> Option<&str> {
    let (name, _) = line
        .strip_prefix("rt: the library ")?
        .split_once(" did not build")?;
    Some(name)
}

fn is_error(line: &str) -> bool {
    [": error: ", ": error["]
        .iter()
        .any(|sign| line.contains(sign))
}

/// An error as it is told, with the path of its file below the top. Of a function whose proof rt was to find there is no other error.
fn shown(line: &str, owner: &str) -> String {
    let path = line.strip_prefix("./").unwrap_or(line);
    let is_of_crate = ["src/", "specs/", "proofs/"]
        .iter()
        .any(|folder| path.starts_with(folder));
    let shown = match is_of_crate {
        true => format!("crates/{owner}/{path}"),
        false => line.to_string(),
    };
    shown.chars().take(SHOWN).collect()
}

/// What `rt check` printed in the folder of the crate `name` before it ended with this status, read. The libraries that the crate uses come before it, and the
/// first that is refused is the last of all. A status that is no verdict of the prover is an error.
pub fn read(printed: &str, name: &str, status: Option<i32>) -> Result<Checked, String> {
    let mut owner = name;
    let mut errors: Vec<String> = Vec::new();
    let mut unproved = Vec::new();
    for line in printed.lines() {
        if let Some(next) = begun(line) {
            owner = next;
            errors.clear();
            unproved.clear();
        }
        if let Some(library) = not_built(line) {
            owner = library;
        }
        if let Some(function) = unproved_function(line) {
            unproved.push(function.to_string());
            errors.push(shown(line, owner));
        }
        if is_error(line) {
            errors.push(shown(line, owner));
        }
    }
    let last = printed.lines().last().unwrap_or_default();
    match (status, errors.into_iter().next()) {
        (Some(0), _) => Ok(Checked {
            refused: None,
            unproved: Vec::new(),
        }),
        (Some(1), Some(error)) => Ok(Checked {
            refused: Some(Refused {
                owner: owner.to_string(),
                error,
            }),
            unproved,
        }),
        _ => Err(format!("no verdict: status {status:?}: {last}")),
    }
}

/// Proves the crate and what it uses, in the repository at `top`.
pub fn check(top: &Path, name: &str) -> Result<Checked, String> {
    let folder = top.join("crates").join(name);
    let run = Command::new("sh")
        .args(["-c", "exec rt check 2>&1"])
        .current_dir(&folder)
        .output()
        .map_err(|error| format!("rt: {error}"))?;
    let printed = String::from_utf8_lossy(&run.stdout);
    read(&printed, name, run.status.code())
}
