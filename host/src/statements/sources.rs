//! The files of the crates that crates.txt lists.

use std::fs;
use std::path::{Path, PathBuf};

/// A file of a crate: the crate that owns it, its path below the crate's folder, and its text.
pub struct Source {
    pub owner: String,
    pub path: String,
    pub text: String,
}

fn at(path: &Path) -> impl Fn(std::io::Error) -> String + '_ {
    move |error| format!("{}: {error}", path.display())
}

pub fn read_text(path: &Path) -> Result<String, String> {
    fs::read_to_string(path).map_err(at(path))
}

/// A line of crates.txt: the crate, without what it is built as, and those that it uses.
pub fn listed_crate(line: &str) -> Option<(&str, &str)> {
    let (name, used) = line.split_once(':')?;
    let name = name.split_whitespace().next()?;
    (!line.starts_with('#')).then_some((name, used))
}

/// The names of the crates, sorted.
pub fn crates(top: &Path) -> Result<Vec<String>, String> {
    let listed = read_text(&top.join("crates.txt"))?;
    let crates = listed.lines().filter_map(listed_crate);
    let mut names: Vec<String> = crates.map(|(name, _)| name.to_string()).collect();
    names.sort();
    Ok(names)
}

/// What stands in a folder, sorted. A folder that is missing has nothing.
fn entries(folder: &Path) -> Result<Vec<PathBuf>, String> {
    if !folder.is_dir() {
        return Ok(Vec::new());
    }
    let entries = fs::read_dir(folder).map_err(at(folder))?;
    let paths = entries.map(|entry| entry.map(|entry| entry.path()));
    let mut paths: Vec<PathBuf> = paths.collect::<Result<_, _>>().map_err(at(folder))?;
    paths.sort();
    Ok(paths)
}

/// The files below a folder whose names end so.
fn files_below(folder: &Path, ending: &str) -> Result<Vec<PathBuf>, String> {
    let mut files = Vec::new();
    for path in entries(folder)? {
        if path.is_dir() {
            files.extend(files_below(&path, ending)?);
        } else if path.to_string_lossy().ends_with(ending) {
            files.push(path);
        }
    }
    Ok(files)
}

fn source(top: &Path, owner: &str, file: &Path) -> Result<Source, String> {
    let folder = top.join("crates").join(owner);
    let path = file.strip_prefix(&folder).unwrap_or(file);
    Ok(Source {
        owner: owner.to_string(),
        path: path.to_string_lossy().into_owned(),
        text: read_text(file)?,
    })
}

/// The files of these folders of each crate, by crate and path.
pub fn sources(
    top: &Path,
    crates: &[String],
    folders: &[&str],
    ending: &str,
) -> Result<Vec<Source>, String> {
    let mut sources = Vec::new();
    for owner in crates {
        for folder in folders {
            let folder = top.join("crates").join(owner).join(folder);
            for file in files_below(&folder, ending)? {
                sources.push(source(top, owner, &file)?);
            }
        }
    }
    sources.sort_by(|a, b| (&a.owner, &a.path).cmp(&(&b.owner, &b.path)));
    Ok(sources)
}
