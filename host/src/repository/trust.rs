//! docs/TRUST.md tells how many lines of definitions a reader has to believe. They are counted anew here.

use crate::repository::places::{read_text, top};
use crate::statements::sources::crates;
use std::collections::{BTreeMap, BTreeSet};
use std::fs;
use std::path::Path;

/// Lines that are neither empty nor comments nor imports.
fn lines_of(text: &str) -> usize {
    text.lines()
        .filter(|line| !line.trim().is_empty() && !line.trim().starts_with("--"))
        .filter(|line| !line.starts_with("use "))
        .count()
}

/// Of the definitions that promises may cite: neither the list of modules nor what inner functions tell each other.
fn lines_of_crate(top: &Path, name: &str) -> usize {
    let folder = top.join("crates").join(name).join("specs");
    let files =
        fs::read_dir(&folder).unwrap_or_else(|error| panic!("{}: {error}", folder.display()));
    files
        .map(|file| file.unwrap().path())
        .filter(|path| !path.ends_with("Lib.antt") && !path.ends_with("Inner.antt"))
        .map(|path| lines_of(&read_text(&path)))
        .sum()
}

/// The rows `| `NAME` | LINES | .. |` of the table.
fn rows(page: &str) -> BTreeMap<String, usize> {
    page.lines()
        .filter_map(|line| {
            let mut cells = line.split('|').map(str::trim).skip(1);
            let name = cells.next()?.strip_prefix('`')?.strip_suffix('`')?;
            Some((name.to_string(), cells.next()?.parse().ok()?))
        })
        .collect()
}

/// The crates with such lines.
fn counted(top: &Path) -> BTreeMap<String, usize> {
    let names = crates(top).unwrap();
    names
        .iter()
        .filter(|name| top.join("crates").join(name).join("specs").is_dir())
        .map(|name| (name.to_string(), lines_of_crate(top, name)))
        .filter(|&(_, lines)| lines > 0)
        .collect()
}

/// A row of a crate that is not there is a difference too.
#[test]
fn the_lines_of_definitions_are_as_many_as_the_page_says() {
    let top = top();
    let (told, counted) = (rows(&read_text(&top.join("docs/TRUST.md"))), counted(&top));
    let names: BTreeSet<&String> = told.keys().chain(counted.keys()).collect();
    let differences: Vec<String> = names
        .into_iter()
        .map(|name| (name, counted.get(name), told.get(name)))
        .filter(|(_, counted, told)| counted != told)
        .map(|(name, counted, told)| format!("{name}: counted {counted:?}, told {told:?}"))
        .collect();
    assert!(differences.is_empty(), "{}", differences.join("\n"));
}
