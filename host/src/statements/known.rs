//! What has a name that docs/CLAIMS.md may use.

use super::antt::{self, Declaration};
use super::book::Book;
use super::rattle;
use super::sources::Source;
use crate::USAGE;
use std::collections::{BTreeMap, BTreeSet};
use std::path::{Path, PathBuf};

#[derive(Clone, Copy, PartialEq, Eq, PartialOrd, Ord)]
pub enum Kind {
    Crate,
    Edit,
    Function,
    /// A struct or an enum, its fields and variants.
    Type,
    /// A definition of specs/.
    Definition,
    Field,
    Constructor,
    /// A public one of proofs/.
    Law,
    /// Of this program.
    Command,
    Keyword,
}

pub struct Known<'a> {
    top: &'a Path,
    kinds: BTreeMap<&'a str, BTreeSet<Kind>>,
    /// The crate and the name of each.
    pub public_functions: BTreeSet<(&'a str, &'a str)>,
}

/// The name of a file without its folder and ending.
fn stem(source: &Source) -> &str {
    let stem = Path::new(&source.path).file_stem();
    stem.and_then(|stem| stem.to_str()).unwrap_or_default()
}

/// The words behind `host` in the lines of the usage.
fn commands() -> Vec<&'static str> {
    let lines = USAGE.lines();
    lines
        .filter_map(|line| line.split_whitespace().nth(1))
        .collect()
}

impl<'a> Known<'a> {
    pub fn new(top: &'a Path, crates: &'a [String], edits: &'a [Source]) -> Known<'a> {
        let mut known = Known {
            top,
            kinds: BTreeMap::new(),
            public_functions: BTreeSet::new(),
        };
        known.add(Kind::Crate, crates.iter().map(String::as_str));
        known.add(Kind::Edit, edits.iter().map(stem));
        known.add(Kind::Command, commands());
        known.add(Kind::Keyword, ["ensures", "host", "requires"]);
        known
    }

    fn add(&mut self, kind: Kind, names: impl IntoIterator<Item = &'a str>) {
        for name in names {
            self.kinds.entry(name).or_default().insert(kind);
        }
    }

    fn add_definition(&mut self, definition: &Declaration<'a>) {
        let of_members = match definition.kind {
            antt::Kind::Data => Kind::Constructor,
            _ => Kind::Field,
        };
        self.add(Kind::Definition, [definition.name]);
        self.add(of_members, definition.members());
    }

    pub fn add_book(&mut self, book: &Book<'a>) {
        for page in &book.pages {
            for declaration in &page.declarations {
                if page.is_of_specs() {
                    self.add_definition(declaration);
                } else if page.is_public_law(declaration) {
                    self.add(Kind::Law, [declaration.name]);
                }
            }
        }
    }

    pub fn add_code(&mut self, code: &'a [Source]) {
        for source in code {
            for item in rattle::items(&source.text) {
                let kind = match item.kind {
                    rattle::Kind::Function => Kind::Function,
                    rattle::Kind::Type => Kind::Type,
                };
                self.add(kind, [item.name]);
                self.add(Kind::Type, item.members());
                if item.is_public_function() {
                    self.public_functions.insert((&source.owner, item.name));
                }
            }
        }
    }

    fn kinds(&self, name: &str) -> impl Iterator<Item = Kind> + '_ {
        self.kinds.get(name).into_iter().flatten().copied()
    }

    /// Whether something of one of these kinds has the name.
    pub fn is(&self, kinds: &[Kind], name: &str) -> bool {
        self.kinds(name).any(|kind| kinds.contains(&kind))
    }

    pub fn is_any(&self, name: &str) -> bool {
        self.kinds.contains_key(name)
    }

    pub fn has_edit_of_front(&self, front: &str) -> bool {
        let behind = self.kinds.range(front..);
        let mut named = behind.take_while(|(name, _)| name.starts_with(front));
        named.any(|(_, kinds)| kinds.contains(&Kind::Edit))
    }

    /// The crate of the public function of this name, if nothing else has the name.
    pub fn only_owner(&self, name: &str) -> Option<&'a str> {
        let functions = self.public_functions.iter();
        let mut owners = functions.filter(|function| function.1 == name);
        let owner = owners.next()?.0;
        let is_only =
            owners.next().is_none() && self.kinds(name).all(|kind| kind == Kind::Function);
        is_only.then_some(owner)
    }

    fn crates(&self) -> impl Iterator<Item = PathBuf> + '_ {
        let crates = self.kinds.iter();
        let crates = crates.filter(|(_, kinds)| kinds.contains(&Kind::Crate));
        crates.map(|(name, _)| self.top.join("crates").join(name))
    }

    /// Whether the path is one at the top, in crates/, in a crate or in its specs/ or proofs/; a file may stand there without its ending.
    pub fn has_path(&self, path: &str) -> bool {
        let of_crates = self
            .crates()
            .flat_map(|folder| ["", "specs", "proofs"].map(|part| folder.join(part)));
        let folders = [self.top.to_path_buf(), self.top.join("crates")];
        let mut folders = folders.into_iter().chain(of_crates);
        folders.any(|folder| {
            folder.join(path).exists() || folder.join(format!("{path}.antt")).exists()
        })
    }
}
