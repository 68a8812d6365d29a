//! The declarations of all files of definitions and proofs, and which of them name which.

use super::antt::{declarations, words, Declaration, Kind, Line};
use super::imports::{imports, Import};
use super::sources::Source;
use std::collections::{BTreeMap, BTreeSet};

pub struct Page<'a> {
    pub source: &'a Source,
    pub declarations: Vec<Declaration<'a>>,
    imports: Vec<Import<'a>>,
}

/// The index of a page, and that of a declaration on it.
pub type Place = (usize, usize);

pub struct Book<'a> {
    pub pages: Vec<Page<'a>>,
    /// The index of each page, by its crate and by its path without the ending.
    indexes: BTreeMap<(&'a str, &'a str), usize>,
}

const ENDING: &str = ".antt";

fn page(source: &Source) -> Result<Page<'_>, String> {
    let told = |error| format!("crates/{}/{}: {error}", source.owner, source.path);
    Ok(Page {
        source,
        declarations: declarations(&source.text).map_err(told)?,
        imports: imports(&source.text),
    })
}

impl Page<'_> {
    pub fn is_of_specs(&self) -> bool {
        self.source.path.starts_with("specs/")
    }

    /// All that specs/ has, and of proofs/ what is not just stated.
    fn is_definition(&self, declaration: &Declaration) -> bool {
        self.is_of_specs() || declaration.kind != Kind::Stated
    }

    pub fn is_public_law(&self, declaration: &Declaration) -> bool {
        declaration.is_public && !self.is_definition(declaration)
    }

    /// What a declaration says: of a law all but its proof, of a definition all of it.
    pub fn statement<'b>(&self, declaration: &Declaration<'b>) -> Vec<Line<'b>> {
        if self.is_definition(declaration) {
            declaration.lines()
        } else {
            declaration.head.clone()
        }
    }

    /// The imports that give a file a name which stands before a dot in these lines.
    pub fn aliases(&self, lines: &[&str]) -> Vec<&str> {
        let words: BTreeSet<&str> = lines.iter().flat_map(|line| words(line)).collect();
        let is_used = |import: &Import| words.iter().any(|word| import.is_before(word));
        let used = self.imports.iter().filter(|import| is_used(import));
        used.map(|import| import.line).collect()
    }
}

impl<'a> Book<'a> {
    pub fn new(sources: &'a [Source]) -> Result<Book<'a>, String> {
        let pages: Vec<Page> = sources.iter().map(page).collect::<Result<_, _>>()?;
        let key = |source: &'a Source| (&source.owner[..], source.path.trim_end_matches(ENDING));
        let keys = sources.iter().map(key);
        let indexes = keys.zip(0..).collect();
        Ok(Book { pages, indexes })
    }

    fn declaration(&self, (page, index): Place) -> &Declaration<'a> {
        &self.pages[page].declarations[index]
    }

    /// The definitions of a page that have this name and are seen.
    fn definitions(
        &self,
        page: usize,
        name: &str,
        is_seen: impl Fn(&Declaration) -> bool,
    ) -> Vec<Place> {
        let declarations = self.pages[page].declarations.iter().enumerate();
        let named = declarations.filter(|(_, declaration)| {
            self.pages[page].is_definition(declaration)
                && declaration.is_named(name)
                && is_seen(declaration)
        });
        named.map(|(index, _)| (page, index)).collect()
    }

    fn imported(&self, imports: &[Import], word: &str) -> Vec<Place> {
        let import = imports.iter().find_map(|import| {
            let page = self.indexes.get(&(import.owner, &import.path[..]))?;
            Some((*page, import.original(word)?))
        });
        import.map_or(Vec::new(), |(page, name)| {
            self.definitions(page, name, |definition| definition.is_public)
        })
    }

    /// The definitions that a contract names, by the imports of its file.
    pub fn named_in(&self, file: &str, contracts: &[&str]) -> BTreeSet<Place> {
        let imports = imports(file);
        let words = contracts.iter().flat_map(|line| words(line));
        words
            .flat_map(|word| self.imported(&imports, word))
            .collect()
    }

    /// The definitions that a declaration names, the sections around it included.
    fn named_by(&self, place: Place) -> BTreeSet<Place> {
        let (page, declaration) = (&self.pages[place.0], self.declaration(place));
        let sections = &declaration.sections;
        let statement = page.statement(declaration);
        let lines = sections.iter().flatten().chain(&statement);
        let words: BTreeSet<&str> = lines.flat_map(|line| words(line.text)).collect();
        let named = |word: &str| {
            let is_seen = |definition: &Declaration| definition.is_seen_from(sections);
            let here = self.definitions(place.0, word, is_seen);
            if here.is_empty() {
                self.imported(&page.imports, word)
            } else {
                here
            }
        };
        words.into_iter().flat_map(named).collect()
    }

    /// The public laws of these names.
    pub fn laws(&self, names: &BTreeSet<String>) -> BTreeSet<Place> {
        let mut laws = BTreeSet::new();
        for (at, page) in self.pages.iter().enumerate() {
            for (index, law) in page.declarations.iter().enumerate() {
                if page.is_public_law(law) && names.contains(law.name) {
                    laws.insert((at, index));
                }
            }
        }
        laws
    }

    /// The definitions `named` and those that the laws name, with all that these name in turn.
    pub fn reached(&self, named: BTreeSet<Place>, laws: &BTreeSet<Place>) -> BTreeSet<Place> {
        let mut reached = named;
        reached.extend(laws.iter().flat_map(|&law| self.named_by(law)));
        let mut new: Vec<Place> = reached.iter().copied().collect();
        while let Some(place) = new.pop() {
            for found in self.named_by(place) {
                if reached.insert(found) {
                    new.push(found);
                }
            }
        }
        reached
    }
}
