//! docs/STATEMENTS.md: the contracts of all public functions, the laws that docs/CLAIMS.md names, and the definitions that these name, as they stand in the
//! sources; and whether docs/CLAIMS.md names what is there.

pub mod antt;
mod book;
mod claims;
pub mod imports;
mod known;
mod rattle;
pub mod sources;

use crate::programs::lines::first_difference;
use antt::Section;
use book::{Book, Page, Place};
use known::Known;
use sources::{read_text, sources, Source};
use std::collections::BTreeSet;
use std::fs;
use std::path::Path;

const PATH: &str = "docs/STATEMENTS.md";

const COMMAND: &str =
    "cargo run -q --release --manifest-path host/Cargo.toml -- statements --write";

const HEAD: &str = "# Statements

What is promised and proved, word for word as the sources have it, without comments. This page is generated: `host statements --write` writes it
(`host/README.md`), and a test fails where the sources say something else. So a promise that says less, a law that is gone and a definition that is
another one all show as a difference of this page.

- Contracts: of every crate in `crates.txt` each `pub` struct and enum, and each `pub fn` with what it requires and ensures.
- Laws: each `pub` law in `proofs/` whose name stands in backquotes in `docs/CLAIMS.md`, in every crate that has one of that name, with the sections
  around it (`module _ .. where`), whose parameters it has too; before the laws of a file the imports by which a name with a dot is to be read.
- Definitions: each one that these contracts and laws name, and each one that such a definition names: those of `specs/`, and those that stand in
  `proofs/` for the sake of a law.

Crates stand by name, the files of a crate by their paths, and what a file has in the order of the file.
";

/// All files that are read, and the names in docs/CLAIMS.md.
struct Repository {
    crates: Vec<String>,
    code: Vec<Source>,
    declared: Vec<Source>,
    edits: Vec<Source>,
    claims: Vec<claims::Block>,
}

impl Repository {
    fn read(top: &Path) -> Result<Repository, String> {
        let crates = sources::crates(top)?;
        Ok(Repository {
            code: sources(top, &crates, &["src"], ".rt")?,
            declared: sources(top, &crates, &["specs", "proofs"], ".antt")?,
            edits: sources(top, &crates, &["must-fail"], ".edit")?,
            claims: claims::blocks(&read_text(&top.join(claims::PATH))?)?,
            crates,
        })
    }
}

fn fenced(title: &str, lines: &[&str]) -> String {
    let lines = lines.join("\n");
    format!("\n### {title}\n\n```\n{lines}\n```\n")
}

/// The public items of these files of one crate, with an empty line between them.
fn contracts_of(files: &[Source]) -> String {
    let items = files.iter().flat_map(|file| rattle::items(&file.text));
    let items: Vec<Vec<&str>> = items
        .filter(|item| item.is_public)
        .map(|item| item.lines)
        .collect();
    if items.is_empty() {
        return String::new();
    }
    fenced(&format!("`{}`", files[0].owner), &items.join(&""))
}

fn contracts(code: &[Source]) -> String {
    let crates = code.chunk_by(|file, next| file.owner == next.owner);
    crates.map(contracts_of).collect()
}

/// The definitions that contracts name.
fn named_by_contracts(code: &[Source], book: &Book) -> BTreeSet<Place> {
    let mut named = BTreeSet::new();
    for file in code {
        let items = rattle::items(&file.text);
        let items = items.into_iter().filter(|item| item.is_public);
        let lines: Vec<&str> = items.flat_map(|item| item.lines).collect();
        named.extend(book.named_in(&file.text, &lines));
    }
    named
}

/// These declarations of a page, each behind the headers of its sections that do not stand there yet.
fn declared<'a>(page: &Page<'a>, places: &[Place]) -> Vec<&'a str> {
    let mut texts = Vec::new();
    let mut open: &[Section] = &[];
    for &(_, index) in places {
        let declaration = &page.declarations[index];
        let sections = &declaration.sections;
        let pairs = open.iter().zip(sections);
        let common = pairs.take_while(|(open, section)| open == section).count();
        if !texts.is_empty() {
            texts.push("");
        }
        let headers = sections[common..].iter().flatten().copied();
        let lines = headers.chain(page.statement(declaration));
        texts.extend(lines.map(|line| line.text));
        open = sections;
    }
    texts
}

/// These declarations, page by page.
fn pages(book: &Book, places: &BTreeSet<Place>) -> String {
    let places: Vec<Place> = places.iter().copied().collect();
    let pages = places.chunk_by(|place, next| place.0 == next.0);
    let shown = pages.map(|places| {
        let page = &book.pages[places[0].0];
        let title = format!("`{}`: {}", page.source.owner, page.source.path);
        let lines = declared(page, places);
        let aliases = page.aliases(&lines);
        let between: &[&str] = if aliases.is_empty() { &[] } else { &[""] };
        fenced(&title, &[&aliases, between, &lines].concat())
    });
    shown.collect()
}

/// The page as the sources have it.
pub fn statements(top: &Path) -> Result<String, String> {
    let repository = Repository::read(top)?;
    let book = Book::new(&repository.declared)?;
    let laws = book.laws(&claims::names(&repository.claims));
    let definitions = book.reached(named_by_contracts(&repository.code, &book), &laws);
    let parts = [
        HEAD.to_string(),
        "\n## Contracts\n".to_string(),
        contracts(&repository.code),
        "\n## Laws\n".to_string(),
        pages(&book, &laws),
        "\n## Definitions\n".to_string(),
        pages(&book, &definitions),
    ];
    Ok(parts.concat())
}

/// Where the stored page differs from the sources.
pub fn difference(top: &Path) -> Result<Option<String>, String> {
    let [stored, computed] = [read_text(&top.join(PATH))?, statements(top)?];
    let difference = first_difference(&stored, &computed);
    Ok(difference.map(|difference| format!("{PATH}: {difference}\nto write it anew: {COMMAND}")))
}

/// What docs/CLAIMS.md names that is not there, and the public functions that it does not name.
pub fn faults_of_claims(top: &Path) -> Result<Vec<String>, String> {
    let repository = Repository::read(top)?;
    let book = Book::new(&repository.declared)?;
    let mut known = Known::new(top, &repository.crates, &repository.edits);
    known.add_book(&book);
    known.add_code(&repository.code);
    let faults = claims::faults(&repository.claims, &known);
    let unnamed = claims::unnamed(&repository.claims, &known);
    Ok([faults, unnamed].concat())
}

pub fn write(top: &Path) -> Result<(), String> {
    let path = top.join(PATH);
    fs::write(&path, statements(top)?).map_err(|error| format!("{}: {error}", path.display()))
}
