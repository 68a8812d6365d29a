//! The imports of a file: the names that it takes from definitions and proofs of crates.

pub struct Import<'a> {
    pub line: &'a str,
    pub owner: &'a str,
    /// Of the file, below the crate's folder and without its ending.
    pub path: String,
    /// Each name as this file has it, with the name over there.
    names: Vec<(&'a str, &'a str)>,
    /// What stands before names of that file: `way` in `way.Stop`.
    alias: Option<&'a str>,
}

/// `a`, or `a as b`.
fn name(text: &str) -> (&str, &str) {
    let text = text.trim();
    match text.split_once(" as ") {
        Some((there, here)) => (here, there),
        None => (text, text),
    }
}

/// The library of the kit. What comes from there is no definition of a crate.
const LIBRARY: &str = "std";

/// `use Rattle.OWNER.specs.FILE.{a, b as c}` or `use Rattle.OWNER.proofs.FILE as d`, of the crate itself or of another.
fn import(line: &str) -> Option<Import<'_>> {
    let text = line.trim().trim_end_matches(';');
    let text = text.strip_prefix("ghost ").unwrap_or(text);
    let text = text.strip_prefix("use Rattle.")?;
    let (module, names, alias) = match text.split_once(".{") {
        Some((module, names)) => {
            let names = names.trim_end_matches('}').split(',').map(name);
            (module, names.collect(), None)
        }
        None => {
            let (module, alias) = text.split_once(" as ")?;
            (module, Vec::new(), Some(alias))
        }
    };
    let (owner, path) = module.split_once('.')?;
    (owner != LIBRARY).then(|| Import {
        line,
        owner,
        path: path.replace('.', "/"),
        names,
        alias,
    })
}

pub fn imports(text: &str) -> Vec<Import<'_>> {
    text.lines().filter_map(import).collect()
}

/// The name behind an alias and a dot.
fn behind<'a>(alias: &str, word: &'a str) -> Option<&'a str> {
    word.strip_prefix(alias)?.strip_prefix('.')
}

impl<'a> Import<'a> {
    /// The name over there of a word of this file, if the word comes from there.
    pub fn original<'b>(&self, word: &'b str) -> Option<&'b str>
    where
        'a: 'b,
    {
        if let Some(alias) = self.alias {
            return behind(alias, word);
        }
        let named = self.names.iter().find(|(here, _)| *here == word);
        named.map(|&(_, there)| there)
    }

    /// Whether the word is a name of that file behind the alias of the file.
    pub fn is_before(&self, word: &str) -> bool {
        self.alias
            .is_some_and(|alias| behind(alias, word).is_some())
    }
}
