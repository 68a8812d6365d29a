//! The text work: a promise weakened, its proof with it, the laws that read contracts, and one law alone.

use crate::statements::antt::{declarations, words, Declaration};
use crate::statements::imports::{imports, Import};
use crate::statements::sources::listed_crate;
use std::collections::BTreeSet;

/// A law that reads the contract of a function.
#[derive(Clone, Debug, PartialEq, Eq)]
pub struct Law {
    pub name: String,
    /// The crate of the function.
    pub owner: String,
    pub function: String,
}

/// A promise that holds of anything.
const NOTHING: &str = "    ensures { result ≡ result }";

const EQUATION: &str = "◌≡◌";

const EQUATIONS: &str = "ghost use Rattle.std.specs.Prelude.{";

/// With equations imported. Where the file has no import of the library, one is put before all others.
fn with_equations(code: &str) -> String {
    let is_import = |line: &&str| line.starts_with(EQUATIONS);
    let has_equation = |line: &str| words(line).any(|word| word == EQUATION);
    if code.lines().filter(is_import).any(has_equation) {
        return code.to_string();
    }
    let Some(line) = code.lines().find(is_import) else {
        let first = code.lines().position(|line| line.starts_with("ghost use "));
        let mut lines: Vec<&str> = code.lines().collect();
        let added = format!("{EQUATIONS}{EQUATION}}};");
        lines.insert(first.unwrap_or(0), &added);
        return lines.join("\n") + "\n";
    };
    let longer = line.replacen('}', &format!(", {EQUATION}}}"), 1);
    code.replacen(line, &longer, 1)
}

/// Where the line begins that begins the function, and the spaces that a method has before it.
fn begin_of<'a>(code: &'a str, function: &str) -> Option<(usize, &'a str)> {
    let is_begin = |line: &str| {
        let behind = line.split_once(&format!("fn {function}"));
        let is_name = behind.is_some_and(|(_, rest)| rest.starts_with(['(', '<']));
        is_name && !line.trim_start().starts_with('/')
    };
    let mut at = 0;
    for line in code.split_inclusive('\n') {
        if is_begin(line) {
            return Some((at, &line[..line.len() - line.trim_start().len()]));
        }
        at += line.len();
    }
    None
}

/// The code in which the function promises nothing, or None if the function is not there or has no promise.
pub fn weaken_promise(code: &str, function: &str) -> Option<String> {
    let (begin, edge) = begin_of(code, function)?;
    // With a promise the body begins in a line of its own, behind all that is promised.
    let end = begin + code[begin..].find(&format!("\n{edge}}}"))?;
    let body = begin + code[begin..end].find(&format!("\n{edge}{{\n"))?;
    let first = begin + code[begin..body].find(&format!("\n{edge}    ensures "))? + 1;
    let weakened = format!("{}{edge}{NOTHING}{}", &code[..first], &code[body..]);
    Some(with_equations(&weakened))
}

/// Whether the line begins an answer to a goal of a return: `pub returns : goal.returns`, `returns-then-n-ge64 c = ..` and so on.
fn is_of_return(line: &str) -> bool {
    let line = line.strip_prefix("pub ").unwrap_or(line);
    let name = line.split(' ').next().unwrap_or_default();
    name == "returns" || name.starts_with("returns-")
}

/// A function's name without the type that a method stands behind.
pub fn name_of(function: &str) -> &str {
    function.rsplit('/').next().unwrap_or(function)
}

/// The code calls the function: by its path, by its name that is imported, alone or in a list, or as a method.
pub fn calls(code: &str, owner: &str, function: &str) -> bool {
    let mut calls = vec![
        format!("{owner}::{function}("),
        format!("{owner}::{function};"),
    ];
    if function.contains('/') {
        calls.push(format!(".{}(", name_of(function)));
    }
    let list = format!("use {owner}::{{");
    let is_listed = |rest: &str| {
        let names = rest.split('}').next().unwrap_or_default();
        names.split(',').any(|name| name.trim() == function)
    };
    calls.iter().any(|call| code.contains(call)) || code.split(&list).skip(1).any(is_listed)
}

/// The import of places in the code without those that no answer names: with the answers at returns `rt` leaves places out.
fn with_fewer_places(line: &str, answers: &str) -> Option<String> {
    let places = line.split_once(".Goals.{").and_then(|(path, rest)| {
        let places = rest.strip_suffix('}')?;
        Some((path, places))
    });
    let Some((path, places)) = places else {
        return Some(line.to_string());
    };
    let is_name_in = |line: &str, place: &str| line.split([' ', '(', ')', ',']).any(|a| a == place);
    let others = answers.lines().filter(|line| !line.starts_with("use "));
    let is_named = |place: &&str| others.clone().any(|line| is_name_in(line, place));
    let named: Vec<&str> = places.split(", ").filter(is_named).collect();
    (!named.is_empty()).then(|| format!("{path}.Goals.{{{}}}", named.join(", ")))
}

/// The answers without those at returns, where `rt` finds by itself that nothing is to be proved. An answer goes up to the next blank line.
pub fn weaken_answers(answers: &str) -> String {
    let mut lines = Vec::new();
    let mut is_in_answer = false;
    for line in answers.lines() {
        is_in_answer |= is_of_return(line);
        is_in_answer &= !line.trim().is_empty();
        if !is_in_answer {
            lines.push(line);
        }
    }
    let kept = lines.join("\n");
    let lines = lines
        .iter()
        .filter_map(|line| with_fewer_places(line, &kept));
    lines.collect::<Vec<String>>().join("\n") + "\n"
}

/// Whether a line of the declaration has a word that comes by this import.
fn names(declaration: &Declaration, import: &Import) -> bool {
    let lines = declaration.lines();
    let mut words = lines.iter().flat_map(|line| words(line.text));
    words.any(|word| import.original(word).is_some())
}

/// The function whose contract is imported.
fn read_function<'a>(import: &'a Import) -> Option<&'a str> {
    import.path.strip_prefix("proofs/")?.strip_suffix("/Reads")
}

/// The laws of a file that read contracts, by the order of the imports. A contract that is imported and that no law reads is an error.
pub fn laws(text: &str) -> Result<Vec<Law>, String> {
    let declarations = declarations(text)?;
    let imports = imports(text);
    let mut laws = Vec::new();
    for import in &imports {
        let Some(function) = read_function(import) else {
            continue;
        };
        let law = |declaration: &&Declaration| names(declaration, import);
        let found: Vec<&Declaration> = declarations.iter().filter(law).collect();
        if found.is_empty() {
            return Err(format!("no law reads {}::{function}", import.owner));
        }
        laws.extend(found.into_iter().map(|declaration| Law {
            name: declaration.name.to_string(),
            owner: import.owner.to_string(),
            function: function.to_string(),
        }));
    }
    Ok(laws)
}

/// The file with this law alone, and the crates that it takes names from.
pub fn alone(text: &str, law: &str) -> Result<(String, BTreeSet<String>), String> {
    let declarations = declarations(text)?;
    let is_law = |declaration: &&Declaration| declaration.name == law;
    let declaration = declarations.iter().find(is_law);
    let declaration = declaration.ok_or_else(|| format!("no law {law}"))?;
    let imports = imports(text);
    let is_kept = |line: &&str| {
        let import = imports.iter().find(|import| import.line == *line);
        import.map_or(line.starts_with("use "), |import| {
            names(declaration, import)
        })
    };
    let kept: Vec<&str> = text.lines().filter(is_kept).collect();
    let of_crates = imports.iter().filter(|import| kept.contains(&import.line));
    let owners = of_crates.map(|import| import.owner.to_string()).collect();
    let lines: Vec<&str> = declaration.lines().iter().map(|line| line.text).collect();
    let text = format!("{}\n\n{}\n", kept.join("\n"), lines.join("\n"));
    Ok((text, owners))
}

/// A line of crates.txt: the crate and those that it uses.
fn uses(line: &str) -> Option<(&str, Vec<&str>)> {
    let (name, used) = listed_crate(line)?;
    Some((name, used.split_whitespace().collect()))
}

/// These crates and all that they are built on. In crates.txt a crate stands below those that it uses.
fn with_all_used<'a>(listed: &'a str, names: impl Iterator<Item = &'a str>) -> BTreeSet<&'a str> {
    let mut found: BTreeSet<&str> = names.collect();
    for (user, used) in listed.lines().rev().filter_map(uses) {
        if found.contains(user) {
            found.extend(used);
        }
    }
    found
}

/// All that the crate is built on, in the order of crates.txt.
pub fn crates_below(listed: &str, name: &str) -> Vec<String> {
    let all = with_all_used(listed, std::iter::once(name));
    let names = listed.lines().filter_map(uses).map(|(user, _)| user);
    let below = names.filter(|&user| user != name && all.contains(user));
    below.map(str::to_string).collect()
}

/// The lines of crates.txt where `name` uses only those of its crates that `needed` are or use.
pub fn with_fewer_uses(listed: &str, name: &str, needed: &BTreeSet<String>) -> String {
    let needed: Vec<&str> = needed.iter().map(String::as_str).collect();
    let needed = with_all_used(listed, needed.into_iter());
    let line = |line| match uses(line) {
        Some((user, used)) if user == name => {
            let kept: Vec<&str> = used.into_iter().filter(|a| needed.contains(a)).collect();
            format!("{name}: {}\n", kept.join(" "))
        }
        _ => format!("{line}\n"),
    };
    listed.lines().map(line).collect()
}
