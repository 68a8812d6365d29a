//! The names in docs/CLAIMS.md, which stand in backquotes, and whether each is the name of something.

use super::antt::words;
use super::known::{Kind, Known};
use std::collections::BTreeSet;

pub const PATH: &str = "docs/CLAIMS.md";

/// What an item says of itself by its first word.
#[derive(Clone, Copy, PartialEq)]
enum Subject {
    /// `Definition:`.
    Definitions,
    /// `Promise or law:`, where no edit states anything.
    Promises,
    Other,
}

/// A paragraph, an item of a list, or a row of a table.
pub struct Block {
    names: Vec<String>,
    subject: Subject,
}

type Blocks = Vec<Block>;

fn begins_block(line: &str) -> bool {
    let line = line.trim_start();
    line.is_empty() || ["- ", "|", "#"].iter().any(|sign| line.starts_with(sign))
}

/// What stands in backquotes in these lines. A name may go on in the next line.
fn names_of(lines: &[&str]) -> Result<Vec<String>, String> {
    let lines: Vec<&str> = lines.iter().map(|line| line.trim()).collect();
    let text = lines.join(" ");
    let parts: Vec<&str> = text.split('`').collect();
    if parts.len().is_multiple_of(2) {
        return Err(format!("{PATH}: a backquote without another: {text}"));
    }
    let names = parts.iter().skip(1).step_by(2);
    Ok(names.map(|name| name.to_string()).collect())
}

fn subject_of(line: &str) -> Subject {
    if line.starts_with("- Definition:") {
        Subject::Definitions
    } else if line.starts_with("- Promise or law:") {
        Subject::Promises
    } else {
        Subject::Other
    }
}

pub fn blocks(page: &str) -> Result<Blocks, String> {
    let lines: Vec<&str> = page.lines().collect();
    let blocks = lines.chunk_by(|_, next| !begins_block(next));
    let block = |lines: &[&str]| {
        Ok(Block {
            names: names_of(lines)?,
            subject: subject_of(lines[0].trim_start()),
        })
    };
    blocks.map(block).collect()
}

pub fn names(blocks: &Blocks) -> BTreeSet<String> {
    let names = blocks.iter().flat_map(|block| &block.names);
    names.cloned().collect()
}

/// A name of several words: `packet_left`, `read_of`, `number_64_live`.
fn is_joined(name: &str) -> bool {
    let is_small = |sign: char| sign.is_ascii_lowercase() || sign.is_ascii_digit();
    let is_part = |part: &str| !part.is_empty() && part.chars().all(is_small);
    let signs = ['_', '-'];
    name.contains(signs) && name.split(signs).all(is_part)
}

/// A name of a definition or a type: `Kept`. `FF` is none.
fn has_both_cases(name: &str) -> bool {
    name.chars().all(|sign| sign.is_alphanumeric())
        && name.chars().any(char::is_uppercase)
        && name.chars().any(char::is_lowercase)
}

/// What states something: a definition with its parts, a type, a law.
const STATED: [Kind; 5] = [
    Kind::Constructor,
    Kind::Definition,
    Kind::Field,
    Kind::Law,
    Kind::Type,
];

/// What a single name should be and is not. Letters that stand for themselves and bytes such as `FF` are no names.
fn fault_of_name(name: &str, subject: Subject, known: &Known) -> Option<&'static str> {
    use Kind::{Constructor, Crate, Definition, Edit, Field, Function, Type};
    let (holds, told) = if name.contains('/') || name.ends_with(".antt") {
        (known.has_path(name), "no file or folder")
    } else if let Some(function) = name.split_once("::") {
        let holds = known.public_functions.contains(&function);
        (holds, "no public function of that crate")
    } else if let Some(front) = name.strip_suffix("..") {
        (known.has_edit_of_front(front), "no edit begins so")
    } else if is_joined(name) && subject == Subject::Definitions {
        let holds = known.is(&STATED, name) || known.is(&[Crate], name);
        (holds, "no definition in specs/, law or crate")
    } else if is_joined(name) && subject == Subject::Promises {
        let holds = known.is(&STATED, name) || known.is(&[Function, Crate], name);
        (holds, "no definition, law, function or crate")
    } else if is_joined(name) {
        let holds = known.is(&STATED, name) || known.is(&[Edit, Function, Crate], name);
        (holds, "no definition, law, edit, function or crate")
    } else if has_both_cases(name) {
        let holds = known.is(&[Definition, Field, Constructor, Type], name);
        (holds, "no definition in specs/ and no type")
    } else {
        let is_no_name = name.chars().any(char::is_uppercase) || name.chars().count() == 1;
        (is_no_name || known.is_any(name), "nothing has this name")
    };
    (!holds).then_some(told)
}

/// Of a name, of `host` with a command, or of an expression: there only names of laws, of definitions and of types are judged.
fn fault(name: &str, subject: Subject, known: &Known) -> Option<&'static str> {
    if let Some(command) = name.strip_prefix("host ") {
        let command = command.split(' ').next().unwrap_or_default();
        let holds = known.is(&[Kind::Command], command);
        return (!holds).then_some("no command of host");
    }
    if !name.contains(' ') {
        return fault_of_name(name, subject, known);
    }
    let mut names = words(name).filter(|word| is_joined(word) || has_both_cases(word));
    let is_stated = names.all(|name| known.is(&STATED, name));
    (!is_stated).then_some("an expression with a name of no definition, law or type")
}

/// A line for each name that is not one of anything.
pub fn faults(blocks: &Blocks, known: &Known) -> Vec<String> {
    let faults_of = |block: &Block| {
        let fault = |name: &String| {
            let told = fault(name, block.subject, known)?;
            Some(format!("{PATH}: `{name}`: {told}"))
        };
        block.names.iter().filter_map(fault).collect::<Vec<_>>()
    };
    let faults: BTreeSet<String> = blocks.iter().flat_map(faults_of).collect();
    faults.into_iter().collect()
}

/// The functions that a block names: by `crate::function`, by their names alone behind one of the same crate, or by a name that only they have.
fn functions_of<'a>(block: &'a Block, known: &Known<'a>) -> Vec<(&'a str, &'a str)> {
    let mut last = None;
    let function = |name: &'a String| {
        if let Some((owner, function)) = name.split_once("::") {
            last = Some(owner);
            return Some((owner, function));
        }
        let is_of = |owner: &&str| known.public_functions.contains(&(*owner, &name[..]));
        let owner = last.filter(is_of).or_else(|| known.only_owner(name))?;
        Some((owner, &name[..]))
    };
    block.names.iter().filter_map(function).collect()
}

/// A line for each public function that the page does not name; those of test programs have no row.
pub fn unnamed(blocks: &Blocks, known: &Known) -> Vec<String> {
    let named = blocks.iter().flat_map(|block| functions_of(block, known));
    let named: BTreeSet<(&str, &str)> = named.collect();
    let functions = known.public_functions.iter();
    let unnamed =
        functions.filter(|function| !named.contains(*function) && !function.0.starts_with("test_"));
    unnamed
        .map(|(owner, function)| format!("{PATH}: no row names {owner}::{function}"))
        .collect()
}
