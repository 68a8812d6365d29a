//! The functions and types in a file of code.

#[derive(Clone, Copy, PartialEq)]
pub enum Kind {
    Function,
    Type,
}

pub struct Item<'a> {
    pub name: &'a str,
    pub kind: Kind,
    pub is_public: bool,
    /// Of a function its signature with what it requires and ensures, of a type all that it has.
    pub lines: Vec<&'a str>,
}

/// What a line at its edge begins: `pub(crate)` is not public.
fn begin_of(line: &str) -> Option<(&str, Kind, bool)> {
    let (is_public, rest) = match line.strip_prefix("pub ") {
        Some(rest) => (true, rest),
        None => (false, line.strip_prefix("pub(crate) ").unwrap_or(line)),
    };
    let rest = rest.strip_prefix("extern \"C\" ").unwrap_or(rest);
    let (word, rest) = rest.split_once(' ')?;
    let kind = match word {
        "fn" => Kind::Function,
        "struct" | "enum" | "type" => Kind::Type,
        _ => return None,
    };
    let is_of_name = |sign: char| sign.is_alphanumeric() || sign == '_';
    let end = rest.find(|sign| !is_of_name(sign)).unwrap_or(rest.len());
    Some((&rest[..end], kind, is_public))
}

fn is_clause(line: &str) -> bool {
    let line = line.trim_start();
    line.starts_with("requires") || line.starts_with("ensures")
}

/// The lines before the body. A body begins in a line of its own where there is a contract, else at the end of the signature.
fn contract<'a>(lines: &[&'a str]) -> Vec<&'a str> {
    let mut contract: Vec<&str> = Vec::new();
    for &line in lines {
        if line.trim_start() == "{" {
            break;
        }
        let has_clause = contract.iter().any(|line| is_clause(line));
        match line.strip_suffix(" {") {
            Some(line) if !has_clause && !is_clause(line) => {
                contract.push(line);
                break;
            }
            _ => contract.push(line),
        }
    }
    contract
}

fn type_lines<'a>(lines: &[&'a str]) -> Vec<&'a str> {
    let is_last = |line: &str| line.ends_with(';') || line.ends_with('}');
    let last = lines.iter().position(|line| is_last(line));
    lines[..last.map_or(lines.len(), |last| last + 1)].to_vec()
}

/// All items of a file, without comments. A method has the line of its `impl` before its own.
pub fn items(text: &str) -> Vec<Item<'_>> {
    let is_comment = |line: &str| line.trim_start().starts_with("//");
    let lines: Vec<&str> = text.lines().filter(|line| !is_comment(line)).collect();
    let mut items = Vec::new();
    let mut owner = None;
    for (at, &line) in lines.iter().enumerate() {
        if line.starts_with("impl") {
            owner = Some(line);
        } else if line == "}" {
            owner = None;
        }
        let edge = if owner.is_some() { "    " } else { "" };
        let Some((name, kind, is_public)) = line.strip_prefix(edge).and_then(begin_of) else {
            continue;
        };
        let own = match kind {
            Kind::Function => contract(&lines[at..]),
            Kind::Type => type_lines(&lines[at..]),
        };
        items.push(Item {
            name,
            kind,
            is_public,
            lines: owner.into_iter().chain(own).collect(),
        });
    }
    items
}

impl<'a> Item<'a> {
    pub fn is_public_function(&self) -> bool {
        self.is_public && self.kind == Kind::Function
    }

    /// The fields of a struct, or the variants of an enum.
    pub fn members(&self) -> Vec<&'a str> {
        if self.kind == Kind::Function {
            return Vec::new();
        }
        let inner = self.lines.iter().skip(1);
        let names = inner.filter_map(|line| {
            let line = line.trim().trim_start_matches("pub ");
            line.split([':', '(', ',', ' ', '}']).next()
        });
        names.filter(|name| !name.is_empty()).collect()
    }
}
