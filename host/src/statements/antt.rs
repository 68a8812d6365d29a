//! The declarations in a file of definitions or proofs, read by their indentation.

/// A line with its number. Two lines with the same words are different lines.
#[derive(Clone, Copy, PartialEq)]
pub struct Line<'a> {
    number: usize,
    pub text: &'a str,
}

/// The lines from `module` to `where` of a section.
pub type Section<'a> = Vec<Line<'a>>;

#[derive(Clone, Copy, PartialEq)]
pub enum Kind {
    Record,
    Data,
    /// `unfoldable` or `abbrev`.
    Unfolded,
    /// A law, or a definition that nothing unfolds.
    Stated,
}

pub struct Declaration<'a> {
    pub name: &'a str,
    pub kind: Kind,
    pub is_public: bool,
    /// The sections around it, the outermost first.
    pub sections: Vec<Section<'a>>,
    /// The name with its type; of a record or of data all that it has.
    pub head: Vec<Line<'a>>,
    /// What comes after the type: the equations, or the proof.
    pub clauses: Vec<Line<'a>>,
}

fn indentation(text: &str) -> usize {
    text.len() - text.trim_start().len()
}

/// What a line at the left edge of a section begins. A set of laws, which proofs name at once, states nothing itself.
enum Begin<'a> {
    Section,
    Import,
    Set,
    Declared(&'a str, Kind, bool),
    Clause,
}

fn begin_of(text: &str) -> Result<Begin<'_>, String> {
    let mut words = text.split_whitespace().peekable();
    let is_unfolded = words
        .next_if(|word| ["unfoldable", "abbrev"].contains(word))
        .is_some();
    let is_public = words.next_if_eq(&"pub").is_some();
    let first = words.next().unwrap_or_default();
    let second = words.next().unwrap_or_default();
    Ok(match (first, second) {
        ("module", _) => Begin::Section,
        ("mod" | "use", _) => Begin::Import,
        ("ruleset", _) => Begin::Set,
        ("record", name) => Begin::Declared(name, Kind::Record, is_public),
        ("data", name) => Begin::Declared(name, Kind::Data, is_public),
        (name, ":") if is_unfolded => Begin::Declared(name, Kind::Unfolded, is_public),
        (name, ":") => Begin::Declared(name, Kind::Stated, is_public),
        _ if is_unfolded || is_public => return Err(format!("no declaration: {text}")),
        _ => Begin::Clause,
    })
}

/// The lines up to the first one that ends with `where`, and those behind it.
fn behind_where<'a, 'b>(lines: &'b [Line<'a>]) -> (&'b [Line<'a>], &'b [Line<'a>]) {
    let last = lines.iter().position(|line| line.text.ends_with("where"));
    lines.split_at(last.map_or(lines.len(), |last| last + 1))
}

/// A line at the left edge and the lines below it that stand further to the right go together.
fn gather<'a>(
    lines: &[Line<'a>],
    sections: &[Section<'a>],
    found: &mut Vec<Declaration<'a>>,
) -> Result<(), String> {
    let edge = lines.first().map_or(0, |line| indentation(line.text));
    for chunk in lines.chunk_by(|_, next| indentation(next.text) > edge) {
        match begin_of(chunk[0].text)? {
            Begin::Section => {
                let (header, body) = behind_where(chunk);
                gather(body, &[sections, &[header.to_vec()]].concat(), found)?;
            }
            Begin::Declared(name, kind, is_public) => found.push(Declaration {
                name,
                kind,
                is_public,
                sections: sections.to_vec(),
                head: chunk.to_vec(),
                clauses: Vec::new(),
            }),
            Begin::Clause => {
                if let Some(last) = found.last_mut() {
                    last.clauses.extend(chunk);
                }
            }
            Begin::Import | Begin::Set => {}
        }
    }
    Ok(())
}

fn is_comment(text: &str) -> bool {
    text.trim_start().starts_with("--")
}

/// All declarations of a file, without comments. What stands in a `where` block belongs to the declaration that has it.
pub fn declarations(text: &str) -> Result<Vec<Declaration<'_>>, String> {
    let lines = text.lines().enumerate();
    let lines: Vec<Line> = lines
        .filter(|(_, text)| !text.trim().is_empty() && !is_comment(text))
        .map(|(number, text)| Line { number, text })
        .collect();
    let mut found = Vec::new();
    gather(&lines, &[], &mut found)?;
    Ok(found)
}

impl<'a> Declaration<'a> {
    /// The fields of a record, or the constructors of data.
    pub fn members(&self) -> Vec<&'a str> {
        if ![Kind::Record, Kind::Data].contains(&self.kind) {
            return Vec::new();
        }
        let (_, body) = behind_where(&self.head);
        let edge = body.first().map_or(0, |line| indentation(line.text));
        let lines = body.iter().filter(|line| indentation(line.text) == edge);
        let named = lines.filter_map(|line| line.text.split_once(" :"));
        let names = named.flat_map(|(names, _)| names.split_whitespace());
        names.filter(|&name| name != "pub").collect()
    }

    /// Whether a statement names it by this word: fields are not named without their records.
    pub fn is_named(&self, word: &str) -> bool {
        self.name == word || (self.kind == Kind::Data && self.members().contains(&word))
    }

    /// All its lines, for a definition.
    pub fn lines(&self) -> Vec<Line<'a>> {
        [&self.head[..], &self.clauses[..]].concat()
    }

    /// Whether a declaration of these sections of the same file sees it by its name alone.
    pub fn is_seen_from(&self, sections: &[Section]) -> bool {
        sections.starts_with(&self.sections)
    }
}

const SIGNS: &str = "(){}[];,";

/// The words of a line that may be names: `way.Stop` is one, and so is `way` before it, since behind the dot may stand a field.
pub fn words(text: &str) -> impl Iterator<Item = &str> {
    let parts = text.split(|sign: char| sign.is_whitespace() || SIGNS.contains(sign));
    let words = parts.map(|part| part.trim_matches('.'));
    let with_owners = words.flat_map(|word| {
        let owner = word.split_once('.').map(|(owner, _)| owner);
        [Some(word), owner].into_iter().flatten()
    });
    with_owners.filter(|word| !word.is_empty())
}
