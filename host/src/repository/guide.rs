//! Tests of the planners' guide: every command in it is run and prints what the guide shows, and what it names is there.

use crate::commands::outcomes::refusal_numbers;
use crate::programs::lines::first_difference;
use crate::programs::names::{ASSEMBLE, CHART, LISTING, REHEARSE, SLOTPLAN};
use crate::repository::built::built_programs;
use crate::repository::places::{read_text, top, Folder};
use std::collections::BTreeSet;
use std::fs::{self, File};
use std::os::unix::fs::symlink;
use std::path::{Path, PathBuf};
use std::process::{Command, Stdio};

const GUIDE: &str = "docs/PLANNERS.md";

const FENCE: &str = "```";

/// What a command begins with in a block of the kind `console`, and only there.
const PROMPT: &str = "$ ";

/// The command that builds the programs. It is run at the top of the repository, and what it prints is not compared.
const BUILDING: &str = "tools/programs.sh ";

/// The programs for planners: the guide shows each of them at work.
const SHOWN: [&str; 5] = [ASSEMBLE, SLOTPLAN, CHART, REHEARSE, LISTING];

/// A fenced block. Lines are counted from 1.
struct Block<'a> {
    line: usize,
    kind: &'a str,
    lines: Vec<(usize, &'a str)>,
}

/// A page, its fenced blocks apart from its other lines.
struct Page<'a> {
    blocks: Vec<Block<'a>>,
    others: Vec<(usize, &'a str)>,
}

impl Page<'_> {
    fn of_text(text: &str) -> Result<Page<'_>, String> {
        let (mut blocks, mut others) = (Vec::new(), Vec::new());
        let mut open: Option<Block> = None;
        for (line, text) in (1..).zip(text.lines()) {
            match (text.strip_prefix(FENCE), open.take()) {
                (Some(""), Some(block)) => blocks.push(block),
                (_, Some(mut block)) => {
                    block.lines.push((line, text));
                    open = Some(block);
                }
                (Some(kind), None) => {
                    let lines = Vec::new();
                    open = Some(Block { line, kind, lines });
                }
                (None, None) if text.contains(FENCE) => {
                    return Err(format!("line {line}: a fence that does not begin its line"));
                }
                (None, None) => others.push((line, text)),
            }
        }
        match open {
            None => Ok(Page { blocks, others }),
            Some(block) => Err(format!("line {}: a block without an end", block.line)),
        }
    }

    /// All commands in their order. A command outside the blocks of its kind would never be run, so there may be none.
    fn commands(&self) -> Result<Vec<Shown>, String> {
        let is_console = |block: &&Block| block.kind.trim_end() == "console";
        let (consoles, other_blocks): (Vec<_>, Vec<_>) = self.blocks.iter().partition(is_console);
        let in_blocks = other_blocks.iter().flat_map(|block| &block.lines);
        let mut elsewhere = in_blocks.chain(&self.others);
        if let Some((line, _)) = elsewhere.find(|(_, text)| text.trim_start().starts_with(PROMPT)) {
            return Err(format!("line {line}: a command outside a console block"));
        }
        let mut commands = Vec::new();
        for block in consoles {
            commands.extend(commands_of(block)?);
        }
        Ok(commands)
    }

    /// The words between backticks.
    fn quoted_words(&self) -> Result<Vec<(usize, &str)>, String> {
        let mut words = Vec::new();
        for &(line, text) in &self.others {
            let pieces: Vec<&str> = text.split('`').collect();
            if pieces.len() % 2 != 1 {
                return Err(format!("line {line}: a backtick without its other"));
            }
            let quoted = pieces.into_iter().skip(1).step_by(2);
            words.extend(
                quoted
                    .flat_map(str::split_whitespace)
                    .map(|word| (line, word)),
            );
        }
        Ok(words)
    }

    /// Each named path of the repository that is not there.
    fn missing_paths(&self, top: &Path) -> Result<Vec<String>, String> {
        let path_in = |word: &str| {
            let folders = ["samples/", "docs/", "crates/"];
            let begin = folders.iter().filter_map(|folder| word.find(folder)).min();
            begin.map(|begin| top.join(&word[begin..]))
        };
        let words = self.quoted_words()?.into_iter();
        let named = words.filter_map(|(line, word)| Some((line, word, path_in(word)?)));
        let missing = named.filter(|(_, _, path)| !path.exists());
        let told = missing.map(|(line, word, _)| format!("line {line}: {word} is not there"));
        Ok(told.collect())
    }

    /// The first cells of each table that are numbers.
    fn numbers_of_tables(&self) -> Vec<Vec<u64>> {
        let mut tables: Vec<Vec<u64>> = Vec::new();
        let mut last_row = 0;
        for &(line, text) in self.others.iter().filter(|(_, text)| text.starts_with('|')) {
            if line != last_row + 1 {
                tables.push(Vec::new());
            }
            last_row = line;
            let cell = text.split('|').nth(1).unwrap_or_default();
            let number: Option<u64> = cell.trim().parse().ok();
            tables
                .last_mut()
                .expect("the row has begun one")
                .extend(number);
        }
        tables
    }

    /// The refusals without a row in the table that has most of them.
    fn missing_refusals(&self) -> Vec<u64> {
        let missing_in = |numbers: &Vec<u64>| -> Vec<u64> {
            let all = refusal_numbers().into_iter();
            all.filter(|number| !numbers.contains(number)).collect()
        };
        let tables = self.numbers_of_tables();
        let missing = tables.iter().map(missing_in).min_by_key(Vec::len);
        missing.unwrap_or(refusal_numbers())
    }
}

/// A command, and all that the guide says it prints.
struct Shown {
    block: usize,
    line: usize,
    command: String,
    printed: String,
}

fn commands_of(block: &Block) -> Result<Vec<Shown>, String> {
    let mut commands: Vec<Shown> = Vec::new();
    for &(line, text) in &block.lines {
        if let Some(command) = text.strip_prefix(PROMPT) {
            commands.push(Shown {
                block: block.line,
                line,
                command: command.to_string(),
                printed: String::new(),
            });
        } else if let Some(last) = commands.last_mut() {
            last.printed += &format!("{text}\n");
        } else {
            return Err(format!("line {line}: printed by no command"));
        }
    }
    if commands.is_empty() {
        return Err(format!("line {}: a block without a command", block.line));
    }
    Ok(commands)
}

impl Shown {
    /// The programs of the repository that the command names.
    fn programs(&self) -> Vec<&str> {
        let words = self
            .command
            .split(|sign: char| " \t|;&()<>'\"".contains(sign));
        let programs = words.filter_map(|word| word.strip_prefix("target/bin/"));
        programs.collect()
    }

    fn is_building(&self) -> bool {
        self.command.starts_with(BUILDING)
    }

    /// In words, where the command prints something else.
    fn difference(&self, place: &Place) -> Option<String> {
        let difference = match place.printed(&self.command) {
            Ok(printed) => first_difference(&printed, &self.printed)?,
            Err(error) => error,
        };
        let (block, line, command) = (self.block, self.line, &self.command);
        Some(format!(
            "block of line {block}, line {line}: {PROMPT}{command}\n{difference}"
        ))
    }
}

/// Where commands are run, one after the other.
struct Place {
    folder: Folder,
}

impl Place {
    fn new(name: &str) -> Place {
        let folder = Folder::new(name);
        fs::create_dir_all(folder.0.join("work/target")).unwrap();
        Place { folder }
    }

    /// With the samples and the programs of the repository in their places: a command may write among the samples, which are copies.
    fn of_planner(name: &str, top: &Path) -> Place {
        let place = Place::new(name);
        let samples = place.work().join("samples");
        fs::create_dir(&samples).unwrap();
        for file in fs::read_dir(top.join("samples")).unwrap() {
            let file = file.unwrap();
            fs::copy(file.path(), samples.join(file.file_name())).unwrap();
        }
        let programs = fs::canonicalize(top.join("target/bin")).unwrap();
        symlink(programs, place.work().join("target/bin")).unwrap();
        place
    }

    fn work(&self) -> PathBuf {
        self.folder.0.join("work")
    }

    /// Both outputs go to one file, so that their lines keep their order.
    fn printed(&self, command: &str) -> Result<String, String> {
        let path = self.folder.0.join("printed");
        let in_words = |error: std::io::Error| format!("{}: {error}", path.display());
        let file = File::create(&path).map_err(in_words)?;
        let run = Command::new("sh")
            .args(["-c", command])
            .current_dir(self.work())
            .stdin(Stdio::null())
            .stdout(file.try_clone().map_err(in_words)?)
            .stderr(file)
            .status();
        run.map_err(|error| format!("sh: {error}"))?;
        let printed = fs::read(&path).map_err(in_words)?;
        Ok(String::from_utf8_lossy(&printed).into_owned())
    }
}

/// The one command that builds.
fn building(commands: &[Shown]) -> Result<&Shown, String> {
    let building: Vec<&Shown> = commands
        .iter()
        .filter(|shown| shown.is_building())
        .collect();
    match building[..] {
        [one] => Ok(one),
        _ => Err(format!("{} commands begin with {BUILDING}", building.len())),
    }
}

/// The guide's own command that builds.
pub fn building_command() -> Result<String, String> {
    let text = read_text(&top().join(GUIDE));
    let commands = Page::of_text(&text)?.commands()?;
    Ok(building(&commands)?.command.clone())
}

/// Everything that the page says wrongly: paths, refusals and programs that are missing.
fn objections(page: &Page, top: &Path) -> Result<Vec<String>, String> {
    let mut objections = page.missing_paths(top)?;
    let refusals = page.missing_refusals().into_iter();
    objections.extend(refusals.map(|number| format!("refusal {number} has no row")));
    let commands = page.commands()?;
    let built = &building(&commands)?.command;
    let used: BTreeSet<&str> = commands.iter().flat_map(Shown::programs).collect();
    let not_used = SHOWN.iter().filter(|&program| !used.contains(program));
    objections.extend(not_used.map(|program| format!("no command of {program}")));
    let is_built = |program: &str| built.split_whitespace().any(|word| word == program);
    let not_built = used.iter().filter(|program| !is_built(program));
    objections.extend(not_built.map(|program| format!("{program} is used and not built")));
    Ok(objections)
}

/// The differences of all commands but the one that builds.
fn differences(commands: &[Shown], place: &Place) -> Vec<String> {
    let run = commands.iter().filter(|shown| !shown.is_building());
    run.filter_map(|shown| shown.difference(place)).collect()
}

#[test]
fn what_the_guide_names_is_there() {
    let text = read_text(&top().join(GUIDE));
    let page = Page::of_text(&text).unwrap_or_else(|error| panic!("{GUIDE}, {error}"));
    let objections = objections(&page, &top()).unwrap_or_else(|error| panic!("{GUIDE}, {error}"));
    assert!(objections.is_empty(), "{GUIDE}:\n{}", objections.join("\n"));
}

#[test]
fn every_command_of_the_guide_prints_what_it_shows() {
    built_programs();
    let text = read_text(&top().join(GUIDE));
    let commands = Page::of_text(&text).and_then(|page| page.commands());
    let commands = commands.unwrap_or_else(|error| panic!("{GUIDE}, {error}"));
    let differences = differences(&commands, &Place::of_planner("guide", &top()));
    assert!(
        differences.is_empty(),
        "{GUIDE}:\n{}",
        differences.join("\n")
    );
}

mod tests {
    use super::*;

    fn differences_in(name: &str, text: &str) -> Vec<String> {
        let commands = Page::of_text(text).unwrap().commands().unwrap();
        differences(&commands, &Place::new(name))
    }

    const SOUND: &str =
        "A page.\n\n```console\n$ tools/programs.sh nothing\n$ echo a > kept; echo b\nb\n\
        $ cat kept; echo told >&2; echo c\na\ntold\nc\n```\n\n```\nno command\n```\n\
        ```console\n$ cat kept kept\na\na\n$ true\n```\n";

    #[test]
    fn a_sound_page_has_no_difference() {
        assert_eq!(differences_in("sound", SOUND), [""; 0]);
    }

    #[test]
    fn a_command_that_prints_something_else_is_found() {
        let changes = [
            ("$ echo a >", "$ echo d >", 2),
            ("\nb\n", "\nb \n", 1),
            ("\nb\n", "\nb\n\n", 1),
            ("\nb\n", "\n", 1),
            ("\ntold\n", "\n", 1),
            ("told\nc\n", "c\ntold\n", 1),
            ("$ true", "$ printf x", 1),
            ("$ true", "$ true\nx", 1),
            ("$ true", "$ none_such_program 2> lost; cat lost", 1),
        ];
        for (index, (part, other, count)) in changes.into_iter().enumerate() {
            let text = SOUND.replace(part, other);
            assert_ne!(text, SOUND);
            let found = differences_in(&format!("changed_{index}"), &text);
            assert_eq!(found.len(), count, "{other}: {found:?}");
        }
        let text = SOUND.replace("kept kept\na\na", "kept kept\na\nb");
        let expected =
            "block of line 16, line 17: $ cat kept kept\nline 2:\nfound:    a\nexpected: b";
        assert_eq!(differences_in("named", &text), [expected]);
    }

    #[test]
    fn a_page_outside_the_form_is_refused() {
        let refused = [
            ("a\n```console\n$ true\n", "line 2: a block without an end"),
            ("```console\n```\n", "line 1: a block without a command"),
            (
                "```console\na\n$ true\n```\n",
                "line 2: printed by no command",
            ),
            ("a\n $ true\n", "line 2: a command outside a console block"),
            (
                "```\n$ true\n```\n",
                "line 2: a command outside a console block",
            ),
            (
                " ```console\n",
                "line 1: a fence that does not begin its line",
            ),
        ];
        for (text, expected) in refused {
            let answer = Page::of_text(text).and_then(|page| page.commands());
            assert_eq!(answer.err().as_deref(), Some(expected), "{text}");
        }
        let commands = |text: &str| Page::of_text(text).unwrap().commands().unwrap();
        assert!(building(&commands(SOUND)).is_ok());
        let twice = SOUND.replace("$ true", "$ tools/programs.sh something");
        assert!(building(&commands(&twice)).is_err());
        let never = SOUND.replace("$ tools/programs.sh nothing\n", "");
        assert!(building(&commands(&never)).is_err());
    }

    /// A page to which there is no objection.
    fn whole_page() -> String {
        let programs: String = SHOWN
            .iter()
            .map(|name| format!("target/bin/{name}|"))
            .collect();
        let rows: String = refusal_numbers()
            .iter()
            .map(|number| format!("| {number} | why |\n"))
            .collect();
        let table = format!("| No. | why |\n|---|---|\n{rows}");
        let built = SHOWN.join(" ");
        format!(
            "See `crates/slotplan/stdin` and `cat <host/../crates`, `README.md`.\n\n{table}\n\
            ```console\n$ tools/programs.sh {built}\n$ {programs}cat\n```\n| 1 | a | b |\n"
        )
    }

    fn objections_to(text: &str) -> Vec<String> {
        objections(&Page::of_text(text).unwrap(), &top()).unwrap()
    }

    #[test]
    fn what_a_page_leaves_out_or_names_wrongly_is_found() {
        let whole = whole_page();
        assert_eq!(objections_to(&whole), [""; 0]);
        let changes = [
            (
                "slotplan/stdin",
                "slotplan/stdon",
                "line 1: crates/slotplan/stdon is not there",
            ),
            ("\n| 22 | why |", "", "refusal 22 has no row"),
            ("\n| 1 | why |", "", "refusal 1 has no row"),
            ("target/bin/chart|", "", "no command of chart"),
            (
                " slotplan chart",
                " slotplan",
                "chart is used and not built",
            ),
        ];
        for (part, other, expected) in changes {
            assert_eq!(objections_to(&whole.replace(part, other)), [expected]);
        }
        let halves = whole.replace("| 14 | why |\n", "\n| 14 | why |\n");
        assert_eq!(objections_to(&halves).len(), 9);
        let odd = whole.replace("`README.md`", "`README.md");
        assert!(objections(&Page::of_text(&odd).unwrap(), &top()).is_err());
    }

    #[test]
    fn the_numbers_that_still_occur_are_1_to_22_without_9() {
        let numbers: Vec<u64> = (1..=22).filter(|&number| number != 9).collect();
        assert_eq!(refusal_numbers(), numbers);
    }
}
